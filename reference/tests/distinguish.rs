//! The proved words that tell two states apart against the plain ones, and what is to hold of them.

#[path = "common/combinations.rs"]
mod combinations;
mod common;
#[path = "common/folded.rs"]
mod folded;
#[path = "common/three_frames.rs"]
mod three_frames;

use combinations::{with_faults, Fault};
use common::{compare, seeds, short_answers_change_nothing, Case, Room, Seen};
use folded::folded;
use reference::gen::{all_sizes, any_sizes, circuits, damaged, tables, Rng};
use reference::vectors::{counts, PARITY_TABLE};
use reference::words::{set_word, to_bytes, word_at};
use reference::{Circuit, Sizes, Table};
use three_frames::{faults_across, three_frames, ENTRY_FAULTS, HEAD_FAULTS};

/// Inputs and frames of the shapes with the longest lists, and the most of each length.
const LARGEST: [(usize, usize); 4] = [(1, 16), (2, 8), (4, 4), (8, 2)];

fn call_distinguish(file: &[u8], states: [u16; 3], result: &mut [u16], answer: &mut [u64]) {
    let [layer, first, second] = states;
    // SAFETY: each pointer and length is that of one slice.
    unsafe {
        tff::raw::tff_distinguish(
            file.as_ptr(),
            file.len(),
            layer,
            first,
            second,
            result.as_mut_ptr(),
            result.len(),
            answer.as_mut_ptr(),
            answer.len(),
        )
    }
}

fn case<'a>(seed: u64, file: &'a [u8], states: &'a [u16; 3]) -> Case<'a> {
    Case {
        call: "distinguish",
        seed,
        file,
        words: states,
        ..Case::default()
    }
}

/// Tells two states apart with both implementations; `states` are a layer and two states of it.
fn distinguish(seed: u64, file: &[u8], states: [u16; 3], room: usize) -> [u64; 2] {
    let [layer, first, second] = states;
    compare(
        &case(seed, file, &states),
        Room::of_numbers(room),
        |lent| reference::distinguish(file, layer, first, second, lent.numbers).into(),
        |lent, answer| call_distinguish(file, states, lent.numbers, answer),
    )
}

/// The words that a legal table gives, with both implementations and as little room as is allowed or a
/// little more.
fn telling_apart(seed: u64, table: &Table, states: [u16; 3]) -> Vec<u16> {
    let file = table.to_bytes();
    let room = left(table, states[0]) + seed as usize % 3;
    let [number, place] = distinguish(seed, &file, states, room);
    assert_eq!(number, 0);
    let mut result = vec![99; room];
    let [layer, first, second] = states;
    let answer = tff::distinguish(&file, layer, first, second, &mut result);
    assert_eq!((answer.number, answer.place), (0, place));
    let (words, rest) = result.split_at(place as usize);
    assert!(rest.iter().all(|&number| number == 99));
    words.to_vec()
}

/// The words that can be fed from a layer on.
fn left(table: &Table, layer: u16) -> usize {
    table.head.sizes.frames - usize::from(layer)
}

/// The output words from a state on, by proved steps.
fn outputs_from(file: &[u8], layer: u16, state: u16, words: &[u16]) -> Vec<u16> {
    let mut at = (layer, state);
    let output = |&word: &u16| {
        let stepped = tff::step(file, at.0, at.1, word);
        assert_eq!(stepped.number, 0);
        at = (stepped.layer, stepped.state);
        stepped.output
    };
    words.iter().map(output).collect()
}

/// Any two states of any layer of a table.
fn any_states(rng: &mut Rng, table: &Table) -> [u16; 3] {
    let layer = rng.below(table.head.sizes.frames + 1);
    let count = usize::from(table.head.counts[layer]);
    [layer, rng.below(count), rng.below(count)].map(|number| number as u16)
}

/// All pairs of states of a layer, equal ones too.
fn pairs(table: &Table, layer: usize) -> impl Iterator<Item = [u16; 3]> {
    let count = table.head.counts[layer];
    (0..count).flat_map(move |first| (0..count).map(move |second| [layer as u16, first, second]))
}

fn all_pairs(table: &Table) -> impl Iterator<Item = [u16; 3]> + '_ {
    (0..=table.head.sizes.frames).flat_map(|layer| pairs(table, layer))
}

/// Of zeros, with two states in each layer between the first and the last; each leads to its like.
fn two_chains(sizes: Sizes) -> Table {
    let mut counts = vec![2; sizes.frames + 1];
    counts[0] = 1;
    counts[sizes.frames] = 1;
    let mut table = tables::zeros(sizes, counts);
    for layer in 1..sizes.frames - 1 {
        let second = table.head.entry(layer, 1, 0);
        table.next_states[second..second + sizes.input_words()].fill(1);
    }
    table
}

#[test]
fn tables_are_told_apart_as_by_hand() {
    // Parity: the next output is the word's parity with the state, so word 0 tells.
    let parity = Table::read(&to_bytes(&PARITY_TABLE)).unwrap();
    assert_eq!(telling_apart(0, &parity, [1, 0, 1]), [0]);
    assert_eq!(telling_apart(0, &parity, [1, 1, 0]), [0]);
    assert_eq!(telling_apart(0, &parity, [1, 1, 1]), []);
    assert_eq!(telling_apart(0, &parity, [0, 0, 0]), []);
    assert_eq!(telling_apart(0, &parity, [2, 0, 0]), []);

    // Layer 1 of three frames: outputs 1 2 and 3 0 differ at once. Layer 2: 2 2 and 0 2 at word 0.
    let table = Table::read(&three_frames()).unwrap();
    assert_eq!(telling_apart(0, &table, [2, 0, 1]), [0]);
    assert_eq!(telling_apart(0, &table, [1, 0, 1]), [0]);

    // Two words: word 1 leads states 0 and 1 of layer 1 apart, and then word 3 is the first that tells.
    let sizes = Sizes::new(2, 3, 3);
    let mut table = tables::zeros(sizes, vec![1, 2, 2, 1]);
    let entry = table.head.entry(1, 1, 1);
    table.next_states[entry] = 1;
    let entry = table.head.entry(2, 1, 3);
    table.output_words[entry] = 4;
    assert_eq!(telling_apart(0, &table, [1, 0, 1]), [1, 3]);
    assert_eq!(telling_apart(0, &table, [2, 0, 1]), [3]);

    // Shorter comes before smaller: word 2 alone tells at once, where 0 0 would come before it.
    let entry = table.head.entry(1, 1, 0);
    table.next_states[entry] = 1;
    let entry = table.head.entry(2, 1, 0);
    table.output_words[entry] = 1;
    assert_eq!(telling_apart(0, &table, [1, 0, 1]), [0, 0]);
    let entry = table.head.entry(1, 0, 2);
    table.output_words[entry] = 2;
    assert_eq!(telling_apart(0, &table, [1, 0, 1]), [2]);
}

#[test]
fn refusals_are_as_by_hand() {
    let file = to_bytes(&PARITY_TABLE);
    let without_inputs = [&[0, 0], &file[2..]].concat();
    let beyond_the_last_layer = [&file[..38], &[1, 0]].concat();
    let refusals = [
        (&file[..], [1, 0, 1], 0, (7, 1)),
        (&file[..], [1, 1, 1], 0, (7, 1)),
        (&file[..], [0, 0, 0], 1, (7, 2)),
        (&file[..], [3, 0, 0], 2, (11, 3)),
        (&file[..], [u16::MAX, 0, 0], 2, (11, 65_535)),
        (&file[..], [1, 2, 0], 2, (11, 1)),
        (&file[..], [1, 0, 2], 2, (11, 1)),
        (&file[..], [2, 0, 1], 2, (11, 2)),
        (&file[..], [0, 1, 0], 2, (11, 0)),
        (&file[..], [0, u16::MAX, u16::MAX], 0, (11, 0)),
        (&file[..39], [1, 0, 1], 2, (1, 39)),
        (&without_inputs, [1, 0, 1], 2, (2, 0)),
        (&beyond_the_last_layer, [3, 0, 1], 0, (5, 38)),
    ];
    for (file, states, room, expected) in refusals {
        let mut result = vec![99; room];
        let [layer, first, second] = states;
        let answer = tff::distinguish(file, layer, first, second, &mut result);
        assert_eq!((answer.number, answer.place), expected);
        assert_eq!(result, vec![99; room]);
        assert_eq!(distinguish(0, file, states, room), [expected.0, expected.1]);
    }
}

#[test]
fn tables_of_all_sizes_are_told_apart() {
    for seed in seeds(4) {
        let mut rng = Rng::new(seed);
        for sizes in all_sizes() {
            let counts = tables::any_counts(&mut rng, &sizes, 6);
            let table = tables::legal(&mut rng, sizes, counts);
            let states = any_states(&mut rng, &table);
            telling_apart(seed, &table, states);
        }
    }
}

#[test]
fn all_pairs_of_small_tables_are_told_apart() {
    for seed in seeds(600) {
        let table = tables::any_legal(&mut Rng::new(seed), 10, 5);
        for states in all_pairs(&table) {
            telling_apart(seed, &table, states);
        }
    }
}

#[test]
fn outputs_differ_at_the_last_word_and_not_before() {
    let mut found = 0;
    for seed in seeds(2_000) {
        let mut rng = Rng::new(seed);
        let table = tables::any_legal(&mut rng, 14, 6);
        let file = table.to_bytes();
        let [layer, first, second] = any_states(&mut rng, &table);
        let words = telling_apart(seed, &table, [layer, first, second]);
        let [one, other] = [first, second].map(|state| outputs_from(&file, layer, state, &words));
        let Some((last, before)) = one.split_last() else {
            continue;
        };
        found += 1;
        assert_ne!(Some(last), other.last());
        assert_eq!(*before, other[..before.len()]);
    }
    assert!(found > 0, "no states were told apart");
}

#[test]
fn no_shorter_list_tells_and_none_of_its_length_before_it() {
    for seed in seeds(400) {
        let mut rng = Rng::new(seed);
        let table = tables::any_legal(&mut rng, 8, 4);
        let (sizes, file) = (table.head.sizes, table.to_bytes());
        let [layer, first, second] = any_states(&mut rng, &table);
        let words = telling_apart(seed, &table, [layer, first, second]);
        let tells = |list: &[u16]| {
            let [one, other] = [first, second].map(|state| outputs_from(&file, layer, state, list));
            one.last() != other.last()
        };
        let longest = left(&table, layer);
        for length in 1..=longest {
            let lists = (0..sizes.histories(length)).map(|list| sizes.history_words(length, list));
            for list in lists {
                let before = list.len() < words.len() || list.len() == words.len() && list < words;
                if words.is_empty() || before {
                    assert!(!tells(&list), "{list:?} tells");
                }
            }
        }
        assert!(words.is_empty() || tells(&words));
    }
}

#[test]
fn none_is_found_exactly_where_every_continuation_agrees() {
    let mut seen = [0; 2];
    for seed in seeds(1_000) {
        let mut rng = Rng::new(seed);
        let table = tables::any_legal(&mut rng, 8, 4);
        let (sizes, file) = (table.head.sizes, table.to_bytes());
        let [layer, first, second] = any_states(&mut rng, &table);
        let words = telling_apart(seed, &table, [layer, first, second]);
        let longest = left(&table, layer);
        let agree = (0..sizes.histories(longest)).all(|list| {
            let list = sizes.history_words(longest, list);
            outputs_from(&file, layer, first, &list) == outputs_from(&file, layer, second, &list)
        });
        assert_eq!(words.is_empty(), agree);
        seen[usize::from(agree)] += 1;
    }
    assert!(!seen.contains(&0), "{seen:?}");
}

#[test]
fn equal_states_are_never_told_apart() {
    for seed in seeds(300) {
        let table = tables::any_legal(&mut Rng::new(seed), 16, 40);
        for layer in 0..=table.head.sizes.frames {
            let state = table.head.counts[layer] - 1;
            let states = [layer as u16, state, state];
            assert_eq!(telling_apart(seed, &table, states), []);
        }
    }
}

#[test]
fn the_end_layer_has_nothing_to_tell() {
    for sizes in all_sizes() {
        let table = tables::legal(&mut Rng::new(1), sizes, vec![1; sizes.frames + 1]);
        let end = sizes.frames as u16;
        // No room is needed there.
        assert_eq!(distinguish(0, &table.to_bytes(), [end, 0, 0], 0), [0, 0]);
        assert_eq!(telling_apart(2, &table, [end, 0, 0]), []);
    }
}

#[test]
fn either_state_may_come_first() {
    for seed in seeds(500) {
        let mut rng = Rng::new(seed);
        let table = tables::any_legal(&mut rng, 12, 6);
        let [layer, first, second] = any_states(&mut rng, &table);
        let words = telling_apart(seed, &table, [layer, first, second]);
        assert_eq!(telling_apart(seed, &table, [layer, second, first]), words);
    }
}

#[test]
fn unreached_states_are_told_apart_too() {
    for seed in seeds(300) {
        let table = tables::any_legal(&mut Rng::new(seed), 10, 4);
        for layer in 1..table.head.sizes.frames {
            let mut spare = tables::with_spare_state(&table, layer);
            let state = spare.head.counts[layer] - 1;
            let other = seed as u16 % state;
            telling_apart(seed, &spare, [layer as u16, state, other]);
            // With another output for the largest word, and else the other state's row.
            let words = spare.head.sizes.input_words();
            let [from, to] = [other, state].map(|state| spare.head.entry(layer, state, 0));
            spare.output_words.copy_within(from..from + words, to);
            spare.next_states.copy_within(from..from + words, to);
            assert_eq!(
                telling_apart(seed, &spare, [layer as u16, state, other]),
                []
            );
            spare.head.connected[layer] |= 1;
            spare.output_words[to + words - 1] ^= 1;
            assert_eq!(
                telling_apart(seed, &spare, [layer as u16, state, other]),
                [words as u16 - 1]
            );
        }
    }
}

#[test]
fn states_can_differ_in_the_last_frame_alone() {
    for sizes in all_sizes().into_iter().filter(|sizes| sizes.frames > 1) {
        let mut table = two_chains(sizes);
        let last = sizes.frames - 1;
        let (words, longest) = (sizes.input_words(), last);
        let row = table.head.entry(last, 1, 0);
        // In every word, then in all but the smallest, in the end in the largest alone.
        for smallest in [0, 1, words - 1] {
            table.output_words[row..row + words].fill(1);
            table.output_words[row..row + smallest].fill(0);
            let mut expected = vec![0; longest];
            expected[longest - 1] = smallest as u16;
            assert_eq!(telling_apart(0, &table, [1, 0, 1]), expected);
        }
    }
}

#[test]
fn states_can_differ_after_the_largest_words_alone() {
    for (inputs, frames) in LARGEST {
        let sizes = Sizes::new(inputs, 16, frames);
        let mut table = two_chains(sizes);
        let largest = sizes.input_words() as u16 - 1;
        // The second chain falls back to the first unless it is fed the largest word.
        for layer in 1..frames - 1 {
            let row = table.head.entry(layer, 1, 0);
            table.next_states[row..row + usize::from(largest)].fill(0);
        }
        assert_eq!(telling_apart(0, &table, [1, 0, 1]), []);
        let last = table.head.entry(frames - 1, 1, largest);
        table.output_words[last] = 1 << 15;
        let expected = vec![largest; frames - 1];
        assert_eq!(telling_apart(0, &table, [1, 0, 1]), expected);
    }
}

#[test]
fn each_output_tells() {
    for output in 0..16 {
        let sizes = Sizes::new(1, 16, 2);
        let mut table = tables::zeros(sizes, vec![1, 2, 1]);
        let entry = table.head.entry(1, 1, 1);
        table.output_words[entry] = 1 << output;
        assert_eq!(telling_apart(0, &table, [1, 0, 1]), [1]);
        // Nothing else is connected there.
        table.head.connected[1] = 1 << output;
        assert_eq!(telling_apart(0, &table, [1, 0, 1]), [1]);
    }
}

#[test]
fn states_numbered_anew_are_told_apart_by_the_same_words() {
    for seed in seeds(300) {
        let mut rng = Rng::new(seed);
        let table = tables::any_legal(&mut rng, 12, 6);
        let numbers = tables::any_numbers(&mut rng, &table.head.counts);
        let anew = tables::renumbered(&table, &numbers);
        let states = any_states(&mut rng, &table);
        let [layer, first, second] = states;
        let [first, second] = [first, second].map(|s| numbers[usize::from(layer)][usize::from(s)]);
        assert_eq!(
            telling_apart(seed, &anew, [layer, first, second]),
            telling_apart(seed, &table, states)
        );
    }
}

/// In the table that a circuit folds to, all pairs of different states are told apart.
fn folds_apart(seed: u64, circuit: &Circuit) {
    let table = Table::read(&folded(&circuit.to_bytes())).unwrap();
    for layer in 0..=table.head.sizes.frames {
        // All of a layer with few states, of others the first ones.
        for states in pairs(&table, layer).take(400) {
            let words = telling_apart(seed, &table, states);
            assert_eq!(words.is_empty(), states[1] == states[2]);
        }
    }
}

#[test]
fn all_states_of_folded_tables_are_told_apart() {
    for (circuit, _) in counts() {
        folds_apart(0, &circuit);
    }
    for seed in seeds(60) {
        let mut rng = Rng::new(seed);
        folds_apart(seed, &circuits::any_legal(&mut rng, 10, 60));
        let sizes = any_sizes(&mut rng, 10);
        folds_apart(seed, &circuits::unrolled(&mut rng, sizes, 4));
    }
}

#[test]
fn large_folded_tables_are_told_apart() {
    for (inputs, frames) in LARGEST {
        let sizes = Sizes::new(inputs, 16, frames);
        let many = circuits::many_states(sizes, sizes.output_gates());
        let table = Table::read(&folded(&many.to_bytes())).unwrap();
        let mut rng = Rng::new(0);
        for seed in 0..20 {
            let states = any_states(&mut rng, &table);
            let words = telling_apart(seed, &table, states);
            assert_eq!(words.is_empty(), states[1] == states[2]);
        }
    }
}

#[test]
fn every_history_of_the_longest_lists_is_fed() {
    // Each history has a state of its own, and all outputs are 0: nothing tells.
    for (inputs, frames) in LARGEST {
        let mut table = tables::histories_apart(Sizes::new(inputs, 1, frames));
        let states = [1, 0, table.head.counts[1] - 1];
        assert_eq!(telling_apart(0, &table, states), []);
        // Until the last of all entries is 1.
        *table.output_words.last_mut().unwrap() = 1;
        let largest = table.head.sizes.input_words() as u16 - 1;
        assert_eq!(telling_apart(0, &table, states), vec![largest; frames - 1]);
    }
}

#[test]
fn the_largest_tables_are_told_apart() {
    let mut rng = Rng::new(0);
    let counts = tables::counts_with(&mut rng, 16, 1 + 15 * 32_768);
    let most_states = tables::legal(&mut rng, Sizes::new(1, 1, 16), counts);
    for table in [most_states, tables::largest(&mut rng)] {
        for states in [[1, 0, 32_767], [1, 32_766, 32_767]] {
            telling_apart(0, &table, states);
        }
    }
}

#[test]
fn the_result_is_judged_around_the_words_that_are_left() {
    for seed in seeds(300) {
        let mut rng = Rng::new(seed);
        let table = tables::any_legal(&mut rng, 10, 4);
        let file = table.to_bytes();
        let states = any_states(&mut rng, &table);
        let left = left(&table, states[0]);
        let place = telling_apart(seed, &table, states).len();
        for room in 0..left + 3 {
            let expected = if room < left { [7, left] } else { [0, place] };
            let answer = distinguish(seed, &file, states, room);
            assert_eq!(answer, expected.map(|value| value as u64));
        }
    }
}

#[test]
fn old_contents_of_the_result_do_not_matter() {
    for seed in seeds(300) {
        let mut rng = Rng::new(seed);
        let table = tables::any_legal(&mut rng, 10, 4);
        let [layer, first, second] = any_states(&mut rng, &table);
        let words = telling_apart(seed, &table, [layer, first, second]);
        for old in [0, 1, u16::MAX, rng.word()] {
            let mut result = vec![old; 20];
            let answer = tff::distinguish(&table.to_bytes(), layer, first, second, &mut result);
            assert_eq!(answer.place, words.len() as u64);
            assert_eq!(result[..words.len()], words);
            assert!(result[words.len()..].iter().all(|&number| number == old));
        }
    }
}

#[test]
fn layers_and_states_are_judged_around_their_limits() {
    let mut seen = Seen::default();
    for seed in seeds(200) {
        let table = tables::any_legal(&mut Rng::new(seed), 8, 4);
        let (file, frames) = (table.to_bytes(), table.head.sizes.frames as u16);
        for layer in (0..=frames + 1).chain([u16::MAX]) {
            let count = table.head.counts.get(usize::from(layer)).copied();
            let around = [0, count.unwrap_or(1) - 1, count.unwrap_or(0), u16::MAX];
            for first in around {
                for second in around {
                    let fits = count.is_some_and(|count| first.max(second) < count);
                    let answer = distinguish(seed, &file, [layer, first, second], 16);
                    assert_eq!(answer[0], if fits { 0 } else { 11 });
                    if !fits {
                        assert_eq!(answer[1], u64::from(layer));
                    }
                    seen.note(answer);
                }
            }
        }
    }
    seen.expect(&[0, 11]);
}

/// A table of three frames, a layer, two states and the room for words.
#[derive(Clone)]
struct Given {
    file: Vec<u8>,
    states: [u16; 3],
    room: usize,
}

/// Tries every combination of the table's `faults` and those behind them: a layer that it has not, or
/// states that the layer has not, and too little room.
fn judges_in_order(faults: &[Fault<Vec<u8>>]) {
    let behind: [Fault<Given>; 5] = [
        (|given| given.states[0] = 4, |_| [11, 4]),
        (|given| given.states[0] = u16::MAX, |_| [11, 65_535]),
        (
            |given| given.states[1] = 2,
            |given| [11, u64::from(given.states[0])],
        ),
        (
            |given| given.states[2] = 2,
            |given| [11, u64::from(given.states[0])],
        ),
        (|given| given.room = 1, |_| [7, 2]),
    ];
    for (file, named) in with_faults(&three_frames(), faults) {
        let given = Given {
            file,
            states: [1, 0, 1],
            room: 2,
        };
        for (given, later) in with_faults(&given, &behind) {
            let answer = distinguish(0, &given.file, given.states, given.room);
            // The layer that is named is the one given, whichever fault was made last.
            let layer = u64::from(given.states[0]);
            let later = later.map(|[number, place]| match number {
                11 => [11, layer],
                _ => [number, place],
            });
            assert_eq!(answer, named.or(later).unwrap_or([0, 1]));
        }
    }
}

#[test]
fn every_combination_of_faults_names_the_first() {
    judges_in_order(&HEAD_FAULTS);
    judges_in_order(&ENTRY_FAULTS);
    judges_in_order(&faults_across());
}

#[test]
fn every_length_and_every_word_of_the_table_is_judged() {
    let mut seen = Seen::default();
    for seed in seeds(40) {
        let mut rng = Rng::new(seed);
        let table = tables::any_legal(&mut rng, 6, 3);
        let (file, states) = (table.to_bytes(), any_states(&mut rng, &table));
        for length in 0..file.len() + 9 {
            let mut other = file.clone();
            other.resize(length, 0);
            seen.note(distinguish(seed, &other, states, 16));
        }
        for at in (0..file.len()).step_by(2) {
            let old = word_at(&file, at);
            for word in [0, 1, old.wrapping_sub(1), old.wrapping_add(1), u16::MAX] {
                let mut other = file.clone();
                set_word(&mut other, at, word);
                seen.note(distinguish(seed, &other, states, 16));
            }
        }
    }
    seen.expect(&[0, 1, 2, 5]);
}

#[test]
fn damaged_tables_are_refused_and_change_nothing() {
    let mut seen = Seen::default();
    for seed in seeds(20_000) {
        let mut rng = Rng::new(seed);
        let table = tables::any_legal(&mut rng, 10, 3);
        let file = damaged(&mut rng, &table.to_bytes());
        // Layers have up to three states, and a layer or a state may be one too high.
        let layer = rng.below(table.head.sizes.frames + 2);
        let states = [layer, rng.below(4), rng.below(4)].map(|number| number as u16);
        seen.note(distinguish(seed, &file, states, rng.below(12)));
    }
    seen.expect(&[0, 1, 2, 5, 7, 11]);
}

#[test]
fn empty_slices_are_ordinary() {
    assert_eq!(distinguish(0, &[], [0, 0, 0], 0), [1, 0]);
    let file = to_bytes(&PARITY_TABLE);
    assert_eq!(distinguish(0, &file, [0, 0, 0], 0), [7, 2]);
    assert_eq!(distinguish(0, &file, [2, 0, 0], 0), [0, 0]);
}

#[test]
fn a_short_answer_changes_nothing() {
    for seed in seeds(300) {
        let mut rng = Rng::new(seed);
        let table = tables::any_legal(&mut rng, 10, 4);
        let (file, states) = (table.to_bytes(), any_states(&mut rng, &table));
        for file in [&file[..], &file[1..]] {
            for room in [0, 16] {
                short_answers_change_nothing(
                    &case(seed, file, &states),
                    Room::of_numbers(room),
                    2,
                    |lent, answer| call_distinguish(file, states, lent.numbers, answer),
                );
            }
        }
    }
}
