//! The proved reach counts of a table against the plain ones, and what is to hold of them.

mod common;
#[path = "common/folded.rs"]
mod folded;

use common::{compare, seeds, short_answers_change_nothing, Case, Room, Seen};
use folded::folded;
use reference::gen::{all_sizes, any_sizes, circuits, damaged, tables, Rng};
use reference::vectors::{self, PARITY_TABLE};
use reference::words::{set_word, to_bytes, word_at};
use reference::{Circuit, Sizes, Table};

/// Inputs and frames of the shapes with the most histories, 65,536 of all frames.
const LARGEST: [(usize, usize); 4] = [(1, 16), (2, 8), (4, 4), (8, 2)];

fn call_reach(table: &[u8], result: &mut [u8], answer: &mut [u64]) {
    // SAFETY: each pointer and length is that of one slice.
    unsafe {
        tff::raw::tff_reach(
            table.as_ptr(),
            table.len(),
            result.as_mut_ptr(),
            result.len(),
            answer.as_mut_ptr(),
            answer.len(),
        )
    }
}

fn reach_case(seed: u64, file: &[u8]) -> Case<'_> {
    Case {
        call: "reach",
        seed,
        file,
        ..Case::default()
    }
}

/// Counts with both implementations, with a result of `length` bytes.
fn reach(seed: u64, file: &[u8], length: usize) -> [u64; 2] {
    compare(
        &reach_case(seed, file),
        Room::of_bytes(length),
        |lent| reference::reach(file, lent.bytes).into(),
        |lent, answer| call_reach(file, lent.bytes, answer),
    )
}

/// The bytes that a legal table needs.
fn needed(table: &Table) -> usize {
    let states: usize = table.head.counts.iter().map(|&s| usize::from(s)).sum();
    4 + 2 * table.head.sizes.frames + 8 * states
}

/// A legal table is counted with just enough room, or a little more.
fn accepts(seed: u64, table: &Table) {
    let needed = needed(table);
    let answer = reach(seed, &table.to_bytes(), needed + seed as usize % 5);
    assert_eq!(answer, [0, needed as u64]);
}

/// The proved numbers of a table, by layer and state.
#[derive(Clone, Debug, PartialEq)]
struct Reach {
    histories: Vec<Vec<u32>>,
    smallest: Vec<Vec<u32>>,
}

/// Counts a legal table with both implementations, and takes apart what the proved one wrote.
fn reach_counts(seed: u64, table: &Table) -> Reach {
    accepts(seed, table);
    let mut result = vec![0xee; needed(table)];
    assert_eq!(tff::reach(&table.to_bytes(), &mut result).number, 0);
    let counts = &table.head.counts;
    let (head, numbers) = result.split_at(2 + 2 * counts.len());
    assert_eq!(word_at(head, 0), table.head.sizes.frames as u16);
    assert_eq!(head[2..], to_bytes(counts));
    let mut numbers = numbers
        .chunks_exact(4)
        .map(|bytes| u32::from_le_bytes(bytes.try_into().unwrap()));
    let [histories, smallest] = [0; 2].map(|_| {
        let of_layer = |&count| numbers.by_ref().take(usize::from(count)).collect();
        counts.iter().map(of_layer).collect()
    });
    Reach {
        histories,
        smallest,
    }
}

/// The same table with an unreached state more in each inner layer.
fn with_spare_states(mut table: Table) -> Table {
    for layer in 1..table.head.sizes.frames {
        table = tables::with_spare_state(&table, layer);
    }
    table
}

/// The state that some words lead to from the start, by proved steps.
fn state_after(file: &[u8], words: &[u16]) -> u16 {
    let (mut layer, mut state) = (0, 0);
    for &word in words {
        let stepped = tff::step(file, layer, state, word);
        assert_eq!(stepped.number, 0);
        (layer, state) = (stepped.layer, stepped.state);
    }
    state
}

/// A table of these words gets these bytes, and no byte behind them changes.
fn assert_written(table: &[u16], expected: &[u8]) {
    let file = to_bytes(table);
    let length = expected.len();
    let mut result = vec![0xee; length + 3];
    let answer = tff::reach(&file, &mut result);
    assert_eq!((answer.number, answer.place), (0, length as u64));
    assert_eq!(result[..length], *expected);
    assert_eq!(result[length..], [0xee; 3]);
    assert_eq!(reach(0, &file, length), [0, length as u64]);
}

#[test]
fn parity_is_counted_as_by_hand() {
    let expected = [
        [2, 0, 1, 0], // T, then states of layers 0 to 2
        [2, 0, 1, 0],
        [1, 0, 0, 0], // histories: 1, then 1 and 1, then 4
        [1, 0, 0, 0],
        [1, 0, 0, 0],
        [4, 0, 0, 0],
        [0, 0, 0, 0], // smallest: 0, then 0 and 1, then 0
        [0, 0, 0, 0],
        [1, 0, 0, 0],
        [0, 0, 0, 0],
    ];
    assert_written(&PARITY_TABLE, &expected.concat());
}

#[test]
fn a_table_with_unreached_states_is_counted_as_by_hand() {
    // Nothing is connected: the reach counts do not depend on it.
    let mut table = vec![2, 1, 3, 1, 3, 3, 1, 0, 0, 0];
    table.resize(10 + 28, 0);
    // Nothing leads to state 1 of layer 1, and it alone leads to state 1 of layer 2.
    let next_states = [[2, 0, 0, 2], [0, 2, 2, 2], [2, 1, 0, 1], [2, 2, 2, 0]];
    table.extend(next_states.concat());
    table.resize(10 + 56, 0);
    let head = [3, 0, 1, 0, 3, 0, 3, 0, 1, 0];
    // State 0 of layer 1 is reached by words 1 and 2, so state 0 of layer 2 by 1 0 and 2 0, numbers 4
    // and 8. By way of state 2, words 0 3 and 3 3 lead there too, numbers 3 and 15.
    let numbers = [
        [1, 0, 0, 0], // histories of layer 0
        [2, 0, 0, 0], // of layer 1
        [0, 0, 0, 0],
        [2, 0, 0, 0],
        [4, 0, 0, 0], // of layer 2
        [0, 0, 0, 0],
        [12, 0, 0, 0],
        [64, 0, 0, 0], // of layer 3
        [0, 0, 0, 0],  // smallest of layer 0
        [1, 0, 0, 0],  // of layer 1
        [0, 0, 0, 0],
        [0, 0, 0, 0],
        [3, 0, 0, 0], // of layer 2
        [0, 0, 0, 0],
        [0, 0, 0, 0],
        [0, 0, 0, 0], // of layer 3
    ];
    assert_written(&table, &[&head[..], &numbers.concat()].concat());
}

#[test]
fn parity_is_refused_as_by_hand() {
    let file = to_bytes(&PARITY_TABLE);
    let without_inputs = [&[0, 0], &file[2..]].concat();
    let beyond_the_last_layer = [&file[..38], &[1, 0]].concat();
    let refusals = [
        (&file[..], 39, (7, 40)),
        (&file[..39], 40, (1, 39)),
        (&without_inputs, 40, (2, 0)),
        (&beyond_the_last_layer, 40, (5, 38)),
    ];
    for (file, length, expected) in refusals {
        let mut result = vec![0xee; length];
        let answer = tff::reach(file, &mut result);
        assert_eq!((answer.number, answer.place), expected);
        assert_eq!(result, vec![0xee; length]);
    }
}

#[test]
fn tables_of_all_sizes_are_counted() {
    for seed in seeds(4) {
        let mut rng = Rng::new(seed);
        for sizes in all_sizes() {
            let counts = tables::any_counts(&mut rng, &sizes, 6);
            accepts(seed, &tables::legal(&mut rng, sizes, counts));
        }
    }
}

#[test]
fn tables_with_many_states_are_counted() {
    for seed in seeds(150) {
        accepts(seed, &tables::any_legal(&mut Rng::new(seed), 16, 3_000));
    }
}

#[test]
fn spare_states_have_zeros_and_change_nothing_else() {
    for seed in seeds(500) {
        let table = tables::any_legal(&mut Rng::new(seed), 12, 8);
        let without = reach_counts(seed, &table);
        for layer in 1..table.head.sizes.frames {
            let mut expected = without.clone();
            expected.histories[layer].push(0);
            expected.smallest[layer].push(0);
            let spare = tables::with_spare_state(&table, layer);
            assert_eq!(reach_counts(seed, &spare), expected);
        }
    }
}

#[test]
fn states_numbered_anew_take_their_counts_along() {
    for seed in seeds(1_000) {
        let mut rng = Rng::new(seed);
        let table = with_spare_states(tables::any_legal(&mut rng, 12, 8));
        let numbers = tables::any_numbers(&mut rng, &table.head.counts);
        let before = reach_counts(seed, &table);
        let after = reach_counts(seed, &tables::renumbered(&table, &numbers));
        for (layer, numbers) in numbers.iter().enumerate() {
            for (state, &number) in numbers.iter().enumerate() {
                let [before, after] = [(&before, state), (&after, usize::from(number))]
                    .map(|(of, state)| [of.histories[layer][state], of.smallest[layer][state]]);
                assert_eq!(before, after);
            }
        }
    }
}

#[test]
fn one_state_of_a_layer_can_have_all_histories() {
    for seed in seeds(40) {
        let mut rng = Rng::new(seed);
        let small = any_sizes(&mut rng, 16);
        let largest = LARGEST.map(|(inputs, frames)| Sizes::new(inputs, 2, frames));
        for sizes in largest.into_iter().chain([small]) {
            let counts = tables::any_counts(&mut rng, &sizes, 5);
            let table = tables::legal(&mut rng, sizes, counts);
            let table = tables::led_to_one_state(&mut rng, &table);
            let reach = reach_counts(seed, &table);
            for layer in 1..=sizes.frames {
                let entered = table.next_states[table.head.entry(layer - 1, 0, 0)];
                let mut expected = vec![0; usize::from(table.head.counts[layer])];
                assert_eq!(reach.smallest[layer], expected);
                expected[usize::from(entered)] = sizes.histories(layer) as u32;
                assert_eq!(reach.histories[layer], expected);
            }
        }
    }
}

#[test]
fn the_most_histories_are_counted() {
    for seed in seeds(20) {
        let mut rng = Rng::new(seed);
        for (inputs, frames) in LARGEST {
            let sizes = Sizes::new(inputs, 1, frames);
            let counts = tables::any_counts(&mut rng, &sizes, 200);
            let reach = reach_counts(seed, &tables::legal(&mut rng, sizes, counts));
            assert_eq!(reach.histories[frames], [65_536]);
            assert_eq!(reach.smallest[frames], [0]);
        }
    }
}

#[test]
fn each_history_can_have_a_state_of_its_own() {
    for (inputs, frames) in LARGEST {
        let table = tables::histories_apart(Sizes::new(inputs, 1, frames));
        let numbers = tables::any_numbers(&mut Rng::new(0), &table.head.counts);
        let ordered = reach_counts(0, &table);
        let shuffled = reach_counts(0, &tables::renumbered(&table, &numbers));
        // With 1 x 16, layer 15 has the history 32,767.
        for (layer, numbers) in numbers[..frames].iter().enumerate() {
            for (history, &number) in numbers.iter().enumerate() {
                for (reach, state) in [(&ordered, history), (&shuffled, usize::from(number))] {
                    assert_eq!(reach.histories[layer][state], 1);
                    assert_eq!(reach.smallest[layer][state], history as u32);
                }
            }
        }
    }
}

#[test]
fn tables_of_a_million_entries_are_counted() {
    for (inputs, frames) in [(3, 5), (4, 4), (5, 3), (6, 2)] {
        let mut rng = Rng::new(1);
        let counts = tables::counts_with(&mut rng, frames, 1_000_000 >> inputs);
        let table = tables::legal(&mut rng, Sizes::new(inputs, 9, frames), counts);
        assert_eq!(table.head.entries(), 1_000_000);
        accepts(1, &table);
    }
}

#[test]
fn the_most_states_are_counted() {
    // 15 full layers between the first and the last.
    let mut rng = Rng::new(0);
    let counts = tables::counts_with(&mut rng, 16, 1 + 15 * 32_768);
    let table = tables::legal(&mut rng, Sizes::new(1, 1, 16), counts);
    let (file, needed) = (table.to_bytes(), 3_932_212);
    assert_eq!(reach(0, &file, needed - 1), [7, needed as u64]);
    assert_eq!(reach(0, &file, needed), [0, needed as u64]);
}

#[test]
fn the_longest_table_is_counted() {
    let table = tables::largest(&mut Rng::new(0));
    let (file, needed) = (table.to_bytes(), 262_168);
    assert_eq!(file.len(), 33_555_472);
    assert_eq!(reach(0, &file, needed - 1), [7, needed as u64]);
    assert_eq!(reach(0, &file, needed), [0, needed as u64]);
}

#[test]
fn the_counts_of_a_layer_add_up_to_its_histories() {
    for seed in seeds(1_000) {
        let table = tables::any_legal(&mut Rng::new(seed), 16, 60);
        let reach = reach_counts(seed, &table);
        for (layer, of_layer) in reach.histories.iter().enumerate() {
            let histories = table.head.sizes.histories(layer) as u32;
            assert_eq!(of_layer.iter().sum::<u32>(), histories);
        }
    }
}

#[test]
fn a_smallest_history_leads_to_its_state() {
    for seed in seeds(200) {
        let table = tables::any_legal(&mut Rng::new(seed), 16, 300);
        let (sizes, file) = (table.head.sizes, table.to_bytes());
        let reach = reach_counts(seed, &table);
        for layer in 0..=sizes.frames {
            for (state, &smallest) in reach.smallest[layer].iter().enumerate() {
                if reach.histories[layer][state] == 0 {
                    assert_eq!(smallest, 0);
                } else {
                    let words = sizes.history_words(layer, smallest as usize);
                    assert_eq!(state_after(&file, &words), state as u16);
                }
            }
        }
    }
}

#[test]
fn every_history_of_small_tables_is_counted_and_none_is_smaller() {
    for seed in seeds(1_000) {
        let table = tables::any_legal(&mut Rng::new(seed), 7, 5);
        let (sizes, file) = (table.head.sizes, table.to_bytes());
        let reach = reach_counts(seed, &table);
        for layer in 0..=sizes.frames {
            let states: Vec<u16> = (0..sizes.histories(layer))
                .map(|history| state_after(&file, &sizes.history_words(layer, history)))
                .collect();
            for state in 0..table.head.counts[layer] {
                let mut leading = (0..states.len()).filter(|&history| states[history] == state);
                let at = usize::from(state);
                let histories = leading.clone().count() as u32;
                assert_eq!(reach.histories[layer][at], histories);
                let smallest = leading.next().unwrap_or(0) as u32;
                assert_eq!(reach.smallest[layer][at], smallest);
            }
        }
    }
}

/// Of the table that a circuit folds to, every state is reached, and smallest histories ascend.
fn folds_in_order(seed: u64, circuit: &Circuit) {
    let table = Table::read(&folded(&circuit.to_bytes())).unwrap();
    let reach = reach_counts(seed, &table);
    for (histories, smallest) in reach.histories.iter().zip(&reach.smallest) {
        assert!(!histories.contains(&0));
        assert_eq!(smallest[0], 0);
        assert!(smallest.windows(2).all(|two| two[0] < two[1]));
    }
}

#[test]
fn folded_tables_have_reached_states_alone_in_the_order_of_smallest_histories() {
    for (circuit, _) in vectors::counts() {
        folds_in_order(0, &circuit);
    }
    for seed in seeds(300) {
        let mut rng = Rng::new(seed);
        folds_in_order(seed, &circuits::any_legal(&mut rng, 12, 60));
        let sizes = any_sizes(&mut rng, 12);
        folds_in_order(seed, &circuits::unrolled(&mut rng, sizes, 4));
    }
    for (inputs, frames) in LARGEST {
        let sizes = Sizes::new(inputs, 16, frames);
        let many = circuits::many_states(sizes, sizes.output_gates());
        folds_in_order(0, &many);
        folds_in_order(0, &circuits::few_states(inputs, frames, 200));
    }
}

#[test]
fn old_contents_of_the_result_do_not_matter() {
    for seed in seeds(300) {
        let mut rng = Rng::new(seed);
        let table = with_spare_states(tables::any_legal(&mut rng, 10, 6));
        let (file, needed) = (table.to_bytes(), needed(&table));
        let mut expected = vec![0; needed];
        assert_eq!(tff::reach(&file, &mut expected).number, 0);
        for old in [1, 0x80, 0xff, rng.word() as u8] {
            let mut result = vec![old; needed];
            assert_eq!(tff::reach(&file, &mut result).number, 0);
            assert_eq!(result, expected);
        }
    }
}

#[test]
fn the_result_is_judged_at_every_length() {
    for seed in seeds(500) {
        let table = tables::any_legal(&mut Rng::new(seed), 6, 4);
        let (file, needed) = (table.to_bytes(), needed(&table));
        for length in 0..needed + 20 {
            let number = if length < needed { 7 } else { 0 };
            assert_eq!(reach(seed, &file, length), [number, needed as u64]);
        }
    }
}

#[test]
fn every_length_of_the_table_is_judged() {
    let mut seen = Seen::default();
    for seed in seeds(30) {
        let table = tables::any_legal(&mut Rng::new(seed), 5, 3);
        let file = table.to_bytes();
        for length in 0..file.len() + 9 {
            let mut other = file.clone();
            other.resize(length, 0);
            seen.note(reach(seed, &other, needed(&table) + 3));
        }
    }
    seen.expect(&[0, 1]);
}

#[test]
fn every_word_of_the_table_is_judged() {
    let mut seen = Seen::default();
    for seed in seeds(60) {
        let table = tables::any_legal(&mut Rng::new(seed), 6, 3);
        let file = table.to_bytes();
        for at in (0..file.len()).step_by(2) {
            let old = word_at(&file, at);
            let near = [old.wrapping_sub(1), old.wrapping_add(1), 2 * (old % 1000)];
            for word in [0, 1, near[0], near[1], near[2], 32_769, u16::MAX] {
                let mut other = file.clone();
                set_word(&mut other, at, word);
                seen.note(reach(seed, &other, needed(&table) + 3));
            }
        }
    }
    seen.expect(&[0, 1, 2, 5]);
}

#[test]
fn damaged_tables_are_refused_and_change_nothing() {
    let mut seen = Seen::default();
    for seed in seeds(40_000) {
        let mut rng = Rng::new(seed);
        let table = tables::any_legal(&mut rng, 10, 3);
        let file = damaged(&mut rng, &table.to_bytes());
        seen.note(reach(seed, &file, needed(&table) + 3));
    }
    seen.expect(&[0, 1, 2, 5]);
}

#[test]
fn the_table_is_judged_before_the_result() {
    let mut seen = Seen::default();
    for seed in seeds(20_000) {
        let mut rng = Rng::new(seed);
        let table = tables::any_legal(&mut rng, 10, 3);
        let file = damaged(&mut rng, &table.to_bytes());
        // The smallest table needs 22 bytes.
        let short = rng.pick(&[0, 1, 4, 21]);
        let answer = reach(seed, &file, short);
        let expected = match Table::read(&file) {
            Ok(legal) => [7, needed(&legal) as u64],
            Err((number, place)) => [number, place],
        };
        assert_eq!(answer, expected);
        seen.note(answer);
    }
    seen.expect(&[1, 2, 5, 7]);
}

#[test]
fn empty_slices_are_ordinary() {
    assert_eq!(reach(0, &[], 0), [1, 0]);
    assert_eq!(reach(0, &to_bytes(&PARITY_TABLE), 0), [7, 40]);
}

#[test]
fn a_short_answer_changes_nothing() {
    for seed in seeds(300) {
        let table = tables::any_legal(&mut Rng::new(seed), 10, 4);
        let file = table.to_bytes();
        for file in [&file[..], &file[1..]] {
            for length in [0, needed(&table), needed(&table) + 3] {
                short_answers_change_nothing(
                    &reach_case(seed, file),
                    Room::of_bytes(length),
                    2,
                    |lent, answer| call_reach(file, lent.bytes, answer),
                );
            }
        }
    }
}
