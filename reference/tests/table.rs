//! The proved check, run and step of tables against the plain ones.

#[path = "common/combinations.rs"]
mod combinations;
mod common;
#[path = "common/evaluator.rs"]
mod evaluator;
#[path = "common/faults.rs"]
mod faults;
#[path = "common/limits.rs"]
mod limits;
#[path = "common/places.rs"]
mod places;
#[path = "common/three_frames.rs"]
mod three_frames;

use combinations::with_faults;
use common::{compare, seeds, short_answers_change_nothing, Case, Room, Seen};
use evaluator::Evaluator;
use limits::sizes_around_the_limits;
use places::{places, places_around, Place};
use reference::gen::{all_sizes, any_sizes, damaged, sizes_with, tables, Rng};
use reference::table::Head;
use reference::vectors::{tables_checked, PARITY_TABLE};
use reference::words::{set_word, to_bytes};
use reference::{Sizes, Table};
use three_frames::{three_frames, ENTRY_FAULTS, HEAD_FAULTS};

const TABLE: Evaluator = Evaluator {
    plain_check: reference::check_table,
    plain_evaluate: reference::run,
    proved_check: tff::raw::tff_check_table,
    proved_evaluate: call_run,
};

fn call_run(file: &[u8], words: &[u16], result: &mut [u16], answer: &mut [u64]) {
    // SAFETY: each pointer and length is that of one slice.
    unsafe {
        tff::raw::tff_run(
            file.as_ptr(),
            file.len(),
            words.as_ptr(),
            words.len(),
            result.as_mut_ptr(),
            result.len(),
            answer.as_mut_ptr(),
            answer.len(),
        )
    }
}

fn call_step(file: &[u8], [layer, state, word]: Place, answer: &mut [u64]) {
    // SAFETY: each pointer and length is that of one slice.
    unsafe {
        tff::raw::tff_step(
            file.as_ptr(),
            file.len(),
            layer,
            state,
            word,
            answer.as_mut_ptr(),
            answer.len(),
        )
    }
}

fn step_case<'a>(seed: u64, file: &'a [u8], place: &'a Place) -> Case<'a> {
    Case {
        call: "step",
        seed,
        file,
        words: place,
        ..Case::default()
    }
}

/// Steps with both implementations.
fn step(seed: u64, file: &[u8], place: Place) -> [u64; 5] {
    let [layer, state, word] = place;
    compare(
        &step_case(seed, file, &place),
        Room::default(),
        |_| reference::step(file, layer, state, word).into(),
        |_, answer| call_step(file, place, answer),
    )
}

/// A small table, its sizes free.
fn small(seed: u64) -> Table {
    tables::any_legal(&mut Rng::new(seed), 16, 4)
}

/// A table of fewer outputs than an output word has bits.
fn narrow(rng: &mut Rng, most_signals: usize) -> Table {
    let mut sizes = any_sizes(rng, most_signals);
    sizes.outputs = rng.between(1, 15);
    let counts = tables::any_counts(rng, &sizes, 4);
    tables::legal(rng, sizes, counts)
}

/// A table with one count changed, nothing connected, and entries of zeros to fit.
fn zeros(sizes: Sizes, layer: usize, count: u16) -> Vec<u8> {
    let mut counts = vec![1; sizes.frames + 1];
    counts[layer] = count;
    let head = Head {
        sizes,
        counts,
        connected: vec![0; sizes.frames],
    };
    let mut words = sizes.words().to_vec();
    words.extend_from_slice(&head.counts);
    words.resize(head.next_at(head.entries()) / 2, 0);
    to_bytes(&words)
}

#[test]
fn the_given_vectors_hold() {
    for (table, expected) in tables_checked() {
        let answer = tff::check_table(&table);
        assert_eq!((answer.number, answer.place), expected);
        assert_eq!(TABLE.check(0, &table), [expected.0, expected.1]);
    }
    let file = to_bytes(&PARITY_TABLE);
    let stepped = tff::step(&file, 2, 0, 0);
    assert_eq!((stepped.number, stepped.place), (10, 2));
    assert_eq!((stepped.output, stepped.layer, stepped.state), (0, 2, 0));
    let stepped = tff::step(&file, 0, 0, 1);
    assert_eq!((stepped.number, stepped.place), (0, 0));
    assert_eq!((stepped.output, stepped.layer, stepped.state), (1, 1, 1));
    let mut result = [9; 3];
    let answer = tff::run(&file, &[1, 1], &mut result);
    assert_eq!((answer.number, answer.place), (0, 2));
    assert_eq!(result, [1, 0, 9]);
}

#[test]
fn legal_tables_of_all_shapes_are_run() {
    for seed in seeds(20) {
        let mut rng = Rng::new(seed);
        for sizes in all_sizes() {
            let counts = tables::any_counts(&mut rng, &sizes, 6);
            let file = tables::legal(&mut rng, sizes, counts).to_bytes();
            TABLE.accepts(seed, &file, &sizes, 3);
        }
    }
}

#[test]
fn every_sequence_of_small_tables_is_run() {
    for seed in seeds(1_000) {
        let table = tables::any_legal(&mut Rng::new(seed), 7, 5);
        TABLE.accepts_every_sequence(seed, &table.to_bytes(), &table.head.sizes);
    }
}

#[test]
fn tables_with_many_states_are_run() {
    for seed in seeds(12) {
        let table = tables::any_legal(&mut Rng::new(seed), 16, 3_000);
        TABLE.accepts(seed, &table.to_bytes(), &table.head.sizes, 4);
    }
}

#[test]
fn the_largest_table_is_checked_run_and_stepped() {
    let table = tables::largest(&mut Rng::new(0));
    let mut file = table.to_bytes();
    assert_eq!(file.len(), 33_555_472);
    TABLE.accepts(0, &file, &table.head.sizes, 1);
    let last = [1, Table::MOST_STATES - 1, 255];
    let output = u64::from(*table.output_words.last().unwrap());
    assert_eq!(step(0, &file, last), [0, 0, output, 2, 0]);
    let at = file.len() - 2;
    set_word(&mut file, at, 1);
    TABLE.finds(0, &file, Some([5, at as u64]));
    assert_eq!(step(0, &file, last), [5, at as u64, 0, 1, 32_767]);
    file.pop();
    TABLE.finds(0, &file, Some([1, 33_555_471]));
}

#[test]
fn lengths_other_than_the_exact_one_are_refused() {
    for seed in seeds(30) {
        let table = tables::any_legal(&mut Rng::new(seed), 5, 3);
        TABLE.judges_lengths(seed, &table.to_bytes());
    }
}

#[test]
fn every_head_near_the_limits_is_judged() {
    let mut seen = Seen::default();
    for sizes in sizes_around_the_limits() {
        let mut file = to_bytes(&sizes);
        file.resize(8 + 4 * Sizes::MOST_FRAMES, 1);
        let counts = 8 + 2 * usize::from(sizes[2]);
        let head = 8 + 4 * usize::from(sizes[2]);
        for length in [5, 6, 7, counts, head - 1, head, file.len()] {
            seen.note(TABLE.check(0, &file[..length.min(file.len())]));
        }
    }
    seen.expect(&[1, 2]);
}

#[test]
fn each_count_is_judged_at_its_limits() {
    for sizes in sizes_with(3) {
        for layer in 0..=sizes.frames {
            let inner = layer != 0 && layer != sizes.frames;
            for count in [0, 1, 2, 3] {
                let legal = count == 1 || (inner && count > 1);
                let fault = (!legal).then_some([2, 6 + 2 * layer as u64]);
                TABLE.finds(layer as u64, &zeros(sizes, layer, count), fault);
            }
        }
    }
}

#[test]
fn inner_counts_go_up_to_32768() {
    for (inputs, frames, layer) in [(1, 2, 1), (1, 16, 15), (2, 3, 2), (5, 3, 1)] {
        let sizes = Sizes::new(inputs, 16, frames);
        for count in [32_767, 32_768, 32_769, u16::MAX] {
            let fault = (count > 32_768).then_some([2, 6 + 2 * layer as u64]);
            TABLE.finds(0, &zeros(sizes, layer, count), fault);
        }
    }
}

#[test]
fn each_word_of_connected_outputs_is_judged_at_its_limit() {
    for outputs in 1..=16 {
        for (inputs, frames) in [(1, 1), (8, 2), (2, 5), (1, 16)] {
            let sizes = Sizes::new(inputs, outputs, frames);
            let every = sizes.every_output();
            for frame in 0..frames {
                let at = 8 + 2 * frames + 2 * frame;
                let beyond = every.wrapping_add(1);
                for word in [0, every - 1, every, beyond, 1 << 15, u16::MAX] {
                    let mut file = zeros(sizes, 0, 1);
                    set_word(&mut file, at, word);
                    // With 16 outputs every word is legal.
                    let fault = (word > every).then_some([2, at as u64]);
                    TABLE.finds(0, &file, fault);
                }
            }
        }
    }
}

#[test]
fn counts_and_connected_words_are_judged_before_the_length() {
    let seen = TABLE.judges(4_000, |rng| {
        let table = tables::any_legal(rng, 16, 3);
        let sizes = table.head.sizes;
        let mut file = table.to_bytes();
        let layer = rng.between(0, sizes.frames);
        let count = rng.pick(&[0, 1, 1, 2, 32_768, 32_769, u16::MAX]);
        set_word(&mut file, 6 + 2 * layer, count);
        if rng.one_in(2) {
            let frame = rng.below(sizes.frames);
            let connected = rng.word();
            set_word(&mut file, 8 + 2 * (sizes.frames + frame), connected);
        }
        let head = 8 + 4 * sizes.frames;
        file.truncate(rng.pick(&[head - 1, head, head + 1]));
        (file, sizes)
    });
    seen.expect(&[1, 2]);
}

#[test]
fn each_output_word_is_judged_by_the_outputs_that_its_frame_connects() {
    for seed in seeds(60) {
        let table = tables::any_legal(&mut Rng::new(seed), 5, 3);
        for (layer, &connected) in table.head.connected.iter().enumerate() {
            let every = table.head.sizes.every_output();
            let mut words = vec![0, connected, every, every.wrapping_add(1), u16::MAX];
            words.extend((0..16).map(|bit| 1 << bit));
            for entry in table.head.entries_of(layer) {
                let at = table.head.output_at(entry);
                for &word in &words {
                    let mut file = table.to_bytes();
                    set_word(&mut file, at, word);
                    let fault = (word & !connected != 0).then_some([5, at as u64]);
                    TABLE.finds(seed, &file, fault);
                }
            }
        }
    }
}

#[test]
fn each_next_state_is_judged_at_its_limit() {
    for seed in seeds(60) {
        let table = tables::any_legal(&mut Rng::new(seed), 5, 3);
        for layer in 0..table.head.sizes.frames {
            let count = table.head.counts[layer + 1];
            for entry in table.head.entries_of(layer) {
                let at = table.head.next_at(entry);
                for next in [count - 1, count, u16::MAX] {
                    let mut file = table.to_bytes();
                    set_word(&mut file, at, next);
                    let fault = (next >= count).then_some([5, at as u64]);
                    TABLE.finds(seed, &file, fault);
                }
            }
        }
    }
}

#[test]
fn all_output_words_are_judged_before_all_next_states() {
    for seed in seeds(1_000) {
        let mut rng = Rng::new(seed);
        let table = narrow(&mut rng, 16);
        let [early, late] = [0; 2].map(|_| rng.below(table.head.entries()));
        let (next, output) = (table.head.next_at(early), table.head.output_at(late));
        let mut file = table.to_bytes();
        set_word(&mut file, next, u16::MAX);
        TABLE.finds(seed, &file, Some([5, next as u64]));
        set_word(&mut file, output, u16::MAX);
        TABLE.finds(seed, &file, Some([5, output as u64]));
    }
}

#[test]
fn every_combination_of_faults_is_refused_for_the_first() {
    let faults = [&HEAD_FAULTS[..], &ENTRY_FAULTS].concat();
    for (file, first) in with_faults(&three_frames(), &faults) {
        TABLE.finds(0, &file, first);
    }
}

#[test]
fn damaged_tables_are_judged() {
    let seen = TABLE.judges(40_000, |rng| {
        let table = tables::any_legal(rng, 16, 3);
        (damaged(rng, &table.to_bytes()), table.head.sizes)
    });
    seen.expect(&[0, 1, 2, 5]);
}

#[test]
fn faults_of_words_and_result_are_judged_in_order() {
    for seed in seeds(60) {
        let table = small(seed);
        TABLE
            .judges_words_and_result(seed, &table.to_bytes(), &table.head.sizes)
            .expect(&[0, 7, 9, 12]);
    }
}

#[test]
fn the_first_high_input_word_is_named() {
    for seed in seeds(100) {
        let table = small(seed);
        TABLE.names_the_first_high_word(seed, &table.to_bytes(), &table.head.sizes);
    }
}

#[test]
fn steps_are_taken_from_every_position() {
    for seed in seeds(200) {
        let table = small(seed);
        let file = table.to_bytes();
        for place in places(&table) {
            assert_eq!(step(seed, &file, place)[0], 0);
        }
    }
}

#[test]
fn steps_beyond_what_the_table_has_are_refused() {
    let mut seen = Seen::default();
    for seed in seeds(200) {
        let table = small(seed);
        let file = table.to_bytes();
        for place in places_around(&table) {
            seen.note(step(seed, &file, place));
        }
    }
    seen.expect(&[0, 9, 10, 11]);
}

#[test]
fn the_last_layer_is_refused_by_its_state_first() {
    for seed in seeds(200) {
        let table = small(seed);
        let (file, last) = (table.to_bytes(), table.head.sizes.frames as u16);
        for word in [0, u16::MAX] {
            for (state, number) in [(0, 10), (1, 11), (u16::MAX, 11)] {
                let [last_given, state_given] = [last, state].map(u64::from);
                let expected = [number, last_given, 0, last_given, state_given];
                assert_eq!(step(seed, &file, [last, state, word]), expected);
            }
        }
    }
}

#[test]
fn position_and_word_are_judged_before_the_entry() {
    let mut seen = Seen::default();
    for seed in seeds(200) {
        let mut table = small(seed);
        // With every entry bad, only refusals can follow.
        table.next_states.fill(u16::MAX);
        if seed % 2 == 0 {
            table.output_words.fill(u16::MAX);
        }
        let file = table.to_bytes();
        for place in places_around(&table) {
            seen.note(step(seed, &file, place));
        }
    }
    seen.expect(&[5, 9, 10, 11]);
}

#[test]
fn a_step_judges_the_entry_it_reads_and_no_other() {
    for seed in seeds(300) {
        let mut rng = Rng::new(seed);
        let table = narrow(&mut rng, 6);
        let bad = rng.below(table.head.entries());
        let at = rng.pick(&[table.head.output_at(bad), table.head.next_at(bad)]);
        let mut file = table.to_bytes();
        set_word(&mut file, at, u16::MAX);
        for (entry, place) in places(&table).into_iter().enumerate() {
            let answer = step(seed, &file, place);
            let expected = if entry == bad { [5, at as u64] } else { [0, 0] };
            assert_eq!(answer[..2], expected);
        }
    }
}

#[test]
fn a_step_judges_the_output_word_before_the_next_state() {
    for seed in seeds(300) {
        let mut table = narrow(&mut Rng::new(seed), 6);
        table.output_words.fill(u16::MAX);
        table.next_states.fill(u16::MAX);
        let file = table.to_bytes();
        for (entry, place) in places(&table).into_iter().enumerate() {
            let [layer, state, _] = place.map(u64::from);
            let at = table.head.output_at(entry) as u64;
            assert_eq!(step(seed, &file, place), [5, at, 0, layer, state]);
        }
    }
}

#[test]
fn a_step_judges_its_output_word_by_the_outputs_that_its_own_frame_connects() {
    for frames in 1..=4 {
        let sizes = Sizes::new(1, frames, frames);
        let mut counts = vec![2; frames + 1];
        (counts[0], counts[frames]) = (1, 1);
        for connected in tables::each_frame_its_own(&sizes) {
            let table = tables::connected(&mut Rng::new(1), sizes, counts.clone());
            let table = tables::with_connected(&table, &connected);
            for (entry, place) in places(&table).into_iter().enumerate() {
                let [layer, state, _] = place.map(u64::from);
                let at = table.head.output_at(entry);
                let next = u64::from(table.next_states[entry]);
                for output in 0..=sizes.every_output() {
                    let mut file = table.to_bytes();
                    set_word(&mut file, at, output);
                    let unconnected = output & !table.head.connected[layer as usize];
                    let expected = match unconnected {
                        0 => [0, 0, u64::from(output), layer + 1, next],
                        _ => [5, at as u64, 0, layer, state],
                    };
                    assert_eq!(step(1, &file, place), expected);
                }
            }
        }
    }
}

#[test]
fn every_combination_of_faults_before_an_entry_is_refused_by_a_step_for_the_first() {
    // From a place that the table does not have, on a word that it has not.
    for (file, first) in with_faults(&three_frames(), &HEAD_FAULTS) {
        let [number, place] = first.unwrap_or([11, 4]);
        assert_eq!(step(0, &file, [4, 9, 9]), [number, place, 0, 4, 9]);
    }
}

#[test]
fn steps_of_damaged_tables_are_judged() {
    let mut seen = Seen::default();
    for seed in seeds(40_000) {
        let mut rng = Rng::new(seed);
        let table = tables::any_legal(&mut rng, 8, 3);
        let file = damaged(&mut rng, &table.to_bytes());
        let place = rng.pick(&places(&table));
        seen.note(step(seed, &file, place));
        let place = rng.pick(&places_around(&table));
        seen.note(step(seed, &file, place));
    }
    seen.expect(&[0, 1, 2, 5, 9, 10, 11]);
}

#[test]
fn empty_slices_are_ordinary() {
    let file = to_bytes(&PARITY_TABLE);
    assert_eq!(TABLE.check(0, &[]), [1, 0]);
    assert_eq!(TABLE.evaluate(0, &[], &[], 0), [1, 0]);
    assert_eq!(TABLE.evaluate(0, &file, &[], 0), [12, 0]);
    assert_eq!(TABLE.evaluate(0, &file, &[0, 1], 0), [7, 2]);
    assert_eq!(step(0, &[], [3, 4, 5]), [1, 0, 0, 3, 4]);
}

#[test]
fn a_short_answer_changes_nothing() {
    for seed in seeds(300) {
        let table = small(seed);
        let file = table.to_bytes();
        TABLE.needs_two_answers(seed, &file, &table.head.sizes);
        for place in [[0, 0, 0], [u16::MAX, 0, 0]] {
            let case = step_case(seed, &file, &place);
            short_answers_change_nothing(&case, Room::default(), 5, |_, answer| {
                call_step(&file, place, answer)
            });
        }
    }
}
