//! The proved unfold against the plain one, and the way from a circuit through its table and back.

mod common;
#[path = "common/folded.rs"]
mod folded;
#[path = "common/outputs.rs"]
mod outputs;

use common::{compare, seeds, short_answers_change_nothing, Case, Room, Seen};
use folded::folded;
use outputs::assert_same_outputs;
use reference::gen::{all_sizes, circuits, damaged, tables, Rng};
use reference::unfold::gates_needed;
use reference::vectors::{self, PARITY_TABLE, PARITY_UNFOLDED};
use reference::words::{set_word, to_bytes, words_at};
use reference::{Circuit, Sizes, Table};

/// Bytes of the longest circuit.
const LONGEST: usize = 8 + 4 * Circuit::MOST_GATES;

fn call_unfold(table: &[u8], result: &mut [u8], answer: &mut [u64]) {
    // SAFETY: each pointer and length is that of one slice.
    unsafe {
        tff::raw::tff_unfold(
            table.as_ptr(),
            table.len(),
            result.as_mut_ptr(),
            result.len(),
            answer.as_mut_ptr(),
            answer.len(),
        )
    }
}

fn unfold_case(seed: u64, file: &[u8]) -> Case<'_> {
    Case {
        call: "unfold",
        seed,
        file,
        ..Case::default()
    }
}

/// Unfolds with both implementations, with a result of `length` bytes.
fn unfold(seed: u64, file: &[u8], length: usize) -> [u64; 2] {
    compare(
        &unfold_case(seed, file),
        Room::of_bytes(length),
        |lent| reference::unfold(file, lent.bytes).into(),
        |lent, answer| call_unfold(file, lent.bytes, answer),
    )
}

/// What a legal table must be answered with, given enough room.
fn expected(table: &Table) -> [u64; 2] {
    match gates_needed(table) {
        gates if gates > Circuit::MOST_GATES => [8, gates as u64],
        gates => [0, 8 + 4 * gates as u64],
    }
}

/// The circuit that the proved library unfolds a table to.
fn unfolded(table: &[u8]) -> Vec<u8> {
    let mut result = vec![0; LONGEST];
    let answer = tff::unfold(table, &mut result);
    assert_eq!(answer.number, 0);
    result.truncate(answer.place as usize);
    result
}

/// Unfolding a table and folding again must give the same bytes.
fn comes_back(circuit: &Circuit) {
    let table = folded(&circuit.to_bytes());
    assert_eq!(folded(&unfolded(&table)), table);
}

/// Left and right literals of the circuit that a table of these words unfolds to.
fn literals(words: &[u16], gates: usize) -> [Vec<u16>; 2] {
    let circuit = unfolded(&to_bytes(words));
    assert_eq!(circuit.len(), 8 + 4 * gates);
    [0, 1].map(|side| words_at(&circuit, 8 + 2 * gates * side, gates))
}

#[test]
fn parity_unfolds_to_the_given_gates() {
    assert_eq!(literals(&PARITY_TABLE, 17), PARITY_UNFOLDED);
}

#[test]
fn a_state_that_no_edge_enters_is_false() {
    // All of frame 1 leads to state 0; only state 1 of layer 1 has an output.
    let table = [1, 1, 2, 1, 2, 1, 1, 1, 0, 0, 0, 0, 0, 1, 0, 0, 0, 0, 0, 0];
    let left = [1, 1, 1, 1, 1, 14, 1, 1, 17, 17, 0, 0, 1, 0, 31];
    let right = [3, 2, 6, 8, 11, 13, 5, 4, 18, 20, 18, 20, 29, 1, 1];
    assert_eq!(literals(&table, 15), [left, right]);
}

#[test]
fn random_tables_are_unfolded() {
    let mut seen = Seen::default();
    for seed in seeds(5_000) {
        let table = tables::any_legal(&mut Rng::new(seed), 16, 6);
        let answer = unfold(seed, &table.to_bytes(), LONGEST + 3);
        assert_eq!(answer, expected(&table));
        seen.note(answer);
    }
    seen.expect(&[0, 8]);
}

#[test]
fn tables_of_all_shapes_are_unfolded() {
    for seed in seeds(5) {
        let mut rng = Rng::new(seed);
        for sizes in all_sizes() {
            let counts = tables::any_counts(&mut rng, &sizes, 3);
            let table = tables::legal(&mut rng, sizes, counts);
            let answer = unfold(seed, &table.to_bytes(), LONGEST);
            assert_eq!(answer, expected(&table));
        }
    }
}

#[test]
fn outputs_never_set_and_always_set_are_unfolded() {
    for seed in seeds(300) {
        let mut table = tables::any_legal(&mut Rng::new(seed), 6, 4);
        let every_output = table.head.sizes.every_output();
        table.head.connected.fill(every_output);
        for word in [0, every_output] {
            table.output_words.fill(word);
            let answer = unfold(seed, &table.to_bytes(), LONGEST);
            assert_eq!(answer, expected(&table));
        }
    }
}

#[test]
fn gate_counts_are_judged_at_their_limit() {
    for seed in seeds(40) {
        for (inputs, outputs, frames, states) in [
            (1, 16, 16, 8),
            (2, 16, 8, 12),
            (3, 8, 5, 16),
            (4, 8, 4, 12),
            (5, 4, 3, 15),
            (7, 3, 2, 5),
            (8, 16, 1, 1),
        ] {
            let sizes = Sizes::new(inputs, outputs, frames);
            let mut counts = vec![states; frames + 1];
            (counts[0], counts[frames]) = (1, 1);
            for (gates, expected) in [(4095, [0, 16_388]), (4096, [0, 16_392]), (4097, [8, 4097])] {
                let table = tables::with_gates(&mut Rng::new(seed), sizes, counts.clone(), gates);
                assert_eq!(unfold(seed, &table.to_bytes(), LONGEST), expected);
            }
        }
    }
}

#[test]
fn millions_of_gates_are_counted() {
    let sizes = Sizes::new(8, 16, 2);
    let counts = vec![1, Table::MOST_STATES, 1];
    let mut table = tables::connected(&mut Rng::new(0), sizes, counts);
    table.output_words.fill(u16::MAX);
    // Two frames of 256 matches, edges, edges into layer 1, output bits, output gates.
    let edges = 256 * 32_769;
    let gates = 2 * 8 * 256 + edges + 256 + 16 * edges + 32;
    assert_eq!(unfold(0, &table.to_bytes(), 0), [8, gates]);
}

#[test]
fn too_many_gates_are_refused_before_a_short_result() {
    for seed in seeds(300) {
        let mut rng = Rng::new(seed);
        let sizes = Sizes::new(8, rng.between(1, 16), 2);
        let counts = tables::any_counts(&mut rng, &sizes, 3);
        let table = tables::legal(&mut rng, sizes, counts);
        let length = rng.pick(&[0, 8, LONGEST - 1]);
        let answer = unfold(seed, &table.to_bytes(), length);
        assert_eq!(answer, [8, gates_needed(&table) as u64]);
    }
}

#[test]
fn the_result_is_judged_at_the_needed_length() {
    for seed in seeds(500) {
        let file = tables::any_legal(&mut Rng::new(seed), 5, 4).to_bytes();
        let [number, length] = unfold(seed, &file, LONGEST);
        assert_eq!(number, 0);
        for short in [0, 7, 8, length - 1] {
            assert_eq!(unfold(seed, &file, short as usize), [7, length]);
        }
        for enough in [length, length + 1, length + 50] {
            assert_eq!(unfold(seed, &file, enough as usize), [0, length]);
        }
    }
}

#[test]
fn damaged_tables_are_refused_and_change_nothing() {
    let mut seen = Seen::default();
    for seed in seeds(10_000) {
        let mut rng = Rng::new(seed);
        let table = tables::any_legal(&mut rng, 8, 3);
        let file = damaged(&mut rng, &table.to_bytes());
        seen.note(unfold(seed, &file, LONGEST));
    }
    seen.expect(&[0, 1, 2, 5]);
}

#[test]
fn entries_are_judged_before_gates_and_result() {
    for seed in seeds(300) {
        let mut rng = Rng::new(seed);
        let table = tables::any_legal(&mut rng, 16, 4);
        let entry = rng.below(table.head.entries());
        let at = table.head.next_at(entry);
        let mut file = table.to_bytes();
        set_word(&mut file, at, u16::MAX);
        assert_eq!(unfold(seed, &file, 0), [5, at as u64]);
    }
}

#[test]
fn unfolded_circuits_simulate_as_their_tables_run() {
    for seed in seeds(300) {
        let table = tables::any_legal(&mut Rng::new(seed), 6, 4);
        let file = table.to_bytes();
        assert_same_outputs(&table.head.sizes, &unfolded(&file), &file);
    }
}

#[test]
fn random_circuits_come_back_from_their_unfolded_tables() {
    for seed in seeds(3_000) {
        comes_back(&circuits::any_legal(&mut Rng::new(seed), 6, 60));
    }
}

#[test]
fn unrolled_machines_come_back_from_their_unfolded_tables() {
    for seed in seeds(500) {
        let mut rng = Rng::new(seed);
        let (inputs, frames) = rng.pick(&[(1, 9), (2, 4), (3, 3), (4, 2), (1, 7)]);
        let sizes = Sizes::new(inputs, rng.between(1, 3), frames);
        comes_back(&circuits::unrolled(&mut rng, sizes, 2));
    }
}

#[test]
fn named_circuits_come_back_from_their_unfolded_tables() {
    for (circuit, _) in vectors::counts() {
        comes_back(&circuit);
    }
}

#[test]
fn empty_slices_are_ordinary() {
    assert_eq!(unfold(0, &[], 0), [1, 0]);
    let table = [1, 1, 1, 1, 1, 1, 0, 1, 0, 0];
    assert_eq!(unfold(0, &to_bytes(&table), 0), [7, 32]);
}

#[test]
fn a_short_answer_changes_nothing() {
    for seed in seeds(300) {
        let file = tables::any_legal(&mut Rng::new(seed), 8, 4).to_bytes();
        let case = unfold_case(seed, &file);
        short_answers_change_nothing(&case, Room::of_bytes(LONGEST), 2, |lent, answer| {
            call_unfold(&file, lent.bytes, answer)
        });
    }
}
