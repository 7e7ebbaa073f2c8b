//! The proved check and simulation of circuits against the plain ones.

#[path = "common/circuit_calls.rs"]
mod circuit_calls;
#[path = "common/combinations.rs"]
mod combinations;
mod common;
#[path = "common/evaluator.rs"]
mod evaluator;
#[path = "common/faults.rs"]
mod faults;
#[path = "common/limits.rs"]
mod limits;
#[path = "common/simulating.rs"]
mod simulating;

use circuit_calls::CIRCUIT;
use combinations::{length, with_faults, Fault};
use common::{seeds, Seen};
use limits::sizes_around_the_limits;
use reference::gates::{not, FALSE, UNCONNECTED};
use reference::gen::{all_sizes, any_sizes, circuits, damaged, sizes_with, Rng};
use reference::words::{set_word, to_bytes, word_at};
use reference::{examples, vectors, Circuit, Gates, Sizes};

#[test]
fn the_given_vectors_hold() {
    for (circuit, expected) in vectors::checked() {
        let answer = tff::check_circuit(&circuit);
        assert_eq!((answer.number, answer.place), expected);
        assert_eq!(CIRCUIT.check(0, &circuit), [expected.0, expected.1]);
    }
}

#[test]
fn parity_simulates_to_its_truth_table() {
    let file = examples::parity().to_bytes();
    for (words, outputs) in [
        ([0, 0], [0, 0, 9]),
        ([0, 1], [0, 1, 9]),
        ([1, 0], [1, 1, 9]),
        ([1, 1], [1, 0, 9]),
    ] {
        let mut result = [9; 3];
        let answer = tff::simulate_one(&file, &words, &mut result);
        assert_eq!((answer.number, answer.place), (0, 2));
        assert_eq!(result, outputs);
    }
}

#[test]
fn legal_circuits_of_all_shapes_are_simulated() {
    for seed in seeds(40) {
        let mut rng = Rng::new(seed);
        for sizes in all_sizes() {
            let gates = sizes.output_gates() + rng.below(60);
            let file = circuits::legal(&mut rng, sizes, gates).to_bytes();
            CIRCUIT.accepts(seed, &file, &sizes, 3);
        }
    }
}

#[test]
fn every_sequence_of_small_circuits_is_simulated() {
    for seed in seeds(1_000) {
        let circuit = circuits::any_legal(&mut Rng::new(seed), 7, 40);
        CIRCUIT.accepts_every_sequence(seed, &circuit.to_bytes(), &circuit.sizes);
    }
}

#[test]
fn circuits_at_the_limits_are_simulated() {
    for seed in seeds(6) {
        for (sizes, gates) in circuits::limits() {
            let file = circuits::legal(&mut Rng::new(seed), sizes, gates).to_bytes();
            CIRCUIT.accepts(seed, &file, &sizes, 12);
        }
    }
}

#[test]
fn unrolled_machines_are_simulated() {
    for seed in seeds(6_000) {
        let mut rng = Rng::new(seed);
        let sizes = any_sizes(&mut rng, Sizes::MOST_SIGNALS);
        let memory = rng.below(5);
        let file = circuits::unrolled(&mut rng, sizes, memory).to_bytes();
        CIRCUIT.accepts(seed, &file, &sizes, 4);
    }
}

#[test]
fn lengths_other_than_the_exact_one_are_refused() {
    for seed in seeds(30) {
        let circuit = circuits::any_legal(&mut Rng::new(seed), 16, 10);
        CIRCUIT.judges_lengths(seed, &circuit.to_bytes());
    }
}

#[test]
fn every_head_near_the_limits_is_judged() {
    let mut seen = Seen::default();
    for [inputs, outputs, frames] in sizes_around_the_limits() {
        let least = outputs.wrapping_mul(frames);
        let below = least.wrapping_sub(1);
        for gates in [0, below, least, 4095, 4096, 4097, u16::MAX] {
            let head = to_bytes(&[inputs, outputs, frames, gates]);
            seen.note(CIRCUIT.check(0, &head));
        }
    }
    seen.expect(&[1, 2]);
}

#[test]
fn gate_counts_are_judged_at_their_limits() {
    for sizes in all_sizes() {
        let least = sizes.output_gates();
        for gates in [least - 1, least, 4096, 4097] {
            let mut file = to_bytes(&sizes.words());
            file.extend_from_slice(&(gates as u16).to_le_bytes());
            file.resize(8 + 4 * gates, 0);
            let legal = (least..=4096).contains(&gates);
            CIRCUIT.finds(gates as u64, &file, (!legal).then_some([2, 6]));
        }
    }
}

#[test]
fn each_literal_is_judged_at_its_limit() {
    let mut seen = Seen::default();
    for seed in seeds(60) {
        let circuit = circuits::any_legal(&mut Rng::new(seed), 16, 12);
        let mut file = circuit.to_bytes();
        for index in 0..2 * circuit.gates() {
            let (at, gate) = (8 + 2 * index, index % circuit.gates());
            // The literals of a mark are judged together.
            if circuit.is_unconnected(gate) {
                continue;
            }
            let legal = word_at(&file, at);
            let limit = circuit.literal_limit(gate) as u16;
            for high in [limit, limit + 1, u16::MAX] {
                set_word(&mut file, at, high);
                CIRCUIT.finds(seed, &file, Some([3, at as u64]));
            }
            for highest in [limit - 2, limit - 1] {
                set_word(&mut file, at, highest);
                seen.note(CIRCUIT.check(seed, &file));
            }
            set_word(&mut file, at, legal);
        }
    }
    seen.expect(&[0, 3, 4]);
}

#[test]
fn the_first_high_literal_in_file_order_is_named() {
    for seed in seeds(1_000) {
        let mut rng = Rng::new(seed);
        let sizes = any_sizes(&mut rng, 16);
        let gates = sizes.output_gates() + rng.below(12);
        let mut file = circuits::connected(&mut rng, sizes, gates).to_bytes();
        let places = [0; 3].map(|_| 8 + 2 * rng.below(2 * gates));
        // Not 65,535, which two of them could make a mark of.
        for place in places {
            set_word(&mut file, place, u16::MAX - 1);
        }
        let first = places.into_iter().min().map_or(0, |place| place as u64);
        CIRCUIT.finds(seed, &file, Some([3, first]));
    }
}

/// Nothing is connected to the first of two outputs of two frames; three gates come before them.
fn partly_connected() -> Vec<u8> {
    let circuit = Circuit {
        sizes: Sizes::new(1, 2, 2),
        left: vec![2, 3, 4, UNCONNECTED, 2, 6, 8],
        right: vec![1, 1, 1, UNCONNECTED, 1, 4, 4],
    };
    circuit.to_bytes()
}

/// Faults of that circuit, in the order in which they are judged. Its left literals are at 8 to 20, its
/// right ones at 22 to 34; literals 12 and 13 name the unconnected output, the gate in the middle.
const FAULTS: [Fault<Vec<u8>>; 16] = [
    (|file| file.truncate(7), length),
    (|file| set_word(file, 0, 9), |_| [2, 0]),
    (|file| set_word(file, 6, 3), |_| [2, 6]),
    (|file| file.push(0), length),
    (|file| set_word(file, 8, 6), |_| [3, 8]),
    // A mark on a gate that is no output.
    (|file| set_words(file, [10, 24], UNCONNECTED), |_| [3, 10]),
    // Half a mark, then the name of the unconnected output.
    (|file| set_word(file, 16, UNCONNECTED), |_| [3, 16]),
    (|file| set_word(file, 18, 12), |_| [3, 18]),
    (|file| set_word(file, 20, 13), |_| [3, 20]),
    (|file| set_word(file, 22, 7), |_| [3, 22]),
    (|file| set_word(file, 26, UNCONNECTED), |_| [3, 26]),
    (|file| set_word(file, 30, 13), |_| [3, 30]),
    (|file| set_word(file, 32, UNCONNECTED), |_| [3, 32]),
    (|file| set_word(file, 34, 12), |_| [3, 34]),
    // The second output of frame 1 shows the input of frame 2; and it does so by a gate.
    (|file| set_word(file, 16, 4), |_| [4, 1]),
    (|file| set_word(file, 16, 10), |_| [4, 1]),
];

fn set_words(file: &mut [u8], places: [usize; 2], word: u16) {
    for at in places {
        set_word(file, at, word);
    }
}

#[test]
fn every_combination_of_faults_is_refused_for_the_first() {
    for (file, first) in with_faults(&partly_connected(), &FAULTS) {
        CIRCUIT.finds(0, &file, first);
    }
}

#[test]
fn each_output_may_show_its_own_frame_and_no_later_one() {
    for seed in seeds(100) {
        let mut rng = Rng::new(seed);
        let sizes = any_sizes(&mut rng, 8);
        for output in 0..sizes.output_gates() {
            for signal in 1..=sizes.input_signals() {
                finds_one_input_shown(seed, sizes, output, signal);
            }
        }
    }
}

#[test]
fn first_and_last_outputs_of_frames_show_them_among_the_most_sequences() {
    for (inputs, frames) in [(1, 16), (2, 8), (4, 4), (8, 2)] {
        for outputs in [1, 3, 16] {
            let sizes = Sizes::new(inputs, outputs, frames);
            for output in 0..sizes.output_gates() {
                if [0, outputs - 1].contains(&(output % outputs)) {
                    shows_its_own_frame(sizes, output);
                }
            }
        }
    }
}

/// An output may show the last input of its frame, and not the one after it.
fn shows_its_own_frame(sizes: Sizes, output: usize) {
    let own = last_input_of(&sizes, output);
    finds_one_input_shown(0, sizes, output, own);
    if own < sizes.input_signals() {
        finds_one_input_shown(0, sizes, output, own + 1);
    }
}

/// The last input signal that an output's frame has.
fn last_input_of(sizes: &Sizes, output: usize) -> usize {
    (output / sizes.outputs + 1) * sizes.inputs
}

/// One output is an input's opposite and all others are false, so that no other can look ahead.
fn finds_one_input_shown(seed: u64, sizes: Sizes, output: usize, signal: usize) {
    let mut outputs = vec![FALSE; sizes.output_gates()];
    outputs[output] = not(2 * signal as u16);
    let file = Gates::new(sizes).finish(&outputs).to_bytes();
    let ahead = signal > last_input_of(&sizes, output);
    CIRCUIT.finds(seed, &file, ahead.then_some([4, output as u64]));
}

#[test]
fn reaching_a_later_input_without_effect_is_no_reason() {
    // An inner gate over the second input and false; the first output reads that gate, or the second
    // input itself, or neither.
    for (read, fault) in [
        (6, None),
        (7, None),
        (4, Some([4, 0])),
        (5, Some([4, 0])),
        (2, None),
    ] {
        let circuit = Circuit {
            sizes: Sizes::new(1, 1, 2),
            left: vec![4, read, 4],
            right: vec![0, 1, 1],
        };
        CIRCUIT.finds(0, &circuit.to_bytes(), fault);
    }
}

#[test]
fn circuits_with_careless_literals_are_judged() {
    // Where outputs may look ahead, the plain check goes through all sequences.
    for (count, most_signals) in [(40_000, 9), (1_000, Sizes::MOST_SIGNALS)] {
        let seen = CIRCUIT.judges(count, |rng| {
            let sizes = any_sizes(rng, most_signals);
            let gates = sizes.output_gates() + rng.below(20);
            let circuit = circuits::careless(rng, sizes, gates);
            (circuit.to_bytes(), sizes)
        });
        seen.expect(&[0, 3, 4]);
    }
}

#[test]
fn damaged_circuits_are_judged() {
    for (count, most_signals) in [(60_000, 9), (3_000, Sizes::MOST_SIGNALS)] {
        let seen = CIRCUIT.judges(count, |rng| {
            let circuit = circuits::any_legal(rng, most_signals, 12);
            (damaged(rng, &circuit.to_bytes()), circuit.sizes)
        });
        seen.expect(&[0, 1, 2, 3, 4]);
    }
}

#[test]
fn faults_of_words_and_result_are_judged_in_order() {
    for seed in seeds(60) {
        let circuit = circuits::any_legal(&mut Rng::new(seed), 16, 6);
        CIRCUIT
            .judges_words_and_result(seed, &circuit.to_bytes(), &circuit.sizes)
            .expect(&[0, 7, 9, 12]);
    }
}

#[test]
fn the_first_high_input_word_is_named() {
    for sizes in sizes_with(2) {
        let file = circuits::legal(&mut Rng::new(1), sizes, 40).to_bytes();
        CIRCUIT.names_the_first_high_word(1, &file, &sizes);
    }
}

#[test]
fn empty_slices_are_ordinary() {
    let file = examples::parity().to_bytes();
    assert_eq!(CIRCUIT.check(0, &[]), [1, 0]);
    assert_eq!(CIRCUIT.evaluate(0, &[], &[], 0), [1, 0]);
    assert_eq!(CIRCUIT.evaluate(0, &file, &[], 0), [12, 0]);
    assert_eq!(CIRCUIT.evaluate(0, &file, &[0, 1], 0), [7, 2]);
}

#[test]
fn a_short_answer_changes_nothing() {
    for seed in seeds(300) {
        let circuit = circuits::any_legal(&mut Rng::new(seed), 16, 12);
        CIRCUIT.needs_two_answers(seed, &circuit.to_bytes(), &circuit.sizes);
    }
}
