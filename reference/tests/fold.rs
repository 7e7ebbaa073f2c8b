//! The proved fold against the plain one.

mod common;
#[path = "common/folded.rs"]
mod folded;
#[path = "common/folding.rs"]
mod folding;
#[path = "common/outputs.rs"]
mod outputs;
#[path = "common/to_fold.rs"]
mod to_fold;

use common::{seeds, short_answers_change_nothing, Room, Seen};
use folded::folded;
use folding::{ample, call_fold, fold, fold_case, longest_table, scratch_needed};
use outputs::assert_same_outputs;
use reference::gen::{any_sizes, circuits, damaged, sizes_with, Rng};
use reference::vectors::{self, PARITY_FOLDED, PARITY_TABLE};
use reference::words::to_bytes;
use reference::{examples, nodes_needed, Circuit, Sizes, Table};

/// What no record is left as.
const DIRTY: tff::Node = tff::Node {
    level: 1,
    low: 0,
    high: 1,
};

/// A legal circuit is folded with ample room; gives the bytes written.
fn accepts(seed: u64, circuit: &Circuit) -> usize {
    let [number, place] = fold(seed, &circuit.to_bytes(), ample(circuit));
    assert_eq!(number, 0);
    place as usize
}

#[test]
fn parity_folds_to_the_given_bytes() {
    let parity = examples::parity();
    assert_eq!(folded(&parity.to_bytes()), to_bytes(&PARITY_TABLE));
    accepts(0, &parity);
}

#[test]
fn parity_is_folded_only_with_the_given_room() {
    let file = examples::parity().to_bytes();
    for (numbers, records, bytes, expected) in PARITY_FOLDED {
        let mut nodes = vec![DIRTY; records];
        let (mut scratch, mut result) = (vec![1; numbers], vec![1; bytes]);
        let answer = tff::fold(&file, &mut scratch, &mut nodes, &mut result);
        assert_eq!((answer.number, answer.place), expected);
        let left = if expected.0 == 6 {
            DIRTY
        } else {
            tff::Node::default()
        };
        assert_eq!(nodes, vec![left; records]);
        let room = Room {
            numbers,
            records,
            bytes,
        };
        assert_eq!(fold(0, &file, room), [expected.0, expected.1]);
    }
}

#[test]
fn circuits_of_the_sources_fold_to_the_given_counts() {
    for (circuit, expected) in vectors::counts() {
        let table = Table::read(&folded(&circuit.to_bytes())).unwrap();
        assert_eq!(table.head.counts, expected);
        accepts(0, &circuit);
    }
}

#[test]
fn every_behaviour_of_one_input_one_output_and_three_frames_is_folded() {
    for (seed, circuit) in to_fold::every_behaviour(Sizes::new(1, 1, 3)) {
        accepts(seed, &circuit);
    }
}

#[test]
fn every_behaviour_of_one_input_two_outputs_and_two_frames_is_folded() {
    for (seed, circuit) in to_fold::every_behaviour(Sizes::new(1, 2, 2)) {
        accepts(seed, &circuit);
    }
}

#[test]
fn random_circuits_are_folded() {
    for (seed, circuit) in to_fold::random() {
        accepts(seed, &circuit);
    }
}

#[test]
fn unrolled_machines_are_folded() {
    for (seed, circuit) in to_fold::unrolled() {
        accepts(seed, &circuit);
    }
}

#[test]
fn the_order_of_the_gates_changes_no_byte() {
    for seed in seeds(300) {
        let mut rng = Rng::new(seed);
        let sizes = any_sizes(&mut rng, 10);
        let circuit = circuits::legal(&mut rng, sizes, sizes.output_gates() + 60);
        let reordered = circuits::reordered(&mut rng, &circuit);
        assert_ne!(reordered, circuit);
        accepts(seed, &reordered);
        assert_eq!(folded(&reordered.to_bytes()), folded(&circuit.to_bytes()));
    }
}

#[test]
fn circuits_of_all_shapes_are_folded() {
    for seed in seeds(2) {
        let mut rng = Rng::new(seed);
        for sizes in sizes_with(3) {
            let gates = sizes.output_gates() + 30;
            accepts(seed, &circuits::legal(&mut rng, sizes, gates));
        }
    }
}

#[test]
fn circuits_with_most_gates_and_sequences_are_folded() {
    for seed in seeds(1) {
        for (inputs, frames, gates) in [(1, 16, 500), (2, 8, 500), (4, 4, 500), (8, 2, 4096)] {
            let sizes = Sizes::new(inputs, 3, frames);
            accepts(seed, &circuits::legal(&mut Rng::new(seed), sizes, gates));
        }
    }
}

#[test]
fn most_states_are_numbered() {
    for circuit in to_fold::most_states() {
        assert_eq!(accepts(0, &circuit), longest_table(&circuit.sizes));
    }
}

#[test]
fn few_states_are_found_among_most_sequences() {
    for (circuit, counts) in to_fold::few_states() {
        let entries = counts.iter().sum::<usize>() * circuit.sizes.input_words();
        let bytes = 8 + 4 * circuit.sizes.frames + 4 * entries;
        assert_eq!(accepts(0, &circuit), bytes);
    }
}

#[test]
fn folded_tables_run_as_their_circuits_simulate() {
    for seed in seeds(300) {
        let circuit = circuits::any_legal(&mut Rng::new(seed), 7, 60);
        let file = circuit.to_bytes();
        assert_same_outputs(&circuit.sizes, &file, &folded(&file));
    }
}

#[test]
fn circuits_with_faults_are_refused_and_change_nothing() {
    let mut seen = Seen::default();
    for (seed, file, room) in to_fold::with_faults() {
        seen.note(fold(seed, &file, room));
    }
    seen.expect(&[0, 1, 2, 3, 4, 6, 18]);
}

#[test]
fn scratch_is_judged_from_the_sizes_alone() {
    for (circuit, too_short) in to_fold::short_of_scratch() {
        let file = circuit.to_bytes();
        let needed = scratch_needed(&circuit.sizes);
        for numbers in too_short {
            for (records, bytes) in [(0, 0), (0, 100), (100, 0), (100, 100)] {
                let room = Room {
                    numbers,
                    records,
                    bytes,
                };
                assert_eq!(fold(0, &file, room), [6, needed as u64]);
            }
        }
    }
}

#[test]
fn what_is_lent_is_judged_at_the_needed_lengths() {
    for seed in seeds(150) {
        let circuit = circuits::any_legal(&mut Rng::new(seed), 8, 40);
        let file = circuit.to_bytes();
        let scratch = scratch_needed(&circuit.sizes);
        let length = accepts(seed, &circuit);
        let needed = nodes_needed(&circuit);
        for numbers in [0, scratch - 1, scratch, scratch + 1, scratch + 100] {
            for records in [0, needed - 1, needed, needed + 1, needed + 100] {
                for bytes in [0, 7, 8, length - 1, length, length + 1, length + 100] {
                    let room = Room {
                        numbers,
                        records,
                        bytes,
                    };
                    let [number, place] = fold(seed, &file, room);
                    if numbers < scratch {
                        assert_eq!([number, place], [6, scratch as u64]);
                    } else if records < needed {
                        assert_eq!(number, 18);
                    } else if bytes < length {
                        assert_eq!([number, place], [7, length as u64]);
                    } else {
                        assert_eq!([number, place], [0, length as u64]);
                    }
                }
            }
        }
    }
}

#[test]
fn the_circuit_is_judged_before_what_is_lent() {
    let mut seen = Seen::default();
    for seed in seeds(2_000) {
        let mut rng = Rng::new(seed);
        let circuit = circuits::any_legal(&mut rng, 16, 6);
        let file = damaged(&mut rng, &circuit.to_bytes());
        seen.note(fold(seed, &file, Room::default()));
    }
    seen.expect(&[1, 2, 3, 4, 6]);
}

#[test]
fn empty_slices_are_ordinary() {
    assert_eq!(fold(0, &[], Room::default()), [1, 0]);
    let file = examples::parity().to_bytes();
    assert_eq!(fold(0, &file, Room::default()), [6, 8]);
    let scratch_alone = Room {
        numbers: 8,
        ..Room::default()
    };
    assert_eq!(fold(0, &file, scratch_alone), [18, 0]);
    let without_result = Room {
        records: 7,
        ..scratch_alone
    };
    assert_eq!(fold(0, &file, without_result), [7, 40]);
}

#[test]
fn a_short_answer_changes_nothing() {
    for seed in seeds(300) {
        let circuit = circuits::any_legal(&mut Rng::new(seed), 8, 20);
        let file = circuit.to_bytes();
        for room in [Room::default(), ample(&circuit)] {
            let case = fold_case(seed, &file);
            short_answers_change_nothing(&case, room, 2, |lent, answer| {
                call_fold(&file, lent, answer)
            });
        }
    }
}
