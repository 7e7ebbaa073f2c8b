//! Test vectors: the calls that the description works out, and what they answer and leave.

use crate::answer::Answer;
use crate::circuit::Circuit;
use crate::examples;
use crate::gates::UNCONNECTED;
use crate::plan::Plan;
use crate::words::{set_word, to_bytes};

/// Words of the table that parity folds to: sizes, counts, connected outputs, outputs, next states.
pub const PARITY_TABLE: [u16; 20] = [1, 1, 2, 1, 2, 1, 1, 1, 0, 1, 0, 1, 1, 0, 0, 1, 0, 0, 0, 0];

/// Words of the table of parity without its first output.
pub const UNCONNECTED_TABLE: [u16; 20] =
    [1, 1, 2, 1, 2, 1, 0, 1, 0, 0, 0, 1, 1, 0, 0, 1, 0, 0, 0, 0];

/// Numbers of the plan that asking returns for parity, with its first output or without.
pub const PARITY_PLAN: Plan = [
    1, 1, 2, 1, 2, 1, 0, 0, 0, 0, 0, 0, 0, 0, 0, 0, 0, 0, 0, 0, 40,
];

/// Left and right literals of the circuit that parity's table unfolds to.
pub const PARITY_UNFOLDED: [[u16; 17]; 2] = [
    [1, 1, 1, 1, 1, 1, 1, 1, 1, 15, 15, 17, 17, 1, 32, 19, 35],
    [3, 2, 6, 8, 11, 13, 13, 5, 4, 20, 22, 20, 22, 27, 29, 1, 1],
];

/// Left and right literals of the circuit that the table without the first output unfolds to.
pub const UNCONNECTED_UNFOLDED: [[u16; 16]; 2] = [
    [1, 1, 1, 1, 1, 1, 1, 1, 15, 15, 17, 17, 1, 30, 65_535, 33],
    [3, 2, 6, 8, 11, 13, 5, 4, 18, 20, 18, 20, 25, 27, 65_535, 1],
];

/// Nodes of parity's inputs, then with gates 1 to 5.
pub const PARITY_NODES: [usize; 6] = [2, 4, 5, 6, 6, 7];

/// Folding parity: numbers of scratch, records, bytes of result, answer.
pub const PARITY_FOLDED: [(usize, usize, usize, Answer); 12] = [
    (7, 7, 40, (6, 8)),
    (7, 0, 0, (6, 8)),
    (8, 0, 40, (18, 0)),
    (8, 1, 40, (18, 0)),
    (8, 2, 40, (18, 1)),
    (8, 3, 40, (18, 1)),
    (8, 4, 40, (18, 2)),
    (8, 5, 40, (18, 3)),
    (8, 6, 40, (18, 5)),
    (8, 6, 39, (18, 5)),
    (8, 7, 39, (7, 40)),
    (8, 7, 40, (0, 40)),
];

/// Sizes n, m, T, the places of inputs and of outputs, and what spreading plain parity then answers with
/// enough of all that is lent.
type Spread = ([u16; 3], &'static [u16], &'static [u16], Answer);

pub const PARITY_SPREAD: [Spread; 28] = [
    // As over frames, in one frame, and with places that nothing has.
    ([1, 1, 2], &[0, 1], &[0, 1], (0, 40)),
    ([2, 2, 1], &[0, 1], &[0, 1], (0, 28)),
    ([2, 2, 1], &[1, 0], &[1, 0], (0, 28)),
    ([1, 2, 2], &[0, 1], &[0, 3], (0, 40)),
    ([1, 2, 2], &[0, 1], &[2, 3], (0, 40)),
    ([1, 1, 3], &[0, 2], &[0, 2], (0, 60)),
    ([1, 1, 3], &[1, 0], &[1, 2], (0, 60)),
    // The first output shows the first input, and the second needs both.
    ([1, 1, 2], &[1, 0], &[0, 1], (4, 0)),
    ([1, 1, 2], &[0, 1], &[1, 0], (4, 0)),
    ([1, 2, 2], &[0, 1], &[0, 1], (4, 1)),
    ([1, 2, 2], &[1, 0], &[3, 0], (4, 0)),
    ([1, 1, 3], &[0, 2], &[0, 1], (4, 1)),
    ([0, 0, 0], &[], &[], (2, 0)),
    ([9, 1, 1], &[0, 1], &[0, 1], (2, 0)),
    ([1, 0, 0], &[], &[], (2, 2)),
    ([1, 17, 2], &[0, 1], &[0, 1], (2, 2)),
    ([1, 1, 0], &[], &[], (2, 4)),
    ([1, 1, 17], &[0, 1], &[0, 1], (2, 4)),
    ([8, 1, 3], &[0, 1], &[0, 1], (2, 4)),
    ([1, 1, 2], &[0], &[], (12, 1)),
    ([1, 1, 2], &[2, 2, 2], &[0, 1], (12, 3)),
    ([1, 1, 2], &[2, 2], &[], (12, 0)),
    ([1, 1, 2], &[0, 1], &[0, 1, 2], (12, 3)),
    ([1, 1, 2], &[0, 2], &[0, 2], (19, 1)),
    ([1, 1, 2], &[0, 0], &[0, 2], (19, 3)),
    ([1, 1, 2], &[1, 1], &[0, 0], (20, 1)),
    ([1, 1, 2], &[0, 1], &[1, 1], (20, 3)),
    ([2, 2, 1], &[0, 1], &[1, 1], (20, 3)),
];

/// Circuits and what checking them answers.
pub fn checked() -> Vec<(Vec<u8>, Answer)> {
    let [parity, unconnected] =
        [examples::parity(), examples::unconnected()].map(|circuit| circuit.to_bytes());
    let parity_with = |at, word| with(&parity, at, word);
    vec![
        (parity.clone(), (0, 0)),
        (parity[..27].to_vec(), (1, 27)),
        (parity_with(0, 0), (2, 0)),
        (to_bytes(&[8, 1, 3, 16]), (2, 4)),
        // Within limits, so that the missing gates are found.
        (to_bytes(&[8, 1, 2, 16]), (1, 8)),
        (parity_with(8, 6), (3, 8)),
        (parity_with(8, 5), (0, 0)),
        (parity_with(14, 4), (4, 0)),
        // Nothing is connected to the first output; the second may not name it, with either literal.
        (unconnected.clone(), (0, 0)),
        (with(&unconnected, 16, 12), (3, 16)),
        (with(&unconnected, 26, 13), (3, 26)),
        // Half a mark is a literal that is too high, and the third gate is no output.
        (parity_with(14, UNCONNECTED), (3, 14)),
        (parity_with(24, UNCONNECTED), (3, 24)),
        (
            with(&parity_with(12, UNCONNECTED), 22, UNCONNECTED),
            (3, 12),
        ),
    ]
}

/// Tables and what checking them answers.
pub fn tables_checked() -> Vec<(Vec<u8>, Answer)> {
    let parity = to_bytes(&PARITY_TABLE);
    let former = [&parity[..12], &parity[16..]].concat();
    vec![
        (parity.clone(), (0, 0)),
        (to_bytes(&UNCONNECTED_TABLE), (0, 0)),
        (parity[..15].to_vec(), (1, 15)),
        (parity[..16].to_vec(), (1, 16)),
        (former, (1, 36)),
        (with(&parity, 12, 2), (2, 12)),
        (with(&parity, 14, 2), (2, 14)),
        // The outputs of the first frame are those of entries 0 and 1, of the second those of 2 to 5.
        (with(&parity, 12, 0), (5, 18)),
        (with(&parity, 14, 0), (5, 22)),
    ]
}

/// `file` with another word at byte offset `at`.
fn with(file: &[u8], at: usize, word: u16) -> Vec<u8> {
    let mut changed = file.to_vec();
    set_word(&mut changed, at, word);
    changed
}

/// Circuits and the counts of states that they fold to.
pub fn counts() -> Vec<(Circuit, Vec<u16>)> {
    vec![
        (examples::parity(), vec![1, 2, 1]),
        (examples::identity(), vec![1, 1]),
        (examples::silent(), vec![1, 1, 1]),
        (examples::delayed(), vec![1, 2, 2, 1]),
        (examples::adder(), vec![1, 2, 2, 1]),
        (examples::s27(), vec![1, 4, 4, 1]),
        (examples::unconnected(), vec![1, 2, 1]),
        (examples::unconnected_adder(), vec![1, 2, 2, 1]),
    ]
}

/// Windows, a minute, and what parity's first step on the word 1 then answers. Where the
/// minute is not quiet its output is 1; accepted, it leads to state 1 of layer 1.
pub fn quiet_steps() -> Vec<(Vec<u16>, u16, [u64; 3])> {
    // Sunday 22:00 to Monday 6:00.
    let night = vec![9_960, 360];
    let mut steps = vec![
        (vec![], 0, [0, 0, 1]),
        (vec![0, 1], 0, [0, 0, 0]),
        (vec![0, 1], 1, [0, 0, 1]),
        (vec![0, 10_079], 10_078, [0, 0, 0]),
        (vec![0, 10_079], 10_079, [0, 0, 1]),
        (vec![7], 0, [15, 0, 0]),
        (vec![7, 7], 0, [15, 0, 0]),
        (vec![0, 1, 7], 0, [15, 1, 0]),
        (vec![0, 1, 10_080, 2], 0, [15, 1, 0]),
        (vec![0, 1, 2, 10_080], 0, [15, 1, 0]),
        ([0, 1].repeat(32), 0, [0, 0, 0]),
        ([0, 1].repeat(33), 0, [15, 32, 0]),
        (vec![7], 10_080, [15, 0, 0]),
        (vec![], 10_080, [16, 0, 0]),
    ];
    let quiet = [9_960, 10_079, 0, 359].map(|minute| (minute, 0));
    let not_quiet = [9_959, 360, 5_000].map(|minute| (minute, 1));
    for (minute, output) in quiet.into_iter().chain(not_quiet) {
        steps.push((night.clone(), minute, [0, 0, output]));
    }
    steps
}

/// A mask, input words, numbers of result, and what a view then answers and shows.
type View = (u16, &'static [u16], usize, Answer, &'static [u16]);

/// Views of parity's table.
pub const VIEWS: [View; 11] = [
    (1, &[1, 0], 2, (0, 2), &[1, 1]),
    (1, &[1, 1], 2, (0, 2), &[1, 0]),
    (0, &[1, 0], 2, (0, 2), &[0, 0]),
    (1, &[0, 1], 3, (0, 2), &[0, 1]),
    (2, &[1, 0], 2, (17, 0), &[]),
    (3, &[1, 2, 0], 1, (17, 0), &[]),
    (u16::MAX, &[], 0, (17, 0), &[]),
    (1, &[1, 2, 0], 1, (12, 3), &[]),
    (0, &[], 0, (12, 0), &[]),
    (1, &[1, 2], 1, (9, 1), &[]),
    (0, &[1, 0], 1, (7, 2), &[]),
];

/// A layer, and what asking for its output words in parity's table answers: number, place, offset and
/// length.
pub const LAYERS: [(u16, [u64; 4]); 5] = [
    (0, [0, 0, 16, 4]),
    (1, [0, 0, 20, 8]),
    (2, [0, 0, 0, 0]),
    (3, [11, 3, 0, 0]),
    (u16::MAX, [11, 65_535, 0, 0]),
];

#[cfg(test)]
mod tests {
    use super::*;
    use crate::gen::{circuits, Rng};
    use crate::program::printed;
    use crate::{
        ask, check_circuit, check_table, commit, fold, fold_diagrams, layer_outputs, node_counts,
        nodes_needed, plain_fold, quiet_step, run, simulate, spread, step, unfold, view, Node,
        Position, Schedule, Sizes, Table,
    };

    /// The table that a circuit folds to, with just enough records; all three ways to fold must find
    /// the same.
    fn folded(circuit: &Circuit) -> Vec<u8> {
        let records = nodes_needed(circuit);
        let circuit = circuit.to_bytes();
        let by_search = |circuit: &[u8], scratch: &mut [u16], _: &mut [Node], result: &mut [u8]| {
            plain_fold(circuit, scratch, result)
        };
        let [by_definition, by_diagrams, by_search] =
            [fold, fold_diagrams, by_search].map(|fold| {
                let mut nodes = vec![[7; 3]; records];
                let mut result = vec![0xee; 1 << 14];
                let (number, length) =
                    fold(&circuit, &mut vec![7; 1 << 13], &mut nodes, &mut result);
                assert_eq!(number, 0);
                assert!(result[length as usize..].iter().all(|&byte| byte == 0xee));
                result.truncate(length as usize);
                result
            });
        assert!(by_definition == by_diagrams);
        assert!(by_definition == by_search);
        by_definition
    }

    fn unfolded(table: &[u8]) -> Circuit {
        let mut result = vec![0; 1 << 15];
        let (number, length) = unfold(table, &mut result);
        assert_eq!(number, 0);
        Circuit::read(&result[..length as usize]).unwrap()
    }

    #[test]
    fn parity_is_the_given_words() {
        let words = [1, 1, 2, 5, 2, 3, 7, 2, 11, 5, 4, 9, 1, 1];
        assert_eq!(examples::parity().to_bytes(), to_bytes(&words));
    }

    #[test]
    fn circuits_are_checked_as_given() {
        for (circuit, answer) in checked() {
            assert_eq!(check_circuit(&circuit), answer);
        }
    }

    #[test]
    fn tables_are_checked_as_given() {
        for (table, answer) in tables_checked() {
            assert_eq!(check_table(&table), answer);
        }
    }

    #[test]
    fn parity_folds_to_the_given_40_bytes() {
        let table = folded(&examples::parity());
        assert_eq!(table, to_bytes(&PARITY_TABLE));
        assert_eq!(table.len(), 40);
        let table = folded(&examples::unconnected());
        assert_eq!(table, to_bytes(&UNCONNECTED_TABLE));
    }

    #[test]
    fn parity_unfolds_to_the_given_17_gates() {
        let circuit = unfolded(&to_bytes(&PARITY_TABLE));
        assert_eq!(circuit.sizes, examples::parity().sizes);
        assert_eq!([&circuit.left[..], &circuit.right], PARITY_UNFOLDED);
    }

    #[test]
    fn parity_without_its_first_output_unfolds_to_the_given_16_gates() {
        let circuit = unfolded(&to_bytes(&UNCONNECTED_TABLE));
        assert_eq!([&circuit.left[..], &circuit.right], UNCONNECTED_UNFOLDED);
    }

    #[test]
    fn circuits_fold_to_the_given_counts() {
        for (circuit, expected) in counts() {
            assert_eq!(
                Table::read(&folded(&circuit)).unwrap().head.counts,
                expected
            );
        }
    }

    #[test]
    fn states_add_up_as_in_the_sources() {
        let [adder, s27] = [examples::adder(), examples::s27()]
            .map(|circuit| Table::read(&folded(&circuit)).unwrap().head.counts)
            .map(|counts| counts.into_iter().sum::<u16>());
        assert_eq!((adder, s27), (6, 10));
    }

    #[test]
    fn adders_add() {
        for circuit in [examples::adder(), examples::unconnected_adder()] {
            adds(&circuit.to_bytes());
        }
    }

    fn adds(circuit: &[u8]) {
        for (a, b) in (0..64).map(|both| (both / 8, both % 8)) {
            let words = [0, 1, 2].map(|bit| (a >> bit & 1) + 2 * (b >> bit & 1));
            let mut outputs = [9; 3];
            assert_eq!(simulate(circuit, 1, &words, &mut outputs), (0, 3));
            let sum = a + b;
            let expected = [sum & 1, sum >> 1 & 1, (sum >> 2 & 1) + 2 * (sum >> 3)];
            assert_eq!(outputs, expected);
        }
    }

    /// A call with so much room gives this answer and leaves what belongs to it.
    fn assert_left(
        (numbers, records, bytes): (usize, usize, usize),
        answer: Answer,
        call: impl FnOnce(&mut [u16], &mut [Node], &mut [u8]) -> Answer,
    ) {
        let (mut scratch, mut result) = (vec![7; numbers + 1], vec![0xee; bytes]);
        let mut nodes = vec![[7; 3]; records];
        let found = call(&mut scratch[..numbers], &mut nodes, &mut result);
        assert_eq!(found, answer);
        // Enough scratch is cleared and no more of it, and so are all records; a refusal leaves the
        // result.
        let (cleared, left) = if answer.0 == 6 {
            (0, [7; 3])
        } else {
            (8, [0; 3])
        };
        assert!(scratch[..cleared].iter().all(|&number| number == 0));
        assert!(scratch[cleared..].iter().all(|&number| number == 7));
        assert!(nodes.iter().all(|&node| node == left));
        assert_eq!(answer.0 != 0, result.iter().all(|&byte| byte == 0xee));
    }

    #[test]
    fn lent_slices_are_judged_as_given() {
        let circuit = examples::parity().to_bytes();
        for (numbers, records, bytes, answer) in PARITY_FOLDED {
            for fold in [fold, fold_diagrams] {
                assert_left(
                    (numbers, records, bytes),
                    answer,
                    |scratch, nodes, result| fold(&circuit, scratch, nodes, result),
                );
            }
        }
    }

    /// Plain parity is a network of the same gates, so that it is judged as parity is.
    #[test]
    fn lent_slices_are_judged_as_given_for_plain_parity() {
        let network = examples::plain_parity().to_bytes();
        let schedule = Schedule {
            sizes: [1, 1, 2],
            input_places: vec![0, 1],
            output_places: vec![0, 1],
        };
        for (numbers, records, bytes, answer) in PARITY_FOLDED {
            assert_left(
                (numbers, records, bytes),
                answer,
                |scratch, nodes, result| spread(&network, &schedule, scratch, nodes, result),
            );
        }
    }

    #[test]
    fn plain_parity_is_spread_as_given() {
        let network = examples::plain_parity().to_bytes();
        for (sizes, input_places, output_places, answer) in PARITY_SPREAD {
            let schedule = Schedule {
                sizes,
                input_places: input_places.to_vec(),
                output_places: output_places.to_vec(),
            };
            let (mut scratch, mut nodes, mut result) = ([7; 16], [[7; 3]; 9], [0xee; 60]);
            let found = spread(&network, &schedule, &mut scratch, &mut nodes, &mut result);
            assert_eq!(found, answer, "{schedule:?}");
            if sizes == [1, 1, 2] && answer.0 == 0 {
                assert_eq!(result[..40], to_bytes(&PARITY_TABLE));
            }
        }
    }

    #[test]
    fn a_plan_is_judged_after_scratch_and_nodes_and_before_result() {
        let circuit = examples::parity().to_bytes();
        for (numbers, records, bytes, answer) in PARITY_FOLDED {
            let refusal = if matches!(answer.0, 6 | 18) {
                answer
            } else {
                (14, 0)
            };
            for (plan, answer) in [(&PARITY_PLAN[..], answer), (&PARITY_PLAN[..20], refusal)] {
                assert_left(
                    (numbers, records, bytes),
                    answer,
                    |scratch, nodes, result| commit(&circuit, plan, scratch, nodes, result),
                );
            }
        }
    }

    #[test]
    fn parity_has_the_given_nodes() {
        for circuit in [examples::parity(), examples::unconnected()] {
            assert!(node_counts(&circuit).eq(PARITY_NODES));
        }
    }

    #[test]
    fn parity_has_the_given_plan() {
        for circuit in [examples::parity(), examples::unconnected()] {
            let mut scratch = [7; 9];
            let mut nodes = [[7; 3]; 8];
            let asked = ask(&circuit.to_bytes(), &mut scratch, &mut nodes);
            assert_eq!((asked.number, asked.place), (0, 0));
            assert_eq!(asked.plan, PARITY_PLAN);
            assert_eq!(scratch, [0, 0, 0, 0, 0, 0, 0, 0, 7]);
            assert_eq!(nodes, [[0; 3]; 8]);
        }
    }

    #[test]
    fn a_step_from_the_last_layer_is_refused() {
        let stepped = step(&to_bytes(&PARITY_TABLE), 2, 0, 0);
        assert_eq!((stepped.number, stepped.place), (10, 2));
        assert_eq!((stepped.output, stepped.layer, stepped.state), (0, 2, 0));
    }

    #[test]
    fn parity_is_quiet_as_given() {
        let table = to_bytes(&PARITY_TABLE);
        for (windows, minute, expected) in quiet_steps() {
            let mut position = Position::default();
            let stepped = quiet_step(&table, &windows, minute, &mut position, 1);
            assert_eq!(<[u64; 3]>::from(stepped), expected);
            let moved = if expected[0] == 0 { 1 } else { 0 };
            assert_eq!((position.layer, position.state), (moved, moved));
        }
    }

    #[test]
    fn parity_is_viewed_as_given() {
        for table in [PARITY_TABLE, UNCONNECTED_TABLE] {
            for (mask, words, room, answer, shown) in VIEWS {
                let mut expected = shown.to_vec();
                // Without its first output, parity differs in frame 1 alone.
                if table == UNCONNECTED_TABLE && answer.0 == 0 {
                    expected[0] = 0;
                }
                let mut result = vec![7; room];
                assert_eq!(view(&to_bytes(&table), mask, words, &mut result), answer);
                expected.resize(room, 7);
                assert_eq!(result, expected);
            }
        }
    }

    #[test]
    fn the_layers_of_parity_stand_as_given() {
        for table in [PARITY_TABLE, UNCONNECTED_TABLE].map(|words| to_bytes(&words)) {
            for (layer, expected) in LAYERS {
                assert_eq!(<[u64; 4]>::from(layer_outputs(&table, layer)), expected);
            }
            let cut = layer_outputs(&table[..39], 3);
            assert_eq!(<[u64; 4]>::from(cut), [1, 39, 0, 0]);
        }
    }

    #[test]
    fn the_program_prints_the_counts() {
        let lines = "layer states\n0 1\n1 2\n2 1\ntotal 4\n";
        assert_eq!(printed(&examples::parity().to_bytes()), lines);
    }

    #[test]
    fn the_program_prints_a_refusal() {
        let bytes = examples::parity().to_bytes();
        assert_eq!(printed(&bytes[..27]), "refused 1 27\n");
        let long = [bytes, vec![0; 20_000]].concat();
        assert_eq!(printed(&long), "refused 1 16393\n");
    }

    #[test]
    fn all_ways_to_fold_agree() {
        let mut rng = Rng::new(1);
        for _ in 0..300 {
            folded(&circuits::any_legal(&mut rng, 8, 60));
        }
    }

    #[test]
    fn tables_and_unfolded_circuits_give_the_outputs_of_the_circuit() {
        let mut rng = Rng::new(2);
        for _ in 0..100 {
            let circuit = circuits::any_legal(&mut rng, 6, 40);
            let table = folded(&circuit);
            let back = unfolded(&table);
            let sizes = circuit.sizes;
            for sequence in 0..sizes.histories(sizes.frames) {
                let words = sizes.history_words(sizes.frames, sequence);
                let mut outputs = vec![0; sizes.frames];
                assert_eq!(run(&table, &words, &mut outputs).0, 0);
                assert_eq!(outputs, circuit.outputs_on(&words));
                assert_eq!(outputs, back.outputs_on(&words));
            }
            assert!(folded(&back) == table);
        }
    }

    #[test]
    fn every_history_can_have_a_state_of_its_own() {
        let sizes = Sizes::new(1, 11, 16);
        let circuit = circuits::many_states(sizes, 200).to_bytes();
        let mut result = vec![0; 1 << 20];
        let (mut scratch, mut nodes) = (vec![0; 1 << 17], vec![[0; 3]; 1 << 10]);
        assert_eq!(fold(&circuit, &mut scratch, &mut nodes, &mut result).0, 0);
        let mut counts: Vec<u16> = (0..16).map(|layer| 1 << layer).collect();
        counts.push(1);
        assert_eq!(result[6..40], to_bytes(&counts));
    }
}
