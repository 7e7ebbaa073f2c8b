//! Number 18, and what becomes of the lent records: the proved fold, ask and commit against the plain
//! ones, which count nodes by truth tables.

#[path = "common/combinations.rs"]
mod combinations;
mod common;
#[path = "common/folded.rs"]
mod folded;
#[path = "common/folding.rs"]
mod folding;
#[path = "common/planning.rs"]
mod planning;

use std::collections::BTreeSet;

use combinations::{length, with_faults, Fault};
use common::{seeds, short_answers_change_nothing, Room, Seen};
use folded::folded;
use folding::{ample, call_fold, fold, fold_case, longest_table, scratch_needed};
use planning::{ask, ask_case, call_ask, call_commit, commit, commit_case};
use reference::gates::{not, FALSE, TRUE};
use reference::gen::{any_sizes, circuits, look_ahead, sizes_with, Rng};
use reference::vectors::{PARITY_NODES, PARITY_PLAN};
use reference::{examples, node_counts, nodes_needed, Circuit, Gates, Sizes};
use tff::Nodes;

/// Ample room, but for so many records.
fn with_records(circuit: &Circuit, records: usize) -> Room {
    Room {
        numbers: scratch_needed(&circuit.sizes) + 1,
        records,
        bytes: longest_table(&circuit.sizes),
    }
}

/// The gate at which a list of so many records is too short, 0 for the inputs, if there is one.
fn first_without_room(counts: &[usize], records: usize) -> Option<usize> {
    counts.iter().position(|&count| count > records)
}

/// Folding, asking and committing with so many records are refused at that gate, or accepted.
fn judges(seed: u64, circuit: &Circuit, counts: &[usize], records: usize) -> [u64; 2] {
    let (file, room) = (circuit.to_bytes(), with_records(circuit, records));
    let answer = fold(seed, &file, room);
    let [number, place, plan @ ..] = ask(seed, &file, room);
    match first_without_room(counts, records) {
        Some(gate) => {
            assert_eq!(answer, [18, gate as u64]);
            assert_eq!([number, place], answer);
            assert_eq!(plan, [0; 21]);
        }
        None => {
            assert_eq!(answer, [0, plan[20]]);
            assert_eq!([number, place], [0, 0]);
        }
    }
    assert_eq!(commit(seed, &file, &plan, room), answer);
    answer
}

/// A circuit with every number of records that matters: each count of nodes, and one fewer. Gives how
/// many are enough.
fn judges_every_count(seed: u64, circuit: &Circuit) -> usize {
    let counts: Vec<usize> = node_counts(circuit).collect();
    let mut lengths = BTreeSet::from([0, 1]);
    for &count in &counts {
        lengths.extend([count - 1, count]);
    }
    let enough = counts[counts.len() - 1];
    lengths.extend([enough + 1, 2 * enough + 7]);
    for records in lengths {
        let answer = judges(seed, circuit, &counts, records);
        assert_eq!(answer[0] == 0, records >= enough);
    }
    enough
}

#[test]
fn parity_is_judged_as_given() {
    let parity = examples::parity();
    for (records, place) in [0, 0, 1, 1, 2, 3, 5].into_iter().enumerate() {
        let answer = judges(0, &parity, &PARITY_NODES, records);
        assert_eq!(answer, [18, place]);
    }
    for records in [7, 8, 100] {
        assert_eq!(judges(0, &parity, &PARITY_NODES, records), [0, 40]);
    }
    assert_eq!(judges_every_count(0, &parity), 7);
    assert_eq!(judges_every_count(0, &examples::unconnected()), 7);
}

#[test]
fn circuits_of_the_sources_need_the_given_records() {
    let needed = [
        (examples::identity(), 1),
        (examples::silent(), 2),
        (examples::delayed(), 3),
        (examples::crossed(), 7),
    ];
    for (circuit, records) in needed {
        assert_eq!(judges_every_count(0, &circuit), records);
    }
    for circuit in [
        examples::adder(),
        examples::unconnected_adder(),
        examples::s27(),
    ] {
        judges_every_count(0, &circuit);
    }
}

#[test]
fn random_circuits_are_judged_at_every_gate() {
    for seed in seeds(250) {
        judges_every_count(seed, &circuits::any_legal(&mut Rng::new(seed), 8, 40));
    }
}

#[test]
fn unrolled_machines_are_judged_at_every_gate() {
    for seed in seeds(60) {
        let mut rng = Rng::new(seed);
        let sizes = any_sizes(&mut rng, 8);
        judges_every_count(seed, &circuits::unrolled(&mut rng, sizes, 2));
    }
}

/// Dead gates, constants, copies, inverses, and gates equal to an earlier one.
#[test]
fn circuits_that_repeat_themselves_are_judged_at_every_gate() {
    for seed in seeds(300) {
        let mut rng = Rng::new(seed);
        let sizes = any_sizes(&mut rng, 7);
        judges_every_count(seed, &circuits::repetitive(&mut rng, sizes, 30));
    }
}

/// A circuit of three inputs over one frame with these gates and an output that is false; the outputs
/// and gates that nothing reads are counted all the same.
fn with_gates(gates: &[(u16, u16)]) -> Circuit {
    let mut made = Gates::new(Sizes::new(3, 1, 1));
    for &(left, right) in gates {
        made.and(left, right);
    }
    made.finish(&[FALSE])
}

#[test]
fn nodes_are_those_of_functions_and_not_of_gates() {
    let [a, b, c] = [2, 4, 6];
    // Gates have the literals 8, 10, and so on; beside each list, the nodes after the inputs' three.
    for (gates, expected) in [
        // Constants, whatever they are made of.
        (vec![(FALSE, a), (a, not(a)), (TRUE, TRUE), (a, 8)], [3; 4]),
        // Copies, and the same with operands exchanged.
        (vec![(a, TRUE), (b, c), (c, b), (10, 10)], [3, 4, 4, 4]),
        // Inverses: of an input one node, of an AND two.
        (
            vec![(not(a), TRUE), (not(a), not(a)), (b, c), (not(12), TRUE)],
            [4, 4, 5, 7],
        ),
        // An inverted operand that no gate shows has no node of its own; where a decides, the rest
        // is the inverse of b.
        (
            vec![(a, not(b)), (not(b), a), (not(b), TRUE), (not(c), not(8))],
            [5, 5, 5, 8],
        ),
        // The inverse of an inverse is there already.
        (
            vec![(a, b), (not(8), TRUE), (not(10), TRUE), (8, not(10))],
            [4, 6, 6, 6],
        ),
    ] {
        let circuit = with_gates(&gates);
        let counts: Vec<usize> = node_counts(&circuit).collect();
        assert_eq!(counts[0], 3);
        assert_eq!(counts[1..5], expected);
        judges_every_count(0, &circuit);
    }
}

#[test]
fn every_input_has_a_node_whether_or_not_it_is_read() {
    for sizes in sizes_with(2) {
        let inputs = sizes.input_signals();
        let silent = Gates::new(sizes).finish(&vec![FALSE; sizes.output_gates()]);
        let nothing = circuits::with_connected(&silent, &vec![0; sizes.frames]);
        for circuit in [silent, nothing] {
            let file = circuit.to_bytes();
            for records in 0..inputs {
                let answer = fold(0, &file, with_records(&circuit, records));
                assert_eq!(answer, [18, 0]);
            }
            let [number, _] = fold(0, &file, with_records(&circuit, inputs));
            assert_eq!(number, 0);
        }
    }
}

#[test]
fn unconnected_outputs_have_no_node() {
    for seed in seeds(150) {
        let mut rng = Rng::new(seed);
        let sizes = any_sizes(&mut rng, 8);
        let circuit = circuits::connected(&mut rng, sizes, sizes.output_gates() + 20);
        let connected = reference::gen::any_connected(&mut rng, &sizes);
        let made = circuits::with_connected(&circuit, &connected);
        judges_every_count(seed, &made);
        // Of the outputs alone, those that are left count and no others.
        let nothing = circuits::with_connected(&circuit, &vec![0; sizes.frames]);
        let inner = node_counts(&nothing).nth(nothing.first_output());
        assert_eq!(Some(nodes_needed(&nothing)), inner);
        judges_every_count(seed, &nothing);
    }
}

#[test]
fn the_order_of_the_gates_changes_the_place_and_not_how_many_are_enough() {
    let mut seen = Seen::default();
    for seed in seeds(200) {
        let mut rng = Rng::new(seed);
        let sizes = any_sizes(&mut rng, 8);
        let circuit = circuits::legal(&mut rng, sizes, sizes.output_gates() + 30);
        let reordered = circuits::reordered(&mut rng, &circuit);
        let enough = nodes_needed(&circuit);
        assert_eq!(judges_every_count(seed, &reordered), enough);
        let [first, second] = [&circuit, &reordered]
            .map(|of| fold(seed, &of.to_bytes(), with_records(of, enough * 2 / 3)));
        assert_eq!(first[0], second[0]);
        seen.note([u64::from(first != second)]);
    }
    seen.expect(&[0, 1]);
}

#[test]
fn circuits_of_all_shapes_are_judged_with_enough_records_and_one_fewer() {
    for sizes in sizes_with(3) {
        let gates = sizes.output_gates() + 30;
        let circuit = circuits::legal(&mut Rng::new(9), sizes, gates);
        let counts: Vec<usize> = node_counts(&circuit).collect();
        let enough = counts[counts.len() - 1];
        assert_eq!(judges(9, &circuit, &counts, enough)[0], 0);
        assert_eq!(judges(9, &circuit, &counts, enough - 1)[0], 18);
    }
}

#[test]
fn circuits_with_most_gates_and_sequences_are_judged_with_enough_records_and_one_fewer() {
    let mut rng = Rng::new(3);
    let sizes = Sizes::new(8, 3, 2);
    for circuit in [
        circuits::connected(&mut rng, sizes, 1_000),
        circuits::repetitive(&mut rng, Sizes::new(2, 2, 8), 4_000),
        circuits::few_states(1, 16, Circuit::MOST_GATES),
    ] {
        let counts: Vec<usize> = node_counts(&circuit).collect();
        let enough = counts[counts.len() - 1];
        let file = circuit.to_bytes();
        let half = first_without_room(&counts, enough / 2).expect("more nodes");
        let last = first_without_room(&counts, enough - 1).expect("a node more");
        // The proved calls alone: with so many sequences the plain ones take their time.
        let mut scratch = vec![7; scratch_needed(&circuit.sizes)];
        let mut result = vec![7; longest_table(&circuit.sizes)];
        for (records, expected) in [(enough / 2, half), (enough - 1, last)] {
            let mut nodes = vec![DIRTY; records];
            let answer = tff::fold(&file, &mut scratch, &mut nodes, &mut result);
            assert_eq!((answer.number, answer.place), (18, expected as u64));
            assert!(is_clear(&nodes));
            let refusal = tff::ask(&file, &mut scratch, &mut nodes);
            assert_eq!(refusal, Err(answer));
        }
        let mut nodes = vec![DIRTY; enough];
        assert!(result.iter().all(|&byte| byte == 7));
        let answer = tff::fold(&file, &mut scratch, &mut nodes, &mut result);
        assert_eq!(answer.number, 0);
        assert!(is_clear(&nodes));
        assert_eq!(result[..answer.place as usize], folded(&file));
    }
}

/// What no record is left as.
const DIRTY: tff::Node = tff::Node {
    level: 1,
    low: 0,
    high: 1,
};

fn is_clear(nodes: &[tff::Node]) -> bool {
    nodes.iter().all(|node| *node == tff::Node::default())
}

/// Lists that hold what could be taken for nodes of the circuit, all alike.
#[test]
fn what_a_list_held_before_changes_nothing() {
    for seed in seeds(100) {
        let mut rng = Rng::new(seed);
        let circuit = circuits::any_legal(&mut rng, 8, 40);
        let file = circuit.to_bytes();
        let table = folded(&file);
        let enough = nodes_needed(&circuit);
        let inputs = circuit.sizes.input_signals() as u32;
        for level in [1, inputs, inputs + 1, u32::MAX] {
            for (low, high) in [(0, 1), (1, 0), (0, 0), (2, 3), (u32::MAX, u32::MAX)] {
                let held = tff::Node { level, low, high };
                let mut scratch = vec![u16::MAX; scratch_needed(&circuit.sizes)];
                let mut result = vec![0xee; table.len()];
                let mut nodes = vec![held; enough];
                let answer = tff::fold(&file, &mut scratch, &mut nodes, &mut result);
                assert_eq!((answer.number, answer.place), (0, table.len() as u64));
                assert_eq!(result, table);
                assert!(is_clear(&nodes));
                let mut nodes = vec![held; enough - 1];
                let answer = tff::fold(&file, &mut scratch, &mut nodes, &mut result);
                assert_eq!(answer.number, 18);
                assert!(is_clear(&nodes));
            }
        }
    }
}

#[test]
fn longer_lists_change_nothing() {
    for seed in seeds(60) {
        let circuit = circuits::any_legal(&mut Rng::new(seed), 9, 60);
        let counts: Vec<usize> = node_counts(&circuit).collect();
        let enough = counts[counts.len() - 1];
        let accepted = judges(seed, &circuit, &counts, enough);
        for records in [enough + 1, enough + 2, 2 * enough, 4_096, 16_384, 65_537] {
            assert_eq!(judges(seed, &circuit, &counts, records), accepted);
        }
    }
}

/// All that a call which folds is given.
#[derive(Clone)]
struct Given {
    file: Vec<u8>,
    room: Room,
    plan: Vec<u64>,
    /// What names each fault: the output that looks ahead, the scratch, the gate, and the bytes.
    names: [u64; 4],
    /// The circuit that looks ahead.
    looking: Vec<u8>,
}

/// Reasons of a refusal in the order in which they are judged.
const REASONS: [Fault<Given>; 6] = [
    (|given| given.file.truncate(30), |given| length(&given.file)),
    (
        |given| given.file = given.looking.clone(),
        |given| [4, given.names[0]],
    ),
    (|given| given.room.numbers -= 1, |given| [6, given.names[1]]),
    (
        |given| given.room.records -= 1,
        |given| [18, given.names[2]],
    ),
    (|given| given.plan[4] ^= 1, |_| [14, 0]),
    (|given| given.room.bytes -= 1, |given| [7, given.names[3]]),
];

#[test]
fn of_several_reasons_the_first_in_order_is_given() {
    for seed in seeds(200) {
        let mut rng = Rng::new(seed);
        let sizes = Sizes::new(rng.between(1, 3), rng.between(1, 16), rng.between(2, 3));
        let circuit = circuits::legal(&mut rng, sizes, sizes.output_gates() + 20);
        let file = circuit.to_bytes();
        let counts: Vec<usize> = node_counts(&circuit).collect();
        let records = counts[counts.len() - 1];
        let gate = first_without_room(&counts, records - 1).expect("a node more");
        let [_, _, plan @ ..] = ask(seed, &file, ample(&circuit));
        let early = look_ahead::outputs_before_last_frame(&sizes);
        let (output, sequence) = (rng.below(early), rng.below(sizes.histories(sizes.frames)));
        let looking = look_ahead::inverted_on(&circuit, output, sequence).to_bytes();
        let scratch = scratch_needed(&sizes);
        let given = Given {
            file,
            room: Room {
                numbers: scratch,
                records,
                bytes: plan[20] as usize,
            },
            plan: plan.to_vec(),
            names: [output as u64, scratch as u64, gate as u64, plan[20]],
            looking,
        };
        for (given, first) in with_faults(&given, &REASONS) {
            let Given {
                file, room, plan, ..
            } = &given;
            let accepted = [0, room.bytes as u64];
            let committed = commit(seed, file, plan, *room);
            assert_eq!(committed, first.unwrap_or(accepted));
            // Folding has no plan to judge, and asking no result either.
            let folded = fold(seed, file, *room);
            let without_plan = match committed {
                [14, _] if room.bytes < given.names[3] as usize => [7, given.names[3]],
                [14, _] => accepted,
                answer => answer,
            };
            assert_eq!(folded, without_plan);
            let [number, place, ..] = ask(seed, file, *room);
            let expected = match committed {
                [0 | 7 | 14, _] => [0, 0],
                answer => answer,
            };
            assert_eq!([number, place], expected);
        }
    }
}

#[test]
fn a_wrong_plan_is_judged_after_the_records_and_before_the_result() {
    let parity = examples::parity();
    let file = parity.to_bytes();
    for records in 0..=9 {
        for bytes in [0, 39, 40] {
            let room = Room {
                numbers: 8,
                records,
                bytes,
            };
            for length in [0, 20, 21] {
                let list = &PARITY_PLAN[..length];
                let expected = match first_without_room(&PARITY_NODES, records) {
                    Some(gate) => [18, gate as u64],
                    None if length < 21 => [14, 0],
                    None if bytes < 40 => [7, 40],
                    None => [0, 40],
                };
                assert_eq!(commit(0, &file, list, room), expected);
            }
        }
    }
}

#[test]
fn a_short_answer_changes_nothing_with_any_records() {
    for seed in seeds(100) {
        let circuit = circuits::any_legal(&mut Rng::new(seed), 8, 20);
        let (file, enough) = (circuit.to_bytes(), nodes_needed(&circuit));
        for records in [0, enough - 1, enough] {
            let room = with_records(&circuit, records);
            let case = fold_case(seed, &file);
            short_answers_change_nothing(&case, room, 2, |lent, answer| {
                call_fold(&file, lent, answer)
            });
            let case = ask_case(seed, &file);
            short_answers_change_nothing(&case, room, 23, |lent, answer| {
                call_ask(&file, lent, answer)
            });
            let case = commit_case(seed, &file, &[]);
            short_answers_change_nothing(&case, room, 2, |lent, answer| {
                call_commit(&file, &[], lent, answer)
            });
        }
    }
}

/// The circuit that a table unfolds to, or nothing where it has too many gates.
fn unfolded(table: &[u8]) -> Option<Circuit> {
    let mut result = vec![0; 8 + 4 * Circuit::MOST_GATES];
    let answer = tff::unfold(table, &mut result);
    let file = &result[..answer.place as usize];
    (answer.number == 0).then(|| Circuit::read(file).expect("a legal circuit"))
}

#[test]
fn drawn_circuits_fold_to_the_same_bytes_where_there_are_enough_records() {
    let mut seen = Seen::default();
    for seed in seeds(200) {
        let mut rng = Rng::new(seed);
        let circuit = circuits::any_legal(&mut rng, 8, 40);
        let table = folded(&circuit.to_bytes());
        let Some(drawn) = unfolded(&table) else {
            continue;
        };
        let (enough, file) = (nodes_needed(&drawn), drawn.to_bytes());
        let mut scratch = vec![7; scratch_needed(&circuit.sizes)];
        let mut result = vec![0xee; table.len()];
        let mut nodes = vec![DIRTY; enough];
        let answer = tff::fold(&file, &mut scratch, &mut nodes, &mut result);
        assert_eq!((answer.number, answer.place), (0, table.len() as u64));
        assert_eq!(result, table);
        let [number, _] = fold(seed, &file, with_records(&drawn, enough - 1));
        assert_eq!(number, 18);
        // With what the first circuit took, the drawn one may be refused.
        let [number, _] = fold(seed, &file, with_records(&drawn, nodes_needed(&circuit)));
        seen.note([number]);
    }
    seen.expect(&[0, 18]);
}

#[test]
fn circuits_with_equal_outputs_may_part_by_18() {
    let mut seen = Seen::default();
    for seed in seeds(200) {
        let mut rng = Rng::new(seed);
        let circuit = circuits::any_legal(&mut rng, 8, 30);
        let gates = look_ahead::gates_crossed_out(&circuit);
        let crossed = look_ahead::crossed_out(&mut rng, &circuit, gates);
        let records = nodes_needed(&circuit);
        let [first, second] =
            [&circuit, &crossed].map(|of| fold(seed, &of.to_bytes(), with_records(of, records)));
        assert_eq!(first[0], 0);
        if second[0] == 0 {
            assert_eq!(second, first);
        }
        seen.note(second);
        let [first, second] = [&circuit, &crossed].map(|of| folded(&of.to_bytes()));
        assert_eq!(first, second);
    }
    seen.expect(&[0, 18]);
}

/// A circuit that has more nodes than a growing list has records at first.
fn many_nodes() -> Circuit {
    let circuit = circuits::scrambled(&mut Rng::new(1), Sizes::new(2, 2, 6), 900);
    assert!(nodes_needed(&circuit) > 2 * Nodes::FIRST);
    circuit
}

#[test]
fn growing_lists_fold_as_lists_of_enough_records() {
    let circuit = many_nodes();
    let file = circuit.to_bytes();
    let enough = nodes_needed(&circuit);
    let needed = scratch_needed(&circuit.sizes);
    let (mut scratch, mut table) = (vec![0; needed], vec![0; longest_table(&circuit.sizes)]);
    let mut nodes = vec![tff::Node::default(); enough];
    let answer = tff::fold(&file, &mut scratch, &mut nodes, &mut table);
    assert_eq!(answer.number, 0);
    let plan = tff::ask(&file, &mut scratch, &mut nodes).expect("enough records");

    for most in [enough, enough + 1, 3 * enough, Nodes::ENOUGH] {
        let mut result = vec![0; table.len()];
        let mut nodes = Nodes::up_to(most);
        assert_eq!(nodes.fold(&file, &mut scratch, &mut result), answer);
        assert_eq!(result, table);
        for mut nodes in [nodes, Nodes::up_to(most)] {
            assert_eq!(nodes.ask(&file, &mut scratch), Ok(plan));
            result.fill(0);
            let committed = nodes.commit(&file, &plan, &mut scratch, &mut result);
            assert_eq!(committed, answer);
            assert_eq!(result, table);
        }
        // Other refusals are those of the plain calls.
        let mut nodes = Nodes::up_to(most);
        let refusal = nodes.fold(&file, &mut scratch[..needed - 1], &mut result);
        assert_eq!((refusal.number, refusal.place), (6, needed as u64));
        let refusal = nodes.fold(&file, &mut scratch, &mut []);
        assert_eq!((refusal.number, refusal.place), (7, answer.place));
    }
}

#[test]
fn growing_lists_stop_at_the_most_that_they_may_have() {
    let circuit = many_nodes();
    let counts: Vec<usize> = node_counts(&circuit).collect();
    let enough = counts[counts.len() - 1];
    let file = circuit.to_bytes();
    let mut scratch = vec![0; scratch_needed(&circuit.sizes)];
    let mut result = vec![0xee; longest_table(&circuit.sizes)];
    for most in [0, 1, 12, Nodes::FIRST, Nodes::FIRST + 1, enough - 1] {
        let gate = first_without_room(&counts, most).expect("too few records");
        let refusal = tff::Answer {
            number: 18,
            place: gate as u64,
        };
        let mut nodes = Nodes::up_to(most);
        assert_eq!(nodes.fold(&file, &mut scratch, &mut result), refusal);
        assert_eq!(nodes.ask(&file, &mut scratch), Err(refusal));
        let plan = PARITY_PLAN.into();
        let committed = nodes.commit(&file, &plan, &mut scratch, &mut result);
        assert_eq!(committed, refusal);
        assert!(result.iter().all(|&byte| byte == 0xee));
    }
}
