//! Asking for a plan and committing to it: the proved calls against the plain ones and against the
//! proved fold.

mod common;
#[path = "common/folded.rs"]
mod folded;
#[path = "common/folding.rs"]
mod folding;
#[path = "common/planning.rs"]
mod planning;
#[path = "common/to_fold.rs"]
mod to_fold;

use std::collections::BTreeSet;

use common::{seeds, short_answers_change_nothing, Room, Seen};
use folded::folded;
use folding::{ample, call_fold, fold, longest_table, scratch_needed};
use planning::{ask, ask_case, call_ask, call_commit, commit, commit_case, committed};
use reference::gates::{FALSE, UNCONNECTED};
use reference::gen::{all_sizes, any_sizes, circuits, look_ahead, sizes_with, Rng};
use reference::vectors::{self, PARITY_FOLDED, PARITY_PLAN, PARITY_TABLE};
use reference::words::{set_word, to_bytes, word_at, words_at};
use reference::{examples, node_counts, nodes_needed, Circuit, Plan, Sizes};

/// Scratch and records, and no result.
fn without_result(numbers: usize, records: usize) -> Room {
    Room {
        numbers,
        records,
        bytes: 0,
    }
}

/// What asking must answer for a refusal: no plan.
fn without_plan(number: u64, place: usize) -> [u64; 23] {
    let mut answer = [0; 23];
    answer[..2].copy_from_slice(&[number, place as u64]);
    answer
}

/// Commits to a plan with the proved library, which must answer and leave what its fold does.
fn commit_as_fold(seed: u64, file: &[u8], plan: &Plan, room: Room) -> [u64; 2] {
    committed(seed, file, plan, room, |lent| {
        let mut answer = [0; 2];
        call_fold(file, lent, &mut answer);
        answer
    })
}

/// A list that is not the circuit's plan is refused with ample room, of which the needed scratch and
/// all records are cleared and nothing else changed.
fn refuses(seed: u64, circuit: &Circuit, list: &[u64]) {
    let needed = scratch_needed(&circuit.sizes);
    let room = ample(circuit);
    committed(seed, &circuit.to_bytes(), list, room, |lent| {
        lent.numbers[..needed].fill(0);
        lent.nodes.fill([0; 3]);
        [14, 0]
    });
}

/// The proved plan of a legal circuit.
fn asked(circuit: &Circuit) -> Plan {
    let mut scratch = vec![1; scratch_needed(&circuit.sizes)];
    let plan = tff::Nodes::up_to(tff::Nodes::ENOUGH).ask(&circuit.to_bytes(), &mut scratch);
    plan.expect("a legal circuit").numbers()
}

/// What no record is left as.
const DIRTY: tff::Node = tff::Node {
    level: 1,
    low: 0,
    high: 1,
};

/// The plan that a table shows: the words of its head, and its length.
fn shown(table: &[u8]) -> Plan {
    let frames = usize::from(word_at(table, 4));
    let mut plan = [0; 21];
    for (number, word) in plan.iter_mut().zip(words_at(table, 0, 4 + frames)) {
        *number = u64::from(word);
    }
    plan[20] = table.len() as u64;
    plan
}

/// A legal circuit has the plan that its folded table shows, and is folded where that is committed
/// to. Gives the plan.
fn accepts(seed: u64, circuit: &Circuit) -> Plan {
    let (file, room) = (circuit.to_bytes(), ample(circuit));
    let [number, place, plan @ ..] = ask(seed, &file, room);
    assert_eq!([number, place], [0, 0]);
    assert_eq!(plan, shown(&folded(&file)));
    assert_eq!(commit_as_fold(seed, &file, &plan, room), [0, plan[20]]);
    plan
}

/// `plan` with one number changed.
fn with(plan: &Plan, index: usize, number: u64) -> Plan {
    let mut changed = *plan;
    changed[index] = number;
    changed
}

/// Plans that differ in one number each: by 1, altogether, in one of `bits`, or from it upward.
fn with_one_changed(plan: &Plan, bits: &[u32]) -> Vec<Plan> {
    let mut all = Vec::new();
    for (index, &old) in plan.iter().enumerate() {
        let mut numbers = BTreeSet::from([old.wrapping_add(1), old.wrapping_sub(1), 0, u64::MAX]);
        for bit in bits {
            numbers.extend([old ^ 1 << bit, old | u64::MAX << bit]);
        }
        numbers.remove(&old);
        all.extend(numbers.iter().map(|&number| with(plan, index, number)));
    }
    all
}

/// Wrong plans whose numbers fit together, or are the right ones at other places.
fn plausible(plan: &Plan) -> Vec<Plan> {
    let (frames, state_bytes) = (plan[2] as usize, 4 << plan[0]);
    let mut all = Vec::new();
    let mut add = |change: &dyn Fn(&mut Plan)| {
        let mut other = *plan;
        change(&mut other);
        all.push(other);
    };
    for count in 4..3 + frames {
        add(&|plan| {
            plan[count] += 1;
            plan[20] += state_bytes;
        });
        add(&|plan| {
            plan[count] -= 1;
            plan[20] -= state_bytes;
        });
        // As many states as before, in other layers.
        add(&|plan| {
            plan[count] += 1;
            plan[count - 1] -= 1;
        });
    }
    add(&|plan| plan[4 + frames..20].fill(1));
    add(&|plan| plan[3..4 + frames].reverse());
    add(&|plan| plan.swap(0, 1));
    add(&|plan| plan.rotate_right(1));
    all.retain(|other| other != plan);
    all
}

#[test]
fn parity_has_the_given_plan() {
    let (file, mut scratch) = (examples::parity().to_bytes(), [7; 11]);
    let plan = tff::Plan {
        inputs: 1,
        outputs: 1,
        frames: 2,
        counts: [1, 2, 1, 0, 0, 0, 0, 0, 0, 0, 0, 0, 0, 0, 0, 0, 0],
        bytes: 40,
    };
    let mut nodes = [DIRTY; 9];
    assert_eq!(tff::ask(&file, &mut scratch, &mut nodes), Ok(plan));
    assert_eq!(scratch, [0, 0, 0, 0, 0, 0, 0, 0, 7, 7, 7]);
    assert_eq!(nodes, [tff::Node::default(); 9]);
    assert_eq!(accepts(0, &examples::parity()), PARITY_PLAN);
}

#[test]
fn numbers_of_a_plan_keep_their_order() {
    let numbers = std::array::from_fn(|index| index as u64);
    let plan = tff::Plan::from(numbers);
    assert_eq!([plan.inputs, plan.outputs, plan.frames], [0, 1, 2]);
    assert!(plan.counts.into_iter().eq(3..20));
    assert_eq!(plan.bytes, 20);
    assert_eq!(plan.numbers(), numbers);
}

#[test]
fn parity_is_refused_a_plan_as_given() {
    let file = examples::parity().to_bytes();
    for (file, numbers, records, number, place) in [
        (&file[..27], 8, 0, 1, 27),
        (&file[..27], 8, 7, 1, 27),
        (&file[..], 7, 0, 6, 8),
        (&file[..], 7, 7, 6, 8),
        (&file[..], 8, 0, 18, 0),
        (&file[..], 8, 6, 18, 5),
    ] {
        let (mut scratch, mut nodes) = (vec![7; numbers], vec![DIRTY; records]);
        let refusal = tff::Answer { number, place };
        assert_eq!(tff::ask(file, &mut scratch, &mut nodes), Err(refusal));
        let (number_left, node_left) = if number == 18 {
            (0, tff::Node::default())
        } else {
            (7, DIRTY)
        };
        assert_eq!(scratch, vec![number_left; numbers]);
        assert_eq!(nodes, vec![node_left; records]);
        let expected = without_plan(number, place as usize);
        assert_eq!(ask(0, file, without_result(numbers, records)), expected);
    }
}

#[test]
fn parity_is_folded_only_with_its_plan_and_the_given_room() {
    let file = examples::parity().to_bytes();
    let other = with(&PARITY_PLAN, 4, 1);
    for (numbers, records, bytes, folded) in PARITY_FOLDED {
        let refused = if matches!(folded.0, 6 | 18) {
            folded
        } else {
            (14, 0)
        };
        for (plan, expected) in [(PARITY_PLAN, folded), (other, refused)] {
            let (mut scratch, mut result) = (vec![7; numbers], vec![0xee; bytes]);
            let mut nodes = vec![DIRTY; records];
            let answer = tff::commit(&file, &plan.into(), &mut scratch, &mut nodes, &mut result);
            assert_eq!((answer.number, answer.place), expected);
            let (number_left, node_left) = if numbers < 8 {
                (7, DIRTY)
            } else {
                (0, tff::Node::default())
            };
            assert_eq!(scratch, vec![number_left; numbers]);
            assert_eq!(nodes, vec![node_left; records]);
            let written = match expected.0 {
                0 => to_bytes(&PARITY_TABLE),
                _ => vec![0xee; bytes],
            };
            assert_eq!(result, written);
            let room = Room {
                numbers,
                records,
                bytes,
            };
            let answer = commit(0, &file, &plan, room);
            assert_eq!(answer, [expected.0, expected.1]);
        }
    }
}

#[test]
fn circuits_of_the_sources_have_the_given_plans() {
    // Bytes of the tables: the head, and 4 for each word and state before the last layer.
    let bytes = [40, 20, 32, 60, 100, 596, 40, 100];
    for ((circuit, counts), bytes) in vectors::counts().into_iter().zip(bytes) {
        let sizes = circuit.sizes;
        let mut expected = vec![sizes.inputs, sizes.outputs, sizes.frames];
        expected.extend(counts.into_iter().map(usize::from));
        expected.resize(20, 0);
        expected.push(bytes);
        let plan = accepts(0, &circuit).map(|number| number as usize);
        assert_eq!(plan, expected[..]);
    }
}

#[test]
fn every_behaviour_of_one_input_one_output_and_three_frames_is_planned() {
    for (seed, circuit) in to_fold::every_behaviour(Sizes::new(1, 1, 3)) {
        accepts(seed, &circuit);
    }
}

#[test]
fn random_circuits_are_planned() {
    for (seed, circuit) in to_fold::random() {
        accepts(seed, &circuit);
    }
}

#[test]
fn unrolled_machines_are_planned() {
    for (seed, circuit) in to_fold::unrolled() {
        accepts(seed, &circuit);
    }
}

#[test]
fn circuits_of_all_shapes_are_planned() {
    let mut rng = Rng::new(0);
    let narrow = all_sizes()
        .into_iter()
        .filter(|sizes| sizes.input_signals() <= 8);
    for sizes in sizes_with(3).into_iter().chain(narrow) {
        let gates = sizes.output_gates() + 30;
        accepts(0, &circuits::legal(&mut rng, sizes, gates));
    }
}

#[test]
fn most_states_are_planned() {
    for circuit in to_fold::most_states() {
        let sizes = circuit.sizes;
        let plan = accepts(0, &circuit);
        for layer in 0..sizes.frames {
            assert_eq!(plan[3 + layer], sizes.histories(layer) as u64);
        }
        assert_eq!(plan[20] as usize, longest_table(&sizes));
    }
}

#[test]
fn few_states_are_planned_among_most_sequences() {
    for (circuit, mut counts) in to_fold::few_states() {
        counts.push(1);
        let plan = accepts(0, &circuit).map(|number| number as usize);
        assert_eq!(plan[3..4 + circuit.sizes.frames], counts);
    }
}

#[test]
fn circuits_with_equal_outputs_have_one_plan() {
    for seed in seeds(300) {
        let mut rng = Rng::new(seed);
        let circuit = circuits::any_legal(&mut rng, 8, 30);
        let gates = look_ahead::gates_crossed_out(&circuit);
        let crossed = look_ahead::crossed_out(&mut rng, &circuit, gates);
        let reordered = circuits::reordered(&mut rng, &circuit);
        let plan = accepts(seed, &circuit);
        assert_eq!(accepts(seed, &crossed), plan);
        assert_eq!(accepts(seed, &reordered), plan);
    }
}

#[test]
fn committing_to_the_asked_plan_is_folding_in_every_room() {
    for seed in seeds(100) {
        let circuit = circuits::any_legal(&mut Rng::new(seed), 8, 40);
        let file = circuit.to_bytes();
        let scratch = scratch_needed(&circuit.sizes);
        let needed = nodes_needed(&circuit);
        let plan = asked(&circuit);
        let length = plan[20] as usize;
        for numbers in [0, scratch - 1, scratch, scratch + 1, scratch + 100] {
            for records in [0, needed - 1, needed, needed + 50] {
                let answer = ask(seed, &file, without_result(numbers, records));
                if numbers < scratch {
                    assert_eq!(answer, without_plan(6, scratch));
                } else if records < needed {
                    assert_eq!(answer, without_plan(18, answer[1] as usize));
                } else {
                    assert_eq!(answer[..2], [0, 0]);
                    assert_eq!(answer[2..], plan);
                }
                for bytes in [0, length - 1, length, length + 100] {
                    let room = Room {
                        numbers,
                        records,
                        bytes,
                    };
                    // Each compares two calls in all that they answer and leave: so all four agree.
                    fold(seed, &file, room);
                    commit_as_fold(seed, &file, &plan, room);
                    commit(seed, &file, &plan, room);
                }
            }
        }
    }
}

#[test]
fn every_bit_of_a_plan_matters() {
    let bits: Vec<u32> = (0..64).collect();
    for seed in seeds(20) {
        let circuit = circuits::any_legal(&mut Rng::new(seed), 6, 30);
        let file = circuit.to_bytes();
        for list in with_one_changed(&asked(&circuit), &bits) {
            let answer = commit(seed, &file, &list, ample(&circuit));
            assert_eq!(answer, [14, 0]);
        }
    }
}

#[test]
fn every_number_of_a_plan_matters_with_any_number_of_frames() {
    for sizes in sizes_with(2) {
        if sizes.input_signals() <= 12 {
            let gates = sizes.output_gates() + 30;
            let circuit = circuits::legal(&mut Rng::new(1), sizes, gates);
            for list in with_one_changed(&asked(&circuit), &[16, 32, 63]) {
                refuses(0, &circuit, &list);
            }
        }
    }
    for frames in 13..=16 {
        let circuit = circuits::few_states(1, frames, 200);
        for list in with_one_changed(&asked(&circuit), &[16]) {
            refuses(0, &circuit, &list);
        }
    }
}

#[test]
fn every_number_of_a_plan_matters_with_most_states() {
    let sizes = Sizes::new(1, 16, 16);
    let circuit = circuits::many_states(sizes, sizes.output_gates());
    for list in with_one_changed(&asked(&circuit), &[8, 16]) {
        refuses(0, &circuit, &list);
    }
}

#[test]
fn plans_whose_numbers_fit_together_are_refused_all_the_same() {
    for seed in seeds(500) {
        let mut rng = Rng::new(seed);
        let sizes = any_sizes(&mut rng, 8);
        for circuit in [
            circuits::legal(&mut rng, sizes, sizes.output_gates() + 30),
            circuits::unrolled(&mut rng, sizes, 2),
        ] {
            for list in plausible(&asked(&circuit)) {
                refuses(seed, &circuit, &list);
            }
        }
    }
}

#[test]
fn the_plan_of_another_circuit_serves_only_where_it_is_the_same() {
    let mut seen = Seen::default();
    for seed in seeds(3_000) {
        let mut rng = Rng::new(seed);
        let sizes = any_sizes(&mut rng, 8);
        let others = any_sizes(&mut rng, 8);
        let [circuit, other] = [sizes, rng.pick(&[sizes, others])].map(|sizes| {
            let gates = sizes.output_gates() + rng.below(12);
            circuits::legal(&mut rng, sizes, gates)
        });
        let [plan, list] = [&circuit, &other].map(asked);
        let answer = commit(seed, &circuit.to_bytes(), &list, ample(&circuit));
        let expected = if list == plan { [0, plan[20]] } else { [14, 0] };
        assert_eq!(answer, expected);
        // Other sizes alone make another plan, and the same circuit has the same.
        if other.sizes == sizes && other != circuit {
            seen.note(answer);
        }
    }
    seen.expect(&[0, 14]);
}

#[test]
fn lists_that_are_not_21_numbers_long_are_refused() {
    for seed in seeds(100) {
        let circuit = circuits::any_legal(&mut Rng::new(seed), 8, 30);
        let plan = asked(&circuit);
        // What stands behind a list is the rest of the plan, or what could be taken for more of it.
        let longer = [&plan[..], &[0; 5]].concat();
        let twice = [plan, plan].concat();
        let whole_answer = [&[0, 0], &plan[..]].concat();
        for list in [&longer, &twice, &whole_answer] {
            for length in (0..=list.len()).filter(|&length| list[..length] != plan) {
                refuses(seed, &circuit, &list[..length]);
            }
        }
        for number in [0, 1, u64::MAX] {
            for length in [0, 1, 2, 20, 21, 22, 23] {
                refuses(seed, &circuit, &vec![number; length]);
            }
        }
    }
}

/// A circuit with each kind of fault and without: what its check answers, and its bytes.
fn with_each_fault(circuit: &Circuit, sequence: usize) -> Vec<([u64; 2], Vec<u8>)> {
    let file = circuit.to_bytes();
    let with_words = |words: &[(usize, u16)]| {
        let mut changed = file.clone();
        for &(at, word) in words {
            set_word(&mut changed, at, word);
        }
        changed
    };
    let cut = file[..file.len() - 1].to_vec();
    // Literals of the first gate, which is no output, and of the last, which is one.
    let (first_right, last_left) = (8 + 2 * circuit.gates(), 6 + 2 * circuit.gates());
    let last_right = file.len() - 2;
    let looking = look_ahead::inverted_on(circuit, 0, sequence);
    vec![
        ([1, 7], file[..7].to_vec()),
        ([2, 0], with_words(&[(0, 0)])),
        ([2, 6], with_words(&[(6, u16::MAX)])),
        ([1, cut.len() as u64], cut),
        ([3, 8], with_words(&[(8, u16::MAX)])),
        (
            [3, 8],
            with_words(&[(8, UNCONNECTED), (first_right, UNCONNECTED)]),
        ),
        (
            [3, last_right as u64],
            with_words(&[(last_left, FALSE), (last_right, UNCONNECTED)]),
        ),
        ([4, 0], looking.to_bytes()),
        ([0, 0], file),
    ]
}

#[test]
fn of_several_reasons_the_first_in_order_is_given() {
    for seed in seeds(150) {
        let mut rng = Rng::new(seed);
        let sizes = Sizes::new(rng.between(1, 3), rng.between(1, 16), rng.between(2, 3));
        let circuit = circuits::legal(&mut rng, sizes, sizes.output_gates() + 20);
        let scratch = scratch_needed(&sizes);
        let counts: Vec<usize> = node_counts(&circuit).collect();
        let needed = counts[counts.len() - 1];
        let too_many = |records: usize| counts.iter().position(|&count| count > records);
        let plan = asked(&circuit);
        let length = plan[20] as usize;
        let wrong = [0, 2, 3, 20].map(|index| with(&plan, index, plan[index] + 1));
        let mut lists = vec![&plan[..], &plan[..20], &plan[..0]];
        lists.extend(wrong.iter().map(|list| &list[..]));
        let sequence = rng.below(sizes.histories(sizes.frames));
        for (checked, file) in with_each_fault(&circuit, sequence) {
            for (numbers, records) in [
                (0, 0),
                (scratch - 1, needed),
                (scratch, 0),
                (scratch, needed - 1),
                (scratch, needed),
            ] {
                let refusal = match (checked, too_many(records)) {
                    ([0, _], _) if numbers < scratch => [6, scratch as u64],
                    ([0, _], Some(gate)) => [18, gate as u64],
                    _ => checked,
                };
                let answer = ask(seed, &file, without_result(numbers, records));
                assert_eq!(answer[..2], refusal);
                for list in &lists {
                    for bytes in [0, length - 1, length] {
                        let expected = match refusal {
                            [0, _] if *list != plan => [14, 0],
                            [0, _] if bytes < length => [7, plan[20]],
                            [0, _] => [0, plan[20]],
                            _ => refusal,
                        };
                        let room = Room {
                            numbers,
                            records,
                            bytes,
                        };
                        assert_eq!(commit(seed, &file, list, room), expected);
                    }
                }
            }
        }
    }
}

#[test]
fn circuits_with_faults_are_refused_and_change_nothing() {
    let mut seen = Seen::default();
    for (seed, file, room) in to_fold::with_faults() {
        let answer = ask(seed, &file, room);
        let [number, place, plan @ ..] = answer;
        let expected = match number {
            0 => [0, plan[20]],
            _ => [number, place],
        };
        assert_eq!(commit(seed, &file, &plan, room), expected);
        seen.note(answer);
    }
    seen.expect(&[0, 1, 2, 3, 4, 6, 18]);
}

#[test]
fn scratch_is_judged_from_the_sizes_alone() {
    for (circuit, too_short) in to_fold::short_of_scratch() {
        let (file, plan) = (circuit.to_bytes(), asked(&circuit));
        let needed = scratch_needed(&circuit.sizes);
        for numbers in too_short {
            for records in [0, 100] {
                let room = without_result(numbers, records);
                assert_eq!(ask(0, &file, room), without_plan(6, needed));
                for list in [&plan[..], &plan[..0]] {
                    let answer = commit(0, &file, list, room);
                    assert_eq!(answer, [6, needed as u64]);
                }
            }
        }
    }
}

#[test]
fn asking_and_committing_again_in_the_same_memory_give_the_same() {
    for seed in seeds(300) {
        let mut rng = Rng::new(seed);
        let circuit = circuits::any_legal(&mut rng, 10, 40);
        let file = circuit.to_bytes();
        let needed = scratch_needed(&circuit.sizes);
        let old = rng.pick(&[1, 0x8000, u16::MAX]);
        let mut scratch = vec![old; needed + 3];
        let mut nodes = vec![DIRTY; nodes_needed(&circuit) + 3];
        let assert_left = |scratch: &[u16], nodes: &[tff::Node]| {
            assert!(scratch[..needed].iter().all(|&number| number == 0));
            assert_eq!(scratch[needed..], [old; 3]);
            assert!(nodes.iter().all(|node| *node == tff::Node::default()));
        };
        let plan = tff::ask(&file, &mut scratch, &mut nodes).expect("a legal circuit");
        assert_left(&scratch, &nodes);
        assert_eq!(tff::ask(&file, &mut scratch, &mut nodes), Ok(plan));
        assert_left(&scratch, &nodes);
        let table = folded(&file);
        for _ in 0..2 {
            let mut other = plan;
            other.bytes += 1;
            let mut result = vec![0xee; table.len()];
            let answer = tff::commit(&file, &other, &mut scratch, &mut nodes, &mut result);
            assert_eq!((answer.number, answer.place), (14, 0));
            assert_left(&scratch, &nodes);
            let answer = tff::commit(&file, &plan, &mut scratch, &mut nodes, &mut result);
            assert_eq!((answer.number, answer.place), (0, plan.bytes));
            assert_left(&scratch, &nodes);
            assert_eq!(result, table);
        }
    }
}

#[test]
fn empty_slices_are_ordinary() {
    assert_eq!(ask(0, &[], Room::default()), without_plan(1, 0));
    assert_eq!(commit(0, &[], &[], Room::default()), [1, 0]);
    let file = examples::parity().to_bytes();
    assert_eq!(ask(0, &file, Room::default()), without_plan(6, 8));
    assert_eq!(ask(0, &file, without_result(8, 0)), without_plan(18, 0));
    assert_eq!(commit(0, &file, &[], Room::default()), [6, 8]);
    for (records, expected) in [(0, [[18, 0]; 2]), (7, [[14, 0], [7, 40]])] {
        let room = without_result(8, records);
        let plans = [&[], &PARITY_PLAN[..]];
        assert_eq!(plans.map(|plan| commit(0, &file, plan, room)), expected);
    }
}

#[test]
fn a_short_answer_changes_nothing() {
    for seed in seeds(200) {
        let circuit = circuits::any_legal(&mut Rng::new(seed), 8, 20);
        let file = circuit.to_bytes();
        let plan = asked(&circuit);
        for file in [&file[..], &file[1..]] {
            for room in [Room::default(), ample(&circuit)] {
                let case = ask_case(seed, file);
                short_answers_change_nothing(&case, room, 23, |lent, answer| {
                    call_ask(file, lent, answer)
                });
                for list in [&plan[..], &plan[..20]] {
                    let case = commit_case(seed, file, list);
                    short_answers_change_nothing(&case, room, 2, |lent, answer| {
                        call_commit(file, list, lent, answer)
                    });
                }
            }
        }
    }
}
