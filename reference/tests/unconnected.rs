//! Outputs with nothing connected: their marks in circuits, their words in tables, and the way between
//! the two. The proved calls against the plain ones, against each other and against figures by hand.

#[path = "common/circuit_calls.rs"]
mod circuit_calls;
mod common;
#[path = "common/evaluator.rs"]
mod evaluator;
#[path = "common/folded.rs"]
mod folded;
#[path = "common/folding.rs"]
mod folding;
#[path = "common/simulating.rs"]
mod simulating;

use std::collections::{BTreeMap, BTreeSet};

use circuit_calls::CIRCUIT;
use common::{seeds, Seen};
use folded::folded;
use folding::{ample, fold};
use reference::gates::{not, FALSE, TRUE, UNCONNECTED};
use reference::gen::{all_sizes, any_connected, any_sequences, any_sizes, circuits, tables, Rng};
use reference::vectors::{PARITY_TABLE, UNCONNECTED_TABLE, UNCONNECTED_UNFOLDED};
use reference::words::{set_word, to_bytes, word_at, words_at};
use reference::{examples, Circuit, Gates, Sizes, Table};

/// A literal's side of its gate.
const LEFT: usize = 0;
const RIGHT: usize = 1;

/// Sizes of these inputs, outputs and frames.
fn all_of<const N: usize>(sizes: [(usize, usize, usize); N]) -> [Sizes; N] {
    sizes.map(|(inputs, outputs, frames)| Sizes::new(inputs, outputs, frames))
}

/// Byte offset of a literal.
fn at(circuit: &Circuit, side: usize, gate: usize) -> u64 {
    8 + 2 * (side * circuit.gates() + gate) as u64
}

fn set_literal(circuit: &mut Circuit, side: usize, gate: usize, literal: u16) {
    let literals = [&mut circuit.left, &mut circuit.right];
    literals[side][gate] = literal;
}

/// Gates that are all true, so that what is connected is what is 1.
fn always_true(sizes: Sizes, inner: usize) -> Circuit {
    let gates = vec![TRUE; inner + sizes.output_gates()];
    Circuit {
        sizes,
        left: gates.clone(),
        right: gates,
    }
}

/// The words of all outputs, by frame.
fn every_output(sizes: &Sizes) -> Vec<u16> {
    vec![sizes.every_output(); sizes.frames]
}

/// Every choice of outputs to connect, by frame.
fn every_connection(sizes: Sizes) -> impl Iterator<Item = Vec<u16>> {
    (0..1u32 << sizes.output_gates()).map(move |choice| {
        (0..sizes.frames)
            .map(|frame| (choice >> (frame * sizes.outputs)) as u16 & sizes.every_output())
            .collect()
    })
}

/// The words of connected outputs that a table's bytes have behind its counts.
fn connected_in(table: &[u8]) -> Vec<u16> {
    let frames = usize::from(word_at(table, 4));
    words_at(table, 8 + 2 * frames, frames)
}

/// A table's bytes with other words of connected outputs.
fn with_connected_in(table: &[u8], connected: &[u16]) -> Vec<u8> {
    let mut made = table.to_vec();
    let first = 8 + 2 * connected.len();
    made[first..first + 2 * connected.len()].copy_from_slice(&to_bytes(connected));
    made
}

/// The circuit with false outputs for those that are unconnected.
fn with_false_outputs(circuit: &Circuit) -> Circuit {
    let mut made = circuit.clone();
    for gate in circuit.first_output()..circuit.gates() {
        if circuit.is_unconnected(gate) {
            set_literal(&mut made, LEFT, gate, FALSE);
            set_literal(&mut made, RIGHT, gate, TRUE);
        }
    }
    made
}

/// A circuit whose outputs nothing names, all of them connected, and words of some of its outputs.
fn circuit_and_connection(rng: &mut Rng) -> (Circuit, Vec<u16>) {
    let sizes = any_sizes(rng, 6);
    let memory = rng.between(1, 3);
    let circuit = circuits::unrolled(rng, sizes, memory);
    (circuit, any_connected(rng, &sizes))
}

/// The proved outputs on `words`, sequence behind sequence.
fn outputs(circuit: &Circuit, words: &[u16]) -> Vec<u16> {
    let sequences: Vec<&[u16]> = words.chunks(circuit.sizes.frames).collect();
    let mut result = vec![0; words.len()];
    let answer = tff::simulate(&circuit.to_bytes(), &sequences, &mut result);
    assert_eq!((answer.number, answer.place), (0, words.len() as u64));
    result
}

/// Output words, sequence behind sequence, without the bits that are not connected.
fn masked(outputs: &[u16], connected: &[u16]) -> Vec<u16> {
    let connected = connected.iter().cycle();
    outputs.iter().zip(connected).map(|(a, b)| a & b).collect()
}

#[test]
fn an_output_is_unconnected_by_both_its_literals_and_nothing_less() {
    for sizes in all_of([(1, 1, 1), (1, 2, 3), (2, 3, 2), (1, 16, 2)]) {
        let circuit = always_true(sizes, 3);
        for gate in 0..circuit.gates() {
            let limit = circuit.literal(gate);
            let literals = [FALSE, TRUE, limit, UNCONNECTED - 1, UNCONNECTED];
            for (left, right) in literals.into_iter().flat_map(|l| literals.map(|r| (l, r))) {
                let mut changed = circuit.clone();
                set_literal(&mut changed, LEFT, gate, left);
                set_literal(&mut changed, RIGHT, gate, right);
                is_judged_by_its_literals(&changed, gate);
            }
        }
    }
}

/// A circuit in which all gates but one are true, and that one has any literals which name no gate.
fn is_judged_by_its_literals(circuit: &Circuit, gate: usize) {
    let (sizes, file) = (circuit.sizes, circuit.to_bytes());
    let [left, right] = [circuit.left[gate], circuit.right[gate]];
    let output = gate.checked_sub(circuit.first_output());
    let marked = [left, right] == [UNCONNECTED; 2];
    let fault = if marked && output.is_some() {
        None
    } else if left >= circuit.literal(gate) {
        Some([3, at(circuit, LEFT, gate)])
    } else if right >= circuit.literal(gate) {
        Some([3, at(circuit, RIGHT, gate)])
    } else {
        None
    };
    CIRCUIT.finds(0, &file, fault);
    if fault.is_none() {
        let (mut connected, mut set) = (every_output(&sizes), every_output(&sizes));
        if let Some(output) = output {
            let (frame, bit) = (output / sizes.outputs, 1 << (output % sizes.outputs));
            connected[frame] -= if marked { bit } else { 0 };
            set[frame] -= if [left, right] == [TRUE; 2] { 0 } else { bit };
        }
        assert_eq!(connected_in(&folded(&file)), connected);
        assert_eq!(outputs(circuit, &vec![0; sizes.frames]), set);
    }
}

#[test]
fn no_literal_names_an_unconnected_output() {
    for sizes in all_of([(1, 1, 2), (1, 3, 2), (2, 2, 3)]) {
        let circuit = always_true(sizes, 2);
        for gate in 0..circuit.gates() {
            for named in (circuit.first_output()..circuit.gates()).filter(|&named| named != gate) {
                names(&circuit, gate, named);
            }
        }
    }
}

#[test]
fn no_literal_names_an_unconnected_output_among_the_most() {
    let circuit = always_true(Sizes::new(1, 16, 16), 0);
    for named in 0..255 {
        names(&circuit, 255, named);
        names(&circuit, named + 1, named);
    }
}

/// A gate that names an output, with either literal and on either side, is refused where that output
/// is not connected. Half a mark, which is refused itself, does not make it so.
fn names(circuit: &Circuit, gate: usize, named: usize) {
    let own = circuit.literal(named);
    for side in [LEFT, RIGHT] {
        for literal in [own, not(own)] {
            let mut naming = circuit.clone();
            set_literal(&mut naming, side, gate, literal);
            let mut half_marked = naming.clone();
            let fault = Some([3, at(circuit, side, gate)]);
            let too_high = gate < named;
            CIRCUIT.finds(0, &naming.to_bytes(), fault.filter(|_| too_high));
            naming.mark_unconnected(named);
            CIRCUIT.finds(0, &naming.to_bytes(), fault);
            if !too_high {
                set_literal(&mut half_marked, RIGHT, named, UNCONNECTED);
                let fault = Some([3, at(circuit, RIGHT, named)]);
                CIRCUIT.finds(0, &half_marked.to_bytes(), fault);
            }
        }
    }
}

#[test]
fn marks_and_names_anywhere_are_judged() {
    let seen = CIRCUIT.judges(20_000, |rng| {
        let sizes = any_sizes(rng, 8);
        let gates = sizes.output_gates() + rng.below(4);
        let mut circuit = circuits::legal(rng, sizes, gates);
        for _ in 0..rng.between(1, 4) {
            let gate = rng.below(gates);
            let output = rng.between(circuit.first_output(), gates - 1);
            let named = circuit.literal(output) + rng.below(2) as u16;
            let literal = rng.pick(&[named, named, UNCONNECTED]);
            match rng.below(4) {
                0 => circuit.mark_unconnected(rng.pick(&[gate, output])),
                1 => set_literal(&mut circuit, LEFT, gate, literal),
                2 => set_literal(&mut circuit, RIGHT, gate, literal),
                _ => set_literal(&mut circuit, rng.below(2), gates - 1, literal),
            }
        }
        (circuit.to_bytes(), sizes)
    });
    seen.expect(&[0, 3]);
}

#[test]
fn unconnected_outputs_never_look_ahead_and_count_all_the_same() {
    for sizes in all_of([(1, 2, 3), (2, 3, 2), (1, 1, 6)]) {
        // Every output shows the last input of the last frame.
        let gates = Gates::new(sizes);
        let last = gates.input(sizes.frames - 1, sizes.inputs - 1);
        let circuit = gates.finish(&vec![last; sizes.output_gates()]);
        for connected in every_connection(sizes) {
            let file = circuits::with_connected(&circuit, &connected).to_bytes();
            let first = connected[..sizes.frames - 1]
                .iter()
                .position(|&word| word != 0)
                .map(|frame| {
                    let bit = connected[frame].trailing_zeros() as usize;
                    frame * sizes.outputs + bit
                });
            CIRCUIT.finds(0, &file, first.map(|output| [4, output as u64]));
        }
    }
}

#[test]
fn circuits_of_all_sizes_are_checked_and_simulated_with_any_outputs_connected() {
    let mut rng = Rng::new(1);
    for sizes in all_sizes() {
        let circuit = circuits::connected(&mut rng, sizes, sizes.output_gates() + 10);
        for connected in [vec![0; sizes.frames], any_connected(&mut rng, &sizes)] {
            let file = circuits::with_connected(&circuit, &connected).to_bytes();
            CIRCUIT.accepts(1, &file, &sizes, 2);
        }
    }
}

#[test]
fn unconnected_outputs_are_0_and_no_other_output_changes() {
    for seed in seeds(300) {
        let mut rng = Rng::new(seed);
        let (circuit, connected) = circuit_and_connection(&mut rng);
        let made = circuits::with_connected(&circuit, &connected);
        let words = any_sequences(&mut rng, &circuit.sizes, 32);
        let expected = masked(&outputs(&circuit, &words), &connected);
        assert_eq!(outputs(&made, &words), expected);
    }
    for sizes in all_of([(1, 2, 2), (2, 1, 3)]) {
        for connected in every_connection(sizes) {
            let made = circuits::with_connected(&always_true(sizes, 0), &connected);
            CIRCUIT.accepts_every_sequence(0, &made.to_bytes(), &sizes);
            assert_eq!(outputs(&made, &vec![0; sizes.frames]), connected);
        }
    }
}

#[test]
fn a_short_answer_changes_nothing() {
    for seed in seeds(100) {
        let (circuit, connected) = circuit_and_connection(&mut Rng::new(seed));
        let made = circuits::with_connected(&circuit, &connected);
        CIRCUIT.needs_two_answers(seed, &made.to_bytes(), &made.sizes);
    }
}

#[test]
fn folding_writes_the_connected_outputs_behind_the_counts() {
    for seed in seeds(1_000) {
        let (circuit, connected) = circuit_and_connection(&mut Rng::new(seed));
        let made = circuits::with_connected(&circuit, &connected);
        let file = made.to_bytes();
        assert_eq!(fold(seed, &file, ample(&made))[0], 0);
        assert_eq!(connected_in(&folded(&file)), connected);
    }
}

#[test]
fn an_output_that_is_always_false_is_connected() {
    let mut seen = Seen::default();
    for seed in seeds(1_000) {
        let mut rng = Rng::new(seed);
        let (circuit, connected) = circuit_and_connection(&mut rng);
        let made = circuits::with_connected(&circuit, &connected);
        let with_false = with_false_outputs(&made);
        let words = any_sequences(&mut rng, &circuit.sizes, 32);
        assert_eq!(outputs(&with_false, &words), outputs(&made, &words));
        let [table, table_with_false] = [&made, &with_false].map(|of| folded(&of.to_bytes()));
        let every = every_output(&circuit.sizes);
        assert_eq!(connected_in(&table_with_false), every);
        assert_eq!(with_connected_in(&table, &every), table_with_false);
        assert_eq!(table == table_with_false, connected == every);
        costs_and_counts_the_same(&table, &table_with_false);
        seen.note([u64::from(connected == every)]);
    }
    seen.expect(&[0, 1]);
}

/// Neither the price of a table nor its reach counts tell what is connected.
fn costs_and_counts_the_same(first: &[u8], second: &[u8]) {
    assert_eq!(tff::price(first), tff::price(second));
    let [first, second] = [first, second].map(|table| {
        let mut result = vec![0; 1 << 16];
        assert_eq!(tff::reach(table, &mut result).number, 0);
        result
    });
    assert_eq!(first, second);
}

#[test]
fn plans_do_not_tell_what_is_connected_and_committing_does() {
    for seed in seeds(300) {
        let (circuit, connected) = circuit_and_connection(&mut Rng::new(seed));
        let made = circuits::with_connected(&circuit, &connected);
        // An output that is always false has no node, as one that is not connected.
        let room = ample(&made);
        let mut scratch = vec![0; room.numbers];
        let mut nodes = vec![tff::Node::default(); room.records];
        let [file, with_false] = [&made, &with_false_outputs(&made)].map(Circuit::to_bytes);
        let plan = tff::ask(&file, &mut scratch, &mut nodes).expect("a legal circuit");
        assert_eq!(tff::ask(&with_false, &mut scratch, &mut nodes), Ok(plan));
        for file in [file, with_false] {
            let table = folded(&file);
            assert_eq!(plan.bytes, table.len() as u64);
            let mut result = vec![0xee; table.len()];
            let answer = tff::commit(&file, &plan, &mut scratch, &mut nodes, &mut result);
            assert_eq!((answer.number, answer.place), (0, plan.bytes));
            assert_eq!(result, table);
        }
    }
}

#[test]
fn circuits_fold_to_the_same_bytes_where_outputs_and_connections_agree_and_nowhere_else() {
    let narrow = (Sizes::new(1, 1, 2), 1);
    let wide = (Sizes::new(1, 2, 2), 17);
    for (sizes, every_so_many) in [narrow, wide] {
        // Two histories of one word and four of two, each with its output word.
        let behaviours = 0..1u32 << (6 * sizes.outputs);
        let mut table_of = BTreeMap::new();
        for behaviour in behaviours.step_by(every_so_many) {
            let circuit = circuits::with_outputs(sizes, |frame, history| {
                let word = 2 * frame + history;
                (behaviour >> (sizes.outputs * word)) as u16 & sizes.every_output()
            });
            for connected in every_connection(sizes) {
                let made = circuits::with_connected(&circuit, &connected);
                let table = folded(&made.to_bytes());
                let meaning = (made.outputs_on_all_sequences(), connected);
                let known = table_of.entry(meaning).or_insert_with(|| table.clone());
                assert_eq!(*known, table);
            }
        }
        let tables: BTreeSet<&Vec<u8>> = table_of.values().collect();
        assert_eq!(tables.len(), table_of.len());
    }
}

/// The connected bits of the outputs that a machine gives from its start, whatever the others are.
fn connected_outputs(machine: &Table, words: &[u16]) -> Vec<u16> {
    let mut state = 0;
    let mut outputs = Vec::new();
    for (layer, &word) in words.iter().enumerate() {
        let entry = machine.head.entry(layer, state, word);
        outputs.push(machine.output_words[entry]);
        state = machine.next_states[entry];
    }
    masked(&outputs, &machine.head.connected)
}

/// On every sequence the machine gives what is connected of the circuit's outputs.
fn rivals(circuit: &Circuit, machine: &Table) {
    let sizes = circuit.sizes;
    assert_eq!(machine.head.connected, circuit.connected());
    for sequence in 0..sizes.histories(sizes.frames) {
        let words = sizes.history_words(sizes.frames, sequence);
        let expected = outputs(circuit, &words);
        assert_eq!(connected_outputs(machine, &words), expected);
    }
}

#[test]
fn a_machine_of_equal_counts_may_differ_in_unconnected_bits_and_is_no_table_then() {
    let mut seen = Seen::default();
    for seed in seeds(300) {
        let mut rng = Rng::new(seed);
        let (circuit, connected) = circuit_and_connection(&mut rng);
        let made = circuits::with_connected(&circuit, &connected);
        let table = Table::read(&folded(&made.to_bytes())).unwrap();
        // The same machine with other numbers, and with any unconnected bits.
        let numbers = tables::any_numbers(&mut rng, &table.head.counts);
        for mut rival in [tables::renumbered(&table, &numbers), table] {
            let mut first = None;
            for (layer, connected) in connected.iter().enumerate() {
                let free = made.sizes.every_output() & !connected;
                for entry in rival.head.entries_of(layer) {
                    let set = rng.word() & free;
                    rival.output_words[entry] |= set;
                    first = first.or((set != 0).then_some(entry));
                }
            }
            rivals(&made, &rival);
            let answer = tff::check_table(&rival.to_bytes());
            let expected = first.map_or((0, 0), |entry| (5, rival.head.output_at(entry) as u64));
            assert_eq!((answer.number, answer.place), expected);
            seen.note([answer.number]);
        }
    }
    seen.expect(&[0, 5]);
}

#[test]
fn no_rival_has_fewer_states() {
    let mut seen = Seen::default();
    for seed in seeds(300) {
        let (circuit, connected) = circuit_and_connection(&mut Rng::new(seed));
        let made = circuits::with_connected(&circuit, &connected);
        let [table, mut rival] =
            [&made, &circuit].map(|of| Table::read(&folded(&of.to_bytes())).unwrap());
        // What is folded of all outputs gives the connected ones too.
        rival.head.connected = connected;
        rivals(&made, &rival);
        let mut counts = table.head.counts.iter().zip(&rival.head.counts);
        assert!(counts.clone().all(|(count, rival)| count <= rival));
        seen.note([u64::from(counts.any(|(count, rival)| count < rival))]);
    }
    // With an output less, some have fewer states and some as many.
    seen.expect(&[0, 1]);
}

/// The circuit that the proved library unfolds a table to, or its refusal.
fn unfolded(table: &[u8]) -> Result<Circuit, tff::Answer> {
    let mut result = vec![0; 8 + 4 * Circuit::MOST_GATES];
    match tff::unfold(table, &mut result) {
        tff::Answer { number: 0, place } => {
            result.truncate(place as usize);
            Ok(Circuit::read(&result).expect("a legal circuit"))
        }
        refusal => Err(refusal),
    }
}

#[test]
fn parity_folds_and_unfolds_as_by_hand_without_its_first_output() {
    let circuit = examples::unconnected();
    let table = folded(&circuit.to_bytes());
    assert_eq!(table, to_bytes(&UNCONNECTED_TABLE));
    let drawn = unfolded(&table).unwrap();
    assert_eq!([&drawn.left[..], &drawn.right], UNCONNECTED_UNFOLDED);
    comes_back(&circuit, &[0, 1]);
}

#[test]
fn unfolding_writes_marks_and_leaves_all_else_as_for_outputs_never_set() {
    let mut seen = Seen::default();
    for seed in seeds(2_000) {
        let mut rng = Rng::new(seed);
        let table = tables::any_legal(&mut rng, 16, 6);
        let connected = any_connected(&mut rng, &table.head.sizes);
        let table = tables::with_connected(&table, &connected);
        let mut never_set = table.clone();
        never_set.head.connected = every_output(&table.head.sizes);
        match [&table, &never_set].map(|of| unfolded(&of.to_bytes())) {
            [Ok(drawn), Ok(drawn_never_set)] => {
                assert_eq!(drawn.connected(), connected);
                assert_eq!(with_false_outputs(&drawn), drawn_never_set);
                seen.note([0]);
            }
            [refusal, refusal_never_set] => {
                assert_eq!(refusal, refusal_never_set);
                seen.note([refusal.unwrap_err().number]);
            }
        }
    }
    seen.expect(&[0, 8]);
}

/// A circuit folds to a table that connects the same outputs. Unfolded, it has the marks again, and the
/// same plan and the same bytes when it is folded.
fn comes_back(circuit: &Circuit, connected: &[u16]) {
    assert_eq!(circuit.connected(), connected);
    let table = folded(&circuit.to_bytes());
    assert_eq!(connected_in(&table), connected);
    let drawn = unfolded(&table).expect("few gates");
    assert_eq!(drawn.connected(), connected);
    assert_eq!(folded(&drawn.to_bytes()), table);
    let plans = [circuit, &drawn].map(|of| {
        let room = ample(of);
        let mut scratch = vec![0; room.numbers];
        let mut nodes = vec![tff::Node::default(); room.records];
        let plan = tff::ask(&of.to_bytes(), &mut scratch, &mut nodes);
        plan.expect("a legal circuit")
    });
    assert_eq!(plans[0], plans[1]);
}

#[test]
fn marks_come_back_from_tables() {
    for seed in seeds(1_000) {
        let (circuit, connected) = circuit_and_connection(&mut Rng::new(seed));
        comes_back(&circuits::with_connected(&circuit, &connected), &connected);
    }
    for circuit in [examples::adder(), examples::delayed()] {
        for connected in every_connection(circuit.sizes) {
            comes_back(&circuits::with_connected(&circuit, &connected), &connected);
        }
    }
}

#[test]
fn one_output_of_each_frame_is_connected_and_one_is_not() {
    for (inputs, frames) in [(1, 5), (2, 3), (4, 1), (1, 1)] {
        for outputs in [1, 2, 8, 16] {
            let sizes = Sizes::new(inputs, outputs, frames);
            let circuit = circuits::unrolled(&mut Rng::new(1), sizes, 2);
            for output in 0..outputs {
                let one = 1 << output;
                for word in [one, sizes.every_output() - one] {
                    let connected = vec![word; frames];
                    comes_back(&circuits::with_connected(&circuit, &connected), &connected);
                }
            }
        }
    }
}

#[test]
fn with_every_output_unconnected_one_state_a_layer_is_left() {
    for sizes in all_sizes() {
        let mut circuit = always_true(sizes, 0);
        for gate in 0..circuit.gates() {
            circuit.mark_unconnected(gate);
        }
        let mut expected = sizes.words().to_vec();
        expected.resize(4 + sizes.frames, 1);
        // Nothing connected, and outputs and next states of 0.
        let entries = sizes.frames * sizes.input_words();
        expected.resize(expected.len() + sizes.frames + 2 * entries, 0);
        let table = folded(&circuit.to_bytes());
        assert_eq!(table, to_bytes(&expected));
        match unfolded(&table) {
            Ok(drawn) => assert_eq!(drawn.connected(), vec![0; sizes.frames]),
            Err(refusal) => assert_eq!(refusal.number, 8),
        }
    }
}

/// What the calls that judge a whole table answer.
fn answers(table: &[u8]) -> [(u64, u64); 7] {
    let mut result = vec![0; 1 << 16];
    let priced = tff::price(table);
    let answers = [
        tff::check_table(table),
        tff::run(table, &[0; 16], &mut [0; 16]),
        tff::view(table, u16::MAX, &[0; 16], &mut [0; 16]),
        tff::layer_outputs(table, u16::MAX).expect_err("no such layer"),
        tff::reach(table, &mut result),
        tff::unfold(table, &mut result),
        tff::Answer {
            number: priced.number,
            place: priced.place,
        },
    ];
    answers.map(|answer| (answer.number, answer.place))
}

/// What a plain step and one with quiet hours answer, both from the start on the word 0.
fn first_steps(table: &[u8]) -> [(u64, u64); 2] {
    let stepped = tff::step(table, 0, 0, 0);
    let quiet = match tff::Board::new(table, &[]).step(0, 0) {
        Ok(_) => (0, 0),
        Err(refusal) => (refusal.number, refusal.place),
    };
    [(stepped.number, stepped.place), quiet]
}

#[test]
fn no_call_reads_a_table_that_sets_an_unconnected_output() {
    for seed in seeds(300) {
        let mut rng = Rng::new(seed);
        let table = tables::any_legal(&mut rng, 8, 3);
        let mut connected = any_connected(&mut rng, &table.head.sizes);
        let layer = rng.below(connected.len());
        let bit = 1 << rng.below(table.head.sizes.outputs);
        connected[layer] &= !bit;
        let table = tables::with_connected(&table, &connected);
        let entries = table.head.entries_of(layer);
        let any = rng.between(entries.start, entries.end - 1);
        for entry in [entries.start, any, entries.end - 1] {
            let mut file = table.to_bytes();
            let at = table.head.output_at(entry);
            set_word(&mut file, at, table.output_words[entry] | bit);
            let refusal = (5, at as u64);
            assert_eq!(answers(&file), [refusal; 7]);
            let of_steps = if entry == 0 { refusal } else { (0, 0) };
            assert_eq!(first_steps(&file), [of_steps; 2]);
        }
    }
}

#[test]
fn tables_of_the_former_layout_are_not_read() {
    for seed in seeds(500) {
        let table = tables::any_legal(&mut Rng::new(seed), 12, 4);
        let file = table.to_bytes();
        let frames = table.head.sizes.frames;
        let (counts, connected) = (8 + 2 * frames, 2 * frames);
        let former = [&file[..counts], &file[counts + connected..]].concat();
        // Its first output words pass for words of connected outputs, but it is too short.
        let refusal = (1, former.len() as u64);
        assert_eq!(answers(&former), [refusal; 7]);
        assert_eq!(first_steps(&former), [refusal; 2]);
    }
    let parity = to_bytes(&PARITY_TABLE);
    let former = [&parity[..12], &parity[16..]].concat();
    assert_eq!(answers(&former), [(1, 36); 7]);
}
