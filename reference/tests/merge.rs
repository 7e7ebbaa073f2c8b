//! The proved machine that the frames of a table merge into against the plain one, and what is to hold
//! of it.

#[path = "common/combinations.rs"]
mod combinations;
mod common;
#[path = "common/folded.rs"]
mod folded;
#[path = "common/limits.rs"]
mod limits;
#[path = "common/three_frames.rs"]
mod three_frames;

use combinations::{with_faults, Fault};
use common::{compare, seeds, short_answers_change_nothing, Case, Room, Seen};
use folded::folded;
use limits::sizes_around_the_limits;
use reference::gen::{any_connected, circuits, damaged, machines, merging, tables, Rng};
use reference::vectors::{PARITY_TABLE, UNCONNECTED_TABLE};
use reference::words::{set_word, to_bytes, word_at, words_at};
use reference::{examples, Circuit, Machine, Sizes, Table};
use three_frames::{faults_across, three_frames, ENTRY_FAULTS, HEAD_FAULTS};

/// Inputs and frames of the shapes with the most sequences.
const LARGEST: [(usize, usize); 2] = [(1, 16), (2, 8)];

/// Bytes of the largest machine: three states, four words.
const MOST_BYTES: usize = 54;

/// Number and place where no machine matches.
const UNMATCHED: [u64; 2] = [21, 0];

fn call_merge(table: &[u8], result: &mut [u8], answer: &mut [u64]) {
    // SAFETY: each pointer and length is that of one slice.
    unsafe {
        tff::raw::tff_merge(
            table.as_ptr(),
            table.len(),
            result.as_mut_ptr(),
            result.len(),
            answer.as_mut_ptr(),
            answer.len(),
        )
    }
}

fn case(seed: u64, file: &[u8]) -> Case<'_> {
    Case {
        call: "merge",
        seed,
        file,
        ..Case::default()
    }
}

/// Merges with both implementations, with a result of `length` bytes.
fn merge(seed: u64, file: &[u8], length: usize) -> [u64; 2] {
    compare(
        &case(seed, file),
        Room::of_bytes(length),
        |lent| reference::merge(file, lent.bytes).into(),
        |lent, answer| call_merge(file, lent.bytes, answer),
    )
}

/// The machine that a legal table merges into, by the proved library alone.
fn proved(table: &Table) -> Option<Machine> {
    let mut result = [0xee; MOST_BYTES + 3];
    let answer = tff::merge(&table.to_bytes(), &mut result);
    let (written, rest) = match [answer.number, answer.place] {
        [0, place] => result.split_at(place as usize),
        refusal => {
            assert_eq!(refusal, UNMATCHED);
            result.split_at(0)
        }
    };
    assert!(rest.iter().all(|&byte| byte == 0xee));
    (!written.is_empty()).then(|| machine_in(&table.head.sizes, written))
}

/// The machine in all of these bytes, for a table of these sizes.
fn machine_in(sizes: &Sizes, bytes: &[u8]) -> Machine {
    let states = usize::from(word_at(bytes, 4));
    assert!((1..=3).contains(&states));
    let entries = states * sizes.input_words();
    assert_eq!(bytes.len(), 6 + 4 * entries);
    let machine = Machine {
        inputs: sizes.inputs,
        outputs: sizes.outputs,
        states,
        output_words: words_at(bytes, 6, entries),
        next_states: words_at(bytes, 6 + 2 * entries, entries),
    };
    assert_eq!(machine.to_bytes(), bytes);
    machine
}

/// The machine that a legal table merges into, by both implementations.
fn merged(seed: u64, table: &Table) -> Option<Machine> {
    let machine = proved(table);
    let (file, room) = (table.to_bytes(), seed as usize % 3);
    match &machine {
        Some(machine) => {
            let needed = machine.to_bytes().len();
            assert_eq!(merge(seed, &file, needed + room), [0, needed as u64]);
        }
        None => assert_eq!(merge(seed, &file, room), UNMATCHED),
    }
    machine
}

/// The machine's output words on the input words of a sequence.
fn outputs_on(machine: &Machine, words: &[u16]) -> Vec<u16> {
    let mut state = 0;
    let output = |&word: &u16| {
        let entry = usize::from(state << machine.inputs | word);
        state = machine.next_states[entry];
        machine.output_words[entry]
    };
    words.iter().map(output).collect()
}

/// All sequences of a table, with its outputs by proved runs.
fn sequences(table: &Table) -> Vec<(Vec<u16>, Vec<u16>)> {
    let (sizes, file) = (table.head.sizes, table.to_bytes());
    (0..sizes.histories(sizes.frames))
        .map(|sequence| {
            let words = sizes.history_words(sizes.frames, sequence);
            let mut outputs = vec![0; sizes.frames];
            assert_eq!(tff::run(&file, &words, &mut outputs).number, 0);
            (words, outputs)
        })
        .collect()
}

/// Whether the machine gives these outputs, in connected bits.
fn matches(machine: &Machine, connected: &[u16], sequences: &[(Vec<u16>, Vec<u16>)]) -> bool {
    sequences.iter().all(|(words, expected)| {
        let found = outputs_on(machine, words);
        let mut both = found.iter().zip(expected).zip(connected);
        both.all(|((found, expected), connected)| (found ^ expected) & connected == 0)
    })
}

/// Merges a table by both implementations; a machine that is found must match.
fn merged_to_match(seed: u64, table: &Table) -> Option<Machine> {
    let machine = merged(seed, table);
    if let Some(machine) = &machine {
        assert!(matches(machine, &table.head.connected, &sequences(table)));
    }
    machine
}

/// All machines of so many states with one output, in dictionary order: next states, then outputs.
fn all_machines(inputs: usize, states: usize) -> impl Iterator<Item = Machine> {
    let entries = states << inputs;
    let digits = move |base: usize, number: usize| -> Vec<u16> {
        (0..entries as u32)
            .rev()
            .map(|entry| (number / base.pow(entry) % base) as u16)
            .collect()
    };
    (0..states.pow(entries as u32)).flat_map(move |next_states| {
        (0..1 << entries).map(move |output_words| Machine {
            inputs,
            outputs: 1,
            states,
            output_words: digits(2, output_words),
            next_states: digits(states, next_states),
        })
    })
}

/// The first of all machines of up to so many states that matches a table with one output.
fn first_of_all(table: &Table, most_states: usize) -> Option<Machine> {
    let sequences = sequences(table);
    (1..=most_states)
        .flat_map(|states| all_machines(table.head.sizes.inputs, states))
        .find(|machine| matches(machine, &table.head.connected, &sequences))
}

/// A random legal table that has few enough inputs.
fn any_legal(rng: &mut Rng, most_signals: usize, most_states: usize) -> Table {
    let inputs = rng.between(1, 2);
    let frames = rng.between(1, most_signals / inputs);
    let sizes = Sizes::new(inputs, rng.between(1, 16), frames);
    let counts = tables::any_counts(rng, &sizes, most_states);
    tables::legal(rng, sizes, counts)
}

/// A random legal table that a machine of so many states matches.
fn any_matched(rng: &mut Rng, most_signals: usize, states: usize) -> Table {
    let inputs = rng.between(1, 2);
    let outputs = rng.pick(&[1, 1, 2, 16]);
    let frames = rng.between(1, most_signals / inputs);
    let machine = merging::any_machine(rng, inputs, outputs, states);
    let table = merging::repeated(&machine, frames);
    match rng.one_in(2) {
        true => tables::with_connected(&table, &any_connected(rng, &table.head.sizes)),
        false => table,
    }
}

/// A table of one state a layer; its output words are the frames, from 0.
fn counting(inputs: usize, frames: usize) -> Table {
    let sizes = Sizes::new(inputs, 4, frames);
    let mut table = tables::zeros(sizes, vec![1; frames + 1]);
    for layer in 0..frames {
        table.output_words[table.head.entries_of(layer)].fill(layer as u16);
    }
    table
}

fn table_of(circuit: &Circuit) -> Table {
    Table::read(&folded(&circuit.to_bytes())).unwrap()
}

/// A table merges into the machine of these words, and no byte behind them changes.
fn assert_written(table: &[u8], expected: &[u16]) {
    let length = 2 * expected.len();
    let mut result = vec![0xee; length + 3];
    let answer = tff::merge(table, &mut result);
    assert_eq!((answer.number, answer.place), (0, length as u64));
    assert_eq!(result[..length], to_bytes(expected));
    assert_eq!(result[length..], [0xee; 3]);
    assert_eq!(merge(0, table, length), [0, length as u64]);
}

#[test]
fn the_adder_merges_into_two_states_where_its_empty_outputs_are_unconnected() {
    // State 1 is the carry. Outputs are the sum bit and, above it, the carry.
    let outputs = [[0, 1, 1, 2], [1, 2, 2, 3]];
    let next_states = [[0, 0, 0, 1], [0, 1, 1, 1]];
    let mut expected = vec![2, 2, 2];
    expected.extend([outputs, next_states].as_flattened().concat());
    let unconnected = folded(&examples::unconnected_adder().to_bytes());
    assert_written(&unconnected, &expected);
    assert_eq!(2 * expected.len(), 38);

    // With its empty outputs false, the carry would have to be hidden before the last frame.
    assert_eq!(merged(0, &table_of(&examples::adder())), None);

    // A carry that is shown in every frame is no hindrance.
    for frames in 3..=8 {
        assert_written(&folded(&machines::adder(frames).to_bytes()), &expected);
    }
}

#[test]
fn small_tables_merge_as_by_hand() {
    // Parity: state 1 is after an odd number of ones. What follows it is never used.
    let parity = [1, 1, 2, 0, 1, 1, 0, 0, 1, 0, 0];
    assert_written(&to_bytes(&PARITY_TABLE), &parity);
    assert_written(&to_bytes(&UNCONNECTED_TABLE), &parity);
    let identity = folded(&examples::identity().to_bytes());
    assert_written(&identity, &[1, 1, 1, 0, 1, 0, 0]);
    let silent = folded(&examples::silent().to_bytes());
    assert_written(&silent, &[1, 1, 1, 0, 0, 0, 0]);
    // A one in the first frame is shown in the third: state 1 is after a one, state 2 shows it.
    let delayed = folded(&examples::delayed().to_bytes());
    let expected = [1, 1, 3, 0, 0, 0, 0, 1, 1, 0, 1, 2, 2, 0, 0];
    assert_written(&delayed, &expected);
    // Frames, counted.
    let three = counting(1, 3).to_bytes();
    let expected = [1, 4, 3, 0, 0, 1, 1, 2, 2, 1, 1, 2, 2, 0, 0];
    assert_written(&three, &expected);
    let expected = [1, 2, 3, 3, 2, 1, 2, 3, 0, 1, 2, 1, 0, 0, 1];
    assert_written(&three_frames(), &expected);
}

#[test]
fn refusals_are_as_by_hand() {
    let file = to_bytes(&PARITY_TABLE);
    let without_inputs = [&[0, 0], &file[2..]].concat();
    let three_inputs = [&[3, 0], &file[2..]].concat();
    let three_inputs_alone = [3, 0, 0, 0, 0, 0];
    let beyond_the_last_layer = [&file[..38], &[1, 0]].concat();
    let four_frames = counting(1, 4).to_bytes();
    let refusals = [
        (&file[..], 21, (7, 22)),
        (&file[..], 0, (7, 22)),
        (&file[..39], 22, (1, 39)),
        (&file[..5], 22, (1, 5)),
        (&without_inputs, 22, (2, 0)),
        (&three_inputs, 22, (2, 0)),
        (&three_inputs_alone, 22, (2, 0)),
        (&beyond_the_last_layer, 22, (5, 38)),
        (&four_frames, 54, (21, 0)),
        (&four_frames, 0, (21, 0)),
    ];
    for (file, length, expected) in refusals {
        let mut result = vec![0xee; length];
        let answer = tff::merge(file, &mut result);
        assert_eq!((answer.number, answer.place), expected);
        assert_eq!(result, vec![0xee; length]);
        assert_eq!(merge(0, file, length), [expected.0, expected.1]);
    }
}

#[test]
fn frames_are_counted_up_to_three() {
    for (inputs, most) in LARGEST {
        for frames in 1..=most {
            let machine = merged_to_match(0, &counting(inputs, frames));
            let states = machine.map(|machine| machine.states);
            assert_eq!(states, (frames <= 3).then_some(frames));
        }
    }
}

#[test]
fn tables_of_all_sizes_are_merged() {
    for seed in seeds(8) {
        let mut rng = Rng::new(seed);
        for (inputs, most) in LARGEST {
            for frames in 1..=most {
                for outputs in 1..=16 {
                    let sizes = Sizes::new(inputs, outputs, frames);
                    let counts = tables::any_counts(&mut rng, &sizes, 3);
                    merged(seed, &tables::legal(&mut rng, sizes, counts));
                    let states = rng.between(1, 4);
                    let machine = merging::any_machine(&mut rng, inputs, outputs, states);
                    merged(seed, &merging::repeated(&machine, frames));
                }
            }
        }
    }
}

#[test]
fn machines_of_few_states_are_found_again() {
    let mut seen = [0; 4];
    for seed in seeds(3_000) {
        let mut rng = Rng::new(seed);
        let states = rng.between(1, 5);
        let table = any_matched(&mut rng, 10, states);
        let found = merged_to_match(seed, &table);
        match &found {
            Some(machine) => assert!(machine.states <= states),
            None => assert!(states > 3),
        }
        seen[found.map_or(0, |machine| machine.states)] += 1;
    }
    assert!(!seen.contains(&0), "{seen:?}");
}

/// The states of the machine that counts ones modulo so many, and shows the count.
fn states_of_counter(inputs: usize, frames: usize, modulus: usize) -> Option<usize> {
    let sizes = Sizes::new(inputs, 4, frames);
    let table = merging::by_history(sizes, |_, history| {
        (history.count_ones() as usize % modulus) as u16
    });
    merged_to_match(0, &merging::folded(&table)).map(|machine| machine.states)
}

#[test]
fn counts_up_to_three_are_merged_and_no_more() {
    for (inputs, frames) in [(1, 10), (2, 5)] {
        for modulus in 1..=3 {
            assert_eq!(states_of_counter(inputs, frames, modulus), Some(modulus));
        }
        for modulus in 4..=6 {
            assert_eq!(states_of_counter(inputs, frames, modulus), None);
        }
    }
}

#[test]
fn every_small_behaviour_merges_into_the_first_of_all_machines() {
    let mut seen = [0; 4];
    let sizes = Sizes::new(1, 1, 2);
    // The outputs of all histories, 2 and 4, and which frames show them.
    for seed in seeds(1 << 8) {
        let table = merging::by_history(sizes, |frame, history| {
            (seed >> (2 * frame + history) & 1) as u16
        });
        let connected = [(seed >> 6 & 1) as u16, (seed >> 7) as u16];
        let table = tables::with_connected(&table, &connected);
        let found = merged(seed, &table);
        assert_eq!(found, first_of_all(&table, 3));
        seen[found.map_or(0, |machine| machine.states)] += 1;
    }
    // A table of two frames has three states at most, and they are a machine themselves.
    assert!(seen[0] == 0 && !seen[1..].contains(&0), "{seen:?}");
}

#[test]
fn every_behaviour_of_three_frames_merges_into_the_first_of_all_small_machines() {
    let sizes = Sizes::new(1, 1, 3);
    for seed in seeds(1 << 14) {
        // The outputs of all histories, 2, 4 and 8.
        let table = merging::by_history(sizes, |frame, history| {
            (seed >> ((2 << frame) - 2 + history) & 1) as u16
        });
        let few = merged(seed, &table).filter(|machine| machine.states < 3);
        assert_eq!(few, first_of_all(&table, 2));
    }
}

#[test]
fn small_tables_merge_into_the_first_of_all_machines() {
    let mut seen = [0; 4];
    for seed in seeds(150) {
        let mut rng = Rng::new(seed);
        let sizes = Sizes::new(1, 1, rng.between(3, 5));
        let states = rng.between(1, 4);
        let machine = merging::any_machine(&mut rng, 1, 1, states);
        let any_counts = tables::any_counts(&mut rng, &sizes, 3);
        let table = match rng.one_in(3) {
            true => tables::connected(&mut rng, sizes, any_counts),
            false => merging::repeated(&machine, sizes.frames),
        };
        let connected = any_connected(&mut rng, &sizes);
        let table = tables::with_connected(&table, &connected);
        let found = merged(seed, &table);
        assert_eq!(found, first_of_all(&table, 3));
        seen[found.map_or(0, |machine| machine.states)] += 1;
    }
    assert!(!seen[1..].contains(&0), "{seen:?}");
}

#[test]
fn small_tables_of_two_inputs_merge_into_the_first_of_all_small_machines() {
    for seed in seeds(60) {
        let mut rng = Rng::new(seed);
        let states = rng.between(1, 3);
        let machine = merging::any_machine(&mut rng, 2, 1, states);
        let table = merging::repeated(&machine, rng.between(2, 4));
        let connected = any_connected(&mut rng, &table.head.sizes);
        let table = tables::with_connected(&table, &connected);
        let few = merged(seed, &table).filter(|machine| machine.states < 3);
        assert_eq!(few, first_of_all(&table, 2));
    }
}

#[test]
fn random_tables_merge_into_machines_that_match() {
    let mut seen = [0; 2];
    for seed in seeds(3_000) {
        let table = any_legal(&mut Rng::new(seed), 10, 3);
        let found = merged_to_match(seed, &table).is_some();
        seen[usize::from(found)] += 1;
    }
    assert!(!seen.contains(&0), "{seen:?}");
}

#[test]
fn next_states_count_before_outputs() {
    let mut other_by_outputs = 0;
    for seed in seeds(300) {
        let mut rng = Rng::new(seed);
        let machine = merging::any_machine(&mut rng, 1, 1, 2);
        let table = merging::repeated(&machine, 3);
        let connected = any_connected(&mut rng, &table.head.sizes);
        let table = tables::with_connected(&table, &connected);
        let found = merged(seed, &table).unwrap();
        let sequences = sequences(&table);
        let all = all_machines(1, found.states);
        let least_outputs = all
            .filter(|machine| matches(machine, &table.head.connected, &sequences))
            .map(|machine| machine.output_words)
            .min();
        other_by_outputs += usize::from(least_outputs != Some(found.output_words));
    }
    assert!(other_by_outputs > 0, "the order is never decisive");
}

#[test]
fn what_nothing_decides_is_0() {
    // Each frame connects an output of its own, and one state serves for all.
    let sizes = Sizes::new(2, 3, 2);
    let table = merging::by_history(sizes, |_, _| 7);
    let one_each = tables::with_connected(&table, &[1, 4]);
    let expected = [2, 3, 1, 5, 5, 5, 5, 0, 0, 0, 0];
    assert_written(&one_each.to_bytes(), &expected);
    let none = tables::with_connected(&table, &[0, 0]);
    assert_written(&none.to_bytes(), &[2, 3, 1, 0, 0, 0, 0, 0, 0, 0, 0]);
    for (inputs, frames) in [(1, 15), (2, 8)] {
        let sizes = Sizes::new(inputs, 16, frames);
        for connected in tables::each_frame_its_own(&sizes) {
            let table = merging::repeated(&ones(inputs), frames);
            let table = tables::with_connected(&table, &connected);
            let all = connected.iter().fold(0, |all, word| all | word);
            let machine = merged(0, &table).unwrap();
            assert_eq!(machine.output_words, vec![all; sizes.input_words()]);
            assert_eq!(machine.next_states, vec![0; sizes.input_words()]);
        }
    }
}

/// A machine of one state with all of 16 outputs set.
fn ones(inputs: usize) -> Machine {
    Machine {
        inputs,
        outputs: 16,
        states: 1,
        output_words: vec![u16::MAX; 1 << inputs],
        next_states: vec![0; 1 << inputs],
    }
}

#[test]
fn what_no_sequence_uses_is_0() {
    for seed in seeds(1_000) {
        let mut rng = Rng::new(seed);
        let states = rng.between(1, 3);
        let table = any_matched(&mut rng, 10, states);
        let Some(machine) = merged(seed, &table) else {
            continue;
        };
        let sizes = table.head.sizes;
        let [mut fed, mut followed] = [0; 2].map(|_| vec![false; machine.next_states.len()]);
        for (words, _) in sequences(&table) {
            let mut state = 0;
            for (frame, word) in words.into_iter().enumerate() {
                let entry = usize::from(state << sizes.inputs | word);
                fed[entry] = true;
                followed[entry] |= frame + 1 < sizes.frames;
                state = machine.next_states[entry];
            }
        }
        for entry in 0..fed.len() {
            assert!(fed[entry] || machine.output_words[entry] == 0);
            assert!(followed[entry] || machine.next_states[entry] == 0);
        }
    }
}

#[test]
fn what_unreached_states_give_does_not_matter() {
    for seed in seeds(1_000) {
        let mut rng = Rng::new(seed);
        let states = rng.between(1, 4);
        let table = any_matched(&mut rng, 10, states);
        let found = merged(seed, &table);
        let mut spare = table;
        for layer in 1..spare.head.sizes.frames {
            let state = spare.head.counts[layer];
            spare = tables::with_spare_state(&spare, layer);
            let connected = spare.head.connected[layer];
            let row = spare.head.entry(layer, state, 0);
            for entry in row..row + spare.head.sizes.input_words() {
                spare.output_words[entry] = rng.word() & connected;
                let next = rng.below(usize::from(spare.head.counts[layer + 1]));
                spare.next_states[entry] = next as u16;
            }
        }
        assert_eq!(merged(seed, &spare), found);
    }
}

#[test]
fn tables_of_equal_outputs_merge_alike() {
    let mut seen = [0; 4];
    for seed in seeds(600) {
        let mut rng = Rng::new(seed);
        let states = rng.between(1, 5);
        let table = any_matched(&mut rng, 8, states);
        let found = merged(seed, &table);
        let numbers = tables::any_numbers(&mut rng, &table.head.counts);
        for other in [
            merging::folded(&table),
            merging::apart(&table),
            tables::renumbered(&table, &numbers),
        ] {
            assert_eq!(merged(seed, &other), found);
        }
        seen[found.map_or(0, |machine| machine.states)] += 1;
    }
    assert!(!seen.contains(&0), "{seen:?}");
}

#[test]
fn circuits_merge_as_their_tables_with_a_state_for_each_history() {
    for seed in seeds(200) {
        let mut rng = Rng::new(seed);
        let inputs = rng.between(1, 2);
        let sizes = Sizes::new(inputs, rng.between(1, 3), rng.between(1, 6 / inputs));
        let circuit = match rng.one_in(2) {
            true => circuits::legal(&mut rng, sizes, sizes.output_gates() + 20),
            false => circuits::unrolled(&mut rng, sizes, 1),
        };
        let circuit = circuits::partly_connected(&mut rng, circuit);
        let found = merged(seed, &table_of(&circuit));
        assert_eq!(merged(seed, &tables::each_history(&circuit)), found);
    }
}

/// A table, folded and with a state for each history, merges alike; the plain search is spared the
/// second.
fn merges_folded_and_apart(table: &Table) -> Option<Machine> {
    let found = merged(0, &merging::folded(table));
    assert_eq!(proved(table), found);
    found
}

#[test]
fn random_last_frames_of_the_largest_tables_are_unmatched() {
    for (inputs, frames) in LARGEST {
        for outputs in [1, 16] {
            let mut rng = Rng::new(outputs as u64);
            let sizes = Sizes::new(inputs, outputs, frames);
            let table = merging::in_last_frame(sizes, |_| rng.below(1 << outputs) as u16);
            assert_eq!(merges_folded_and_apart(&table), None);
        }
    }
}

#[test]
fn late_histories_of_the_largest_tables_are_told_from_the_rest() {
    for (inputs, frames) in LARGEST {
        let sizes = Sizes::new(inputs, 1, frames);
        let last = sizes.histories(frames) - 1;
        let shown_after = |late: &[usize]| {
            let table =
                merging::in_last_frame(sizes, |sequence| u16::from(late.contains(&sequence)));
            merges_folded_and_apart(&table).map(|machine| machine.states)
        };
        // One word in all frames is told from the rest by a state that any other leads to.
        assert_eq!(shown_after(&[0]), Some(2));
        assert_eq!(shown_after(&[last]), Some(2));
        // Another word shortly before the end needs a third.
        assert_eq!(shown_after(&[last ^ 1 << inputs]), Some(3));
        // Words at odds would have to be counted.
        assert_eq!(shown_after(&[0xd2b9]), None);
        assert_eq!(shown_after(&[0xd2b9, 0xe51e]), None);
    }
}

#[test]
fn machines_over_the_most_frames_are_merged() {
    let mut seen = [0; 4];
    for seed in seeds(60) {
        let mut rng = Rng::new(seed);
        let (inputs, frames) = rng.pick(&LARGEST);
        let states = rng.between(1, 5);
        let outputs = rng.pick(&[1, 16]);
        let machine = merging::any_machine(&mut rng, inputs, outputs, states);
        let table = merging::repeated(&machine, frames);
        let found = merged(seed, &table);
        if seed % 10 == 0 {
            assert_eq!(proved(&merging::apart(&table)), found);
        }
        seen[found.map_or(0, |machine| machine.states)] += 1;
    }
    assert!(!seen.contains(&0), "{seen:?}");
}

#[test]
fn tables_with_the_most_states_are_merged() {
    for (inputs, frames) in LARGEST {
        let mut rng = Rng::new(0);
        let sizes = Sizes::new(inputs, 16, frames);
        let mut counts = vec![Table::MOST_STATES; frames + 1];
        (counts[0], counts[frames]) = (1, 1);
        let table = tables::connected(&mut rng, sizes, counts);
        assert_eq!(merged(0, &table), None);
        // All its states alike: one is enough, and where each layer is another, three are too few.
        let mut alike = table.clone();
        alike.output_words.fill(0xa5c3);
        assert_eq!(merged(0, &alike).unwrap().states, 1);
        for layer in 0..frames {
            alike.output_words[table.head.entries_of(layer)].fill(layer as u16);
        }
        assert_eq!(merged(0, &alike), None);
        let three_apart = tables::with_connected(&alike, &first_three(frames));
        assert_eq!(merged(0, &three_apart).unwrap().states, 3);
    }
}

/// All outputs connected in the first three frames, and none later.
fn first_three(frames: usize) -> Vec<u16> {
    let connected = |frame| if frame < 3 { u16::MAX } else { 0 };
    (0..frames).map(connected).collect()
}

#[test]
fn each_output_decides() {
    for output in 0..16 {
        let sizes = Sizes::new(1, 16, 2);
        let table = merging::by_history(sizes, |_, history| ((history >> 1) as u16) << output);
        let machine = merged(0, &table).unwrap();
        assert_eq!(machine.states, 2);
        assert_eq!(machine.output_words, [0, 0, 1 << output, 1 << output]);
        // Nothing else is connected there, or it is not.
        for (connected, states) in [(1 << output, 2), (!(1 << output), 1)] {
            let table = tables::with_connected(&table, &[connected; 2]);
            assert_eq!(merged(0, &table).unwrap().states, states);
        }
    }
}

#[test]
fn the_result_is_judged_around_the_bytes_needed() {
    let mut seen = [0; 4];
    for seed in seeds(300) {
        let mut rng = Rng::new(seed);
        let states = rng.between(1, 5);
        let table = any_matched(&mut rng, 8, states);
        let file = table.to_bytes();
        let needed = merged(seed, &table).map(|machine| machine.to_bytes().len() as u64);
        for length in 0..MOST_BYTES as u64 + 3 {
            let expected = match needed {
                None => UNMATCHED,
                Some(needed) if length < needed => [7, needed],
                Some(needed) => [0, needed],
            };
            assert_eq!(merge(seed, &file, length as usize), expected);
        }
        seen[needed.map_or(0, |needed| {
            (needed as usize - 6) >> (2 + table.head.sizes.inputs)
        })] += 1;
    }
    assert!(!seen.contains(&0), "{seen:?}");
}

#[test]
fn old_contents_of_the_result_do_not_matter() {
    for seed in seeds(300) {
        let mut rng = Rng::new(seed);
        let states = rng.between(1, 3);
        let table = any_matched(&mut rng, 8, states);
        let written = merged(seed, &table).unwrap().to_bytes();
        for old in [0, 1, u8::MAX, rng.word() as u8] {
            let mut result = vec![old; 60];
            let answer = tff::merge(&table.to_bytes(), &mut result);
            assert_eq!(answer.place, written.len() as u64);
            assert_eq!(result[..written.len()], written);
            assert!(result[written.len()..].iter().all(|&byte| byte == old));
        }
    }
}

#[test]
fn sizes_are_judged_around_their_limits() {
    let mut seen = Seen::default();
    for sizes in sizes_around_the_limits() {
        let [inputs, outputs, frames] = sizes;
        let fault = if !(1..=2).contains(&inputs) {
            Some(0)
        } else if !(1..=16).contains(&outputs) {
            Some(2)
        } else if frames == 0 || frames > 16 / inputs {
            Some(4)
        } else {
            None
        };
        // Six bytes are all that is read before the sizes are judged.
        let expected = fault.map_or([1, 6], |place| [2, place]);
        assert_eq!(merge(0, &to_bytes(&sizes), 60), expected);
        let mut file = to_bytes(&PARITY_TABLE);
        file[..6].copy_from_slice(&to_bytes(&sizes));
        let answer = merge(0, &file, 60);
        if let Some(place) = fault {
            assert_eq!(answer, [2, place]);
        }
        seen.note(answer);
    }
    seen.expect(&[0, 1, 2]);
}

#[test]
fn tables_with_more_inputs_are_refused_whatever_else_they_are() {
    for seed in seeds(300) {
        let mut rng = Rng::new(seed);
        let inputs = rng.between(3, 8);
        let frames = rng.between(1, 16 / inputs);
        let sizes = Sizes::new(inputs, rng.between(1, 16), frames);
        let counts = tables::any_counts(&mut rng, &sizes, 3);
        let mut file = tables::legal(&mut rng, sizes, counts).to_bytes();
        assert_eq!(tff::check_table(&file).number, 0);
        assert_eq!(merge(seed, &file, rng.below(60)), [2, 0]);
        file.truncate(rng.between(6, file.len()));
        for byte in &mut file[2..] {
            *byte ^= rng.word() as u8;
        }
        assert_eq!(merge(seed, &file, rng.below(60)), [2, 0]);
    }
}

/// A table of three frames, and the room for a machine.
#[derive(Clone)]
struct Given {
    file: Vec<u8>,
    room: usize,
}

/// Tries every combination of the table's `faults` and those behind them: outputs for which three states
/// are too few, and too little room.
fn judges_in_order(faults: &[Fault<Vec<u8>>]) {
    let unmatched: Fault<Vec<u8>> = (|file| set_word(file, 26, 0), |_| UNMATCHED);
    let with_outputs = [faults, &[unmatched]].concat();
    let behind: [Fault<Given>; 2] = [
        (|given| given.room = 0, |_| [7, 30]),
        (|given| given.room = 29, |_| [7, 30]),
    ];
    for (file, named) in with_faults(&three_frames(), &with_outputs) {
        let given = Given { file, room: 30 };
        for (given, later) in with_faults(&given, &behind) {
            let answer = merge(0, &given.file, given.room);
            assert_eq!(answer, named.or(later).unwrap_or([0, 30]));
        }
    }
}

#[test]
fn every_combination_of_faults_names_the_first() {
    let mut head_faults = HEAD_FAULTS.to_vec();
    // One input too many, where inputs are judged.
    head_faults.insert(1, (|file| set_word(file, 0, 3), |_| [2, 0]));
    judges_in_order(&head_faults);
    judges_in_order(&ENTRY_FAULTS);
    judges_in_order(&faults_across());
}

#[test]
fn every_length_and_every_byte_of_the_table_is_judged() {
    let mut seen = Seen::default();
    for seed in seeds(40) {
        let mut rng = Rng::new(seed);
        let states = rng.between(1, 3);
        let file = any_matched(&mut rng, 6, states).to_bytes();
        for length in 0..file.len() + 9 {
            let mut other = file.clone();
            other.resize(length, 0);
            seen.note(merge(seed, &other, 60));
        }
        for at in 0..file.len() {
            let old = file[at];
            for byte in [0, 1, old.wrapping_sub(1), old.wrapping_add(1), u8::MAX] {
                let mut other = file.clone();
                other[at] = byte;
                seen.note(merge(seed, &other, 60));
            }
        }
    }
    seen.expect(&[0, 1, 2, 5, 21]);
}

#[test]
fn damaged_tables_are_refused_and_change_nothing() {
    let mut seen = Seen::default();
    for seed in seeds(20_000) {
        let mut rng = Rng::new(seed);
        let table = any_legal(&mut rng, 8, 3);
        let file = damaged(&mut rng, &table.to_bytes());
        seen.note(merge(seed, &file, rng.below(60)));
    }
    seen.expect(&[0, 1, 2, 5, 7, 21]);
}

#[test]
fn empty_slices_are_ordinary() {
    assert_eq!(merge(0, &[], 0), [1, 0]);
    assert_eq!(merge(0, &[], 60), [1, 0]);
    assert_eq!(merge(0, &to_bytes(&PARITY_TABLE), 0), [7, 22]);
}

#[test]
fn a_short_answer_changes_nothing() {
    for seed in seeds(300) {
        let mut rng = Rng::new(seed);
        let states = rng.between(1, 5);
        let file = any_matched(&mut rng, 8, states).to_bytes();
        for file in [&file[..], &file[1..]] {
            for room in [0, 60] {
                let case = case(seed, file);
                short_answers_change_nothing(&case, Room::of_bytes(room), 2, |lent, answer| {
                    call_merge(file, lent.bytes, answer)
                });
            }
        }
    }
}
