//! Spreading a network over frames: the proved call against the plain one, against the proved fold of the
//! circuit over frames that the network then is, and against figures by hand.

#[path = "common/combinations.rs"]
mod combinations;
mod common;
#[path = "common/folded.rs"]
mod folded;
#[path = "common/folding.rs"]
mod folding;
#[path = "common/limits.rs"]
mod limits;

use std::collections::BTreeSet;

use combinations::{length, with_faults, Fault};
use common::{compare, seeds, short_answers_change_nothing, Case, Lent, Room, Seen};
use folded::folded;
use folding::{ample, call_fold, fold, longest_table, scratch_needed};
use limits::sizes_around_the_limits;
use reference::gates::{not, FALSE, TRUE, UNCONNECTED};
use reference::gen::networks::{any_heedless, any_legal, gathered, rearranged, rescheduled};
use reference::gen::{any_sizes, circuits, damaged, look_ahead, machines, sizes_with, Rng};
use reference::vectors::{PARITY_FOLDED, PARITY_SPREAD, PARITY_TABLE};
use reference::words::{set_word, to_bytes, word_at};
use reference::{examples, Circuit, Gates, Schedule, Sizes, Table};
use tff::Nodes;

fn schedule(sizes: [u16; 3], input_places: &[u16], output_places: &[u16]) -> Schedule {
    Schedule {
        sizes,
        input_places: input_places.to_vec(),
        output_places: output_places.to_vec(),
    }
}

/// Each input and each output at the place of its number.
fn in_order(network: &Circuit, sizes: Sizes) -> Schedule {
    let up_to = |count: usize| (0..count as u16).collect();
    Schedule {
        sizes: sizes.words(),
        input_places: up_to(network.sizes.inputs),
        output_places: up_to(network.sizes.outputs),
    }
}

fn sizes_of(schedule: &Schedule) -> Sizes {
    Sizes::judge(schedule.sizes).expect("sizes within limits")
}

/// The schedule as one list: n, m, T, the places of inputs, then those of outputs.
fn joined(schedule: &Schedule) -> Vec<u16> {
    let Schedule {
        sizes,
        input_places,
        output_places,
    } = schedule;
    [&sizes[..], input_places, output_places].concat()
}

fn spread_case<'a>(seed: u64, file: &'a [u8], words: &'a [u16]) -> Case<'a> {
    Case {
        call: "spread",
        seed,
        file,
        words,
        ..Case::default()
    }
}

/// The proved call by a schedule that is one list, of which so many are places of inputs.
fn call_spread(network: &[u8], words: &[u16], inputs: usize, lent: Lent, answer: &mut [u64]) {
    let (sizes, places) = words.split_at(3);
    let (input_places, output_places) = places.split_at(inputs);
    // SAFETY: each pointer and length is that of one slice; a record is its three numbers.
    unsafe {
        tff::raw::tff_spread(
            network.as_ptr(),
            network.len(),
            sizes[0],
            sizes[1],
            sizes[2],
            input_places.as_ptr(),
            input_places.len(),
            output_places.as_ptr(),
            output_places.len(),
            lent.numbers.as_mut_ptr(),
            lent.numbers.len(),
            lent.nodes.as_mut_ptr().cast(),
            lent.nodes.len(),
            lent.bytes.as_mut_ptr(),
            lent.bytes.len(),
            answer.as_mut_ptr(),
            answer.len(),
        )
    }
}

/// Spreads with the proved library, which must answer and leave what `expected` does.
fn spread_as(
    seed: u64,
    network: &[u8],
    schedule: &Schedule,
    room: Room,
    expected: impl FnOnce(Lent) -> [u64; 2],
) -> [u64; 2] {
    let (words, inputs) = (joined(schedule), schedule.input_places.len());
    compare(
        &spread_case(seed, network, &words),
        room,
        expected,
        |lent, answer| call_spread(network, &words, inputs, lent, answer),
    )
}

/// Spreads with both implementations.
fn spread(seed: u64, network: &[u8], schedule: &Schedule, room: Room) -> [u64; 2] {
    spread_as(seed, network, schedule, room, |lent| {
        reference::spread(network, schedule, lent.numbers, lent.nodes, lent.bytes).into()
    })
}

/// Spreads with the proved library, which must answer and leave what its fold does for `circuit`.
fn spread_as_fold(
    seed: u64,
    network: &[u8],
    schedule: &Schedule,
    circuit: &[u8],
    room: Room,
) -> [u64; 2] {
    spread_as(seed, network, schedule, room, |lent| {
        let mut answer = [0; 2];
        call_fold(circuit, lent, &mut answer);
        answer
    })
}

fn node_counts(network: &Circuit, schedule: &Schedule) -> Vec<usize> {
    let counts = schedule.node_counts(network, &sizes_of(schedule));
    counts.collect()
}

fn nodes_needed(network: &Circuit, schedule: &Schedule) -> usize {
    let counts = node_counts(network, schedule);
    counts[counts.len() - 1]
}

/// Room that suffices: just enough records, and some more of all else.
fn enough(network: &Circuit, schedule: &Schedule) -> Room {
    let sizes = sizes_of(schedule);
    Room {
        numbers: scratch_needed(&sizes) + 3,
        records: nodes_needed(network, schedule),
        bytes: longest_table(&sizes) + 5,
    }
}

/// Spreads with both implementations and enough room; the proved fold of the circuit over frames answers
/// and leaves the same.
fn spreads(seed: u64, network: &Circuit, schedule: &Schedule) -> [u64; 2] {
    let (file, room) = (network.to_bytes(), enough(network, schedule));
    let answer = spread(seed, &file, schedule, room);
    let circuit = rearranged(network, schedule);
    if circuit.gates() <= Circuit::MOST_GATES {
        spread_as_fold(seed, &file, schedule, &circuit.to_bytes(), room);
    }
    answer
}

/// The table of a network that is spread by the proved library.
fn spread_table(network: &Circuit, schedule: &Schedule) -> Vec<u8> {
    let sizes = sizes_of(schedule);
    let mut scratch = vec![0; scratch_needed(&sizes)];
    let mut result = vec![0; longest_table(&sizes)];
    let file = network.to_bytes();
    let mut nodes = Nodes::up_to(Nodes::ENOUGH);
    let answer = nodes.spread(&file, &wrapped(schedule), &mut scratch, &mut result);
    assert_eq!(answer.number, 0);
    result.truncate(answer.place as usize);
    result
}

/// The schedule as the wrapper takes it.
fn wrapped(schedule: &Schedule) -> tff::Schedule<'_> {
    let [inputs, outputs, frames] = schedule.sizes;
    tff::Schedule {
        inputs,
        outputs,
        frames,
        input_places: &schedule.input_places,
        output_places: &schedule.output_places,
    }
}

/// On every assignment of the network's inputs, and with any words at other places, the table shows each
/// output of the network at its place and nothing else.
fn recovers(rng: &mut Rng, network: &Circuit, schedule: &Schedule, table: &[u8]) {
    let Sizes { inputs, frames, .. } = sizes_of(schedule);
    for assignment in 0..=u16::MAX >> (16 - network.sizes.inputs) {
        let mut words: Vec<u16> = (0..frames).map(|_| rng.word() % (1 << inputs)).collect();
        for (input, &place) in schedule.input_places.iter().enumerate() {
            let (frame, bit) = (usize::from(place) / inputs, usize::from(place) % inputs);
            words[frame] &= !(1 << bit);
            words[frame] |= (assignment >> input & 1) << bit;
        }
        let expected = at_places(schedule, network.outputs_on(&[assignment])[0]);
        let mut found = vec![9; frames];
        let (number, _) = reference::run(table, &words, &mut found);
        assert_eq!(number, 0);
        assert_eq!(found, expected, "words {words:?}");
    }
}

/// The bits of a word, one for each output of the network, at the places of the outputs.
fn at_places(schedule: &Schedule, word: u16) -> Vec<u16> {
    let Sizes {
        outputs, frames, ..
    } = sizes_of(schedule);
    let mut words = vec![0; frames];
    for (output, &place) in schedule.output_places.iter().enumerate() {
        let (frame, bit) = (usize::from(place) / outputs, usize::from(place) % outputs);
        words[frame] |= (word >> output & 1) << bit;
    }
    words
}

#[test]
fn the_adder_is_spread_as_in_the_source() {
    let (network, schedule) = (examples::plain_adder(), examples::adder_schedule());
    assert_eq!(schedule.input_places, [0, 2, 4, 1, 3, 5]);
    assert_eq!(schedule.output_places, [0, 2, 4, 5]);
    assert_eq!(spreads(0, &network, &schedule)[0], 0);
    let table = spread_table(&network, &schedule);
    let adder = examples::unconnected_adder();
    assert_eq!(table, folded(&adder.to_bytes()));
    let counts = Table::read(&table).expect("a legal table").head.counts;
    assert_eq!(counts, [1, 2, 2, 1]);
    recovers(&mut Rng::new(0), &network, &schedule, &table);
    // The adder over frames has the same gates, and takes the same room.
    let room = ample(&adder);
    let answer = fold(0, &adder.to_bytes(), room);
    assert_eq!(spread(0, &network.to_bytes(), &schedule, room), answer);
}

#[test]
fn the_adder_is_spread_by_any_lists() {
    let network = examples::plain_adder();
    let (bits, sums) = ([0, 2, 4, 1, 3, 5], [0, 2, 4, 5]);
    // The two numbers exchanged, in all bits and in one.
    for input_places in [bits, [1, 3, 5, 0, 2, 4], [0, 3, 4, 1, 2, 5]] {
        let schedule = schedule([2, 2, 3], &input_places, &sums);
        let table = spread_table(&network, &schedule);
        assert_eq!(table, folded(&examples::unconnected_adder().to_bytes()));
        spreads(0, &network, &schedule);
    }
    for (sizes, output_places, counts) in [
        // All of the sum at the end, so that states tell the sum so far: up to 2, and up to 6.
        ([2, 4, 3], [8, 9, 10, 11], vec![1, 3, 7, 1]),
        // Each sum bit a frame later than its bits: states tell it and the carry.
        ([2, 2, 4], [2, 4, 6, 7], vec![1, 3, 4, 4, 1]),
        // One bit of one number a frame: a carry, and between the two bits how many are set with it.
        ([1, 2, 6], [2, 6, 10, 11], vec![1, 2, 2, 3, 2, 3, 1]),
        ([6, 4, 1], [0, 1, 2, 3], vec![1, 1]),
    ] {
        let schedule = schedule(sizes, &bits, &output_places);
        let table = spread_table(&network, &schedule);
        let head = Table::read(&table).expect("a legal table").head;
        assert_eq!(head.counts, counts);
        spreads(0, &network, &schedule);
        recovers(&mut Rng::new(1), &network, &schedule, &table);
    }
    // Highest bits first: every sum bit needs what comes later.
    let backwards = schedule([2, 2, 3], &[4, 2, 0, 5, 3, 1], &sums);
    assert_eq!(spreads(0, &network, &backwards), [4, 0]);
    let backwards = schedule([2, 2, 3], &[4, 2, 0, 5, 3, 1], &[4, 5, 0, 2]);
    assert_eq!(spreads(0, &network, &backwards), [4, 0]);
    let carry_early = schedule([2, 2, 3], &bits, &[0, 2, 4, 3]);
    assert_eq!(spreads(0, &network, &carry_early), [4, 3]);
}

#[test]
fn adders_of_up_to_sixteen_inputs_are_spread() {
    for bits in 1..=8 {
        let network = examples::plain_adder_of(bits);
        let schedule = examples::adder_schedule_of(bits as u16);
        assert_eq!(spreads(0, &network, &schedule)[0], 0);
        let table = spread_table(&network, &schedule);
        let mut counts = vec![2; bits + 1];
        (counts[0], counts[bits]) = (1, 1);
        let head = Table::read(&table).expect("a legal table").head;
        assert_eq!(head.counts, counts);
        recovers(&mut Rng::new(0), &network, &schedule, &table);
    }
}

#[test]
fn plain_parity_is_spread_as_given() {
    let network = examples::plain_parity();
    for (sizes, input_places, output_places, expected) in PARITY_SPREAD {
        let schedule = schedule(sizes, input_places, output_places);
        let (mut scratch, mut result) = ([7; 16], [0xee; 60]);
        let mut nodes = [tff::Node::default(); 9];
        let file = network.to_bytes();
        let answer = tff::spread(
            &file,
            &wrapped(&schedule),
            &mut scratch,
            &mut nodes,
            &mut result,
        );
        assert_eq!((answer.number, answer.place), expected);
        if sizes == [1, 1, 2] && expected.0 == 0 {
            assert_eq!(result[..40], to_bytes(&PARITY_TABLE));
        }
        let room = Room {
            numbers: 16,
            records: 9,
            bytes: 60,
        };
        let answer = spread(0, &file, &schedule, room);
        assert_eq!(answer, [expected.0, expected.1]);
    }
}

#[test]
fn plain_parity_is_spread_only_with_the_given_room() {
    let file = examples::plain_parity().to_bytes();
    let schedule = schedule([1, 1, 2], &[0, 1], &[0, 1]);
    for (numbers, records, bytes, expected) in PARITY_FOLDED {
        let room = Room {
            numbers,
            records,
            bytes,
        };
        let answer = spread(0, &file, &schedule, room);
        assert_eq!(answer, [expected.0, expected.1]);
    }
}

/// Random networks and schedules, most of which do not look ahead.
fn any(rng: &mut Rng, most_signals: usize, most_inner: usize) -> (Circuit, Schedule) {
    let make = rng.pick(&[any_legal, any_legal, any_heedless]);
    make(rng, most_signals, most_inner)
}

#[test]
fn random_networks_are_spread() {
    let mut seen = Seen::default();
    for seed in seeds(2_000) {
        let (network, schedule) = any(&mut Rng::new(seed), 9, 60);
        seen.note(spreads(seed, &network, &schedule));
    }
    seen.expect(&[0, 4]);
}

#[test]
fn networks_over_frames_of_all_shapes_are_spread() {
    for seed in seeds(2) {
        let mut rng = Rng::new(seed);
        for outputs in [1, 3, 16] {
            for sizes in sizes_with(outputs) {
                let gates = sizes.output_gates() + 40;
                let circuit = circuits::scrambled(&mut rng, sizes, gates);
                let inputs = rng.between(1, sizes.input_signals());
                let shown = rng.between(1, sizes.output_gates().min(16));
                let (network, schedule) = gathered(&mut rng, &circuit, inputs, shown);
                assert_eq!(spreads(seed, &network, &schedule)[0], 0);
            }
        }
    }
}

#[test]
fn sixteen_inputs_and_sixteen_outputs_are_spread() {
    let mut rng = Rng::new(1);
    for (inputs, frames) in [(1, 16), (2, 8), (4, 4), (8, 2)] {
        for outputs in [16 / frames, 16] {
            let sizes = Sizes::new(inputs, outputs, frames);
            let circuit = circuits::scrambled(&mut rng, sizes, sizes.output_gates() + 80);
            let (network, schedule) = gathered(&mut rng, &circuit, 16, 16);
            assert_eq!(network.sizes, Sizes::new(16, 16, 1));
            assert_eq!(spreads(1, &network, &schedule)[0], 0);
            let schedule = rescheduled(&mut rng, &network, 16);
            spreads(1, &network, &schedule);
        }
    }
}

/// A network whose outputs are its inputs.
fn wires(count: usize) -> Circuit {
    let gates = Gates::new(Sizes::new(count, count, 1));
    let inputs: Vec<u16> = (0..count).map(|input| gates.input(0, input)).collect();
    gates.finish(&inputs)
}

#[test]
fn sixteen_wires_are_spread() {
    let network = wires(16);
    for (per_frame, frames) in [(1, 16), (2, 8), (4, 4), (8, 2)] {
        let sizes = Sizes::new(per_frame, per_frame, frames);
        let mut schedule = in_order(&network, sizes);
        assert_eq!(spreads(0, &network, &schedule)[0], 0);
        let table = spread_table(&network, &schedule);
        let counts = Table::read(&table).expect("a legal table").head.counts;
        assert_eq!(counts, vec![1; frames + 1]);
        recovers(&mut Rng::new(0), &network, &schedule, &table);
        // The last wire comes out first.
        schedule.output_places.reverse();
        assert_eq!(spreads(0, &network, &schedule), [4, 0]);
        // In any order, as long as each comes out where it goes in.
        let order = Rng::new(frames as u64).shuffled(16);
        (schedule.input_places, schedule.output_places) = (order.clone(), order);
        assert_eq!(spread_table(&network, &schedule), table);
    }
}

#[test]
fn an_output_may_be_at_any_of_more_places_than_gates() {
    let network = wires(1);
    assert_eq!(network.gates(), 1);
    let sizes = Sizes::new(1, 16, 4);
    for place in 0..sizes.output_gates() as u16 {
        for input_place in 0..sizes.input_signals() as u16 {
            let schedule = schedule(sizes.words(), &[input_place], &[place]);
            let answer = spreads(0, &network, &schedule);
            if place / 16 < input_place {
                assert_eq!(answer, [4, u64::from(place)]);
            } else {
                assert_eq!(answer[0], 0);
                let table = spread_table(&network, &schedule);
                recovers(&mut Rng::new(0), &network, &schedule, &table);
            }
        }
    }
    // Among the most places.
    for (input_place, place, expected) in [
        (15, 255, 0),
        (15, 240, 0),
        (15, 239, 4),
        (0, 0, 0),
        (1, 15, 4),
    ] {
        let schedule = schedule([1, 16, 16], &[input_place], &[place]);
        assert_eq!(spreads(0, &network, &schedule)[0], expected);
    }
}

/// A circuit whose outputs of all frames are few enough is a network when its frames are forgotten: the
/// signals and gates are the same.
#[test]
fn circuits_without_their_frames_are_spread_to_themselves() {
    let mut seen = Seen::default();
    for seed in seeds(600) {
        let mut rng = Rng::new(seed);
        let sizes = any_sizes(&mut rng, 9);
        if sizes.output_gates() > 16 {
            continue;
        }
        let gates = sizes.output_gates() + rng.below(40);
        let make = rng.pick(&[circuits::legal, circuits::heedless, circuits::repetitive]);
        let circuit = make(&mut rng, sizes, gates);
        let network = Circuit {
            sizes: Sizes::new(sizes.input_signals(), sizes.output_gates(), 1),
            ..circuit.clone()
        };
        let [network_file, file] = [&network, &circuit].map(Circuit::to_bytes);
        let schedule = in_order(&network, sizes);
        let room = ample(&circuit);
        seen.note(spread_as_fold(seed, &network_file, &schedule, &file, room));
        let one_fewer = Room {
            records: room.records - 1,
            ..room
        };
        let answer = spread_as_fold(seed, &network_file, &schedule, &file, one_fewer);
        seen.note(answer);
    }
    seen.expect(&[0, 4, 18]);
}

#[test]
fn a_network_in_one_frame_is_the_circuit_that_it_is() {
    for seed in seeds(300) {
        let mut rng = Rng::new(seed);
        let sizes = Sizes::new(rng.between(1, 8), rng.between(1, 16), 1);
        let network = circuits::scrambled(&mut rng, sizes, sizes.outputs + 30);
        let network = circuits::partly_connected(&mut rng, network);
        let (file, room) = (network.to_bytes(), ample(&network));
        let schedule = in_order(&network, sizes);
        let answer = spread_as_fold(seed, &file, &schedule, &file, room);
        assert_eq!(answer[0], 0);
    }
}

#[test]
fn every_assignment_is_recovered_whatever_is_at_other_places() {
    for seed in seeds(400) {
        let mut rng = Rng::new(seed);
        let (network, schedule) = any_legal(&mut rng, 9, 40);
        let table = spread_table(&network, &schedule);
        recovers(&mut rng, &network, &schedule, &table);
    }
}

#[test]
fn unnamed_inputs_do_nothing_and_unnamed_outputs_are_unconnected() {
    for seed in seeds(300) {
        let mut rng = Rng::new(seed);
        let (network, schedule) = any_legal(&mut rng, 8, 30);
        let Sizes {
            inputs, outputs, ..
        } = sizes_of(&schedule);
        let table = Table::read(&spread_table(&network, &schedule)).expect("a legal table");
        for (layer, &connected) in table.head.connected.iter().enumerate() {
            let named = |per_frame: usize, places: &[u16]| -> u16 {
                let of_frame = places.iter().map(|&place| usize::from(place));
                let of_frame = of_frame.filter(|place| place / per_frame == layer);
                of_frame.map(|place| 1 << (place % per_frame)).sum()
            };
            let read = named(inputs, &schedule.input_places);
            assert_eq!(connected & !named(outputs, &schedule.output_places), 0);
            for entry in table.head.entries_of(layer) {
                // The entry of the same state for the word without what is not read.
                let words = 1 << inputs;
                let same = entry / words * words + ((entry % words) & usize::from(read));
                assert_eq!(table.output_words[entry], table.output_words[same]);
                assert_eq!(table.next_states[entry], table.next_states[same]);
            }
        }
    }
}

#[test]
fn unconnected_outputs_stay_so_and_use_up_their_places() {
    for seed in seeds(300) {
        let mut rng = Rng::new(seed);
        let (network, schedule) = any_legal(&mut rng, 8, 30);
        let any = rng.word() & network.sizes.every_output();
        for connected in [0, network.sizes.every_output(), any] {
            let network = circuits::with_connected(&network, &[connected]);
            assert_eq!(spreads(seed, &network, &schedule)[0], 0);
            let table = Table::read(&spread_table(&network, &schedule)).expect("a legal table");
            let expected = at_places(&schedule, network.connected()[0]);
            assert_eq!(table.head.connected, expected);
            // Connected or not, two outputs have two places.
            let last = schedule.output_places.len() - 1;
            if last > 0 {
                let mut twice = schedule.clone();
                twice.output_places[last] = schedule.output_places[0];
                let answer = spread(seed, &network.to_bytes(), &twice, Room::default());
                assert_eq!(answer, [20, (network.sizes.inputs + last) as u64]);
            }
        }
    }
}

#[test]
fn an_unconnected_output_never_looks_ahead() {
    // Both outputs show the second input, which comes in the second frame.
    let gates = Gates::new(Sizes::new(2, 2, 1));
    let late = gates.input(0, 1);
    let network = gates.finish(&[late, late]);
    let schedule = schedule([1, 2, 2], &[0, 1], &[0, 1]);
    for (connected, expected) in [(3, [4, 0]), (1, [4, 0]), (2, [4, 1]), (0, [0, 32])] {
        let network = circuits::with_connected(&network, &[connected]);
        assert_eq!(spreads(0, &network, &schedule), expected);
    }
}

/// All orders of `count` numbers from 0.
fn orders(count: u16) -> Vec<Vec<u16>> {
    let mut all = vec![vec![]];
    for number in 0..count {
        let shorter = std::mem::take(&mut all);
        for order in shorter {
            for at in 0..=order.len() {
                let mut longer = order.clone();
                longer.insert(at, number);
                all.push(longer);
            }
        }
    }
    all
}

#[test]
fn whether_an_output_looks_ahead_is_told_by_the_lists_alone() {
    // The first input, the AND of two, and the parity of all; also behind gates that lead to the last
    // input without effect.
    let mut gates = Gates::new(Sizes::new(3, 3, 1));
    let [a, b, c] = [0, 1, 2].map(|input| gates.input(0, input));
    let both = gates.and(a, b);
    let parity = gates.xor(a, b);
    let parity = gates.xor(parity, c);
    let network = gates.finish(&[a, both, parity]);
    let crossed = look_ahead::with_changed_output(&network, 0, |gates, value| {
        look_ahead::against_itself(gates, value, c)
    });
    let reads = [1, 2, 3];
    let mut seen = Seen::default();
    for input_places in orders(3) {
        for output_places in orders(3) {
            // The last frame that the output at a place reads from.
            let latest = |place: u16| {
                let output = output_places.iter().position(|&of| of == place);
                let read = &input_places[..reads[output.expect("each place is named")]];
                *read.iter().max().expect("an input")
            };
            let ahead = (0..3).find(|&place| latest(place) > place);
            let schedule = schedule([1, 1, 3], &input_places, &output_places);
            for network in [&network, &crossed] {
                let answer = spreads(0, network, &schedule);
                match ahead {
                    Some(place) => assert_eq!(answer, [4, u64::from(place)]),
                    None => assert_eq!(answer[0], 0),
                }
                seen.note(answer);
            }
        }
    }
    seen.expect(&[0, 4]);
}

#[test]
fn gates_that_reach_later_inputs_without_effect_are_no_looking_ahead() {
    let mut seen = Seen::default();
    for seed in seeds(200) {
        let mut rng = Rng::new(seed);
        let circuit = look_ahead::any_heedless(&mut rng, 8, 20);
        let inputs = circuit.sizes.input_signals();
        let outputs = rng.between(1, circuit.sizes.output_gates().min(16));
        let (network, schedule) = gathered(&mut rng, &circuit, inputs, outputs);
        let answer = spreads(seed, &network, &schedule);
        let over_frames = rearranged(&network, &schedule);
        let reaching = !over_frames.outputs_reaching_later_inputs().is_empty();
        seen.note([answer[0] + 100 * u64::from(reaching)]);
    }
    seen.expect(&[0, 100, 104]);
}

#[test]
fn every_head_of_a_network_near_the_limits_is_judged() {
    let mut seen = Seen::default();
    let schedule = schedule([1, 1, 2], &[0, 1], &[0, 1]);
    for [inputs, outputs, frames] in sizes_around_the_limits() {
        for gates in [0, outputs.wrapping_sub(1), outputs, 4095, 4096, 4097] {
            let head = to_bytes(&[inputs, outputs, frames, gates]);
            let answer = spread(0, &head, &schedule, Room::default());
            let expected = match (inputs, outputs, frames) {
                (0 | 17.., _, _) => [2, 0],
                (_, 0 | 17.., _) => [2, 2],
                (_, _, 0 | 2..) => [2, 4],
                _ if gates < outputs || gates > 4096 => [2, 6],
                _ => [1, 8],
            };
            assert_eq!(answer, expected);
            seen.note(answer);
        }
    }
    seen.expect(&[1, 2]);
}

#[test]
fn all_given_sizes_near_the_limits_are_judged() {
    let file = wires(1).to_bytes();
    for sizes in sizes_around_the_limits() {
        let schedule = schedule(sizes, &[0], &[]);
        let [inputs, outputs, frames] = sizes.map(u32::from);
        let expected = if !(1..=8).contains(&inputs) {
            [2, 0]
        } else if !(1..=16).contains(&outputs) {
            [2, 2]
        } else if !(1..=16).contains(&frames) || inputs * frames > 16 {
            [2, 4]
        } else {
            [12, 0]
        };
        assert_eq!(spread(0, &file, &schedule, Room::default()), expected);
    }
}

#[test]
fn networks_are_judged_as_circuits_of_one_frame() {
    let mut seen = Seen::default();
    for seed in seeds(6_000) {
        let mut rng = Rng::new(seed);
        let sizes = Sizes::new(rng.between(1, 8), rng.between(1, 16), 1);
        let gates = sizes.outputs + rng.below(12);
        let mut file = circuits::careless(&mut rng, sizes, gates).to_bytes();
        if rng.one_in(3) {
            file = damaged(&mut rng, &file);
        }
        // More inputs, and another T, are judged otherwise.
        if file.len() >= 6 && (word_at(&file, 0) > 8 || word_at(&file, 4) != 1) {
            continue;
        }
        let schedule = schedule([0; 3], &[], &[]);
        let answer = spread(seed, &file, &schedule, Room::default());
        let of_circuit = tff::check_circuit(&file);
        let expected = match of_circuit.number {
            0 => [2, 0],
            number => [number, of_circuit.place],
        };
        assert_eq!(answer, expected);
        seen.note([of_circuit.number]);
    }
    seen.expect(&[0, 1, 2, 3]);
}

#[test]
fn lengths_other_than_the_exact_one_are_refused() {
    for seed in seeds(30) {
        let (network, schedule) = any_legal(&mut Rng::new(seed), 8, 10);
        let file = network.to_bytes();
        let longer = [&file[..], &[0; 9]].concat();
        let room = enough(&network, &schedule);
        for length in (0..longer.len()).filter(|&length| length != file.len()) {
            let answer = spread(seed, &longer[..length], &schedule, room);
            assert_eq!(answer, [1, length as u64]);
        }
    }
}

#[test]
fn literals_of_sixteen_inputs_are_judged_at_their_limits() {
    let sizes = Sizes::new(16, 2, 1);
    let network = circuits::scrambled(&mut Rng::new(3), sizes, 12);
    let schedule = in_order(&network, Sizes::new(8, 1, 2));
    let room = enough(&network, &schedule);
    for gate in 0..network.gates() {
        for side in 0..2 {
            let at = 8 + 2 * (side * network.gates() + gate);
            let limit = network.literal(gate);
            for (literal, refused) in [
                (limit - 1, false),
                (limit, true),
                (limit + 1, true),
                (UNCONNECTED, true),
            ] {
                let mut file = network.to_bytes();
                set_word(&mut file, at, literal);
                let answer = spread(0, &file, &schedule, room);
                if refused {
                    assert_eq!(answer, [3, at as u64]);
                } else {
                    assert_ne!(answer[0], 3);
                }
            }
        }
    }
}

#[test]
fn damaged_networks_are_refused_and_change_nothing() {
    let mut seen = Seen::default();
    for seed in seeds(4_000) {
        let mut rng = Rng::new(seed);
        let (network, schedule) = any(&mut rng, 8, 12);
        let sizes = network.sizes;
        let network = match rng.below(2) {
            0 => circuits::careless(&mut rng, sizes, network.gates()),
            _ => network,
        };
        let mut file = network.to_bytes();
        if rng.one_in(2) {
            file = damaged(&mut rng, &file);
        }
        let spread_sizes = sizes_of(&schedule);
        let room = Room {
            numbers: scratch_needed(&spread_sizes),
            records: rng.pick(&[5_000, 5_000, 15]),
            bytes: longest_table(&spread_sizes),
        };
        seen.note(spread(seed, &file, &schedule, room));
    }
    seen.expect(&[0, 1, 2, 3, 4, 12, 18]);
}

/// All lists of at most three of these places.
fn short_lists(places: &[u16]) -> Vec<Vec<u16>> {
    let mut lists = vec![vec![]];
    for length in 0..3 {
        let longest: Vec<Vec<u16>> = lists
            .iter()
            .filter(|list| list.len() == length)
            .cloned()
            .collect();
        for list in longest {
            lists.extend(places.iter().map(|&place| [&list[..], &[place]].concat()));
        }
    }
    lists
}

/// What plain parity is to answer over two frames, with one input and one output in each.
fn judged_by_hand(input_places: &[u16], output_places: &[u16]) -> [u64; 2] {
    for list in [input_places, output_places] {
        if list.len() != 2 {
            return [12, list.len() as u64];
        }
    }
    let items = [input_places, output_places].concat();
    if let Some(index) = items.iter().position(|&place| place > 1) {
        return [19, index as u64];
    }
    match items[..] {
        [first, second, ..] if first == second => [20, 1],
        [.., first, second] if first == second => [20, 3],
        [0, _, 0, _] => [0, 40],
        // Parity is shown before the second input comes, or the first input before it comes itself.
        _ => [4, 0],
    }
}

#[test]
fn every_pair_of_short_lists_is_judged() {
    let network = examples::plain_parity();
    let file = network.to_bytes();
    let room = enough(&network, &schedule([1, 1, 2], &[0, 1], &[0, 1]));
    let lists = short_lists(&[0, 1, 2, u16::MAX]);
    let mut seen = Seen::default();
    for input_places in &lists {
        for output_places in &lists {
            let schedule = schedule([1, 1, 2], input_places, output_places);
            let answer = spread(0, &file, &schedule, room);
            assert_eq!(answer, judged_by_hand(input_places, output_places));
            seen.note(answer);
        }
    }
    seen.expect(&[0, 4, 12, 19, 20]);
}

#[test]
fn lists_of_every_other_length_are_refused() {
    for seed in seeds(40) {
        let (network, legal) = any_legal(&mut Rng::new(seed), 16, 10);
        let file = network.to_bytes();
        for length in (0..40).chain([255, 256, 65_535, 65_536, 65_537]) {
            let mut schedule = legal.clone();
            schedule.input_places.resize(length, 0);
            if length != network.sizes.inputs {
                let answer = spread(seed, &file, &schedule, Room::default());
                assert_eq!(answer, [12, length as u64]);
                // The inputs' list is judged first.
                schedule.output_places.push(u16::MAX);
                let answer = spread(seed, &file, &schedule, Room::default());
                assert_eq!(answer, [12, length as u64]);
            }
            let mut schedule = legal.clone();
            schedule.output_places.resize(length, 0);
            if length != network.sizes.outputs {
                // Its length comes before any place.
                schedule.input_places.fill(u16::MAX);
                let answer = spread(seed, &file, &schedule, Room::default());
                assert_eq!(answer, [12, length as u64]);
            }
        }
    }
}

#[test]
fn the_first_place_out_of_range_is_named_wherever_it_stands() {
    for seed in seeds(100) {
        let mut rng = Rng::new(seed);
        let (network, legal) = any_legal(&mut rng, 16, 10);
        let file = network.to_bytes();
        let sizes = sizes_of(&legal);
        let inputs = legal.input_places.len();
        // From the last item on, so that all behind the named one are out of range too.
        let mut schedule = legal.clone();
        for index in (0..inputs + legal.output_places.len()).rev() {
            let (item, places) = match index.checked_sub(inputs) {
                None => (&mut schedule.input_places[index], sizes.input_signals()),
                Some(output) => (&mut schedule.output_places[output], sizes.output_gates()),
            };
            *item = rng.pick(&[places as u16, places as u16 + 1, u16::MAX]);
            let answer = spread(seed, &file, &schedule, Room::default());
            assert_eq!(answer, [19, index as u64]);
        }
    }
}

#[test]
fn the_first_place_that_is_taken_is_named_wherever_it_stands() {
    for seed in seeds(100) {
        let mut rng = Rng::new(seed);
        let (network, legal) = any_legal(&mut rng, 16, 10);
        let file = network.to_bytes();
        let inputs = legal.input_places.len();
        let mut schedule = legal.clone();
        for index in (0..inputs + legal.output_places.len()).rev() {
            let (list, at) = match index.checked_sub(inputs) {
                None => (&mut schedule.input_places, index),
                Some(output) => (&mut schedule.output_places, output),
            };
            if at > 0 {
                list[at] = list[rng.below(at)];
                let answer = spread(seed, &file, &schedule, Room::default());
                assert_eq!(answer, [20, index as u64]);
            }
        }
    }
}

#[test]
fn an_input_and_an_output_may_have_the_same_place() {
    // Wires have each place in both lists.
    let network = wires(5);
    let schedule = in_order(&network, Sizes::new(1, 1, 5));
    assert_eq!(schedule.input_places, schedule.output_places);
    assert_eq!(spreads(0, &network, &schedule)[0], 0);
}

/// The lists with up to two faults: items changed, added or left out.
fn with_damaged_lists(rng: &mut Rng, schedule: &Schedule) -> Schedule {
    let mut damaged = schedule.clone();
    let sizes = sizes_of(schedule);
    for _ in 0..rng.between(1, 2) {
        let (list, places) = match rng.below(2) {
            0 => (&mut damaged.input_places, sizes.input_signals()),
            _ => (&mut damaged.output_places, sizes.output_gates()),
        };
        let any = rng.below(places);
        let beyond = places + rng.below(3);
        let item = rng.pick(&[any, any, any, beyond]) as u16;
        let length = list.len();
        match rng.below(8) {
            0 => list.push(item),
            1 => list.truncate(rng.below(length + 1)),
            _ if length > 0 => list[rng.below(length)] = item,
            _ => {}
        }
    }
    damaged
}

#[test]
fn networks_with_damaged_lists_are_judged() {
    let mut seen = Seen::default();
    for seed in seeds(4_000) {
        let mut rng = Rng::new(seed);
        let (network, legal) = any_legal(&mut rng, 8, 20);
        let schedule = with_damaged_lists(&mut rng, &legal);
        let room = Room {
            records: 5_000,
            ..enough(&network, &legal)
        };
        seen.note(spread(seed, &network.to_bytes(), &schedule, room));
    }
    seen.expect(&[0, 4, 12, 19, 20]);
}

#[test]
fn any_sizes_and_lists_are_judged() {
    let mut seen = Seen::default();
    for seed in seeds(6_000) {
        let mut rng = Rng::new(seed);
        let (network, mut schedule) = any_legal(&mut rng, 8, 20);
        let at = rng.below(3);
        schedule.sizes[at] = rng.pick(&[0, 1, 2, 3, 4, 5, 8, 9, 16, 17, 256, u16::MAX]);
        let room = Room {
            numbers: 1 << rng.pick(&[4, 9, 11]),
            records: 5_000,
            bytes: 1 << rng.pick(&[5, 13]),
        };
        // Sixteen inputs of all frames take the plain implementation its time.
        let [inputs, _, frames] = schedule.sizes.map(u32::from);
        if inputs * frames <= 10 || inputs * frames > 16 {
            seen.note(spread(seed, &network.to_bytes(), &schedule, room));
        }
    }
    seen.expect(&[0, 2, 4, 6, 7, 19]);
}

/// All that a call is given.
#[derive(Clone)]
struct Given {
    file: Vec<u8>,
    schedule: Schedule,
    room: Room,
    /// What names the faults behind the lists: the place of the output, the scratch, the gate, and the
    /// bytes.
    names: [u64; 4],
    /// A network that looks ahead.
    looking: Vec<u8>,
}

impl AsRef<[u8]> for Given {
    fn as_ref(&self) -> &[u8] {
        &self.file
    }
}

/// Faults of a network of three inputs and three outputs over three frames, in the order in which they are
/// judged. Each can be made beside any other.
const FAULTS: [Fault<Given>; 21] = [
    (|given| given.file.truncate(7), length),
    (|given| set_word(&mut given.file, 0, 17), |_| [2, 0]),
    (|given| set_word(&mut given.file, 2, 0), |_| [2, 2]),
    (|given| set_word(&mut given.file, 4, 2), |_| [2, 4]),
    (|given| set_word(&mut given.file, 6, 4_097), |_| [2, 6]),
    (|given| given.file.push(0), length),
    (|given| set_word(&mut given.file, 8, 8), |_| [3, 8]),
    (
        |given| set_word(&mut given.file, 14, UNCONNECTED),
        |_| [3, 14],
    ),
    (|given| given.schedule.sizes[0] = 9, |_| [2, 0]),
    (|given| given.schedule.sizes[1] = 0, |_| [2, 2]),
    (|given| given.schedule.sizes[2] = 17, |_| [2, 4]),
    (|given| given.schedule.input_places.push(0), |_| [12, 4]),
    (
        |given| given.schedule.output_places.truncate(1),
        |_| [12, 1],
    ),
    (|given| given.schedule.input_places[1] = 9, |_| [19, 1]),
    (
        |given| given.schedule.output_places[1] = u16::MAX,
        |_| [19, 4],
    ),
    (
        |given| given.schedule.input_places[2] = given.schedule.input_places[0],
        |_| [20, 2],
    ),
    (
        |given| given.schedule.output_places[2] = given.schedule.output_places[0],
        |_| [20, 5],
    ),
    (
        |given| given.file = given.looking.clone(),
        |given| [4, given.names[0]],
    ),
    (|given| given.room.numbers -= 1, |given| [6, given.names[1]]),
    (
        |given| given.room.records -= 1,
        |given| [18, given.names[2]],
    ),
    (|given| given.room.bytes -= 1, |given| [7, given.names[3]]),
];

/// A network over three frames of one input and two outputs, with just enough room.
fn without_faults(seed: u64) -> Given {
    let mut rng = Rng::new(seed);
    let sizes = Sizes::new(1, 2, 3);
    let circuit = circuits::scrambled(&mut rng, sizes, 30);
    let circuit = circuits::partly_connected(&mut rng, circuit);
    let (network, schedule) = gathered(&mut rng, &circuit, 3, 3);
    // Of three outputs, not all are among the two of the last frame.
    let early = |place: &u16| *place < 4;
    let output = schedule.output_places.iter().position(early);
    let output = output.expect("an early output");
    let late = schedule.input_places.iter().position(|&place| place == 2);
    let late = 2 * (late.expect("every input is named") + 1) as u16;
    let looking =
        look_ahead::with_changed_output(&network, output, |gates, value| gates.xor(value, late));
    let counts = node_counts(&network, &schedule);
    let records = counts[counts.len() - 1];
    let gate = first_without_room(&counts, records - 1).expect("a node more");
    let bytes = spread_table(&network, &schedule).len();
    let numbers = scratch_needed(&sizes);
    Given {
        names: [
            u64::from(schedule.output_places[output]),
            numbers as u64,
            gate as u64,
            bytes as u64,
        ],
        file: network.to_bytes(),
        schedule,
        room: Room {
            numbers,
            records,
            bytes,
        },
        looking: looking.to_bytes(),
    }
}

#[test]
fn of_several_faults_the_first_in_order_is_named() {
    for seed in seeds(5) {
        let given = without_faults(seed);
        for (first, second, third) in triples(FAULTS.len()) {
            let faults = [first, second, third].map(|index| FAULTS[index]);
            for (given, named) in with_faults(&given, &faults) {
                let answer = spread(seed, &given.file, &given.schedule, given.room);
                assert_eq!(answer, named.unwrap_or([0, given.names[3]]));
            }
        }
    }
}

/// All triples of ascending numbers below `count`.
fn triples(count: usize) -> impl Iterator<Item = (usize, usize, usize)> {
    let pairs = (0..count).flat_map(|third| (0..third).map(move |second| (second, third)));
    pairs.flat_map(|(second, third)| (0..second).map(move |first| (first, second, third)))
}

/// The gate at which a list of so many records is too short, 0 for the inputs, if there is one.
fn first_without_room(counts: &[usize], records: usize) -> Option<usize> {
    counts.iter().position(|&count| count > records)
}

#[test]
fn what_is_lent_is_judged_at_the_needed_lengths() {
    for seed in seeds(100) {
        let (network, schedule) = any_legal(&mut Rng::new(seed), 8, 40);
        let file = network.to_bytes();
        let scratch = scratch_needed(&sizes_of(&schedule));
        let counts = node_counts(&network, &schedule);
        let needed = counts[counts.len() - 1];
        let length = spread_table(&network, &schedule).len();
        let circuit = rearranged(&network, &schedule).to_bytes();
        for numbers in [0, scratch - 1, scratch, scratch + 1, scratch + 100] {
            for records in [0, needed - 1, needed, needed + 1, needed + 100] {
                for bytes in [0, 7, 8, length - 1, length, length + 1, length + 100] {
                    let room = Room {
                        numbers,
                        records,
                        bytes,
                    };
                    let expected = if numbers < scratch {
                        [6, scratch as u64]
                    } else if let Some(gate) = first_without_room(&counts, records) {
                        [18, gate as u64]
                    } else if bytes < length {
                        [7, length as u64]
                    } else {
                        [0, length as u64]
                    };
                    assert_eq!(spread(seed, &file, &schedule, room), expected);
                    spread_as_fold(seed, &file, &schedule, &circuit, room);
                }
            }
        }
    }
}

#[test]
fn every_length_of_all_that_is_lent_is_judged() {
    let given = without_faults(0);
    let Room {
        numbers,
        records,
        bytes,
    } = given.room;
    let judge = |room| spread(0, &given.file, &given.schedule, room);
    for numbers in 0..numbers {
        let answer = judge(Room {
            numbers,
            ..given.room
        });
        assert_eq!(answer, [6, given.names[1]]);
    }
    for records in 0..records {
        let answer = judge(Room {
            records,
            ..given.room
        });
        assert_eq!(answer[0], 18);
    }
    for bytes in 0..bytes {
        let answer = judge(Room {
            bytes,
            ..given.room
        });
        assert_eq!(answer, [7, given.names[3]]);
    }
    assert_eq!(judge(given.room), [0, given.names[3]]);
}

/// A network with every number of records that matters: each count of nodes, and one fewer.
fn judges_every_count(seed: u64, network: &Circuit, schedule: &Schedule) {
    let counts = node_counts(network, schedule);
    let circuit = rearranged(network, schedule);
    // The outputs over frames are gates of the network once more.
    let of_circuit: Vec<usize> = reference::node_counts(&circuit).collect();
    assert_eq!(of_circuit[..counts.len()], counts);
    let needed = counts[counts.len() - 1];
    assert!(of_circuit[counts.len()..]
        .iter()
        .all(|&count| count == needed));
    let mut lengths = BTreeSet::from([0, 1]);
    for &count in &counts {
        lengths.extend([count - 1, count]);
    }
    let (file, circuit) = (network.to_bytes(), circuit.to_bytes());
    let enough = enough(network, schedule);
    for records in lengths {
        let room = Room { records, ..enough };
        let answer = spread(seed, &file, schedule, room);
        match first_without_room(&counts, records) {
            Some(gate) => assert_eq!(answer, [18, gate as u64]),
            None => assert_eq!(answer[0], 0),
        }
        spread_as_fold(seed, &file, schedule, &circuit, room);
    }
}

#[test]
fn records_are_judged_at_every_gate_of_the_network() {
    for seed in seeds(150) {
        let mut rng = Rng::new(seed);
        let (network, schedule) = any_legal(&mut rng, 8, 30);
        judges_every_count(seed, &network, &schedule);
        let sizes = any_sizes(&mut rng, 7);
        let circuit = circuits::repetitive(&mut rng, sizes, 25);
        let inputs = rng.between(1, sizes.input_signals());
        let outputs = rng.between(1, sizes.output_gates().min(16));
        let (network, schedule) = gathered(&mut rng, &circuit, inputs, outputs);
        judges_every_count(seed, &network, &schedule);
    }
    judges_every_count(0, &examples::plain_adder(), &examples::adder_schedule());
}

#[test]
fn every_input_place_has_a_node_whether_or_not_it_is_named() {
    // An output that is false needs none.
    let network = Gates::new(Sizes::new(1, 1, 1)).finish(&[FALSE]);
    let file = network.to_bytes();
    for sizes in sizes_with(2) {
        let places = sizes.input_signals();
        for named in [0, places - 1] {
            let schedule = schedule(sizes.words(), &[named as u16], &[0]);
            for (records, expected) in [(0, 18), (places - 1, 18), (places, 0)] {
                let room = Room {
                    numbers: scratch_needed(&sizes),
                    records,
                    bytes: longest_table(&sizes),
                };
                let [number, place] = spread(0, &file, &schedule, room);
                assert_eq!(number, expected);
                assert!(number == 0 || place == 0);
            }
        }
    }
}

/// Whether both inputs of one of three pairs are set.
fn pairs() -> Circuit {
    let mut gates = Gates::new(Sizes::new(6, 1, 1));
    let mut none = TRUE;
    for pair in 0..3 {
        let [first, second] = [2 * pair, 2 * pair + 1].map(|input| gates.input(0, input));
        let both = gates.and(first, second);
        none = gates.and(none, not(both));
    }
    gates.finish(&[not(none)])
}

#[test]
fn nodes_are_counted_in_the_order_of_the_new_places() {
    let network = pairs();
    let side_by_side = schedule([6, 1, 1], &[0, 1, 2, 3, 4, 5], &[0]);
    let apart = schedule([6, 1, 1], &[0, 3, 1, 4, 2, 5], &[0]);
    // The output alone has six nodes in the first order and fourteen in the second.
    let [few, many] = [&side_by_side, &apart].map(|schedule| nodes_needed(&network, schedule));
    assert!(few < many, "{few} and {many} nodes");
    for schedule in [side_by_side, apart] {
        judges_every_count(0, &network, &schedule);
        let file = network.to_bytes();
        let [number, _] = spread(
            0,
            &file,
            &schedule,
            Room {
                records: many - 1,
                ..enough(&network, &schedule)
            },
        );
        let needed = nodes_needed(&network, &schedule);
        assert_eq!(number == 0, needed == few);
    }
}

#[test]
fn the_order_of_the_gates_changes_no_byte() {
    for seed in seeds(200) {
        let mut rng = Rng::new(seed);
        let (network, schedule) = any_legal(&mut rng, 9, 60);
        let reordered = circuits::reordered(&mut rng, &network);
        assert_eq!(spreads(seed, &reordered, &schedule)[0], 0);
        assert_eq!(
            spread_table(&reordered, &schedule),
            spread_table(&network, &schedule)
        );
    }
}

/// The limit on gates is one of the network alone, and not of all outputs over frames besides.
#[test]
fn networks_of_the_most_gates_are_spread_over_the_most_places() {
    let mut rng = Rng::new(5);
    for (inputs, outputs, frames) in [(1, 16, 8), (2, 16, 4), (1, 16, 16), (8, 3, 2)] {
        let sizes = Sizes::new(inputs, outputs, frames);
        let shown = sizes.output_gates().min(16);
        let circuit = circuits::scrambled(&mut rng, sizes, sizes.output_gates() + 60);
        let (network, schedule) = gathered(&mut rng, &circuit, sizes.input_signals(), shown);
        let padded = machines::padded(&network, Circuit::MOST_GATES);
        assert_eq!(spreads(5, &padded, &schedule)[0], 0);
        let same = spread_table(&network, &schedule);
        assert_eq!(spread_table(&padded, &schedule), same);
        // One gate more is one too many.
        let mut file = padded.to_bytes();
        set_word(&mut file, 6, 4_097);
        let room = enough(&padded, &schedule);
        assert_eq!(spread(5, &file, &schedule, room), [2, 6]);
    }
}

#[test]
fn empty_slices_are_ordinary() {
    let nothing = schedule([0; 3], &[], &[]);
    assert_eq!(spread(0, &[], &nothing, Room::default()), [1, 0]);
    let file = examples::plain_parity().to_bytes();
    assert_eq!(spread(0, &file, &nothing, Room::default()), [2, 0]);
    let without_lists = schedule([1, 1, 2], &[], &[]);
    let answer = spread(0, &file, &without_lists, Room::default());
    assert_eq!(answer, [12, 0]);
    let schedule = schedule([1, 1, 2], &[0, 1], &[0, 1]);
    assert_eq!(spread(0, &file, &schedule, Room::default()), [6, 8]);
    let scratch_alone = Room {
        numbers: 8,
        ..Room::default()
    };
    assert_eq!(spread(0, &file, &schedule, scratch_alone), [18, 0]);
    let without_result = Room {
        records: 7,
        ..scratch_alone
    };
    assert_eq!(spread(0, &file, &schedule, without_result), [7, 40]);
}

#[test]
fn a_short_answer_changes_nothing() {
    for seed in seeds(200) {
        let mut rng = Rng::new(seed);
        let (network, legal) = any(&mut rng, 8, 20);
        let file = network.to_bytes();
        for schedule in [with_damaged_lists(&mut rng, &legal), legal.clone()] {
            let (words, inputs) = (joined(&schedule), schedule.input_places.len());
            for room in [Room::default(), enough(&network, &legal)] {
                let case = spread_case(seed, &file, &words);
                short_answers_change_nothing(&case, room, 2, |lent, answer| {
                    call_spread(&file, &words, inputs, lent, answer)
                });
            }
        }
    }
}

#[test]
fn growing_lists_spread_as_lists_of_enough_records() {
    let sizes = Sizes::new(2, 2, 6);
    let mut rng = Rng::new(1);
    let circuit = circuits::scrambled(&mut rng, sizes, 900);
    let (network, schedule) = gathered(&mut rng, &circuit, 12, 12);
    let (file, needed) = (network.to_bytes(), nodes_needed(&network, &schedule));
    assert!(needed > 2 * Nodes::FIRST);
    let given = wrapped(&schedule);
    let mut scratch = vec![0; scratch_needed(&sizes)];
    let mut table = vec![0; longest_table(&sizes)];
    let mut nodes = vec![tff::Node::default(); needed];
    let answer = tff::spread(&file, &given, &mut scratch, &mut nodes, &mut table);
    assert_eq!(answer.number, 0);
    for most in [needed, needed + 1, Nodes::ENOUGH] {
        let mut result = vec![0; table.len()];
        let mut nodes = Nodes::up_to(most);
        let found = nodes.spread(&file, &given, &mut scratch, &mut result);
        assert_eq!(found, answer);
        assert_eq!(result, table);
    }
    let gate = first_without_room(&node_counts(&network, &schedule), needed - 1);
    let mut result = vec![0xee; table.len()];
    let mut nodes = Nodes::up_to(needed - 1);
    let refusal = nodes.spread(&file, &given, &mut scratch, &mut result);
    assert_eq!(refusal.number, 18);
    assert_eq!(Some(refusal.place as usize), gate);
    assert!(result.iter().all(|&byte| byte == 0xee));
}
