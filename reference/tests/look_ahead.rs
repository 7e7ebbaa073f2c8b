//! Number 4 by meaning: circuits whose outputs lead to inputs of later frames, with and without
//! effect, checked, simulated and folded by the proved library and the plain one.

#[path = "common/circuit_calls.rs"]
mod circuit_calls;
mod common;
#[path = "common/evaluator.rs"]
mod evaluator;
#[path = "common/folding.rs"]
mod folding;
#[path = "common/simulating.rs"]
mod simulating;

use circuit_calls::CIRCUIT;
use common::{seeds, Seen};
use folding::{ample, fold};
use reference::gates::not;
use reference::gen::look_ahead::{
    self, crossed_out, inverted_on, with_changed_output, CrossingOut,
};
use reference::gen::{all_sizes, any_sequence, any_sizes, circuits, sizes_with, Rng};
use reference::{Circuit, Gates, Sizes};

/// Inputs and frames of the shapes with the most sequences, 65,536.
const MOST_SEQUENCES: [(usize, usize); 4] = [(1, 16), (2, 8), (4, 4), (8, 2)];

/// Number 4 at this output.
fn at(output: usize) -> [u64; 2] {
    [4, output as u64]
}

/// The number of outputs that are not of the last frame: these could look ahead.
fn early(sizes: &Sizes) -> usize {
    look_ahead::outputs_before_last_frame(sizes)
}

fn sequences(sizes: &Sizes) -> usize {
    sizes.histories(sizes.frames)
}

/// A random legal circuit of two frames or more.
fn any_circuit(rng: &mut Rng) -> Circuit {
    loop {
        let circuit = circuits::any_legal(rng, 8, 30);
        if circuit.sizes.frames > 1 {
            return circuit;
        }
    }
}

/// The same outputs, all that could look ahead led to later inputs.
fn crossed(rng: &mut Rng, circuit: &Circuit) -> Circuit {
    let gates = look_ahead::gates_crossed_out(circuit) + rng.below(20);
    crossed_out(rng, circuit, gates)
}

/// What the calls answer for a circuit, and what folding and simulating it leave.
#[derive(Debug, PartialEq)]
struct Found {
    checked: [u64; 2],
    folded: (tff::Answer, Vec<u16>, Vec<u8>),
    simulated: Vec<(tff::Answer, Vec<u16>)>,
}

/// Equal seeds give equal memory and sequences. All answers are compared with the plain ones.
fn found(seed: u64, circuit: &Circuit) -> Found {
    let file = circuit.to_bytes();
    let sizes = circuit.sizes;
    let room = ample(circuit);
    let (mut scratch, mut table) = (vec![7; room.numbers], vec![7; room.bytes]);
    let mut nodes = vec![tff::Node::default(); room.records];
    let answer = tff::fold(&file, &mut scratch, &mut nodes, &mut table);
    assert_eq!(fold(seed, &file, room), [answer.number, answer.place]);
    let mut rng = Rng::new(seed);
    let simulated = (0..3).map(|_| {
        let words = any_sequence(&mut rng, &sizes);
        let mut outputs = vec![7; sizes.frames + 1];
        let answer = tff::simulate_one(&file, &words, &mut outputs);
        let compared = CIRCUIT.evaluate(seed, &file, &words, sizes.frames + 1);
        assert_eq!(compared, [answer.number, answer.place]);
        (answer, outputs)
    });
    Found {
        checked: CIRCUIT.check(seed, &file),
        simulated: simulated.collect(),
        folded: (answer, scratch, table),
    }
}

/// Two circuits with equal outputs, equally connected, and different gates: no call tells them apart.
/// Gives what checking answers.
fn judged_alike(seed: u64, first: &Circuit, second: &Circuit) -> [u64; 2] {
    assert_ne!(first, second);
    assert_eq!(first.connected(), second.connected());
    assert_eq!(
        first.outputs_on_all_sequences(),
        second.outputs_on_all_sequences()
    );
    let of_first = found(seed, first);
    assert_eq!(of_first, found(seed, second));
    of_first.checked
}

/// An input of a later frame that is led to an output in this way is no reason to refuse. Led there
/// by one exclusive or, it is.
fn has_no_effect(cross_out: CrossingOut) {
    for seed in seeds(300) {
        let mut rng = Rng::new(seed);
        let circuit = any_circuit(&mut rng);
        let output = rng.below(early(&circuit.sizes));
        // Connected, if it was not.
        let circuit = with_changed_output(&circuit, output, |_, value| value);
        let later = look_ahead::later_input(&mut rng, &circuit.sizes, output);
        let same = with_changed_output(&circuit, output, |gates, value| {
            cross_out(gates, value, later)
        });
        assert_eq!(judged_alike(seed, &circuit, &same), [0, 0]);
        let other = with_changed_output(&same, output, |gates, value| gates.xor(value, later));
        CIRCUIT.finds(seed, &other.to_bytes(), Some(at(output)));
    }
}

#[test]
fn later_inputs_wired_against_themselves_are_no_reason() {
    has_no_effect(look_ahead::against_itself);
}

#[test]
fn later_inputs_cancelled_in_exclusive_ors_are_no_reason() {
    has_no_effect(look_ahead::cancelled);
}

#[test]
fn later_inputs_of_redundant_multiplexers_are_no_reason() {
    has_no_effect(look_ahead::chosen_alike);
    has_no_effect(look_ahead::never_chosen);
}

#[test]
fn absorbed_later_inputs_are_no_reason() {
    has_no_effect(look_ahead::absorbed);
}

#[test]
fn a_multiplexer_that_a_later_input_controls_is_judged_by_what_it_chooses() {
    // The second input chooses between two values of the first: the same, or one and the other.
    let choose = |first: fn(u16) -> u16, second: fn(u16) -> u16| {
        let mut gates = Gates::new(Sizes::new(1, 1, 2));
        let [value, choice] = [0, 1].map(|frame| gates.input(frame, 0));
        let first = gates.and(choice, first(value));
        let second = gates.and(not(choice), second(value));
        let chosen = gates.or(first, second);
        gates.finish(&[chosen, value]).to_bytes()
    };
    let same = |value| value;
    for (file, fault) in [
        (choose(same, same), None),
        (choose(not, not), None),
        (choose(same, not), Some(at(0))),
        (choose(not, same), Some(at(0))),
    ] {
        CIRCUIT.finds(0, &file, fault);
    }
}

#[test]
fn the_output_that_does_look_ahead_is_named_among_others_that_lead_to_later_inputs() {
    for seed in seeds(400) {
        let mut rng = Rng::new(seed);
        let circuit = any_circuit(&mut rng);
        let sizes = circuit.sizes;
        let output = rng.below(early(&sizes));
        let looking = inverted_on(&circuit, output, rng.below(sequences(&sizes)));
        let gates = look_ahead::gates_crossed_out(&looking);
        for others in [0..output, output + 1..early(&sizes), 0..early(&sizes)] {
            let file = look_ahead::crossed_out_among(&mut rng, &looking, others, gates).to_bytes();
            CIRCUIT.finds(seed, &file, Some(at(output)));
        }
    }
}

#[test]
fn the_first_output_is_named_though_a_later_one_shows_it_on_an_earlier_sequence() {
    for seed in seeds(400) {
        let mut rng = Rng::new(seed);
        let circuit = any_circuit(&mut rng);
        let sizes = circuit.sizes;
        if early(&sizes) < 2 {
            continue;
        }
        let later_output = rng.between(1, early(&sizes) - 1);
        let output = rng.below(later_output);
        // Where a history's first continuation is the one inverted, the second shows it.
        let sequence = rng.between(2, sequences(&sizes) - 1);
        let earlier_sequence = rng.below(sequence - 1);
        let circuit = inverted_on(&circuit, output, sequence);
        let circuit = inverted_on(&circuit, later_output, earlier_sequence);
        for circuit in [crossed(&mut rng, &circuit), circuit] {
            CIRCUIT.finds(seed, &circuit.to_bytes(), Some(at(output)));
        }
    }
}

#[test]
fn the_first_output_is_named_among_the_most_sequences() {
    for (inputs, frames) in MOST_SEQUENCES {
        let sizes = Sizes::new(inputs, 3, frames);
        let last = early(&sizes) - 1;
        let mut circuit = Gates::new(sizes).finish(&vec![0; sizes.output_gates()]);
        // From output to output earlier ones, on later and later sequences.
        for (output, sequence) in [(last, 0), (last - 1, 31), (1, 32), (0, 65_535)] {
            circuit = inverted_on(&circuit, output, sequence);
            assert_eq!(CIRCUIT.check(0, &circuit.to_bytes()), at(output));
        }
    }
}

#[test]
fn any_one_sequence_of_fewer_than_64_shows_a_look_ahead() {
    for sizes in all_sizes() {
        if sequences(&sizes) < 64 {
            any_one_sequence_shows_a_look_ahead(sizes);
        }
    }
}

#[test]
fn any_one_sequence_of_64_to_256_shows_a_look_ahead() {
    for sizes in sizes_with(2) {
        if (64..=256).contains(&sequences(&sizes)) {
            any_one_sequence_shows_a_look_ahead(sizes);
        }
    }
}

/// Each output inverted on each sequence; one of the last frame does not look ahead by that.
fn any_one_sequence_shows_a_look_ahead(sizes: Sizes) {
    let circuit = circuits::legal(&mut Rng::new(1), sizes, sizes.output_gates() + 5);
    for output in 0..sizes.output_gates() {
        let fault = (output < early(&sizes)).then_some(at(output));
        for sequence in 0..sequences(&sizes) {
            let file = inverted_on(&circuit, output, sequence).to_bytes();
            assert_eq!(CIRCUIT.check(0, &file), fault.unwrap_or([0, 0]));
        }
    }
}

#[test]
fn one_sequence_of_65536_shows_a_look_ahead() {
    for (inputs, frames) in MOST_SEQUENCES {
        let sizes = Sizes::new(inputs, 2, frames);
        let circuit = circuits::legal(&mut Rng::new(1), sizes, sizes.output_gates() + 10);
        for output in [0, early(&sizes) - 1] {
            for sequence in [
                0, 1, 63, 64, 127, 32_767, 32_768, 45_678, 65_471, 65_472, 65_533, 65_534, 65_535,
            ] {
                let file = inverted_on(&circuit, output, sequence).to_bytes();
                assert_eq!(CIRCUIT.check(0, &file), at(output));
            }
        }
    }
}

/// Of each shape with the most sequences, a circuit to be crossed out with the most gates.
fn with_most_sequences() -> [Circuit; 4] {
    MOST_SEQUENCES.map(|(inputs, frames)| {
        let sizes = Sizes::new(inputs, 16, frames);
        circuits::connected(&mut Rng::new(1), sizes, sizes.output_gates() + 100)
    })
}

#[test]
fn the_most_gates_and_sequences_are_accepted_without_effect() {
    for circuit in with_most_sequences() {
        let crossed = crossed_out(&mut Rng::new(2), &circuit, Circuit::MOST_GATES);
        CIRCUIT.accepts(2, &crossed.to_bytes(), &circuit.sizes, 1);
    }
}

#[test]
fn one_sequence_shows_a_look_ahead_among_the_most_gates_and_sequences() {
    let shown_at = [(16, 65_535), (100, 65_472), (0, 30_000), (15, 0)];
    for (circuit, (output, sequence)) in with_most_sequences().into_iter().zip(shown_at) {
        let looking = inverted_on(&circuit, output, sequence);
        let crossed = crossed_out(&mut Rng::new(3), &looking, Circuit::MOST_GATES);
        CIRCUIT.finds(3, &crossed.to_bytes(), Some(at(output)));
    }
}

#[test]
fn the_most_gates_and_sequences_are_folded_without_effect() {
    let circuit = circuits::few_states(2, 8, 200);
    let crossed = crossed_out(&mut Rng::new(4), &circuit, Circuit::MOST_GATES);
    let [folded, crossed_folded] = [circuit, crossed].map(|circuit| {
        let (file, room) = (circuit.to_bytes(), ample(&circuit));
        let (mut scratch, mut table) = (vec![7; room.numbers], vec![7; room.bytes]);
        let mut nodes = vec![tff::Node::default(); room.records];
        let answer = tff::fold(&file, &mut scratch, &mut nodes, &mut table);
        assert_eq!(fold(4, &file, room), [0, answer.place]);
        (answer, scratch, table)
    });
    assert!(folded == crossed_folded);
}

#[test]
fn every_behaviour_of_one_input_two_outputs_and_two_frames_is_judged() {
    let sizes = Sizes::new(1, 2, 2);
    // Two bits for each of four sequences, in two frames: 8 + 8.
    for seed in seeds(1 << 16) {
        let output = |frame, sequence| (seed >> (8 * frame + 2 * sequence) & 3) as u16;
        let circuit = circuits::with_outputs_by_sequence(sizes, output);
        // Sequences 0 and 1 have the first word in common, and so have 2 and 3.
        let differ = (output(0, 0) ^ output(0, 1)) | (output(0, 2) ^ output(0, 3));
        let expected = match differ {
            0 => [0, 0],
            _ => at(differ.trailing_zeros() as usize),
        };
        assert_eq!(CIRCUIT.check(seed, &circuit.to_bytes()), expected);
    }
}

#[test]
fn heedless_circuits_are_judged() {
    for (count, most_signals) in [(10_000, 8), (1_000, 11), (40, 16)] {
        let seen = CIRCUIT.judges(count, |rng| {
            let circuit = look_ahead::any_heedless(rng, most_signals, 30);
            (circuit.to_bytes(), circuit.sizes)
        });
        seen.expect(&[0, 4]);
    }
}

#[test]
fn circuits_with_equal_outputs_are_judged_alike() {
    let mut seen = Seen::default();
    for seed in seeds(1_000) {
        let mut rng = Rng::new(seed);
        let circuit = look_ahead::any_heedless(&mut rng, 5, 20);
        // Drawn anew from the outputs alone; and crossed out.
        seen.note(judged_alike(seed, &circuit, &redrawn(&circuit)));
        seen.note(judged_alike(seed, &circuit, &crossed(&mut rng, &circuit)));
    }
    seen.expect(&[0, 4]);
}

fn redrawn(circuit: &Circuit) -> Circuit {
    let outputs = circuit.outputs_on_all_sequences();
    let output = |frame, sequence: usize| outputs[sequence][frame];
    let redrawn = circuits::with_outputs_by_sequence(circuit.sizes, output);
    circuits::with_connected(&redrawn, &circuit.connected())
}

#[test]
fn circuits_that_look_ahead_alike_are_refused_alike() {
    for seed in seeds(300) {
        let mut rng = Rng::new(seed);
        let circuit = any_circuit(&mut rng);
        let sizes = circuit.sizes;
        let output = rng.below(early(&sizes));
        let sequence = rng.below(sequences(&sizes));
        let looking = inverted_on(&circuit, output, sequence);
        let crossed_after = crossed(&mut rng, &looking);
        let crossed_before = inverted_on(&crossed(&mut rng, &circuit), output, sequence);
        for other in [crossed_after, crossed_before] {
            assert_eq!(judged_alike(seed, &looking, &other), at(output));
        }
    }
}

#[test]
fn every_sequence_is_simulated_without_effect() {
    for seed in seeds(200) {
        let mut rng = Rng::new(seed);
        let sizes = any_sizes(&mut rng, 6);
        let circuit = circuits::legal(&mut rng, sizes, sizes.output_gates() + 10);
        let file = crossed(&mut rng, &circuit).to_bytes();
        CIRCUIT.accepts_every_sequence(seed, &file, &sizes);
    }
}

#[test]
fn a_short_answer_changes_nothing() {
    for seed in seeds(100) {
        let mut rng = Rng::new(seed);
        let circuit = look_ahead::any_heedless(&mut rng, 8, 20);
        CIRCUIT.needs_two_answers(seed, &circuit.to_bytes(), &circuit.sizes);
    }
}
