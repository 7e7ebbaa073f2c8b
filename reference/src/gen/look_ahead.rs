//! Circuits whose outputs look ahead, or lead to inputs of later frames without effect.

use std::ops::Range;

use super::{any_sizes, circuits, Rng};
use crate::circuit::Circuit;
use crate::gates::{not, Gates, FALSE, TRUE, UNCONNECTED};
use crate::sizes::Sizes;

/// Gives a value again behind gates that also lead to a further literal, which has no effect.
pub type CrossingOut = fn(&mut Gates, u16, u16) -> u16;

/// All ways to cross a literal out.
pub const CROSSINGS_OUT: [CrossingOut; 5] = [
    against_itself,
    cancelled,
    chosen_alike,
    never_chosen,
    absorbed,
];

/// The most gates that one of them adds.
const MOST_CROSSING_OUT: usize = 6;

/// `value`, or `other` and not `other`.
pub fn against_itself(gates: &mut Gates, value: u16, other: u16) -> u16 {
    let never = gates.and(other, not(other));
    gates.or(value, never)
}

/// `other` xor `value` xor `other`.
pub fn cancelled(gates: &mut Gates, value: u16, other: u16) -> u16 {
    let mixed = gates.xor(other, value);
    gates.xor(mixed, other)
}

/// `value` whether `other` chooses the first or the second.
pub fn chosen_alike(gates: &mut Gates, value: u16, other: u16) -> u16 {
    circuits::choose(gates, other, value, value)
}

/// `other` where `value` and not `value` hold, else `value`.
pub fn never_chosen(gates: &mut Gates, value: u16, other: u16) -> u16 {
    let never = gates.and(value, not(value));
    circuits::choose(gates, never, other, value)
}

/// `value`, or `value` and `other`.
pub fn absorbed(gates: &mut Gates, value: u16, other: u16) -> u16 {
    let both = gates.and(value, other);
    gates.or(value, both)
}

/// `circuit` with output `output`, from 0, replaced by what `change` makes of it. It ends connected; an
/// unconnected one is false before.
pub fn with_changed_output(
    circuit: &Circuit,
    output: usize,
    change: impl FnOnce(&mut Gates, u16) -> u16,
) -> Circuit {
    let (mut gates, mut outputs) = Gates::reopened(circuit);
    let value = match outputs[output] {
        UNCONNECTED => FALSE,
        connected => connected,
    };
    outputs[output] = change(&mut gates, value);
    gates.finish(&outputs)
}

/// `circuit` with output `output` inverted on one sequence alone. Where the output is not of the last
/// frame and did not look ahead, it does now.
pub fn inverted_on(circuit: &Circuit, output: usize, sequence: usize) -> Circuit {
    let sizes = circuit.sizes;
    with_changed_output(circuit, output, |gates, value| {
        let matched = circuits::match_history(gates, &sizes, sizes.frames, sequence);
        gates.xor(value, matched)
    })
}

/// `circuit` with the same outputs behind further gates, `gates` in all. In turn each connected output
/// that is not of the last frame is led to an input of a later frame, without effect.
pub fn crossed_out(rng: &mut Rng, circuit: &Circuit, gates: usize) -> Circuit {
    let outputs = 0..outputs_before_last_frame(&circuit.sizes);
    crossed_out_among(rng, circuit, outputs, gates)
}

/// The gates that crossing out needs, so that it comes to every output that is not of the last frame.
pub fn gates_crossed_out(circuit: &Circuit) -> usize {
    let added = MOST_CROSSING_OUT * outputs_before_last_frame(&circuit.sizes);
    circuit.gates() + added + circuit.sizes.output_gates()
}

/// Crosses out at the given outputs alone, of which none is of the last frame.
pub fn crossed_out_among(
    rng: &mut Rng,
    circuit: &Circuit,
    among: Range<usize>,
    gates: usize,
) -> Circuit {
    let sizes = circuit.sizes;
    let inner = gates - sizes.output_gates();
    let (mut made, mut outputs) = Gates::reopened(circuit);
    let connected: Vec<usize> = among
        .filter(|&output| outputs[output] != UNCONNECTED)
        .collect();
    for output in connected.into_iter().cycle() {
        if made.count() + MOST_CROSSING_OUT > inner {
            break;
        }
        let later = later_input(rng, &sizes, output);
        let cross_out = rng.pick(&CROSSINGS_OUT);
        outputs[output] = cross_out(&mut made, outputs[output], later);
    }
    while made.count() < inner {
        made.and(TRUE, TRUE);
    }
    made.finish(&outputs)
}

/// The number of outputs of all frames but the last: only these could look ahead.
pub fn outputs_before_last_frame(sizes: &Sizes) -> usize {
    sizes.output_gates() - sizes.outputs
}

/// A literal of an input of a later frame than the output's.
pub fn later_input(rng: &mut Rng, sizes: &Sizes, output: usize) -> u16 {
    let up_to_frame = (output / sizes.outputs + 1) * sizes.inputs;
    let signal = rng.between(up_to_frame + 1, sizes.input_signals());
    (2 * signal + rng.below(2)) as u16
}

/// A random circuit of random sizes that may look ahead and, crossed out or not, may lead to later
/// inputs without effect.
pub fn any_heedless(rng: &mut Rng, most_signals: usize, most_inner: usize) -> Circuit {
    let sizes = any_sizes(rng, most_signals);
    let gates = sizes.output_gates() + rng.between(0, most_inner);
    let circuit = circuits::heedless(rng, sizes, gates);
    if rng.one_in(2) {
        return circuit;
    }
    let gates = gates_crossed_out(&circuit);
    crossed_out(rng, &circuit, gates)
}

#[cfg(test)]
mod tests {
    use super::*;

    #[test]
    fn crossing_out_reaches_later_inputs_and_keeps_the_outputs() {
        let mut rng = Rng::new(1);
        for _ in 0..300 {
            let circuit = circuits::any_legal(&mut rng, 6, 20);
            let gates = gates_crossed_out(&circuit) + rng.below(20);
            let crossed = crossed_out(&mut rng, &circuit, gates);
            let early = 0..outputs_before_last_frame(&circuit.sizes);
            let connected =
                |output: &usize| !circuit.is_unconnected(circuit.first_output() + output);
            let reaching = crossed.outputs_reaching_later_inputs();
            assert!(reaching.into_iter().eq(early.filter(connected)));
            assert_eq!(crossed.gates(), gates);
            assert_eq!(crossed.connected(), circuit.connected());
            assert_eq!(
                crossed.outputs_on_all_sequences(),
                circuit.outputs_on_all_sequences()
            );
        }
    }

    #[test]
    fn inverting_on_a_sequence_changes_one_output_bit() {
        let mut rng = Rng::new(2);
        for _ in 0..300 {
            let circuit = circuits::any_legal(&mut rng, 6, 20);
            let sizes = circuit.sizes;
            let output = rng.below(sizes.output_gates());
            let sequence = rng.below(sizes.histories(sizes.frames));
            let mut expected = circuit.outputs_on_all_sequences();
            expected[sequence][output / sizes.outputs] ^= 1 << (output % sizes.outputs);
            let inverted = inverted_on(&circuit, output, sequence);
            assert_eq!(inverted.outputs_on_all_sequences(), expected);
        }
    }
}
