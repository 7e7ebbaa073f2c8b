//! Plain networks to spread over frames, and schedules to spread them by.

use super::{all_sizes, any_sizes, circuits, Rng};
use crate::circuit::Circuit;
use crate::gates::{Gates, FALSE, UNCONNECTED};
use crate::sizes::Sizes;
use crate::spread::Schedule;

/// A random network and a schedule by which no output looks ahead.
pub fn any_legal(rng: &mut Rng, most_signals: usize, most_inner: usize) -> (Circuit, Schedule) {
    let sizes = any_sizes(rng, most_signals);
    let gates = sizes.output_gates() + rng.between(0, most_inner);
    let make = rng.pick(&[circuits::connected, circuits::scrambled]);
    let circuit = make(rng, sizes, gates);
    let circuit = circuits::partly_connected(rng, circuit);
    let all = sizes.input_signals();
    let some = rng.between(1, all);
    let inputs = rng.pick(&[all, some]);
    let outputs = rng.between(1, sizes.output_gates().min(Sizes::MOST_OUTPUTS));
    gathered(rng, &circuit, inputs, outputs)
}

/// A random network and any schedule, by which outputs may look ahead.
pub fn any_heedless(rng: &mut Rng, most_signals: usize, most_inner: usize) -> (Circuit, Schedule) {
    let (network, _) = any_legal(rng, most_signals, most_inner);
    let schedule = rescheduled(rng, &network, most_signals);
    (network, schedule)
}

/// Any schedule for a network, over frames with at most so many inputs.
pub fn rescheduled(rng: &mut Rng, network: &Circuit, most_signals: usize) -> Schedule {
    let mut roomy = all_sizes();
    roomy.retain(|sizes| {
        (network.sizes.inputs..=most_signals).contains(&sizes.input_signals())
            && network.sizes.outputs <= sizes.output_gates()
    });
    let sizes = rng.pick(&roomy);
    any_places(rng, &network.sizes, &sizes)
}

/// Any places for the inputs and outputs of a network of sizes `plain`, in frames of `sizes`.
pub fn any_places(rng: &mut Rng, plain: &Sizes, sizes: &Sizes) -> Schedule {
    let mut some_of = |places: usize, count| {
        let mut chosen = rng.shuffled(places as u16);
        chosen.truncate(count);
        chosen
    };
    Schedule {
        sizes: sizes.words(),
        input_places: some_of(sizes.input_signals(), plain.inputs),
        output_places: some_of(sizes.output_gates(), plain.outputs),
    }
}

/// A network of so many of the circuit's inputs and outputs, and the schedule that puts them back where
/// they were. Inputs that are left out are false.
pub fn gathered(
    rng: &mut Rng,
    circuit: &Circuit,
    inputs: usize,
    outputs: usize,
) -> (Circuit, Schedule) {
    let plain = Sizes::new(inputs, outputs, 1);
    let schedule = any_places(rng, &plain, &circuit.sizes);
    let mut gates = Gates::new(plain);
    let mut read = vec![FALSE; circuit.sizes.input_signals()];
    for (input, &place) in schedule.input_places.iter().enumerate() {
        read[usize::from(place)] = gates.input(0, input);
    }
    let given = add_gates(&mut gates, circuit, &read);
    let places = schedule.output_places.iter();
    let shown: Vec<u16> = places.map(|&place| given[usize::from(place)]).collect();
    (gates.finish(&shown), schedule)
}

/// The circuit over frames that a network is when it is spread: its gates, which read the inputs at their
/// places, and behind them a gate for each output of all frames. It may have more gates than a file.
pub fn rearranged(network: &Circuit, schedule: &Schedule) -> Circuit {
    let [inputs, outputs, frames] = schedule.sizes.map(usize::from);
    let sizes = Sizes::new(inputs, outputs, frames);
    let mut gates = Gates::new(sizes);
    let places = schedule.input_places.iter();
    let read: Vec<u16> = places
        .map(|&place| gates.input(0, usize::from(place)))
        .collect();
    let given = add_gates(&mut gates, network, &read);
    let mut shown = vec![UNCONNECTED; sizes.output_gates()];
    for (&place, output) in schedule.output_places.iter().zip(given) {
        shown[usize::from(place)] = output;
    }
    gates.finish(&shown)
}

/// Adds the gates of `circuit` with these literals for its inputs, and gives the literals of its outputs.
/// Unconnected ones leave gates that are false.
fn add_gates(gates: &mut Gates, circuit: &Circuit, inputs: &[u16]) -> Vec<u16> {
    let mut signals = [&[FALSE], inputs].concat();
    for gate in 0..circuit.gates() {
        let literals = [circuit.left[gate], circuit.right[gate]];
        let [left, right] = match circuit.is_unconnected(gate) {
            true => [FALSE; 2],
            false => literals.map(|literal| signals[usize::from(literal / 2)] ^ (literal % 2)),
        };
        signals.push(gates.and(left, right));
    }
    let outputs = circuit.first_output()..circuit.gates();
    let literals = &signals[signals.len() - outputs.len()..];
    outputs
        .zip(literals)
        .map(|(gate, &literal)| match circuit.is_unconnected(gate) {
            true => UNCONNECTED,
            false => literal,
        })
        .collect()
}

#[cfg(test)]
mod tests {
    use super::*;
    use crate::check_circuit;

    #[test]
    fn a_circuit_that_is_gathered_and_rearranged_gives_the_same_outputs() {
        let mut rng = Rng::new(1);
        for _ in 0..300 {
            let circuit = circuits::any_legal(&mut rng, 8, 20);
            let Sizes { outputs, .. } = circuit.sizes;
            let all = circuit.sizes.output_gates();
            let some = rng.between(1, all.min(Sizes::MOST_OUTPUTS));
            let inputs = circuit.sizes.input_signals();
            let (network, schedule) = gathered(&mut rng, &circuit, inputs, some);
            assert!(Circuit::read_plain(&network.to_bytes()).is_ok());
            let made = rearranged(&network, &schedule);
            assert_eq!(check_circuit(&made.to_bytes()), (0, 0));
            // What no output of the network shows is unconnected.
            let mut connected = circuit.connected();
            for output in (0..all).filter(|&at| !schedule.output_places.contains(&(at as u16))) {
                connected[output / outputs] &= !(1 << (output % outputs));
            }
            assert_eq!(made.connected(), connected);
            let mut expected = circuit.outputs_on_all_sequences();
            for words in &mut expected {
                for (word, connected) in words.iter_mut().zip(&connected) {
                    *word &= connected;
                }
            }
            assert_eq!(made.outputs_on_all_sequences(), expected);
        }
    }
}
