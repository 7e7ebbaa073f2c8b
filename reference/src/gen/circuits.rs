//! Circuits to try the implementations on.

use super::{any_connected, any_sizes, Rng};
use crate::circuit::Circuit;
use crate::gates::{not, Gates, FALSE, TRUE, UNCONNECTED};
use crate::sizes::Sizes;

/// A random legal circuit, in which outputs may be unconnected.
pub fn legal(rng: &mut Rng, sizes: Sizes, gates: usize) -> Circuit {
    let circuit = connected(rng, sizes, gates);
    partly_connected(rng, circuit)
}

/// A random legal circuit, all its outputs connected.
pub fn connected(rng: &mut Rng, sizes: Sizes, gates: usize) -> Circuit {
    let mut growing = Growing::new(sizes);
    let inner = gates - sizes.output_gates();
    while growing.gates.count() < inner {
        let frame = rng.between(0, sizes.frames);
        // Random ANDs alone soon become constant; exclusive ors, of three gates, do not.
        if growing.gates.count() + 3 <= inner && rng.one_in(3) {
            growing.add(rng, frame, Gates::xor);
        } else {
            growing.add(rng, frame, Gates::and);
        }
    }
    for output in 0..sizes.output_gates() {
        growing.add(rng, output / sizes.outputs + 1, Gates::and);
    }
    growing.gates.into_circuit()
}

/// A random legal circuit of random sizes.
pub fn any_legal(rng: &mut Rng, most_signals: usize, most_inner: usize) -> Circuit {
    let sizes = any_sizes(rng, most_signals);
    let gates = sizes.output_gates() + rng.between(0, most_inner);
    legal(rng, sizes, gates)
}

/// The same circuit, or every third time one with any of its outputs connected.
pub fn partly_connected(rng: &mut Rng, circuit: Circuit) -> Circuit {
    if rng.one_in(3) {
        let connected = any_connected(rng, &circuit.sizes);
        with_connected(&circuit, &connected)
    } else {
        circuit
    }
}

/// The circuit with nothing connected to outputs but those that `connected` has, by frame. A gate that
/// names one of the others takes false for it.
pub fn with_connected(circuit: &Circuit, connected: &[u16]) -> Circuit {
    let mut made = circuit.clone();
    let Sizes { outputs, .. } = circuit.sizes;
    for output in 0..circuit.sizes.output_gates() {
        if connected[output / outputs] >> (output % outputs) & 1 == 0 {
            disconnect(&mut made, output);
        }
    }
    made
}

fn disconnect(circuit: &mut Circuit, output: usize) {
    let gate = circuit.first_output() + output;
    let own = circuit.literal(gate);
    for literal in circuit.left.iter_mut().chain(&mut circuit.right) {
        if *literal == own {
            *literal = FALSE;
        } else if *literal == not(own) {
            *literal = TRUE;
        }
    }
    circuit.mark_unconnected(gate);
}

/// Gates that are added with a bound on their latest frame.
struct Growing {
    gates: Gates,
    /// By frame: the signals whose latest frame is at most that one.
    up_to: Vec<Vec<u16>>,
}

impl Growing {
    fn new(sizes: Sizes) -> Growing {
        let inputs_up_to = |frame| frame * sizes.inputs;
        Growing {
            gates: Gates::new(sizes),
            up_to: (0..=sizes.frames)
                .map(|frame| (0..=inputs_up_to(frame)).map(|s| s as u16).collect())
                .collect(),
        }
    }

    /// A literal of latest frame `frame` or earlier, more often of one of the last signals.
    fn literal(&self, rng: &mut Rng, frame: usize) -> u16 {
        let signals = &self.up_to[frame];
        let last = &signals[signals.len().saturating_sub(12)..];
        let signal = if rng.one_in(2) {
            rng.pick(last)
        } else {
            rng.pick(signals)
        };
        2 * signal + rng.below(2) as u16
    }

    /// Adds a function of two literals of latest frame `frame` or earlier.
    fn add(&mut self, rng: &mut Rng, frame: usize, function: fn(&mut Gates, u16, u16) -> u16) {
        let [left, right] = [0; 2].map(|_| self.literal(rng, frame));
        let signal = function(&mut self.gates, left, right) / 2;
        for later in &mut self.up_to[frame..] {
            later.push(signal);
        }
    }
}

/// A random legal circuit of which many gates are constant, or equal to an earlier one or to its
/// inverse.
pub fn repetitive(rng: &mut Rng, sizes: Sizes, inner: usize) -> Circuit {
    let mut growing = Growing::new(sizes);
    while growing.gates.count() < inner {
        let frame = rng.between(0, sizes.frames);
        let function = rng.pick(&REPETITIONS);
        growing.add(rng, frame, function);
    }
    for output in 0..sizes.output_gates() {
        growing.add(rng, output / sizes.outputs + 1, Gates::and);
    }
    let circuit = growing.gates.into_circuit();
    partly_connected(rng, circuit)
}

/// A random legal circuit whose functions soon have no pattern: in each frame, any of the values so far
/// is changed where two others hold, again and again.
pub fn scrambled(rng: &mut Rng, sizes: Sizes, gates: usize) -> Circuit {
    let mut made = Gates::new(sizes);
    let mut values = Vec::new();
    let mut outputs = Vec::new();
    let inner = gates - sizes.output_gates();
    for frame in 0..sizes.frames {
        values.extend((0..sizes.inputs).map(|input| made.input(frame, input)));
        // Four gates each, as many in every frame.
        while made.count() + 4 <= inner * (frame + 1) / sizes.frames {
            let changed = rng.below(values.len());
            let others = values.len().max(2) - 1;
            let [first, second] = [0; 2].map(|_| (changed + 1 + rng.below(others)) % values.len());
            let both = made.and(values[first], not(values[second]));
            values[changed] = made.xor(values[changed], both);
        }
        outputs.extend((0..sizes.outputs).map(|output| values[output % values.len()]));
    }
    while made.count() < inner {
        made.and(TRUE, TRUE);
    }
    made.finish(&outputs)
}

/// What is added for two literals.
const REPETITIONS: [fn(&mut Gates, u16, u16) -> u16; 9] = [
    Gates::and,
    Gates::and,
    Gates::or,
    Gates::xor,
    // The same once more, and its inverse.
    |gates, left, right| {
        let both = gates.and(left, right);
        gates.and(right, left);
        gates.and(not(both), TRUE)
    },
    |gates, left, _| gates.and(left, left),
    |gates, left, _| gates.and(TRUE, not(left)),
    |gates, left, _| gates.and(left, not(left)),
    |gates, _, right| gates.and(FALSE, right),
];

/// The circuit with its gates, but for the outputs, in any order in which operands come first.
pub fn reordered(rng: &mut Rng, circuit: &Circuit) -> Circuit {
    let mut made = Circuit {
        sizes: circuit.sizes,
        left: Vec::new(),
        right: Vec::new(),
    };
    let first_gate = 1 + circuit.sizes.input_signals();
    // By signal: its number in the new order, once it has one.
    let mut signals: Vec<Option<u16>> = vec![None; first_gate + circuit.gates()];
    for (signal, number) in signals[..first_gate].iter_mut().enumerate() {
        *number = Some(signal as u16);
    }
    let mut inner: Vec<usize> = (0..circuit.first_output()).collect();
    let mut outputs = circuit.first_output()..circuit.gates();
    loop {
        let literal = |literal: u16| {
            if literal == UNCONNECTED {
                return Some(literal);
            }
            let signal = signals[usize::from(literal / 2)]?;
            Some(2 * signal + literal % 2)
        };
        let operands =
            |gate: usize| Some((literal(circuit.left[gate])?, literal(circuit.right[gate])?));
        let ready: Vec<usize> = (0..inner.len())
            .filter(|&index| operands(inner[index]).is_some())
            .collect();
        let gate = if ready.is_empty() {
            match outputs.next() {
                Some(gate) => gate,
                None => return made,
            }
        } else {
            inner.swap_remove(rng.pick(&ready))
        };
        let (left, right) = operands(gate).expect("a legal circuit");
        signals[first_gate + gate] = Some((first_gate + made.gates()) as u16);
        made.left.push(left);
        made.right.push(right);
    }
}

/// A random machine with `memory` flip-flops, false at first, unrolled over all frames: it folds
/// to few states.
pub fn unrolled(rng: &mut Rng, sizes: Sizes, memory: usize) -> Circuit {
    let mut gates = Gates::new(sizes);
    let mut held = vec![FALSE; memory];
    let mut outputs = Vec::new();
    for frame in 0..sizes.frames {
        let mut literals: Vec<u16> = (0..sizes.inputs).map(|i| gates.input(frame, i)).collect();
        literals.append(&mut held);
        held = (0..memory)
            .map(|_| any_function(rng, &mut gates, &literals))
            .collect();
        for _ in 0..sizes.outputs {
            outputs.push(any_function(rng, &mut gates, &literals));
        }
    }
    gates.finish(&outputs)
}

/// A random function of two or three of `literals`.
fn any_function(rng: &mut Rng, gates: &mut Gates, literals: &[u16]) -> u16 {
    let mut value = rng.pick(literals);
    for _ in 0..rng.between(1, 2) {
        let other = rng.pick(literals) ^ rng.below(2) as u16;
        value = match rng.below(3) {
            0 => gates.and(value, other),
            1 => gates.or(value, other),
            _ => gates.xor(value, other),
        };
    }
    value
}

/// A circuit that gives any outputs: `output(frame, history)` is the output word of `frame`, from 0,
/// after the history of `frame + 1` words.
pub fn with_outputs(sizes: Sizes, output: impl Fn(usize, usize) -> u16) -> Circuit {
    let mut gates = Gates::new(sizes);
    let mut outputs = Vec::new();
    for frame in 0..sizes.frames {
        let matches: Vec<u16> = (0..sizes.histories(frame + 1))
            .map(|history| match_history(&mut gates, &sizes, frame + 1, history))
            .collect();
        for bit in 0..sizes.outputs {
            let set = |history: &usize| output(frame, *history) >> bit & 1 == 1;
            outputs.push(one_of(&mut gates, &matches, set));
        }
    }
    gates.finish(&outputs)
}

/// A circuit that gives any outputs, whether or not they look ahead: `output(frame, sequence)` is the
/// output word of `frame`, from 0, on a sequence.
pub fn with_outputs_by_sequence(sizes: Sizes, output: impl Fn(usize, usize) -> u16) -> Circuit {
    let mut gates = Gates::new(sizes);
    let matches: Vec<u16> = (0..sizes.histories(sizes.frames))
        .map(|sequence| match_history(&mut gates, &sizes, sizes.frames, sequence))
        .collect();
    let mut outputs = Vec::new();
    for frame in 0..sizes.frames {
        for bit in 0..sizes.outputs {
            let set = |sequence: &usize| output(frame, *sequence) >> bit & 1 == 1;
            outputs.push(one_of(&mut gates, &matches, set));
        }
    }
    gates.finish(&outputs)
}

/// True when one of the chosen literals is.
pub fn one_of(gates: &mut Gates, literals: &[u16], chosen: impl Fn(&usize) -> bool) -> u16 {
    let inverted = (0..literals.len())
        .filter(chosen)
        .map(|index| not(literals[index]));
    gates.chain(inverted).map_or(FALSE, not)
}

/// True when the first `length` words are those of `history`.
pub fn match_history(gates: &mut Gates, sizes: &Sizes, length: usize, history: usize) -> u16 {
    let words = sizes.history_words(length, history);
    let mut literals = Vec::new();
    for (frame, word) in words.into_iter().enumerate() {
        for input in 0..sizes.inputs {
            let literal = gates.input(frame, input);
            literals.push(if word >> input & 1 == 1 {
                literal
            } else {
                not(literal)
            });
        }
    }
    gates.chain(literals).expect("a history has a word")
}

/// A legal circuit with up to three literals changed, and at times a gate marked, so that it may refer
/// to later signals, to later frames or to unconnected outputs.
pub fn careless(rng: &mut Rng, sizes: Sizes, gates: usize) -> Circuit {
    let circuit = legal(rng, sizes, gates);
    let mut circuit = with_changed_literals(rng, circuit, 3, |rng, limit| {
        let valid = rng.below(limit);
        let high = rng.pick(&[limit - 1, limit, limit + 1, usize::from(UNCONNECTED)]);
        rng.pick(&[valid, valid, high])
    });
    if rng.one_in(4) {
        let gate = any_gate(rng, &circuit);
        circuit.mark_unconnected(gate);
    }
    circuit
}

/// A legal circuit with up to eight literals changed to other valid ones, so that it may look ahead.
pub fn heedless(rng: &mut Rng, sizes: Sizes, gates: usize) -> Circuit {
    let circuit = connected(rng, sizes, gates);
    let circuit = with_changed_literals(rng, circuit, 8, Rng::below);
    partly_connected(rng, circuit)
}

/// Changes up to `most` literals; `literal` is given the limit below which one is valid.
fn with_changed_literals(
    rng: &mut Rng,
    mut circuit: Circuit,
    most: usize,
    literal: fn(&mut Rng, usize) -> usize,
) -> Circuit {
    for _ in 0..rng.between(0, most) {
        let gate = any_gate(rng, &circuit);
        let literal = literal(rng, circuit.literal_limit(gate)) as u16;
        if rng.one_in(2) {
            circuit.left[gate] = literal;
        } else {
            circuit.right[gate] = literal;
        }
    }
    circuit
}

/// A gate, from 0; every other time an output.
fn any_gate(rng: &mut Rng, circuit: &Circuit) -> usize {
    let any = rng.below(circuit.gates());
    let any_output = rng.between(circuit.first_output(), circuit.gates() - 1);
    rng.pick(&[any, any_output])
}

/// Sizes and gate counts at their limits.
pub fn limits() -> Vec<(Sizes, usize)> {
    let shapes = [
        (1, 16),
        (2, 8),
        (4, 4),
        (8, 2),
        (3, 5),
        (5, 3),
        (8, 1),
        (1, 1),
    ];
    let mut limits = Vec::new();
    for (inputs, frames) in shapes {
        for outputs in [1, Sizes::MOST_OUTPUTS] {
            let sizes = Sizes::new(inputs, outputs, frames);
            limits.push((sizes, sizes.output_gates()));
            limits.push((sizes, Circuit::MOST_GATES));
        }
    }
    limits
}

/// Counts the inputs that are set, modulo 4, in two outputs per frame: at most four states a layer.
pub fn few_states(inputs: usize, frames: usize, gates: usize) -> Circuit {
    let sizes = Sizes::new(inputs, 2, frames);
    let spare = gates - 7 * sizes.input_signals() - sizes.output_gates();
    let mut made = Gates::new(sizes);
    let mut low = lengthened(&mut made, FALSE, spare);
    let mut high = FALSE;
    let mut outputs = Vec::new();
    for frame in 0..frames {
        for input in 0..inputs {
            let input = made.input(frame, input);
            let carry = made.and(low, input);
            low = made.xor(low, input);
            high = made.xor(high, carry);
        }
        outputs.extend([low, high]);
    }
    made.finish(&outputs)
}

/// Shows the whole history in the last frame alone, so that every history has a state of its own.
/// Where there are too few outputs, some show one of two inputs, as the last frame's input says:
/// two outputs serve for three inputs or four.
pub fn many_states(sizes: Sizes, gates: usize) -> Circuit {
    let bits = sizes.inputs * (sizes.frames - 1);
    let shared = bits.saturating_sub(sizes.outputs);
    let spare = gates - 3 * shared - sizes.output_gates();
    let mut made = Gates::new(sizes);
    let mut history: Vec<u16> = (0..bits).map(|bit| made.input(0, bit)).collect();
    history[0] = lengthened(&mut made, history[0], spare);
    let choice = made.input(sizes.frames - 1, 0);
    for bit in bits - shared..bits {
        let other = bit - shared;
        history[other] = choose(&mut made, choice, history[other], history[bit]);
    }
    history.truncate(bits - shared);
    let mut outputs = vec![FALSE; sizes.output_gates() - sizes.outputs];
    outputs.append(&mut history);
    outputs.resize(sizes.output_gates(), FALSE);
    made.finish(&outputs)
}

/// Multiplexer: `first` where `choice` holds, else `second`.
pub fn choose(gates: &mut Gates, choice: u16, first: u16, second: u16) -> u16 {
    let first = gates.and(choice, first);
    let second = gates.and(not(choice), second);
    gates.or(first, second)
}

/// The same value behind `count` further gates, which all count for it by the circuit's structure.
pub fn lengthened(gates: &mut Gates, literal: u16, count: usize) -> u16 {
    let other = gates.input(0, 0);
    let mut same = literal;
    for _ in 0..count / 6 {
        let changed = gates.xor(same, other);
        same = gates.xor(changed, other);
    }
    for _ in 0..count % 6 {
        same = gates.and(same, TRUE);
    }
    same
}

#[cfg(test)]
mod tests {
    use super::*;
    use crate::check_circuit;

    #[test]
    fn outputs_are_connected_as_told() {
        let mut rng = Rng::new(2);
        for _ in 0..300 {
            let sizes = any_sizes(&mut rng, 8);
            let circuit = connected(&mut rng, sizes, sizes.output_gates() + 10);
            assert_eq!(
                circuit.connected(),
                vec![sizes.every_output(); sizes.frames]
            );
            let words = any_connected(&mut rng, &sizes);
            let made = with_connected(&circuit, &words);
            assert_eq!(made.connected(), words);
            assert_eq!(check_circuit(&made.to_bytes()), (0, 0));
        }
    }

    #[test]
    fn outputs_by_sequence_are_given() {
        let mut rng = Rng::new(1);
        for sizes in [(1, 3, 4), (2, 2, 2), (3, 1, 1)].map(|(n, m, t)| Sizes::new(n, m, t)) {
            let outputs: Vec<Vec<u16>> = (0..sizes.histories(sizes.frames))
                .map(|_| {
                    (0..sizes.frames)
                        .map(|_| rng.below(1 << sizes.outputs) as u16)
                        .collect()
                })
                .collect();
            let circuit =
                with_outputs_by_sequence(sizes, |frame, sequence| outputs[sequence][frame]);
            assert_eq!(circuit.outputs_on_all_sequences(), outputs);
        }
    }
}
