//! Machines with few states, unrolled: circuits of which the functions have few distinct patterns.

use crate::circuit::Circuit;
use crate::gates::{not, Gates, FALSE};
use crate::gen::circuits::{lengthened, one_of};
use crate::sizes::Sizes;

/// A machine that starts in state 0.
struct Machine {
    inputs: usize,
    outputs: usize,
    states: usize,
    /// By state and input word: the next state and the output word.
    step: fn(usize, usize) -> (usize, usize),
}

/// Counts the inputs that are set, modulo 8, and shows the count.
pub fn counter(inputs: usize, frames: usize) -> Circuit {
    let counter = Machine {
        inputs,
        outputs: 3,
        states: 8,
        step: |state, word| {
            let next = (state + word.count_ones() as usize) % 8;
            (next, next)
        },
    };
    counter.unrolled(frames)
}

/// Adds two numbers, a bit of both a frame, lowest first: sum and carry.
pub fn adder(frames: usize) -> Circuit {
    let adder = Machine {
        inputs: 2,
        outputs: 2,
        states: 2,
        step: |state, word| {
            let sum = state + word % 2 + word / 2;
            (sum / 2, sum % 2 + sum / 2 * 2)
        },
    };
    adder.unrolled(frames)
}

/// Compares two numbers, a bit of both a frame, highest first: whether the first is less so far, and
/// whether it is greater.
pub fn comparator(frames: usize) -> Circuit {
    let comparator = Machine {
        inputs: 2,
        outputs: 2,
        states: 3,
        step: |state, word| {
            let next = match (state, word) {
                (0, 2) => 1,
                (0, 1) => 2,
                _ => state,
            };
            (next, next)
        },
    };
    comparator.unrolled(frames)
}

/// ITC-99 machine b01, which compares two serial flows: output and overflow.
pub fn b01(frames: usize) -> Circuit {
    let machine = Machine {
        inputs: 2,
        outputs: 2,
        states: 8,
        step: |state, word| {
            // States a, b, c, e, f, g, wf0, wf1 as there.
            let (neither_is_next, both_is_next) = match state {
                0 | 3 => (1, 4),
                1 | 4 => (2, 5),
                2 | 5 => (6, 7),
                _ => (0, 3),
            };
            let carries = matches!(state, 4 | 5 | 7);
            let taken = if carries { word != 0 } else { word == 3 };
            let next = if taken { both_is_next } else { neither_is_next };
            let differ = word == 1 || word == 2;
            let overflow = usize::from(state == 3);
            (next, usize::from(differ != carries) + 2 * overflow)
        },
    };
    machine.unrolled(frames)
}

/// ITC-99 machine b02, which recognizes binary coded decimals.
pub fn b02(frames: usize) -> Circuit {
    let machine = Machine {
        inputs: 1,
        outputs: 1,
        states: 7,
        step: |state, word| {
            // States a to g as there.
            let next = match (state, word) {
                (0, _) => 1,
                (1, 0) => 2,
                (1, _) => 5,
                (2, 0) => 3,
                (2, _) => 6,
                (3, _) => 4,
                (4, _) => 1,
                (5, _) => 6,
                (_, 0) => 4,
                _ => 0,
            };
            (next, usize::from(state == 4))
        },
    };
    machine.unrolled(frames)
}

/// Whether the second half of all frames repeats the first, one input a frame: in the last frame.
pub fn repeats(frames: usize) -> Circuit {
    let mut gates = Gates::new(Sizes::new(1, 1, frames));
    let half = frames / 2;
    let same: Vec<u16> = (0..half)
        .map(|frame| {
            let [first, second] = [frame, frame + half].map(|frame| gates.input(frame, 0));
            not(gates.xor(first, second))
        })
        .collect();
    let repeated = gates.chain(same).expect("two frames at least");
    let mut outputs = vec![FALSE; frames - 1];
    outputs.push(repeated);
    gates.finish(&outputs)
}

/// The same circuit with gates added up to so many, which change nothing; its last output is connected.
pub fn padded(circuit: &Circuit, gates: usize) -> Circuit {
    let (mut made, mut outputs) = Gates::reopened(circuit);
    let taken = made.count() + outputs.len();
    assert!(taken <= gates);
    let last = outputs.pop().expect("an output");
    outputs.push(lengthened(&mut made, last, gates - taken));
    made.finish(&outputs)
}

impl Machine {
    fn unrolled(&self, frames: usize) -> Circuit {
        let mut gates = Gates::new(Sizes::new(self.inputs, self.outputs, frames));
        let bits = usize::BITS - (self.states - 1).leading_zeros();
        let mut held = vec![FALSE; bits as usize];
        let mut outputs = Vec::new();
        for frame in 0..frames {
            let mut literals = held.clone();
            literals.extend((0..self.inputs).map(|input| gates.input(frame, input)));
            let (mut matches, mut steps) = (Vec::new(), Vec::new());
            for state in 0..self.states {
                for word in 0..1 << self.inputs {
                    let given = state + (word << bits);
                    matches.push(match_bits(&mut gates, &literals, given));
                    steps.push((self.step)(state, word));
                }
            }
            for (bit, held) in held.iter_mut().enumerate() {
                *held = one_of(&mut gates, &matches, |&at| steps[at].0 >> bit & 1 == 1);
            }
            for bit in 0..self.outputs {
                let set = |at: &usize| steps[*at].1 >> bit & 1 == 1;
                outputs.push(one_of(&mut gates, &matches, set));
            }
        }
        gates.finish(&outputs)
    }
}

/// True where the literals are the bits of `given`, lowest first.
fn match_bits(gates: &mut Gates, literals: &[u16], given: usize) -> u16 {
    let mut bits = literals.iter().enumerate().map(|(bit, &literal)| {
        if given >> bit & 1 == 1 {
            literal
        } else {
            not(literal)
        }
    });
    let first = bits.next().expect("an input");
    bits.fold(first, |both, bit| gates.and(both, bit))
}

#[cfg(test)]
mod tests {
    use super::*;
    use crate::{check_circuit, examples, Table};

    fn counts(circuit: &Circuit) -> Vec<u16> {
        let file = circuit.to_bytes();
        assert_eq!(check_circuit(&file), (0, 0));
        let (mut scratch, mut result) = (vec![0; 1 << 17], vec![0; 1 << 20]);
        let (number, length) = crate::plain_fold(&file, &mut scratch, &mut result);
        assert_eq!(number, 0);
        Table::read(&result[..length as usize]).unwrap().head.counts
    }

    #[test]
    fn machines_fold_to_their_states() {
        assert_eq!(counts(&counter(1, 10)), [1, 2, 3, 4, 5, 6, 7, 8, 8, 8, 1]);
        assert_eq!(counts(&adder(5)), [1, 2, 2, 2, 2, 1]);
        assert_eq!(counts(&comparator(5)), [1, 3, 3, 3, 3, 1]);
        assert_eq!(counts(&b01(5)), [1, 2, 2, 2, 2, 1]);
        assert_eq!(counts(&b02(8)), [1, 1, 2, 2, 2, 1, 1, 1, 1]);
        assert_eq!(counts(&repeats(6)), [1, 2, 4, 8, 5, 3, 1]);
        assert_eq!(counts(&examples::s27_over(4)), [1, 4, 5, 4, 1]);
    }

    #[test]
    fn adders_add_and_comparators_compare() {
        let [adder, comparator] = [adder(4), comparator(4)];
        for (a, b) in (0..256).map(|both| (both / 16, both % 16)) {
            let pairs = |bit: u16| (a >> bit & 1) + 2 * (b >> bit & 1);
            let sum = adder.outputs_on(&[0, 1, 2, 3].map(pairs));
            let bits = sum.iter().enumerate();
            let total: u16 = bits.map(|(bit, word)| (word & 1) << bit).sum();
            assert_eq!(total + (sum[3] >> 1 << 4), a + b);
            let compared = comparator.outputs_on(&[3, 2, 1, 0].map(pairs));
            let expected = u16::from(a < b) + 2 * u16::from(a > b);
            assert_eq!(compared[3], expected);
        }
    }

    #[test]
    fn padding_changes_no_output() {
        for circuit in [b01(3), b02(5), examples::unconnected()] {
            for gates in [circuit.gates() + circuit.sizes.output_gates(), 1_500] {
                let made = padded(&circuit, gates);
                assert_eq!(made.gates(), gates);
                assert_eq!(
                    made.outputs_on_all_sequences(),
                    circuit.outputs_on_all_sequences()
                );
                assert_eq!(made.connected(), circuit.connected());
            }
        }
    }
}
