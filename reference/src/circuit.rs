//! Circuits of AND gates over frames: format, check, simulation.

use crate::answer::{accepted, deliver, refused, Answer, LENGTH, LITERAL, SEQUENCES, SIZE};
use crate::gates::UNCONNECTED;
use crate::response::Response;
use crate::sizes::Sizes;
use crate::words::{to_bytes, word_at, words_at};

const HEAD: usize = 8;

/// A circuit (the papers' chart). Gate `g`, from 0, is the AND of `left[g]` and `right[g]`; an output
/// that has `UNCONNECTED` for both is false.
#[derive(Clone, Debug, PartialEq, Eq)]
pub struct Circuit {
    pub sizes: Sizes,
    pub left: Vec<u16>,
    pub right: Vec<u16>,
}

/// Judges a circuit; place 0 where it is accepted.
pub fn check_circuit(circuit: &[u8]) -> Answer {
    match Circuit::read(circuit) {
        Ok(_) => accepted(0),
        Err(refusal) => refusal,
    }
}

/// Puts the circuit's output words on `count` sequences, which stand one behind the other in `words`,
/// at the front of `result`.
pub fn simulate(circuit: &[u8], count: usize, words: &[u16], result: &mut [u16]) -> Answer {
    match simulated(circuit, count, words) {
        Ok(outputs) => deliver(&outputs, result),
        Err(refusal) => refusal,
    }
}

fn simulated(circuit: &[u8], count: usize, words: &[u16]) -> Result<Vec<u16>, Answer> {
    let circuit = Circuit::read(circuit)?;
    if count > Circuit::MOST_SEQUENCES {
        return Err(refused(SEQUENCES, count));
    }
    circuit.sizes.judge_words(count, words)?;
    Ok(words
        .chunks(circuit.sizes.frames)
        .flat_map(|sequence| circuit.outputs_on(sequence))
        .collect())
}

impl Circuit {
    pub const MOST_GATES: usize = 4096;
    /// Most sequences of one simulation.
    pub const MOST_SEQUENCES: usize = 32;

    /// The circuit in `bytes`, if it passes every check.
    pub fn read(bytes: &[u8]) -> Result<Circuit, Answer> {
        let circuit = Circuit::read_shape(bytes, Sizes::read)?;
        circuit.judge_literals()?;
        circuit.judge_outputs()?;
        Ok(circuit)
    }

    /// The plain network in `bytes`, if it passes every check; in its one frame no output looks ahead.
    pub fn read_plain(bytes: &[u8]) -> Result<Circuit, Answer> {
        let network = Circuit::read_shape(bytes, Sizes::read_plain)?;
        network.judge_literals()?;
        Ok(network)
    }

    /// Judges head and length alone.
    fn read_shape(
        bytes: &[u8],
        read_sizes: fn(&[u8]) -> Result<Sizes, Answer>,
    ) -> Result<Circuit, Answer> {
        if bytes.len() < HEAD {
            return Err(refused(LENGTH, bytes.len()));
        }
        let sizes = read_sizes(bytes)?;
        let gates = usize::from(word_at(bytes, 6));
        if !(sizes.output_gates()..=Self::MOST_GATES).contains(&gates) {
            return Err(refused(SIZE, 6));
        }
        if bytes.len() != HEAD + 4 * gates {
            return Err(refused(LENGTH, bytes.len()));
        }
        Ok(Circuit {
            sizes,
            left: words_at(bytes, HEAD, gates),
            right: words_at(bytes, HEAD + 2 * gates, gates),
        })
    }

    pub fn to_bytes(&self) -> Vec<u8> {
        let mut words = self.sizes.words().to_vec();
        words.push(self.gates() as u16);
        words.extend_from_slice(&self.left);
        words.extend_from_slice(&self.right);
        to_bytes(&words)
    }

    pub fn gates(&self) -> usize {
        self.left.len()
    }

    /// A literal of gate `gate`, from 0, is below this: it names an earlier signal.
    pub fn literal_limit(&self, gate: usize) -> usize {
        2 * (self.sizes.input_signals() + gate + 1)
    }

    /// The literal that names gate `gate`, from 0: the first that the gate itself may not have.
    pub fn literal(&self, gate: usize) -> u16 {
        self.literal_limit(gate) as u16
    }

    /// The first gate of the outputs, from 0.
    pub fn first_output(&self) -> usize {
        self.gates() - self.sizes.output_gates()
    }

    /// Whether gate `gate`, from 0, is an output that has the mark of nothing connected.
    pub fn is_unconnected(&self, gate: usize) -> bool {
        gate >= self.first_output()
            && self.left[gate] == UNCONNECTED
            && self.right[gate] == UNCONNECTED
    }

    /// Gives gate `gate`, from 0, that mark.
    pub fn mark_unconnected(&mut self, gate: usize) {
        (self.left[gate], self.right[gate]) = (UNCONNECTED, UNCONNECTED);
    }

    /// By frame, a word with the bits of the connected outputs.
    pub fn connected(&self) -> Vec<u16> {
        let Sizes {
            outputs, frames, ..
        } = self.sizes;
        let gate = |frame, output| self.first_output() + frame * outputs + output;
        (0..frames)
            .map(|frame| {
                (0..outputs)
                    .map(|output| u16::from(!self.is_unconnected(gate(frame, output))) << output)
                    .sum()
            })
            .collect()
    }

    /// File order: all left literals, then all right ones.
    fn judge_literals(&self) -> Result<(), Answer> {
        let gates = 0..self.gates();
        let literals = self.left.iter().chain(&self.right);
        match literals
            .zip(gates.clone().chain(gates))
            .position(|(&literal, gate)| !self.is_valid(literal, gate))
        {
            Some(index) => Err(refused(LITERAL, HEAD + 2 * index)),
            None => Ok(()),
        }
    }

    /// Whether a literal of `gate` is part of its mark, or names an earlier signal that is no
    /// unconnected output.
    fn is_valid(&self, literal: u16, gate: usize) -> bool {
        if self.is_unconnected(gate) {
            return true;
        }
        let first_gate = 1 + self.sizes.input_signals();
        match usize::from(literal / 2).checked_sub(first_gate) {
            Some(named) => named < gate && !self.is_unconnected(named),
            None => true,
        }
    }

    /// No output may look ahead.
    fn judge_outputs(&self) -> Result<(), Answer> {
        let doubtful = self.outputs_reaching_later_inputs();
        if doubtful.is_empty() {
            return Ok(());
        }
        self.response().judge_outputs(doubtful)
    }

    /// The outputs whose gates lead to an input of a later frame, ascending; no others can look ahead.
    pub fn outputs_reaching_later_inputs(&self) -> Vec<usize> {
        let reached = self.inputs_reached();
        let outputs = &reached[reached.len() - self.sizes.output_gates()..];
        (0..outputs.len())
            .filter(|&output| {
                let up_to_frame = (output / self.sizes.outputs + 1) * self.sizes.inputs;
                outputs[output] >> up_to_frame != 0
            })
            .collect()
    }

    /// The set of inputs that each signal's gates lead to: bit k for input k, counted from 0 over all
    /// frames. An unconnected output leads to none.
    fn inputs_reached(&self) -> Vec<u32> {
        let mut reached = vec![0];
        reached.extend((0..self.sizes.input_signals()).map(|input| 1 << input));
        for (gate, (&left, &right)) in self.left.iter().zip(&self.right).enumerate() {
            reached.push(match self.is_unconnected(gate) {
                true => 0,
                false => reached[usize::from(left / 2)] | reached[usize::from(right / 2)],
            });
        }
        reached
    }

    pub fn response(&self) -> Response {
        Response {
            sizes: self.sizes,
            connected: self.connected(),
            sequences: self.outputs_on_all_sequences(),
        }
    }

    /// The output words on every sequence, by the sequence's number.
    pub fn outputs_on_all_sequences(&self) -> Vec<Vec<u16>> {
        (0..self.sizes.histories(self.sizes.frames))
            .map(|sequence| self.sizes.history_words(self.sizes.frames, sequence))
            .map(|words| self.outputs_on(&words))
            .collect()
    }

    /// The output words on `words`, one a frame.
    pub fn outputs_on(&self, words: &[u16]) -> Vec<u16> {
        let values = self.values(words);
        (0..self.sizes.frames)
            .map(|frame| self.output_word(&values, frame))
            .collect()
    }

    /// The value of each signal on `words`; an unconnected output stays false.
    pub fn values(&self, words: &[u16]) -> Vec<bool> {
        let first_gate = 1 + self.sizes.input_signals();
        let mut values = vec![false; first_gate + self.gates()];
        for (frame, word) in words.iter().enumerate() {
            for input in 0..self.sizes.inputs {
                values[1 + frame * self.sizes.inputs + input] = word >> input & 1 == 1;
            }
        }
        for (gate, (&left, &right)) in self.left.iter().zip(&self.right).enumerate() {
            if !self.is_unconnected(gate) {
                let both = literal_value(&values, left) & literal_value(&values, right);
                values[first_gate + gate] = both;
            }
        }
        values
    }

    /// The output word of frame `frame`, from 0, with these values of the signals.
    pub fn output_word(&self, values: &[bool], frame: usize) -> u16 {
        let first = values.len() - self.sizes.output_gates() + frame * self.sizes.outputs;
        (0..self.sizes.outputs)
            .map(|output| u16::from(values[first + output]) << output)
            .sum()
    }
}

fn literal_value(values: &[bool], literal: u16) -> bool {
    values[usize::from(literal / 2)] != (literal % 2 == 1)
}

#[cfg(test)]
mod tests {
    use super::*;
    use crate::answer::LOOKS_AHEAD;
    use crate::gen::{circuits, look_ahead, Rng};

    /// The first output that looks ahead, straight from the definition: over all pairs of sequences.
    fn first_by_pairs(circuit: &Circuit) -> Option<usize> {
        let sizes = circuit.sizes;
        let sequences: Vec<(Vec<u16>, Vec<u16>)> = (0..sizes.histories(sizes.frames))
            .map(|sequence| sizes.history_words(sizes.frames, sequence))
            .map(|words| (words.clone(), circuit.outputs_on(&words)))
            .collect();
        (0..sizes.output_gates()).find(|output| {
            let (frame, bit) = (output / sizes.outputs, output % sizes.outputs);
            sequences.iter().any(|(words, outputs)| {
                sequences.iter().any(|(other_words, other_outputs)| {
                    words[..=frame] == other_words[..=frame]
                        && outputs[frame] >> bit & 1 != other_outputs[frame] >> bit & 1
                })
            })
        })
    }

    /// How many circuits reach no later input, reach one without effect, and look ahead.
    #[derive(Debug, Default)]
    struct Kinds {
        clean: usize,
        without_effect: usize,
        looking: usize,
    }

    impl Kinds {
        fn judge(&mut self, circuit: &Circuit) {
            let first = first_by_pairs(circuit);
            let expected = first.map_or((0, 0), |output| (LOOKS_AHEAD, output as u64));
            assert_eq!(check_circuit(&circuit.to_bytes()), expected);
            if first.is_some() {
                self.looking += 1;
            } else if circuit.outputs_reaching_later_inputs().is_empty() {
                self.clean += 1;
            } else {
                self.without_effect += 1;
            }
        }

        fn expect_each(&self, least: usize) {
            let each = [self.clean, self.without_effect, self.looking];
            assert!(each.iter().all(|&count| count >= least), "{self:?}");
        }
    }

    #[test]
    fn looking_ahead_is_judged_as_defined() {
        let mut rng = Rng::new(1);
        let mut kinds = Kinds::default();
        for _ in 0..3_000 {
            kinds.judge(&look_ahead::any_heedless(&mut rng, 6, 20));
        }
        kinds.expect_each(300);
    }

    #[test]
    fn looking_ahead_is_judged_as_defined_among_many_sequences() {
        let mut rng = Rng::new(2);
        let mut kinds = Kinds::default();
        for (inputs, frames) in [(1, 10), (2, 5), (5, 2), (3, 3)] {
            let sizes = Sizes::new(inputs, 2, frames);
            let early = look_ahead::outputs_before_last_frame(&sizes);
            let circuit = circuits::connected(&mut rng, sizes, 60);
            let looking = look_ahead::inverted_on(
                &circuit,
                rng.below(early),
                rng.below(sizes.histories(frames)),
            );
            kinds.judge(&circuit);
            for circuit in [circuit, looking] {
                kinds.judge(&look_ahead::crossed_out(&mut rng, &circuit, 400));
            }
        }
        kinds.expect_each(4);
    }
}
