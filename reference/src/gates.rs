//! Gates added one by one.

use crate::circuit::Circuit;
use crate::sizes::Sizes;

/// The literals of the constants.
pub const FALSE: u16 = 0;
pub const TRUE: u16 = 1;
/// What an output gate has for both literals where nothing is connected to it. It names no signal.
pub const UNCONNECTED: u16 = u16::MAX;

/// The literal of the opposite value.
pub fn not(literal: u16) -> u16 {
    literal ^ 1
}

/// The gates of a circuit so far; adding one gives its literal.
pub struct Gates {
    circuit: Circuit,
}

impl Gates {
    pub fn new(sizes: Sizes) -> Gates {
        Gates {
            circuit: Circuit {
                sizes,
                left: Vec::new(),
                right: Vec::new(),
            },
        }
    }

    /// The gates of `circuit`, to go on from, and the literals of its outputs. Unconnected ones leave
    /// gates that are false.
    pub fn reopened(circuit: &Circuit) -> (Gates, Vec<u16>) {
        let mut circuit = circuit.clone();
        let mut outputs = Vec::new();
        for gate in circuit.first_output()..circuit.gates() {
            if circuit.is_unconnected(gate) {
                outputs.push(UNCONNECTED);
                (circuit.left[gate], circuit.right[gate]) = (FALSE, FALSE);
            } else {
                outputs.push(circuit.literal(gate));
            }
        }
        (Gates { circuit }, outputs)
    }

    pub fn count(&self) -> usize {
        self.circuit.gates()
    }

    /// The literal of input `input` of frame `frame`, both from 0.
    pub fn input(&self, frame: usize, input: usize) -> u16 {
        (2 * (frame * self.circuit.sizes.inputs + input + 1)) as u16
    }

    pub fn and(&mut self, left: u16, right: u16) -> u16 {
        self.circuit.left.push(left);
        self.circuit.right.push(right);
        self.circuit.literal(self.count() - 1)
    }

    pub fn or(&mut self, left: u16, right: u16) -> u16 {
        not(self.and(not(left), not(right)))
    }

    pub fn xor(&mut self, left: u16, right: u16) -> u16 {
        let both = self.and(left, right);
        let neither = self.and(not(left), not(right));
        self.and(not(both), not(neither))
    }

    /// A chain of gates over `rights`: each one's left literal is the gate before, the first's is
    /// true. Gives the last gate's literal, if there is a gate.
    pub fn chain(&mut self, rights: impl IntoIterator<Item = u16>) -> Option<u16> {
        let mut last = None;
        for right in rights {
            last = Some(self.and(last.unwrap_or(TRUE), right));
        }
        last
    }

    /// Ends the circuit with an output gate for each of `outputs`, frame by frame.
    pub fn finish(mut self, outputs: &[u16]) -> Circuit {
        for &output in outputs {
            let unconnected = output == UNCONNECTED;
            self.and(output, if unconnected { UNCONNECTED } else { TRUE });
        }
        self.into_circuit()
    }

    /// The circuit that ends with the last gate added; the last ones are its outputs.
    pub fn into_circuit(self) -> Circuit {
        self.circuit
    }
}
