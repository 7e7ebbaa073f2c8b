//! The first frames of a circuit.

use crate::circuit::Circuit;
use crate::gates::{FALSE, UNCONNECTED};
use crate::response::Response;
use crate::sizes::Sizes;

impl Circuit {
    /// The circuit of the first `frames` frames. The outputs of later frames stand last and are left
    /// out; inputs of later frames, which have no effect on the others, are false.
    pub fn first_frames(&self, frames: usize) -> Circuit {
        let sizes = Sizes {
            frames,
            ..self.sizes
        };
        let left_out = self.sizes.output_gates() - sizes.output_gates();
        let kept = |literals: &[u16]| -> Vec<u16> {
            literals[..self.gates() - left_out]
                .iter()
                .map(|&literal| self.first_literal(&sizes, literal))
                .collect()
        };
        Circuit {
            sizes,
            left: kept(&self.left),
            right: kept(&self.right),
        }
    }

    /// What a literal is in the circuit of fewer frames: gates are counted behind fewer inputs.
    fn first_literal(&self, sizes: &Sizes, literal: u16) -> u16 {
        let [kept, all] = [sizes, &self.sizes].map(Sizes::input_signals);
        match usize::from(literal / 2) {
            _ if literal == UNCONNECTED => UNCONNECTED,
            signal if signal <= kept => literal,
            signal if signal <= all => FALSE + literal % 2,
            _ => literal - 2 * (all - kept) as u16,
        }
    }
}

impl Response {
    /// Whether this is what the first frames of `longer` give, whatever the gates: in these frames the
    /// same outputs are connected, and every sequence gives the same outputs.
    pub fn is_first_frames_of(&self, longer: &Response) -> bool {
        let frames = self.sizes.frames;
        let sizes = Sizes {
            frames,
            ..longer.sizes
        };
        if self.sizes != sizes || frames > longer.sizes.frames {
            return false;
        }
        // The sequences that begin with one of the shorter's stand together.
        let together = longer.sizes.histories(longer.sizes.frames - frames);
        self.connected == longer.connected[..frames]
            && self
                .sequences
                .iter()
                .zip(longer.sequences.chunks(together))
                .all(|(outputs, with_more)| with_more.iter().all(|more| more[..frames] == *outputs))
    }
}

#[cfg(test)]
mod tests {
    use super::*;
    use crate::examples;

    fn begins(longer: &Circuit, shorter: &Circuit) -> bool {
        shorter.response().is_first_frames_of(&longer.response())
    }

    #[test]
    fn delayed_begins_silent() {
        let [delayed, silent] = [examples::delayed(), examples::silent()];
        assert_eq!(delayed.first_frames(2), silent);
        assert!(begins(&delayed, &silent));
        // More frames, other outputs, other connections.
        assert!(!begins(&silent, &delayed));
        assert!(!begins(&delayed, &examples::parity()));
        let mut unconnected = silent;
        unconnected.mark_unconnected(1);
        assert!(!begins(&delayed, &unconnected));
    }

    #[test]
    fn all_frames_are_the_circuit_itself() {
        let delayed = examples::delayed();
        assert_eq!(delayed.first_frames(3), delayed);
        assert!(begins(&delayed, &delayed));
    }

    #[test]
    fn an_input_without_effect_is_false() {
        // Gates 1 to 4 are inner ones, gate 5 is the output of frame 1. Signal 2, the input of frame 2,
        // is no longer there, so that literals of gates fall by 2.
        let crossed = examples::crossed();
        let first = crossed.first_frames(1);
        assert_eq!(first.left, [0, 2, 3, 7, 2]);
        assert_eq!(first.right, [1, 1, 0, 9, 5]);
        assert!(begins(&crossed, &first));
    }
}
