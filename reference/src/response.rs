//! What is folded: the outputs on every sequence, whatever gives them.

use crate::answer::{refused, Answer, LOOKS_AHEAD};
use crate::sizes::Sizes;

pub struct Response {
    pub sizes: Sizes,
    /// By frame, a word with the bits of the connected outputs.
    pub connected: Vec<u16>,
    /// The output words on every sequence, by the sequence's number.
    pub sequences: Vec<Vec<u16>>,
}

impl Response {
    /// Refuses the first of `outputs` that looks ahead: two sequences agree in the words up to its frame
    /// and differ in it.
    pub fn judge_outputs(&self, outputs: impl IntoIterator<Item = usize>) -> Result<(), Answer> {
        match outputs.into_iter().find(|&output| self.looks_ahead(output)) {
            Some(output) => Err(refused(LOOKS_AHEAD, output)),
            None => Ok(()),
        }
    }

    /// Whether, after some history that ends in the output's frame, two continuations differ in the
    /// output. The sequences that begin with a history stand together.
    fn looks_ahead(&self, output: usize) -> bool {
        let Sizes {
            outputs, frames, ..
        } = self.sizes;
        let (frame, bit) = (output / outputs, output % outputs);
        let value = |words: &[u16]| words[frame] >> bit & 1;
        self.sequences
            .chunks(self.sizes.histories(frames - frame - 1))
            .any(|with_history| {
                let first = value(&with_history[0]);
                with_history.iter().any(|words| value(words) != first)
            })
    }
}
