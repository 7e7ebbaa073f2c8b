//! The sizes that circuits and tables begin with, and what follows from them.

use crate::answer::{refused, Answer, LIST_LENGTH, SIZE, WORD};
use crate::words::word_at;

#[derive(Clone, Copy, Debug, PartialEq, Eq)]
pub struct Sizes {
    /// Inputs per frame, n.
    pub inputs: usize,
    /// Outputs per frame, m.
    pub outputs: usize,
    /// Frames, T.
    pub frames: usize,
}

impl Sizes {
    pub const MOST_INPUTS: usize = 8;
    pub const MOST_OUTPUTS: usize = 16;
    pub const MOST_FRAMES: usize = 16;
    /// Most inputs of all frames together.
    pub const MOST_SIGNALS: usize = 16;
    /// Most inputs per frame of a table that is merged.
    pub const MOST_MERGED_INPUTS: usize = 2;

    /// Sizes in the order of the files: n, m, T.
    pub fn new(inputs: usize, outputs: usize, frames: usize) -> Sizes {
        Sizes {
            inputs,
            outputs,
            frames,
        }
    }

    /// The sizes in the first six bytes, or the first that is out of limits.
    pub fn read(bytes: &[u8]) -> Result<Sizes, Answer> {
        Sizes::judge(sizes_at_front(bytes))
    }

    /// The sizes of a plain network in the first six bytes: the one frame may have all inputs.
    pub fn read_plain(bytes: &[u8]) -> Result<Sizes, Answer> {
        Sizes::within(Self::MOST_SIGNALS, 1, sizes_at_front(bytes))
    }

    /// The sizes of a table to be merged in the first six bytes.
    pub fn read_to_merge(bytes: &[u8]) -> Result<Sizes, Answer> {
        let sizes = sizes_at_front(bytes);
        Sizes::within(Self::MOST_MERGED_INPUTS, Self::MOST_FRAMES, sizes)
    }

    /// The sizes n, m, T, or the place in a file of the first that is out of limits.
    pub fn judge(sizes: [u16; 3]) -> Result<Sizes, Answer> {
        Sizes::within(Self::MOST_INPUTS, Self::MOST_FRAMES, sizes)
    }

    fn within(most_inputs: usize, most_frames: usize, sizes: [u16; 3]) -> Result<Sizes, Answer> {
        let [inputs, outputs, frames] = sizes.map(usize::from);
        if !(1..=most_inputs).contains(&inputs) {
            return Err(refused(SIZE, 0));
        }
        if !(1..=Self::MOST_OUTPUTS).contains(&outputs) {
            return Err(refused(SIZE, 2));
        }
        if !(1..=most_frames).contains(&frames) || inputs * frames > Self::MOST_SIGNALS {
            return Err(refused(SIZE, 4));
        }
        Ok(Sizes::new(inputs, outputs, frames))
    }

    /// The three words of these sizes.
    pub fn words(&self) -> [u16; 3] {
        [self.inputs, self.outputs, self.frames].map(|size| size as u16)
    }

    /// Input words that a frame may have, 2^n.
    pub fn input_words(&self) -> usize {
        1 << self.inputs
    }

    /// Histories of `length` words; with all frames, sequences.
    pub fn histories(&self, length: usize) -> usize {
        1 << (self.inputs * length)
    }

    /// Inputs of all frames.
    pub fn input_signals(&self) -> usize {
        self.inputs * self.frames
    }

    /// Outputs of all frames.
    pub fn output_gates(&self) -> usize {
        self.outputs * self.frames
    }

    /// The word with the bits of all outputs of a frame, 2^m - 1.
    pub fn every_output(&self) -> u16 {
        u16::MAX >> (Self::MOST_OUTPUTS - self.outputs)
    }

    /// The words of the history of `length` words with this number, the first word highest.
    pub fn history_words(&self, length: usize, history: usize) -> Vec<u16> {
        (0..length)
            .map(|i| history >> (self.inputs * (length - 1 - i)))
            .map(|rest| (rest % self.input_words()) as u16)
            .collect()
    }

    /// Judges a list of the input words of so many sequences: its length, then each word.
    pub fn judge_words(&self, sequences: usize, words: &[u16]) -> Result<(), Answer> {
        if words.len() != sequences * self.frames {
            return Err(refused(LIST_LENGTH, words.len()));
        }
        match words.iter().position(|&word| !self.has_word(word)) {
            Some(index) => Err(refused(WORD, index)),
            None => Ok(()),
        }
    }

    /// Whether `word` is an input word of a frame.
    pub fn has_word(&self, word: u16) -> bool {
        usize::from(word) < self.input_words()
    }
}

fn sizes_at_front(bytes: &[u8]) -> [u16; 3] {
    [0, 2, 4].map(|at| word_at(bytes, at))
}
