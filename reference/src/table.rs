//! Layered state tables: format, check, run, step.

use crate::answer::{
    accepted, deliver, refused, Answer, ENTRY, LAST_LAYER, LENGTH, POSITION, SIZE, WORD,
};
use crate::sizes::Sizes;
use crate::words::{to_bytes, word_at, words_at};

/// A table (the papers' sheet). Entries go by layer, state, word.
#[derive(Clone, Debug, PartialEq, Eq)]
pub struct Table {
    pub head: Head,
    pub output_words: Vec<u16>,
    pub next_states: Vec<u16>,
}

/// What stands before a table's entries.
#[derive(Clone, Debug, PartialEq, Eq)]
pub struct Head {
    pub sizes: Sizes,
    /// States of each layer, 0 to T.
    pub counts: Vec<u16>,
    /// By frame, a word with the bits of the connected outputs.
    pub connected: Vec<u16>,
}

/// A layer, and a state of it; the default is the start.
#[derive(Clone, Copy, Debug, Default, PartialEq, Eq)]
pub struct Position {
    pub layer: usize,
    pub state: usize,
}

/// What a step answers. A refused one gives the position back and output 0.
#[derive(Clone, Copy, Debug, PartialEq, Eq)]
pub struct Stepped {
    pub number: u64,
    pub place: u64,
    pub output: u16,
    pub layer: u16,
    pub state: u16,
}

impl From<Stepped> for [u64; 5] {
    /// In the order of the C interface.
    fn from(stepped: Stepped) -> [u64; 5] {
        let [output, layer, state] = [stepped.output, stepped.layer, stepped.state].map(u64::from);
        [stepped.number, stepped.place, output, layer, state]
    }
}

/// Judges a table; place 0 where it is accepted.
pub fn check_table(table: &[u8]) -> Answer {
    match Head::read(table).and_then(|head| head.judge_entries(table)) {
        Ok(()) => accepted(0),
        Err(refusal) => refusal,
    }
}

/// Puts the table's output words on `words` at the front of `result`.
pub fn run(table: &[u8], words: &[u16], result: &mut [u16]) -> Answer {
    match outputs_of_run(table, words) {
        Ok(outputs) => deliver(&outputs, result),
        Err(refusal) => refusal,
    }
}

fn outputs_of_run(table: &[u8], words: &[u16]) -> Result<Vec<u16>, Answer> {
    let head = Head::read(table)?;
    head.judge_entries(table)?;
    head.sizes.judge_words(1, words)?;
    Ok(head.outputs_on(table, words))
}

/// One step from the position `layer`, `state` on `word`.
pub fn step(table: &[u8], layer: u16, state: u16, word: u16) -> Stepped {
    let position = Position {
        layer: usize::from(layer),
        state: usize::from(state),
    };
    match Head::read(table).and_then(|head| head.judge_step(table, position, word)) {
        Ok((output, next)) => Stepped {
            number: 0,
            place: 0,
            output,
            layer: layer + 1,
            state: next,
        },
        Err((number, place)) => Stepped {
            number,
            place,
            output: 0,
            layer,
            state,
        },
    }
}

impl Head {
    /// Judges sizes, counts and length: all but the entries.
    pub fn read(bytes: &[u8]) -> Result<Head, Answer> {
        Head::read_with(bytes, Sizes::read)
    }

    /// The same of a table to be merged, which has fewer inputs.
    pub fn read_to_merge(bytes: &[u8]) -> Result<Head, Answer> {
        Head::read_with(bytes, Sizes::read_to_merge)
    }

    fn read_with(
        bytes: &[u8],
        read_sizes: fn(&[u8]) -> Result<Sizes, Answer>,
    ) -> Result<Head, Answer> {
        if bytes.len() < 6 {
            return Err(refused(LENGTH, bytes.len()));
        }
        let sizes = read_sizes(bytes)?;
        if bytes.len() < Head::length(&sizes) {
            return Err(refused(LENGTH, bytes.len()));
        }
        let head = Head {
            sizes,
            counts: words_at(bytes, 6, sizes.frames + 1),
            connected: words_at(bytes, Head::connected_at(&sizes, 0), sizes.frames),
        };
        head.judge_counts()?;
        head.judge_connected()?;
        if bytes.len() != head.next_at(head.entries()) {
            return Err(refused(LENGTH, bytes.len()));
        }
        Ok(head)
    }

    fn judge_counts(&self) -> Result<(), Answer> {
        for (layer, count) in self.counts.iter().enumerate() {
            let at_end = layer == 0 || layer == self.sizes.frames;
            let most = if at_end { 1 } else { Table::MOST_STATES };
            if !(1..=most).contains(count) {
                return Err(refused(SIZE, 6 + 2 * layer));
            }
        }
        Ok(())
    }

    fn judge_connected(&self) -> Result<(), Answer> {
        for (frame, &connected) in self.connected.iter().enumerate() {
            if connected > self.sizes.every_output() {
                return Err(refused(SIZE, Head::connected_at(&self.sizes, frame)));
            }
        }
        Ok(())
    }

    /// All output words are judged before all next states.
    pub fn judge_entries(&self, bytes: &[u8]) -> Result<(), Answer> {
        for layer in 0..self.sizes.frames {
            for entry in self.entries_of(layer) {
                self.judge_output(bytes, self.output_at(entry), layer)?;
            }
        }
        let first_next = self.next_at(0);
        for layer in 0..self.sizes.frames {
            for entry in self.entries_of(layer) {
                self.judge_next(bytes, first_next + 2 * entry, layer)?;
            }
        }
        Ok(())
    }

    /// The output words of a legal table on the input words of a sequence.
    pub fn outputs_on(&self, bytes: &[u8], words: &[u16]) -> Vec<u16> {
        let mut state = 0;
        let mut outputs = Vec::new();
        for (layer, &word) in words.iter().enumerate() {
            let entry = self.entry(layer, state, word);
            outputs.push(word_at(bytes, self.output_at(entry)));
            state = word_at(bytes, self.next_at(entry));
        }
        outputs
    }

    /// The output word and next state that a step from any position reads, if it has them.
    pub fn judge_step(
        &self,
        bytes: &[u8],
        Position { layer, state }: Position,
        word: u16,
    ) -> Result<(u16, u16), Answer> {
        if layer > self.sizes.frames || state >= usize::from(self.counts[layer]) {
            return Err(refused(POSITION, layer));
        }
        if layer == self.sizes.frames {
            return Err(refused(LAST_LAYER, layer));
        }
        if !self.sizes.has_word(word) {
            return Err(refused(WORD, 0));
        }
        let entry = self.entry(layer, state as u16, word);
        let output = self.judge_output(bytes, self.output_at(entry), layer)?;
        let next = self.judge_next(bytes, self.next_at(entry), layer)?;
        Ok((output, next))
    }

    /// The output word of an entry of `layer` at byte offset `at`, if it sets connected outputs alone.
    /// The entries of a layer give the outputs of the frame behind it, both counted from 0.
    fn judge_output(&self, bytes: &[u8], at: usize, layer: usize) -> Result<u16, Answer> {
        let output = word_at(bytes, at);
        if output & !self.connected[layer] != 0 {
            return Err(refused(ENTRY, at));
        }
        Ok(output)
    }

    /// The next state of an entry of `layer` at byte offset `at`, if it is in range.
    fn judge_next(&self, bytes: &[u8], at: usize, layer: usize) -> Result<u16, Answer> {
        let next = word_at(bytes, at);
        if next >= self.counts[layer + 1] {
            return Err(refused(ENTRY, at));
        }
        Ok(next)
    }

    /// The number of entries: one for each state before layer T and each word.
    pub fn entries(&self) -> usize {
        self.entries_of(self.sizes.frames - 1).end
    }

    /// The entries of a layer before T.
    pub fn entries_of(&self, layer: usize) -> std::ops::Range<usize> {
        let counts = self.counts.iter().map(|&count| usize::from(count));
        let before: usize = counts.clone().take(layer).sum();
        let through: usize = counts.take(layer + 1).sum();
        before * self.sizes.input_words()..through * self.sizes.input_words()
    }

    /// The entry of a position before layer T and a word.
    pub fn entry(&self, layer: usize, state: u16, word: u16) -> usize {
        let of_state = usize::from(state) * self.sizes.input_words();
        self.entries_of(layer).start + of_state + usize::from(word)
    }

    /// Byte offset of the word of a frame's connected outputs, frames from 0.
    pub fn connected_at(sizes: &Sizes, frame: usize) -> usize {
        8 + 2 * sizes.frames + 2 * frame
    }

    /// Bytes of a head of these sizes.
    pub fn length(sizes: &Sizes) -> usize {
        8 + 4 * sizes.frames
    }

    /// Byte offset of an entry's output word.
    pub fn output_at(&self, entry: usize) -> usize {
        Head::length(&self.sizes) + 2 * entry
    }

    /// Byte offset of an entry's next state.
    pub fn next_at(&self, entry: usize) -> usize {
        self.output_at(self.entries() + entry)
    }
}

impl Table {
    /// Most states of a layer between the first and the last.
    pub const MOST_STATES: u16 = 32768;

    /// The table in `bytes`, if it passes every check.
    pub fn read(bytes: &[u8]) -> Result<Table, Answer> {
        Table::with_head(Head::read(bytes)?, bytes)
    }

    /// The same of a table to be merged, which has fewer inputs.
    pub fn read_to_merge(bytes: &[u8]) -> Result<Table, Answer> {
        Table::with_head(Head::read_to_merge(bytes)?, bytes)
    }

    fn with_head(head: Head, bytes: &[u8]) -> Result<Table, Answer> {
        head.judge_entries(bytes)?;
        Ok(Table {
            output_words: words_at(bytes, head.output_at(0), head.entries()),
            next_states: words_at(bytes, head.next_at(0), head.entries()),
            head,
        })
    }

    pub fn to_bytes(&self) -> Vec<u8> {
        let mut words = self.head.sizes.words().to_vec();
        words.extend_from_slice(&self.head.counts);
        words.extend_from_slice(&self.head.connected);
        words.extend_from_slice(&self.output_words);
        words.extend_from_slice(&self.next_states);
        to_bytes(&words)
    }
}
