//! Generators of test cases. Equal seeds give equal cases.

pub mod circuits;
pub mod look_ahead;
pub mod machines;
pub mod merging;
pub mod networks;
pub mod tables;

use crate::quiet::WEEK;
use crate::sizes::Sizes;
use crate::words::{set_word, word_at};

/// A small pseudo-random generator (splitmix64).
pub struct Rng {
    state: u64,
}

impl Rng {
    pub fn new(seed: u64) -> Rng {
        Rng { state: seed }
    }

    pub fn number(&mut self) -> u64 {
        self.state = self.state.wrapping_add(0x9e37_79b9_7f4a_7c15);
        let mut z = self.state;
        z = (z ^ (z >> 30)).wrapping_mul(0xbf58_476d_1ce4_e5b9);
        z = (z ^ (z >> 27)).wrapping_mul(0x94d0_49bb_1331_11eb);
        z ^ (z >> 31)
    }

    pub fn below(&mut self, bound: usize) -> usize {
        (self.number() % bound as u64) as usize
    }

    /// A number from `least` to `most`, both possible.
    pub fn between(&mut self, least: usize, most: usize) -> usize {
        least + self.below(most - least + 1)
    }

    pub fn one_in(&mut self, count: usize) -> bool {
        self.below(count) == 0
    }

    pub fn word(&mut self) -> u16 {
        self.number() as u16
    }

    pub fn pick<T: Copy>(&mut self, from: &[T]) -> T {
        from[self.below(from.len())]
    }

    /// The numbers below `count`, in any order.
    pub fn shuffled(&mut self, count: u16) -> Vec<u16> {
        let mut numbers: Vec<u16> = (0..count).collect();
        for last in (1..numbers.len()).rev() {
            numbers.swap(last, self.below(last + 1));
        }
        numbers
    }
}

/// All legal sizes with `outputs` outputs per frame.
pub fn sizes_with(outputs: usize) -> Vec<Sizes> {
    let mut all = Vec::new();
    for inputs in 1..=Sizes::MOST_INPUTS {
        for frames in 1..=Sizes::MOST_FRAMES.min(Sizes::MOST_SIGNALS / inputs) {
            all.push(Sizes::new(inputs, outputs, frames));
        }
    }
    all
}

/// All legal sizes.
pub fn all_sizes() -> Vec<Sizes> {
    (1..=Sizes::MOST_OUTPUTS).flat_map(sizes_with).collect()
}

/// Legal sizes with at most `most_signals` inputs of all frames together.
pub fn any_sizes(rng: &mut Rng, most_signals: usize) -> Sizes {
    let outputs = rng.between(1, Sizes::MOST_OUTPUTS);
    let mut sizes = sizes_with(outputs);
    sizes.retain(|sizes| sizes.input_signals() <= most_signals);
    rng.pick(&sizes)
}

/// By frame, a word with the bits of the outputs that are to be connected: all, none or any.
pub fn any_connected(rng: &mut Rng, sizes: &Sizes) -> Vec<u16> {
    let every = sizes.every_output();
    (0..sizes.frames)
        .map(|_| {
            let any = rng.word() & every;
            rng.pick(&[every, 0, any, any])
        })
        .collect()
}

/// One legal input word a frame.
pub fn any_sequence(rng: &mut Rng, sizes: &Sizes) -> Vec<u16> {
    (0..sizes.frames)
        .map(|_| rng.below(sizes.input_words()) as u16)
        .collect()
}

/// Legal input words of `count` sequences, one behind the other.
pub fn any_sequences(rng: &mut Rng, sizes: &Sizes, count: usize) -> Vec<u16> {
    (0..count).flat_map(|_| any_sequence(rng, sizes)).collect()
}

/// `count` good windows, most of them short; some run over the week's end.
pub fn any_windows(rng: &mut Rng, count: usize) -> Vec<u16> {
    let mut windows = Vec::new();
    for _ in 0..count {
        let first = rng.below(WEEK);
        let longest = rng.pick(&[2, 60, 480, WEEK - 1]);
        let last = (first + rng.between(1, longest)) % WEEK;
        windows.extend([first as u16, last as u16]);
    }
    windows
}

/// `bytes` with one fault: a bit or a word changed, bytes cut off or added. It may still be legal.
pub fn damaged(rng: &mut Rng, bytes: &[u8]) -> Vec<u8> {
    let mut bytes = bytes.to_vec();
    let length = bytes.len();
    match rng.below(6) {
        0 => bytes[rng.below(length)] ^= 1 << rng.below(8),
        1 => bytes.truncate(length - rng.between(1, 4.min(length))),
        2 => bytes.truncate(rng.below(length)),
        3 => bytes.extend((0..rng.between(1, 4)).map(|byte| byte as u8)),
        4 => change_word(rng, &mut bytes, length.min(16)),
        _ => change_word(rng, &mut bytes, length),
    }
    bytes
}

/// Changes one of the words that lie within the first `length` bytes.
fn change_word(rng: &mut Rng, bytes: &mut [u8], length: usize) {
    let at = 2 * rng.below(length / 2);
    let old = word_at(bytes, at);
    let any = rng.word();
    let near = [old.wrapping_sub(1), old.wrapping_add(1)];
    let word = rng.pick(&[near[0], near[1], 0, 1, any, any % 64, u16::MAX]);
    set_word(bytes, at, word);
}
