//! A small table that differs from frame to frame, and its faults.

use crate::combinations::{length, Fault};
use reference::words::{set_word, to_bytes};

/// A table of three frames, which have one, both and the other of two outputs connected: 20 bytes of
/// head, then ten output words and ten next states.
pub fn three_frames() -> Vec<u8> {
    let head = [1, 2, 3, 1, 2, 2, 1, 1, 3, 2];
    let output_words = [1, 0, 1, 2, 3, 0, 2, 2, 0, 2];
    let next_states = [0, 1, 1, 0, 0, 1, 0, 0, 0, 0];
    to_bytes(&[head, output_words, next_states].concat())
}

/// Faults of that table before its entries, in the order in which they are judged.
pub const HEAD_FAULTS: [Fault<Vec<u8>>; 11] = [
    (|file| file.truncate(5), length),
    (|file| set_word(file, 0, 0), |_| [2, 0]),
    (|file| set_word(file, 2, 17), |_| [2, 2]),
    (|file| set_word(file, 4, 17), |_| [2, 4]),
    (|file| file.truncate(19), length),
    (|file| set_word(file, 6, 2), |_| [2, 6]),
    (|file| set_word(file, 8, 0), |_| [2, 8]),
    (|file| set_word(file, 12, 0), |_| [2, 12]),
    (|file| set_word(file, 14, 4), |_| [2, 14]),
    (|file| set_word(file, 18, u16::MAX), |_| [2, 18]),
    (|file| file.push(0), length),
];

/// Faults of its entries likewise: unconnected outputs that are set, in the first entry and in the last,
/// a word of 2^m between them, and next states.
pub const ENTRY_FAULTS: [Fault<Vec<u8>>; 5] = [
    (|file| set_word(file, 20, 2), |_| [5, 20]),
    (|file| set_word(file, 24, 4), |_| [5, 24]),
    (|file| set_word(file, 38, 3), |_| [5, 38]),
    (|file| set_word(file, 40, 2), |_| [5, 40]),
    (|file| set_word(file, 58, 1), |_| [5, 58]),
];

/// The first and the last of both, together. Not every file of tests has these.
#[allow(dead_code)]
pub fn faults_across() -> Vec<Fault<Vec<u8>>> {
    let head = HEAD_FAULTS.into_iter().step_by(5);
    head.chain(ENTRY_FAULTS.into_iter().step_by(2)).collect()
}
