//! Checking, running and stepping a table.

use crate::{raw, Answer};

/// What a step answers. A refused one gives the position back and output 0.
#[derive(Clone, Copy, Debug, PartialEq, Eq)]
pub struct Stepped {
    pub number: u64,
    pub place: u64,
    pub output: u16,
    pub layer: u16,
    pub state: u16,
}

/// Judges the table's head, length and entries, which set connected outputs alone.
pub fn check_table(table: &[u8]) -> Answer {
    Answer::of(|answer| {
        // SAFETY: each pointer and length is that of one slice; only `answer` is written to.
        unsafe {
            raw::tff_check_table(
                table.as_ptr(),
                table.len(),
                answer.as_mut_ptr(),
                answer.len(),
            )
        }
    })
}

/// Puts the table's output words on the input words `words` at the front of `result`.
pub fn run(table: &[u8], words: &[u16], result: &mut [u16]) -> Answer {
    Answer::of(|answer| {
        // SAFETY: each pointer and length is that of one slice; `result` and `answer` are exclusive.
        unsafe {
            raw::tff_run(
                table.as_ptr(),
                table.len(),
                words.as_ptr(),
                words.len(),
                result.as_mut_ptr(),
                result.len(),
                answer.as_mut_ptr(),
                answer.len(),
            )
        }
    })
}

/// One step from the position `layer`, `state` on the input word `word`.
pub fn step(table: &[u8], layer: u16, state: u16, word: u16) -> Stepped {
    let mut answer = [0; 5];
    // SAFETY: each pointer and length is that of one slice; only `answer` is written to.
    unsafe {
        raw::tff_step(
            table.as_ptr(),
            table.len(),
            layer,
            state,
            word,
            answer.as_mut_ptr(),
            answer.len(),
        )
    }
    let [number, place, output, layer, state] = answer;
    Stepped {
        number,
        place,
        output: output as u16,
        layer: layer as u16,
        state: state as u16,
    }
}
