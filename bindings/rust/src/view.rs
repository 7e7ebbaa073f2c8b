//! Views of a table: its outputs through a mask, and the output words of one layer.

use crate::{raw, Answer};

/// Puts the table's output words on the input words `words` at the front of `result`, with all bits
/// outside `mask` 0.
///
/// Bit j-1 of the mask is set where output j may be seen: with 0 none is, and with 2^m - 1 all are, as
/// in a run. Outputs that are not connected may be in it too.
pub fn view(table: &[u8], mask: u16, words: &[u16], result: &mut [u16]) -> Answer {
    Answer::of(|answer| {
        // SAFETY: each pointer and length is that of one slice; `result` and `answer` are exclusive.
        unsafe {
            raw::tff_view(
                table.as_ptr(),
                table.len(),
                mask,
                words.as_ptr(),
                words.len(),
                result.as_mut_ptr(),
                result.len(),
                answer.as_mut_ptr(),
                answer.len(),
            )
        }
    })
}

/// The part of `table` that holds the output words of `layer`, or the refusal.
///
/// Nothing is copied. The words go by state and input word, in 16 bits each with the low byte first;
/// the part of the last layer, T, is empty.
pub fn layer_outputs(table: &[u8], layer: u16) -> Result<&[u8], Answer> {
    let mut answer = [0; 4];
    // SAFETY: each pointer and length is that of one slice; only `answer` is written to.
    unsafe {
        raw::tff_layer_outputs(
            table.as_ptr(),
            table.len(),
            layer,
            answer.as_mut_ptr(),
            answer.len(),
        )
    }
    let [number, place, offset, length] = answer;
    match number {
        0 => Ok(&table[offset as usize..][..length as usize]),
        _ => Err(Answer { number, place }),
    }
}
