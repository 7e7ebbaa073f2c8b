//! Views of a table: its outputs through a mask, and the output words of one layer.

use std::ops::Range;

use crate::answer::{deliver, refused, Answer, MASK, POSITION};
use crate::table::Head;

/// Where the output words of a layer stand. A refused call has offset and length 0.
#[derive(Clone, Copy, Debug, PartialEq, Eq)]
pub struct LayerOutputs {
    pub number: u64,
    pub place: u64,
    /// Byte offset in the table.
    pub offset: usize,
    /// In bytes.
    pub length: usize,
}

impl From<LayerOutputs> for [u64; 4] {
    /// In the order of the C interface.
    fn from(outputs: LayerOutputs) -> [u64; 4] {
        let [offset, length] = [outputs.offset, outputs.length].map(|bytes| bytes as u64);
        [outputs.number, outputs.place, offset, length]
    }
}

/// Puts the table's output words on `words` at the front of `result`, all bits outside `mask` 0.
pub fn view(table: &[u8], mask: u16, words: &[u16], result: &mut [u16]) -> Answer {
    match seen(table, mask, words) {
        Ok(outputs) => deliver(&outputs, result),
        Err(refusal) => refusal,
    }
}

/// The output words of a run without the outputs that the mask does not have.
fn seen(table: &[u8], mask: u16, words: &[u16]) -> Result<Vec<u16>, Answer> {
    let head = Head::read(table)?;
    head.judge_entries(table)?;
    if u32::from(mask) >= 1 << head.sizes.outputs {
        return Err(refused(MASK, 0));
    }
    head.sizes.judge_words(1, words)?;
    let mut outputs = head.outputs_on(table, words);
    for word in &mut outputs {
        for output in (0..head.sizes.outputs).map(|index| 1 << index) {
            let hidden = mask & output == 0;
            if hidden && *word & output != 0 {
                *word -= output;
            }
        }
    }
    Ok(outputs)
}

/// Where the output words of a layer stand in the table; the last layer has none.
pub fn layer_outputs(table: &[u8], layer: u16) -> LayerOutputs {
    match part_of_layer(table, usize::from(layer)) {
        Ok(part) => LayerOutputs {
            number: 0,
            place: 0,
            offset: part.start,
            length: part.len(),
        },
        Err((number, place)) => LayerOutputs {
            number,
            place,
            offset: 0,
            length: 0,
        },
    }
}

/// The bytes of a layer's output words, behind the head and those of the layers before it.
fn part_of_layer(table: &[u8], layer: usize) -> Result<Range<usize>, Answer> {
    let head = Head::read(table)?;
    head.judge_entries(table)?;
    if layer > head.sizes.frames {
        return Err(refused(POSITION, layer));
    }
    if layer == head.sizes.frames {
        return Ok(0..0);
    }
    let mut start = Head::length(&head.sizes);
    for &count in &head.counts[..layer] {
        start += 2 * head.sizes.input_words() * usize::from(count);
    }
    let length = 2 * head.sizes.input_words() * usize::from(head.counts[layer]);
    Ok(start..start + length)
}
