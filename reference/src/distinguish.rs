//! The words that tell two states of a layer apart.

use crate::answer::{deliver, refused, Answer, POSITION, RESULT};
use crate::table::Head;
use crate::words::word_at;

/// Puts the shortest list of words after which the outputs of two states of `layer` differ, the first
/// of its length in word order, at the front of `result`; nothing where there is none.
pub fn distinguish(
    table: &[u8],
    layer: u16,
    first: u16,
    second: u16,
    result: &mut [u16],
) -> Answer {
    match judged(table, usize::from(layer), [first, second], result.len()) {
        Ok(head) => {
            let words = telling_apart(table, &head, usize::from(layer), [first, second]);
            deliver(&words, result)
        }
        Err(refusal) => refusal,
    }
}

/// All that is refused: there is to be room for every word that can still be fed, found or not.
fn judged(table: &[u8], layer: usize, states: [u16; 2], room: usize) -> Result<Head, Answer> {
    let head = Head::read(table)?;
    head.judge_entries(table)?;
    let last = head.sizes.frames;
    if layer > last || states.iter().any(|&state| state >= head.counts[layer]) {
        return Err(refused(POSITION, layer));
    }
    if room < last - layer {
        return Err(refused(RESULT, last - layer));
    }
    Ok(head)
}

/// Feeds both states all lists of one word, then all of two, and so on. Lists of one length are in
/// ascending order, so those with the same beginning are neighbours, and the first that is met is the
/// first in word order.
fn telling_apart(table: &[u8], head: &Head, layer: usize, states: [u16; 2]) -> Vec<u16> {
    let words = head.sizes.input_words();
    let mut pairs = vec![states];
    for from in layer..head.sizes.frames {
        let (outputs, nexts) = rows(head, from);
        let mut longer = Vec::with_capacity(pairs.len() * words);
        for pair in pairs {
            for word in 0..words {
                let entries = pair.map(|state| 2 * (usize::from(state) * words + word));
                let [one, other] = entries.map(|entry| word_at(table, outputs + entry));
                if one != other {
                    return head.sizes.history_words(from + 1 - layer, longer.len());
                }
                longer.push(entries.map(|entry| word_at(table, nexts + entry)));
            }
        }
        pairs = longer;
    }
    Vec::new()
}

/// Byte offsets of a layer's output words and next states.
fn rows(head: &Head, layer: usize) -> (usize, usize) {
    let start = head.entries_of(layer).start;
    (head.output_at(start), head.next_at(start))
}
