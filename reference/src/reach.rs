//! How many histories reach each state of a table, and the smallest of them.

use crate::answer::{deliver, Answer};
use crate::table::Head;
use crate::words::{to_bytes, word_at};

/// Puts T, the counts of states, the number of histories that reach each state, and the smallest of
/// these histories at the front of `result`.
pub fn reach(table: &[u8], result: &mut [u8]) -> Answer {
    match reach_counts(table) {
        Ok(bytes) => deliver(&bytes, result),
        Err(refusal) => refusal,
    }
}

/// Plays all histories of each length, and looks where they come to.
fn reach_counts(table: &[u8]) -> Result<Vec<u8>, Answer> {
    let head = Head::read(table)?;
    head.judge_entries(table)?;
    let mut arrivals = Arrivals::default();
    let mut states = vec![0];
    arrivals.add_layer(1, &states);
    for layer in 0..head.sizes.frames {
        states = states_one_word_on(table, &head, layer, &states);
        arrivals.add_layer(head.counts[layer + 1], &states);
    }
    let mut bytes = to_bytes(&[head.sizes.frames as u16]);
    bytes.append(&mut to_bytes(&head.counts));
    for number in arrivals.histories.iter().chain(&arrivals.smallest) {
        bytes.extend_from_slice(&number.to_le_bytes());
    }
    Ok(bytes)
}

/// The states that the histories lead to which are one word longer than those that lead to `states`
/// of `layer`. Histories are in ascending order, so those with the same beginning are neighbours.
fn states_one_word_on(table: &[u8], head: &Head, layer: usize, states: &[u16]) -> Vec<u16> {
    let words = head.sizes.input_words();
    let first_next = head.next_at(head.entries_of(layer).start);
    let mut longer = Vec::with_capacity(states.len() * words);
    for &state in states {
        let entry = usize::from(state) * words;
        for word in 0..words {
            longer.push(word_at(table, first_next + 2 * (entry + word)));
        }
    }
    longer
}

/// What reaches each state, by layer and state.
#[derive(Default)]
struct Arrivals {
    /// How many histories.
    histories: Vec<u32>,
    /// The smallest of them, 0 without one.
    smallest: Vec<u32>,
}

impl Arrivals {
    /// Adds a layer of `count` states. Its histories, ascending, lead to `states`, so that the first
    /// to come to a state is the smallest.
    fn add_layer(&mut self, count: u16, states: &[u16]) {
        let first = self.histories.len();
        let end = first + usize::from(count);
        self.histories.resize(end, 0);
        self.smallest.resize(end, 0);
        for (history, &state) in states.iter().enumerate() {
            let state = first + usize::from(state);
            if self.histories[state] == 0 {
                self.smallest[state] = history as u32;
            }
            self.histories[state] += 1;
        }
    }
}
