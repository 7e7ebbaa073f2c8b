//! Folding one sequence at a time and by linear search, without nodes: one of two ways that the
//! benchmarks measure against.

use crate::answer::{deliver, Answer};
use crate::circuit::Circuit;
use crate::fold::{circuit_for, successors};
use crate::sizes::Sizes;
use crate::table::{Head, Table};

/// Answers and changes the slices as `fold` does with enough records.
pub fn plain_fold(circuit: &[u8], scratch: &mut [u16], result: &mut [u8]) -> Answer {
    match circuit_for(circuit, scratch) {
        Ok(circuit) => deliver(&table_by_search(&circuit).to_bytes(), result),
        Err(refusal) => refusal,
    }
}

/// What the entries of a layer are found from, by histories one word longer.
struct Rows {
    outputs: Vec<u16>,
    nexts: Vec<u16>,
}

impl Rows {
    /// Whether two histories have equal outputs and next states for every next word.
    fn equal(&self, sizes: &Sizes, first: usize, second: usize) -> bool {
        let words = sizes.input_words();
        (0..words).all(|word| {
            let [a, b] = [first * words + word, second * words + word];
            self.outputs[a] == self.outputs[b] && self.nexts[a] == self.nexts[b]
        })
    }
}

/// Layer by layer from the back: a history whose row no earlier one has is a new state.
fn table_by_search(circuit: &Circuit) -> Table {
    let sizes = circuit.sizes;
    let mut counts = vec![1];
    let mut entries = Vec::new();
    let mut nexts = vec![0; sizes.histories(sizes.frames)];
    for layer in (0..sizes.frames).rev() {
        let outputs = outputs_of_frame(circuit, layer);
        let rows = Rows { outputs, nexts };
        let (states, smallest) = search_states(&sizes, &rows, sizes.histories(layer));
        counts.push(smallest.len() as u16);
        for history in smallest.into_iter().rev() {
            for longer in successors(&sizes, history).rev() {
                entries.push((rows.outputs[longer], rows.nexts[longer]));
            }
        }
        nexts = states;
    }
    counts.reverse();
    let (output_words, next_states) = entries.into_iter().rev().unzip();
    let connected = circuit.connected();
    Table {
        head: Head {
            sizes,
            counts,
            connected,
        },
        output_words,
        next_states,
    }
}

/// The output word of frame `frame`, from 0, after every history that ends in that frame.
fn outputs_of_frame(circuit: &Circuit, frame: usize) -> Vec<u16> {
    let sizes = circuit.sizes;
    (0..sizes.histories(frame + 1))
        .map(|history| {
            let mut words = sizes.history_words(frame + 1, history);
            words.resize(sizes.frames, 0);
            circuit.output_word(&circuit.values(&words), frame)
        })
        .collect()
}

/// The state of each history, and each state's smallest history.
fn search_states(sizes: &Sizes, rows: &Rows, histories: usize) -> (Vec<u16>, Vec<usize>) {
    let mut states = Vec::new();
    let mut smallest = Vec::new();
    for history in 0..histories {
        let known = smallest
            .iter()
            .position(|&earlier| rows.equal(sizes, earlier, history));
        let state = known.unwrap_or(smallest.len());
        if known.is_none() {
            smallest.push(history);
        }
        states.push(state as u16);
    }
    (states, smallest)
}
