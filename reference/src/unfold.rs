//! Unfolding a table into the gates of a circuit.

use crate::answer::{deliver, refused, Answer, GATES};
use crate::circuit::Circuit;
use crate::gates::{not, Gates, FALSE, TRUE, UNCONNECTED};
use crate::table::Table;

/// Puts a circuit with the table's outputs at the front of `result`.
pub fn unfold(table: &[u8], result: &mut [u8]) -> Answer {
    let table = match Table::read(table) {
        Ok(table) => table,
        Err(refusal) => return refusal,
    };
    let gates = gates_needed(&table);
    if gates > Circuit::MOST_GATES {
        return refused(GATES, gates);
    }
    deliver(&unfolded(&table).to_bytes(), result)
}

/// The number of gates, found without making them: a legal table may ask for millions.
pub fn gates_needed(table: &Table) -> usize {
    let sizes = table.head.sizes;
    let matches = sizes.frames * sizes.input_words() * sizes.inputs;
    let edges = table.head.entries();
    // Every edge but those of the last frame is gathered into its next state.
    let entering = table.head.entries_of(sizes.frames - 1).start;
    let output_bits: usize = table
        .output_words
        .iter()
        .map(|output| output.count_ones() as usize)
        .sum();
    matches + edges + entering + output_bits + sizes.output_gates()
}

/// The gates, frame by frame, then the output gates.
fn unfolded(table: &Table) -> Circuit {
    let sizes = table.head.sizes;
    let mut gates = Gates::new(sizes);
    let mut states = vec![TRUE];
    let mut outputs = Vec::new();
    for frame in 0..sizes.frames {
        let edges = add_edges(table, &mut gates, frame, &states);
        if frame + 1 < sizes.frames {
            states = (0..table.head.counts[frame + 1])
                .map(|state| gather(&mut gates, &edges, |edge| edge.next == state))
                .collect();
        }
        for bit in 0..sizes.outputs {
            let set = |word: u16| word >> bit & 1 == 1;
            // No edge sets an unconnected output, so that no gate is added for it.
            let gathered = gather(&mut gates, &edges, |edge| set(edge.output));
            let connected = set(table.head.connected[frame]);
            outputs.push(if connected { gathered } else { UNCONNECTED });
        }
    }
    gates.finish(&outputs)
}

/// An entry of the table, with the literal that is true when it is taken.
struct Edge {
    literal: u16,
    output: u16,
    next: u16,
}

/// The edges of a frame, by state and word, each a gate over its state and its word's match.
fn add_edges(table: &Table, gates: &mut Gates, frame: usize, states: &[u16]) -> Vec<Edge> {
    let words = table.head.sizes.input_words();
    let matches: Vec<u16> = (0..words)
        .map(|word| add_match(table, gates, frame, word))
        .collect();
    let first = table.head.entries_of(frame).start;
    let mut edges = Vec::new();
    for (state, &literal) in states.iter().enumerate() {
        for (word, &matched) in matches.iter().enumerate() {
            let entry = first + state * words + word;
            edges.push(Edge {
                literal: gates.and(literal, matched),
                output: table.output_words[entry],
                next: table.next_states[entry],
            });
        }
    }
    edges
}

/// True when the frame's inputs are those of `word`.
fn add_match(table: &Table, gates: &mut Gates, frame: usize, word: usize) -> u16 {
    let literals: Vec<u16> = (0..table.head.sizes.inputs)
        .map(|input| (gates.input(frame, input), word >> input & 1 == 1))
        .map(|(literal, set)| if set { literal } else { not(literal) })
        .collect();
    gates.chain(literals).expect("a frame has an input")
}

/// True when one of the chosen edges is taken.
fn gather(gates: &mut Gates, edges: &[Edge], chosen: impl Fn(&Edge) -> bool) -> u16 {
    let inverted = edges
        .iter()
        .filter(|edge| chosen(edge))
        .map(|edge| not(edge.literal));
    gates.chain(inverted).map_or(FALSE, not)
}
