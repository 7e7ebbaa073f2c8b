//! Folding a circuit into a table, by the definition of states.

use std::collections::HashMap;
use std::ops::Range;

use crate::answer::{deliver, refused, Answer, SCRATCH};
use crate::circuit::Circuit;
use crate::nodes::{judge_nodes, node_counts, Node};
use crate::response::Response;
use crate::sizes::Sizes;
use crate::table::{Head, Table};

/// Puts the circuit's table at the front of `result`.
pub fn fold(circuit: &[u8], scratch: &mut [u16], nodes: &mut [Node], result: &mut [u8]) -> Answer {
    match table_in(circuit, scratch, nodes) {
        Ok(table) => deliver(&table.to_bytes(), result),
        Err(refusal) => refusal,
    }
}

/// The circuit's table, if the circuit passes every check, `scratch` is long enough and there are as
/// many records as distinct nodes. Once `scratch` is long enough, the part of it that is needed and all
/// records end as zeros.
pub fn table_in(circuit: &[u8], scratch: &mut [u16], nodes: &mut [Node]) -> Result<Table, Answer> {
    let circuit = circuit_for(circuit, scratch)?;
    nodes.fill([0; 3]);
    judge_nodes(node_counts(&circuit), nodes.len())?;
    Ok(table_by_definition(&circuit.response()))
}

/// The circuit, if it passes every check and `scratch` is long enough, which is then cleared as far as
/// it is needed.
pub fn circuit_for(circuit: &[u8], scratch: &mut [u16]) -> Result<Circuit, Answer> {
    let circuit = Circuit::read(circuit)?;
    clear_scratch(&circuit.sizes, scratch)?;
    Ok(circuit)
}

/// Clears `scratch` as far as folding to a table of these sizes needs it, if it is long enough.
pub fn clear_scratch(sizes: &Sizes, scratch: &mut [u16]) -> Result<(), Answer> {
    let needed = 2 * sizes.histories(sizes.frames);
    if scratch.len() < needed {
        return Err(refused(SCRATCH, needed));
    }
    scratch[..needed].fill(0);
    Ok(())
}

/// The histories one word longer than `history`, by that word.
pub fn successors(sizes: &Sizes, history: usize) -> Range<usize> {
    history * sizes.input_words()..(history + 1) * sizes.input_words()
}

/// The table whose states are the classes of equivalent histories.
pub fn table_by_definition(response: &Response) -> Table {
    let sizes = response.sizes;
    let states: Vec<Vec<u16>> = (0..=sizes.frames)
        .map(|layer| states_of_layer(response, layer))
        .collect();
    let smallest: Vec<Vec<usize>> = states.iter().map(|of| smallest_histories(of)).collect();
    let mut table = Table {
        head: Head {
            sizes,
            counts: smallest.iter().map(|of| of.len() as u16).collect(),
            connected: response.connected.clone(),
        },
        output_words: Vec::new(),
        next_states: Vec::new(),
    };
    for layer in 0..sizes.frames {
        // Any sequence that begins with a history shows the history's last output word.
        let apart = sizes.histories(sizes.frames - layer - 1);
        for &history in &smallest[layer] {
            for longer in successors(&sizes, history) {
                let outputs = &response.sequences[longer * apart];
                table.output_words.push(outputs[layer]);
                table.next_states.push(states[layer + 1][longer]);
            }
        }
    }
    table
}

/// The state of each history of `layer` words. Two histories have one state when all their
/// continuations give the same later outputs; states are numbered by their smallest history.
fn states_of_layer(response: &Response, layer: usize) -> Vec<u16> {
    let sizes = response.sizes;
    let continuations = sizes.histories(sizes.frames - layer);
    let mut numbers = HashMap::new();
    let mut states = Vec::new();
    for with_history in response.sequences.chunks(continuations) {
        let mut later = Vec::new();
        for outputs in with_history {
            later.extend_from_slice(&outputs[layer..]);
        }
        let fresh = numbers.len() as u16;
        states.push(*numbers.entry(later).or_insert(fresh));
    }
    states
}

/// The smallest history of each state, by state: the first one with the next fresh number.
fn smallest_histories(states: &[u16]) -> Vec<usize> {
    let mut smallest = Vec::new();
    for (history, &state) in states.iter().enumerate() {
        if usize::from(state) == smallest.len() {
            smallest.push(history);
        }
    }
    smallest
}
