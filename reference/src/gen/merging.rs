//! Tables to merge, and machines that they come from.

use super::{tables, Rng};
use crate::fold::table_by_definition;
use crate::merge::Machine;
use crate::response::Response;
use crate::sizes::Sizes;
use crate::table::Table;

/// A random machine. It may need fewer states than it has, or more.
pub fn any_machine(rng: &mut Rng, inputs: usize, outputs: usize, states: usize) -> Machine {
    let entries = states << inputs;
    Machine {
        inputs,
        outputs,
        states,
        output_words: (0..entries)
            .map(|_| rng.below(1 << outputs) as u16)
            .collect(),
        next_states: (0..entries).map(|_| rng.below(states) as u16).collect(),
    }
}

/// The table of a machine over so many frames: its states in every layer between the first and the
/// last, reached or not.
pub fn repeated(machine: &Machine, frames: usize) -> Table {
    let sizes = Sizes::new(machine.inputs, machine.outputs, frames);
    let mut counts = vec![machine.states as u16; frames + 1];
    (counts[0], counts[frames]) = (1, 1);
    let mut table = tables::zeros(sizes, counts);
    for layer in 0..frames {
        let entries = table.head.entries_of(layer);
        let taken = entries.len();
        table.output_words[entries.clone()].copy_from_slice(&machine.output_words[..taken]);
        if layer + 1 < frames {
            table.next_states[entries].copy_from_slice(&machine.next_states[..taken]);
        }
    }
    table
}

/// The table in which each history has a state of its own: `output(frame, history)` is the output word of
/// `frame`, from 0, after the history of `frame + 1` words. All outputs are connected.
pub fn by_history(sizes: Sizes, mut output: impl FnMut(usize, usize) -> u16) -> Table {
    let mut table = tables::histories_apart(sizes);
    for frame in 0..sizes.frames {
        for (history, entry) in table.head.entries_of(frame).enumerate() {
            table.output_words[entry] = output(frame, history);
        }
    }
    table
}

/// The same with nothing connected before the last frame: `output(sequence)` is the output word there.
pub fn in_last_frame(sizes: Sizes, mut output: impl FnMut(usize) -> u16) -> Table {
    let last = sizes.frames - 1;
    let table = by_history(sizes, |frame, history| match frame == last {
        true => output(history),
        false => 0,
    });
    let mut connected = vec![0; sizes.frames];
    connected[last] = sizes.every_output();
    tables::with_connected(&table, &connected)
}

/// The table with the fewest states that gives the outputs of another.
pub fn folded(table: &Table) -> Table {
    let (head, bytes) = (&table.head, table.to_bytes());
    let sizes = head.sizes;
    let sequences = (0..sizes.histories(sizes.frames))
        .map(|sequence| head.outputs_on(&bytes, &sizes.history_words(sizes.frames, sequence)))
        .collect();
    table_by_definition(&Response {
        sizes,
        connected: head.connected.clone(),
        sequences,
    })
}

/// The table with a state for each history that gives the outputs of another.
pub fn apart(table: &Table) -> Table {
    let (head, bytes) = (&table.head, table.to_bytes());
    let apart = by_history(head.sizes, |frame, history| {
        let words = head.sizes.history_words(frame + 1, history);
        head.outputs_on(&bytes, &words)[frame]
    });
    tables::with_connected(&apart, &head.connected)
}
