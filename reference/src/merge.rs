//! The frames of a table merged into one machine.

use crate::answer::{deliver, refused, Answer, UNMATCHED};
use crate::table::Table;
use crate::words::to_bytes;

/// One machine for all frames, which starts in state 0. Entries go by state, word.
#[derive(Clone, Debug, PartialEq, Eq)]
pub struct Machine {
    /// Inputs per frame, n.
    pub inputs: usize,
    /// Outputs per frame, m.
    pub outputs: usize,
    pub states: usize,
    pub output_words: Vec<u16>,
    pub next_states: Vec<u16>,
}

impl Machine {
    /// Most states of a machine that is sought.
    pub const MOST_STATES: usize = 3;

    pub fn to_bytes(&self) -> Vec<u8> {
        let mut words = [self.inputs, self.outputs, self.states]
            .map(|size| size as u16)
            .to_vec();
        words.extend_from_slice(&self.output_words);
        words.extend_from_slice(&self.next_states);
        to_bytes(&words)
    }
}

/// Puts the machine with the fewest states that matches the table, the first of them in the order of
/// all next states and then all output words, at the front of `result`.
pub fn merge(table: &[u8], result: &mut [u8]) -> Answer {
    match merged(table) {
        Ok(machine) => deliver(&machine.to_bytes(), result),
        Err(refusal) => refusal,
    }
}

fn merged(table: &[u8]) -> Result<Machine, Answer> {
    let table = Table::read_to_merge(table)?;
    (1..=Machine::MOST_STATES)
        .find_map(|states| first_match(&table, states, &[]))
        .ok_or(refused(UNMATCHED, 0))
}

/// The first machine of so many states that matches and whose next states begin with `chosen`. Where
/// these alone are contradicted already, there is none.
fn first_match(table: &Table, states: usize, chosen: &[u16]) -> Option<Machine> {
    let demands = demands(table, states, chosen)?;
    if chosen.len() < demands.len() {
        let mut longer = (0..states as u16).map(|next| [chosen, &[next]].concat());
        return longer.find_map(|chosen| first_match(table, states, &chosen));
    }
    Some(Machine {
        inputs: table.head.sizes.inputs,
        outputs: table.head.sizes.outputs,
        states,
        output_words: demands.iter().map(|demand| demand.ones).collect(),
        next_states: chosen.to_vec(),
    })
}

/// Bits that an entry of a machine is to have 1, and bits that it is to have 0.
#[derive(Clone, Copy, Default)]
struct Demand {
    ones: u16,
    zeros: u16,
}

/// What the table demands of each entry of a machine whose next states begin with `chosen`, on all
/// histories that need no others; nothing where a bit is to be both 1 and 0.
fn demands(table: &Table, states: usize, chosen: &[u16]) -> Option<Vec<Demand>> {
    let head = &table.head;
    let words = head.sizes.input_words();
    let mut demands = vec![Demand::default(); states * words];
    // By state of the table's layer: in which states the machine can be at the same time.
    let mut met = vec![[true, false, false]];
    for layer in 0..head.sizes.frames {
        let first = head.entries_of(layer).start;
        let mut met_next = vec![[false; Machine::MOST_STATES]; head.counts[layer + 1].into()];
        for (state, of_table) in pairs(&met) {
            for word in 0..words {
                let (entry, at) = (state * words + word, first + of_table * words + word);
                let output = table.output_words[at];
                let demand = &mut demands[entry];
                demand.ones |= output;
                demand.zeros |= head.connected[layer] & !output;
                if demand.ones & demand.zeros != 0 {
                    return None;
                }
                if let Some(&next) = chosen.get(entry) {
                    met_next[usize::from(table.next_states[at])][usize::from(next)] = true;
                }
            }
        }
        met = met_next;
    }
    Some(demands)
}

/// The machine's states and the table's that are met at the same time.
fn pairs(met: &[[bool; Machine::MOST_STATES]]) -> impl Iterator<Item = (usize, usize)> + '_ {
    met.iter().enumerate().flat_map(|(of_table, met)| {
        let states = (0..Machine::MOST_STATES).filter(|&state| met[state]);
        states.map(move |state| (state, of_table))
    })
}
