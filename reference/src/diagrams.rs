//! Folding by decision diagrams in the lent list of records, as the proved library folds: the other
//! way that the benchmarks measure against.
//!
//! The list is itself the hash table in which nodes are sought. Ids 0 and 1 are the constants, id
//! i + 2 is record i, and a record of level 0 is free.

use crate::answer::{deliver, refused, Answer, NODES};
use crate::circuit::Circuit;
use crate::fold::circuit_for;
use crate::nodes::Node;
use crate::table::{Head, Table};

/// Answers and changes the slices as `fold` does.
pub fn fold_diagrams(
    circuit: &[u8],
    scratch: &mut [u16],
    nodes: &mut [Node],
    result: &mut [u8],
) -> Answer {
    match table_by_diagrams(circuit, scratch, nodes) {
        Ok(table) => deliver(&table.to_bytes(), result),
        Err(refusal) => refusal,
    }
}

/// The circuit's table or the refusal; the slices end as in folding.
pub fn table_by_diagrams(
    circuit: &[u8],
    scratch: &mut [u16],
    nodes: &mut [Node],
) -> Result<Table, Answer> {
    let circuit = circuit_for(circuit, scratch)?;
    nodes.fill(FREE);
    let made = Diagrams::make(&circuit, nodes);
    let found = made.map(|(diagrams, outputs)| diagrams.table(&circuit, &outputs));
    nodes.fill(FREE);
    found
}

/// How many nodes the inputs and all gates have: as many records are enough and no fewer are.
pub fn nodes_made(circuit: &Circuit) -> usize {
    let mut nodes = vec![FREE; 1 << 14];
    while Diagrams::make(circuit, &mut nodes).is_err() {
        nodes = vec![FREE; 2 * nodes.len()];
    }
    nodes.iter().filter(|&&node| node != FREE).count()
}

const FREE: Node = [0; 3];
const FALSE: u32 = 0;
const TRUE: u32 = 1;
/// The level of the constants, below all others.
const LOWEST: u32 = u32::MAX;

/// Factors of the places in the list and in the cache.
const FACTORS: [u32; 3] = [1_640_531_527, 1_327_217_885, 805_459_861];

/// An operand of an AND.
#[derive(Clone, Copy, PartialEq, Eq)]
struct Operand {
    id: u32,
    inverted: bool,
}

impl Operand {
    fn is(self, constant: bool) -> bool {
        self.id == u32::from(constant != self.inverted)
    }
}

/// The AND of two operands, where their ids alone tell.
fn known(left: Operand, right: Operand) -> Option<u32> {
    if left.is(false) || right.is(false) {
        Some(FALSE)
    } else if left.is(true) && right.is(true) {
        Some(TRUE)
    } else if left.is(true) && !right.inverted {
        Some(right.id)
    } else if right.is(true) && !left.inverted {
        Some(left.id)
    } else if left.id == right.id && left.inverted != right.inverted {
        Some(FALSE)
    } else if left == right && !left.inverted {
        Some(left.id)
    } else {
        None
    }
}

/// An AND that was made: both ids, their inversions as one number, and its id.
type Made = [u32; 4];

const CACHE_ENTRIES: usize = 4_096;

/// Where the cache has the AND of two operands, and what stands there but for the AND itself.
fn cache_place(left: Operand, right: Operand) -> (usize, [u32; 3]) {
    let flags = 2 * u32::from(left.inverted) + u32::from(right.inverted);
    let key = [left.id, right.id, flags];
    let terms = key.iter().zip(FACTORS);
    let sum: u64 = terms.map(|(&a, b)| u64::from(a) * u64::from(b)).sum();
    ((sum / 65_536) as usize % CACHE_ENTRIES, key)
}

struct Diagrams<'a> {
    nodes: &'a mut [Node],
    cache: Vec<Made>,
}

impl Diagrams<'_> {
    /// The diagrams of all signals, in a list of free records, and the ids of the outputs; or the
    /// refusal.
    fn make<'a>(
        circuit: &Circuit,
        nodes: &'a mut [Node],
    ) -> Result<(Diagrams<'a>, Vec<u32>), Answer> {
        let mut diagrams = Diagrams {
            nodes,
            // An entry of zeros is true: the AND of false and false is false.
            cache: vec![[0; 4]; CACHE_ENTRIES],
        };
        let mut ids = vec![FALSE];
        for level in 1..=circuit.sizes.input_signals() as u32 {
            let id = diagrams.join(level, FALSE, TRUE);
            ids.push(id.ok_or(refused(NODES, 0))?);
        }
        for gate in 0..circuit.gates() {
            if circuit.is_unconnected(gate) {
                ids.push(FALSE);
                continue;
            }
            let [left, right] = [circuit.left[gate], circuit.right[gate]].map(|literal| Operand {
                id: ids[usize::from(literal / 2)],
                inverted: literal % 2 == 1,
            });
            let id = diagrams.conjoin(left, right);
            ids.push(id.ok_or(refused(NODES, gate + 1))?);
        }
        let outputs = ids.split_off(ids.len() - circuit.sizes.output_gates());
        Ok((diagrams, outputs))
    }

    /// The AND of two operands; none where there are too few records.
    fn conjoin(&mut self, left: Operand, right: Operand) -> Option<u32> {
        if let Some(id) = known(left, right) {
            return Some(id);
        }
        let (place, key) = cache_place(left, right);
        let [f, g, flags, made] = self.cache[place];
        if [f, g, flags] == key {
            return Some(made);
        }
        let level = self.level(left.id).min(self.level(right.id));
        let [left_low, left_high] = self.halves(left, level);
        let [right_low, right_high] = self.halves(right, level);
        let low = self.conjoin(left_low, right_low)?;
        let high = self.conjoin(left_high, right_high)?;
        let made = self.join(level, low, high)?;
        self.cache[place] = [key[0], key[1], key[2], made];
        Some(made)
    }

    /// The node of a level and two branches, new where there is none yet.
    fn join(&mut self, level: u32, low: u32, high: u32) -> Option<u32> {
        if low == high {
            return Some(low);
        }
        let node = [level, low, high];
        let room = self.nodes.len();
        let mut place = home(node, room);
        for _ in 0..room {
            if self.nodes[place] == FREE {
                self.nodes[place] = node;
            }
            if self.nodes[place] == node {
                return Some(place as u32 + 2);
            }
            place = if place + 1 < room { place + 1 } else { 0 };
        }
        None
    }

    fn node(&self, id: u32) -> Node {
        match id {
            FALSE | TRUE => [LOWEST, 0, 0],
            _ => self.nodes[id as usize - 2],
        }
    }

    fn level(&self, id: u32) -> u32 {
        self.node(id)[0]
    }

    /// Where a node leads at a level, which is its own or a higher one.
    fn branches(&self, id: u32, level: u32) -> [u32; 2] {
        let [own, low, high] = self.node(id);
        if own == level {
            [low, high]
        } else {
            [id, id]
        }
    }

    fn halves(&self, of: Operand, level: u32) -> [Operand; 2] {
        self.branches(of.id, level).map(|id| Operand { id, ..of })
    }

    /// Where a node leads by the first `top` bits of `path`, the first input lowest.
    fn follow(&self, mut id: u32, path: u32, top: usize) -> u32 {
        loop {
            let [level, low, high] = self.node(id);
            if level as usize > top {
                return id;
            }
            id = if path >> (level - 1) & 1 == 1 {
                high
            } else {
                low
            };
        }
    }

    /// Where a node leads by each word of the inputs behind the first `top`: level by level, each of
    /// which doubles the words.
    fn expand(&self, id: u32, top: usize, by_word: &mut [u32]) {
        by_word[0] = id;
        let (mut level, mut words) = (top as u32 + 1, 1);
        while words < by_word.len() {
            for word in 0..words {
                [by_word[word], by_word[words + word]] = self.branches(by_word[word], level);
            }
            (level, words) = (level + 1, 2 * words);
        }
    }

    /// The states of each layer, forward, each by the path of its smallest history. Histories have
    /// one state where they lead to the same nodes in the diagrams of all later outputs.
    fn table(&self, circuit: &Circuit, outputs: &[u32]) -> Table {
        let sizes = circuit.sizes;
        let words = sizes.input_words();
        let mut table = Table {
            head: Head {
                sizes,
                counts: vec![1],
                connected: circuit.connected(),
            },
            output_words: Vec::new(),
            next_states: Vec::new(),
        };
        let mut paths = vec![0];
        let mut by_word = vec![0; words];
        for layer in 0..sizes.frames {
            let top = layer * sizes.inputs;
            // The outputs of this frame come first, which the next word decides.
            let roots = &outputs[layer * sizes.outputs..];
            let mut ids = vec![0; words * roots.len()];
            let mut states = States::new(roots.len() - sizes.outputs, words * paths.len());
            let mut next_paths = Vec::new();
            for path in paths {
                for (index, &root) in roots.iter().enumerate() {
                    self.expand(self.follow(root, path, top), top, &mut by_word);
                    for (word, &id) in by_word.iter().enumerate() {
                        ids[word * roots.len() + index] = id;
                    }
                }
                for (word, row) in ids.chunks(roots.len()).enumerate() {
                    let (now, later) = row.split_at(sizes.outputs);
                    let bits = now.iter().enumerate();
                    let output = bits.map(|(bit, &id)| (id as u16) << bit).sum();
                    let state = states.number(later);
                    if state == next_paths.len() {
                        next_paths.push(path | (word as u32) << top);
                    }
                    table.output_words.push(output);
                    table.next_states.push(state as u16);
                }
            }
            paths = next_paths;
            table.head.counts.push(paths.len() as u16);
        }
        table
    }
}

/// Where a node is sought first.
fn home([level, low, high]: Node, room: usize) -> usize {
    let sum = [low, high, level]
        .iter()
        .zip(FACTORS)
        .fold(0u32, |sum, (&a, b)| sum.wrapping_add(a.wrapping_mul(b)));
    ((u64::from(sum) * room as u64) >> 32) as usize
}

/// The states of a layer as they come: the ids of each in all later outputs.
struct States {
    width: usize,
    count: usize,
    ids: Vec<u32>,
    /// By hash, with linear probing: a state's number, from 1.
    places: Vec<u32>,
}

impl States {
    /// For at most `most` states.
    fn new(width: usize, most: usize) -> States {
        States {
            width,
            count: 0,
            ids: Vec::new(),
            places: vec![0; (2 * most).next_power_of_two()],
        }
    }

    /// The state with these ids, a new one where there is none yet.
    fn number(&mut self, ids: &[u32]) -> usize {
        let hash = ids.iter().fold(0u64, |hash, &id| {
            (hash.rotate_left(5) ^ u64::from(id)).wrapping_mul(0x9e37_79b9_7f4a_7c15)
        });
        let mut place = (hash >> 32) as usize % self.places.len();
        loop {
            match self.places[place] as usize {
                0 => {
                    self.ids.extend_from_slice(ids);
                    self.count += 1;
                    self.places[place] = self.count as u32;
                    return self.count - 1;
                }
                known if self.of(known - 1) == ids => return known - 1,
                _ => place = (place + 1) % self.places.len(),
            }
        }
    }

    fn of(&self, state: usize) -> &[u32] {
        &self.ids[state * self.width..(state + 1) * self.width]
    }
}

#[cfg(test)]
mod tests {
    use super::*;
    use crate::gen::{any_sizes, circuits, machines, Rng};
    use crate::{fold, node_counts, Sizes};

    /// Folds by both ways with so many records: they answer and leave the same.
    fn agree(circuit: &Circuit, records: usize) -> Answer {
        let file = circuit.to_bytes();
        let [first, second] = [fold, fold_diagrams].map(|fold| {
            let (mut scratch, mut result) = (vec![7; 1 << 14], vec![0xee; 1 << 16]);
            let mut nodes = vec![[7; 3]; records];
            let answer = fold(&file, &mut scratch, &mut nodes, &mut result);
            (answer, scratch, nodes, result)
        });
        assert_eq!(first.0, second.0);
        assert!(first == second);
        first.0
    }

    fn agree_at_every_count(circuit: &Circuit) {
        let counts: Vec<usize> = node_counts(circuit).collect();
        let enough = counts[counts.len() - 1];
        assert_eq!(nodes_made(circuit), enough);
        for count in counts {
            assert_eq!(agree(circuit, count - 1).0, 18);
            assert_eq!(agree(circuit, count).0 == 0, count == enough);
        }
    }

    #[test]
    fn nodes_are_made_as_they_are_counted() {
        let mut rng = Rng::new(1);
        for _ in 0..60 {
            agree_at_every_count(&circuits::any_legal(&mut rng, 8, 30));
            let sizes = any_sizes(&mut rng, 8);
            agree_at_every_count(&circuits::repetitive(&mut rng, sizes, 20));
        }
        agree_at_every_count(&circuits::scrambled(&mut rng, Sizes::new(2, 2, 5), 100));
        agree_at_every_count(&machines::adder(4));
    }

    #[test]
    fn machines_are_folded_alike() {
        for circuit in [
            machines::counter(1, 12),
            machines::adder(6),
            machines::comparator(6),
            machines::b01(6),
            machines::b02(12),
            machines::repeats(12),
        ] {
            assert_eq!(agree(&circuit, nodes_made(&circuit)).0, 0);
        }
    }
}
