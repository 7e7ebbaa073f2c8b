//! Merging by the search that is proved: candidates are numbers, and most are refuted by pairs of
//! histories that contradicted each other before. The benchmarks measure against it.

use crate::answer::{deliver, refused, Answer, UNMATCHED};
use crate::merge::Machine;
use crate::sizes::Sizes;
use crate::table::Head;
use crate::words::word_at;

/// Answers and writes as `merge` does.
pub fn plain_merge(table: &[u8], result: &mut [u8]) -> Answer {
    match merged(table) {
        Ok(machine) => deliver(&machine.to_bytes(), result),
        Err(refusal) => refusal,
    }
}

fn merged(bytes: &[u8]) -> Result<Machine, Answer> {
    let head = Head::read_to_merge(bytes)?;
    head.judge_entries(bytes)?;
    let histories = Histories::new(bytes, &head);
    (1..=Machine::MOST_STATES)
        .find_map(|states| Search::new(&histories, states).first_match())
        .ok_or(refused(UNMATCHED, 0))
}

/// Entries of the largest machine: three states, four words.
const MOST_ENTRIES: usize = 12;

/// Most pairs of histories that are kept.
const MOST_PAIRS: usize = 64;

/// A history of `frame + 1` words, by its number.
#[derive(Clone, Copy)]
struct History {
    frame: usize,
    number: usize,
}

/// What a history comes to with its last word: an entry of the machine and an output of the table. The
/// entries that led there are below `used`.
struct Visit {
    entry: usize,
    output: u16,
    used: usize,
}

/// A table, to follow histories in.
struct Histories<'a> {
    bytes: &'a [u8],
    sizes: Sizes,
    connected: &'a [u16],
    /// Byte offsets of the output words of each layer.
    rows: Vec<usize>,
    /// Bytes from an output word to the next state of its entry.
    to_next: usize,
}

impl<'a> Histories<'a> {
    fn new(bytes: &'a [u8], head: &'a Head) -> Histories<'a> {
        let row = |layer| head.output_at(head.entries_of(layer).start);
        Histories {
            bytes,
            sizes: head.sizes,
            connected: &head.connected,
            rows: (0..head.sizes.frames).map(row).collect(),
            to_next: 2 * head.entries(),
        }
    }

    /// All histories that end in a frame with connected outputs, the shortest first.
    fn all(&self) -> impl Iterator<Item = History> + '_ {
        let frames = (0..self.sizes.frames).filter(|&frame| self.connected[frame] != 0);
        frames.flat_map(|frame| {
            let numbers = 0..self.sizes.histories(frame + 1);
            numbers.map(move |number| History { frame, number })
        })
    }

    /// Follows a history from the start, in the table and by the machine's next states.
    fn visit(&self, nexts: &[u16], History { frame, number }: History) -> Visit {
        let inputs = self.sizes.inputs;
        let last = self.sizes.input_words() - 1;
        let (mut of_table, mut state, mut used) = (0, 0, 0);
        let mut shift = inputs * frame;
        for row in &self.rows[..frame] {
            let word = number >> shift & last;
            let entry = state << inputs | word;
            used = used.max(entry + 1);
            let at = row + 2 * (of_table << inputs | word);
            of_table = usize::from(word_at(self.bytes, at + self.to_next));
            state = usize::from(nexts[entry]);
            shift -= inputs;
        }
        let word = number & last;
        let at = self.rows[frame] + 2 * (of_table << inputs | word);
        Visit {
            entry: state << inputs | word,
            output: word_at(self.bytes, at),
            used,
        }
    }

    /// The bits that are demanded 1 of each entry, or the first history that contradicts those before.
    fn check(&self, nexts: &[u16]) -> Result<[u16; MOST_ENTRIES], History> {
        let (mut ones, mut zeros) = ([0; MOST_ENTRIES], [0; MOST_ENTRIES]);
        let contradicts = |history: &History| {
            let Visit { entry, output, .. } = self.visit(nexts, *history);
            ones[entry] |= output;
            zeros[entry] |= self.connected[history.frame] & !output;
            ones[entry] & zeros[entry] != 0
        };
        match self.all().find(contradicts) {
            Some(history) => Err(history),
            None => Ok(ones),
        }
    }

    /// Where a bit is demanded 1 by `one` and 0 by `zero`: the entries that led there are below this.
    fn clash(&self, nexts: &[u16], [one, zero]: [History; 2]) -> Option<usize> {
        let [first, second] = [one, zero].map(|history| self.visit(nexts, history));
        let zeros = self.connected[zero.frame] & !second.output;
        let both = first.entry == second.entry && first.output & zeros != 0;
        both.then(|| first.used.max(second.used))
    }

    /// A history that contradicts another, with that other: the one that demands a 1 first.
    fn pair(&self, nexts: &[u16], history: History) -> [History; 2] {
        let visit = self.visit(nexts, history);
        let contradicts = |other: &History| {
            let Visit { entry, output, .. } = self.visit(nexts, *other);
            let connected = self.connected[history.frame] & self.connected[other.frame];
            entry == visit.entry && (output ^ visit.output) & connected != 0
        };
        let other = self
            .all()
            .find(contradicts)
            .expect("a contradicted history");
        match self.clash(nexts, [history, other]) {
            Some(_) => [history, other],
            None => [other, history],
        }
    }
}

/// The search for a machine of so many states. The next states of all its entries are the digits of a
/// candidate, the first one highest.
struct Search<'a> {
    histories: &'a Histories<'a>,
    states: usize,
    entries: usize,
    /// Pairs of histories that contradicted each other, and the one to try first.
    pairs: Vec<[History; 2]>,
    latest: usize,
    /// The pair that the next one takes the place of, once there are the most.
    oldest: usize,
}

impl<'a> Search<'a> {
    fn new(histories: &'a Histories, states: usize) -> Search<'a> {
        Search {
            histories,
            states,
            entries: states * histories.sizes.input_words(),
            pairs: Vec::with_capacity(MOST_PAIRS),
            latest: 0,
            oldest: 0,
        }
    }

    fn first_match(mut self) -> Option<Machine> {
        let mut candidate = 0;
        while candidate < self.candidates(self.entries) {
            let nexts = self.digits(candidate);
            let used = match self.refuted(&nexts) {
                Some(used) => used,
                None => match self.histories.check(&nexts) {
                    Ok(ones) => return Some(self.machine(&ones, &nexts)),
                    Err(history) => {
                        self.keep(self.histories.pair(&nexts, history));
                        self.entries
                    }
                },
            };
            // The next that differs in an entry that was used.
            let step = self.candidates(self.entries - used);
            candidate = (candidate / step + 1) * step;
        }
        None
    }

    fn candidates(&self, entries: usize) -> usize {
        self.states.pow(entries as u32)
    }

    fn digits(&self, candidate: usize) -> [u16; MOST_ENTRIES] {
        let mut digits = [0; MOST_ENTRIES];
        let mut rest = candidate;
        for digit in digits[..self.entries].iter_mut().rev() {
            *digit = (rest % self.states) as u16;
            rest /= self.states;
        }
        digits
    }

    /// Tries the pairs, from the last that served on; gives the bound of the entries that were used.
    fn refuted(&mut self, nexts: &[u16]) -> Option<usize> {
        let count = self.pairs.len();
        for at in (self.latest..count).chain(0..self.latest) {
            let used = self.histories.clash(nexts, self.pairs[at]);
            if used.is_some() {
                self.latest = at;
                return used;
            }
        }
        None
    }

    fn keep(&mut self, pair: [History; 2]) {
        self.latest = self.oldest;
        if self.pairs.len() < MOST_PAIRS {
            self.pairs.push(pair);
        } else {
            self.pairs[self.oldest] = pair;
        }
        self.oldest = (self.oldest + 1) % MOST_PAIRS;
    }

    fn machine(&self, ones: &[u16], nexts: &[u16]) -> Machine {
        let Sizes {
            inputs, outputs, ..
        } = self.histories.sizes;
        Machine {
            inputs,
            outputs,
            states: self.states,
            output_words: ones[..self.entries].to_vec(),
            next_states: nexts[..self.entries].to_vec(),
        }
    }
}

#[cfg(test)]
mod tests {
    use super::*;
    use crate::gen::{any_connected, damaged, merging, tables, Rng};
    use crate::merge;

    fn agree(table: &[u8]) -> Answer {
        let [mut expected, mut found] = [[0xee; 60]; 2];
        let answer = merge(table, &mut expected);
        assert_eq!(plain_merge(table, &mut found), answer);
        assert_eq!(found, expected);
        answer
    }

    #[test]
    fn both_ways_to_merge_agree() {
        let mut rng = Rng::new(1);
        let mut seen = [0; 4];
        for _ in 0..1_000 {
            let inputs = rng.between(1, 2);
            let sizes = Sizes::new(inputs, rng.between(1, 3), rng.between(1, 8));
            let counts = tables::any_counts(&mut rng, &sizes, 3);
            let table = tables::legal(&mut rng, sizes, counts).to_bytes();
            agree(&table);
            agree(&damaged(&mut rng, &table));
            let states = rng.between(1, 4);
            let machine = merging::any_machine(&mut rng, inputs, sizes.outputs, states);
            let table = merging::repeated(&machine, sizes.frames);
            let connected = any_connected(&mut rng, &sizes);
            match agree(&tables::with_connected(&table, &connected).to_bytes()) {
                (UNMATCHED, 0) => seen[0] += 1,
                (_, written) => seen[(written as usize - 6) >> (2 + inputs)] += 1,
            }
        }
        assert!(!seen.contains(&0), "{seen:?}");
    }

    /// Such tables take dozens of pairs.
    #[test]
    fn they_agree_on_late_histories() {
        let sizes = Sizes::new(2, 1, 6);
        for seed in 0..4 {
            let mut rng = Rng::new(seed);
            let late: Vec<usize> = (0..=seed).map(|_| rng.below(sizes.histories(6))).collect();
            let shown = |sequence| u16::from(late.contains(&sequence));
            let table = merging::in_last_frame(sizes, shown);
            let answer = agree(&merging::folded(&table).to_bytes());
            assert_eq!(plain_merge(&table.to_bytes(), &mut [0; 60]), answer);
        }
    }
}
