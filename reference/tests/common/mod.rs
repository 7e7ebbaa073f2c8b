//! What the comparison tests share: cases that can be run again alone, slices with guards around
//! them, and the comparison itself.

use std::collections::BTreeSet;
use std::fmt;
use std::hint::black_box;
use std::ops::Range;

use reference::gen::Rng;
use reference::Node;

/// Names the one seed to run, in place of all.
const ONLY_SEED: &str = "TFF_SEED";

/// The seeds from 0 below `count`, or the one that the environment names.
pub fn seeds(count: u64) -> Seeds {
    Seeds {
        left: only_seed().map_or(0..count, |seed| seed..seed + 1),
        current: None,
    }
}

/// Seeds one after the other; where a test fails, names the one it was at.
pub struct Seeds {
    left: Range<u64>,
    current: Option<u64>,
}

impl Iterator for Seeds {
    type Item = u64;

    fn next(&mut self) -> Option<u64> {
        self.current = self.left.next();
        self.current
    }
}

impl Drop for Seeds {
    fn drop(&mut self) {
        if let (true, Some(seed)) = (std::thread::panicking(), self.current) {
            println!("{ONLY_SEED}={seed} fails");
        }
    }
}

/// The seed that the environment names, if it names one.
pub fn only_seed() -> Option<u64> {
    let seed = std::env::var(ONLY_SEED).ok()?;
    Some(seed.parse().expect("a seed is a decimal number"))
}

/// The numbers that the calls of a test answered.
#[derive(Default)]
pub struct Seen(BTreeSet<u64>);

impl Seen {
    pub fn note<const N: usize>(&mut self, answer: [u64; N]) {
        self.0.insert(answer[0]);
    }

    /// A test that never met one of `numbers` would show nothing about it.
    pub fn expect(&self, numbers: &[u64]) {
        let missing = numbers.iter().find(|number| !self.0.contains(number));
        assert!(
            missing.is_none() || only_seed().is_some(),
            "no call answered {missing:?}"
        );
    }
}

/// One call and what it is given; a failing comparison shows it.
#[derive(Default)]
pub struct Case<'a> {
    pub call: &'a str,
    pub seed: u64,
    pub file: &'a [u8],
    /// Input words, or a layer, or layer, state and word, or windows, or a schedule.
    pub words: &'a [u16],
    /// The plan to commit to.
    pub plan: &'a [u64],
}

impl fmt::Display for Case<'_> {
    fn fmt(&self, f: &mut fmt::Formatter) -> fmt::Result {
        /// Longer files are made again from their seed.
        const SHOWN: usize = 20_000;
        writeln!(f, "call {}, seed {}", self.call, self.seed)?;
        writeln!(f, "words {:?}", self.words)?;
        writeln!(f, "plan {:?}", self.plan)?;
        write!(f, "file of {} bytes ", self.file.len())?;
        for byte in self.file.iter().take(SHOWN) {
            write!(f, "{byte:02x}")?;
        }
        write!(f, "{}", if self.file.len() > SHOWN { " .." } else { "" })
    }
}

/// Lengths of the slices that a call may write to, answer aside.
#[derive(Clone, Copy, Debug, Default)]
pub struct Room {
    pub numbers: usize,
    pub records: usize,
    pub bytes: usize,
}

/// Those of calls that write to a result alone. A file of tests needs one of them, or none.
#[allow(dead_code)]
impl Room {
    pub fn of_bytes(bytes: usize) -> Room {
        Room {
            bytes,
            ..Room::default()
        }
    }

    pub fn of_numbers(numbers: usize) -> Room {
        Room {
            numbers,
            ..Room::default()
        }
    }
}

/// Those slices. Few calls write to all of them.
#[allow(dead_code)]
pub struct Lent<'a> {
    pub numbers: &'a mut [u16],
    pub nodes: &'a mut [Node],
    pub bytes: &'a mut [u8],
}

/// A slice for a call to write to, between guards that it may not change.
#[derive(Clone)]
struct Guarded<T>(Vec<T>);

impl<T: Copy + PartialEq + fmt::Debug> Guarded<T> {
    /// Odd, so that slices of bytes begin at odd addresses.
    const GUARD: usize = 7;

    fn new(length: usize, fill: impl FnMut() -> T) -> Guarded<T> {
        let mut all = Vec::new();
        all.resize_with(length + 2 * Self::GUARD, fill);
        Guarded(all)
    }

    fn part(&mut self) -> &mut [T] {
        let end = self.0.len() - Self::GUARD;
        &mut self.0[Self::GUARD..end]
    }

    /// Where the two differ first, counted from the slice's first element.
    fn difference(&self, found: &Guarded<T>) -> Option<String> {
        let index = self.0.iter().zip(&found.0).position(|(a, b)| a != b)?;
        let place = index as isize - Self::GUARD as isize;
        let (expected, found) = (self.0[index], found.0[index]);
        Some(format!(
            "differs at {place}: expected {expected:?}, found {found:?}"
        ))
    }
}

/// A record that may be free, look like a node, or hold anything.
fn any_node(rng: &mut Rng) -> Node {
    let [level, low, high] = [0; 3].map(|_| rng.number() as u32);
    match rng.below(4) {
        0 => [0; 3],
        1 => [level % 17, low % 4, high % 4],
        _ => [level, low, high],
    }
}

/// All memory that a call may change.
#[derive(Clone)]
struct Buffers {
    numbers: Guarded<u16>,
    nodes: Guarded<Node>,
    bytes: Guarded<u8>,
    answer: Guarded<u64>,
}

impl Buffers {
    /// Filled at random, so that no change goes unseen.
    fn new(seed: u64, room: Room, answer: usize) -> Buffers {
        let mut rng = Rng::new(!seed);
        Buffers {
            numbers: Guarded::new(room.numbers, || rng.word()),
            nodes: Guarded::new(room.records, || any_node(&mut rng)),
            bytes: Guarded::new(room.bytes, || rng.word() as u8),
            answer: Guarded::new(answer, || rng.number()),
        }
    }

    /// The slices to lend, and the answer.
    fn parts(&mut self) -> (Lent<'_>, &mut [u64]) {
        let lent = Lent {
            numbers: self.numbers.part(),
            nodes: self.nodes.part(),
            bytes: self.bytes.part(),
        };
        (lent, self.answer.part())
    }

    /// Hands the slices to the proved call, which may not change its inputs.
    fn pass(&mut self, case: &Case, proved: impl FnOnce(Lent, &mut [u64])) {
        let (file, words) = (case.file.to_vec(), case.words.to_vec());
        let plan = case.plan.to_vec();
        let (lent, answer) = self.parts();
        proved(lent, answer);
        assert!(black_box(case.file) == file, "input bytes changed\n{case}");
        assert!(
            black_box(case.words) == words,
            "input words changed\n{case}"
        );
        assert!(black_box(case.plan) == plan, "the plan changed\n{case}");
    }

    fn assert_found(&self, case: &Case, room: Room, found: &Buffers) {
        let differences = [
            ("answer", self.answer.difference(&found.answer)),
            ("numbers", self.numbers.difference(&found.numbers)),
            ("nodes", self.nodes.difference(&found.nodes)),
            ("bytes", self.bytes.difference(&found.bytes)),
        ];
        for (what, difference) in differences {
            if let Some(difference) = difference {
                panic!("{what} {difference}\n{room:?}, {case}");
            }
        }
    }
}

/// Makes the plain and the proved call on equal slices, which must end equal, answer included.
/// Gives the values answered.
pub fn compare<const N: usize>(
    case: &Case,
    room: Room,
    plain: impl FnOnce(Lent) -> [u64; N],
    proved: impl FnOnce(Lent, &mut [u64]),
) -> [u64; N] {
    let spare = case.seed as usize % 3;
    let mut expected = Buffers::new(case.seed, room, N + spare);
    let mut found = expected.clone();
    let (lent, answer) = expected.parts();
    let values = plain(lent);
    answer[..N].copy_from_slice(&values);
    found.pass(case, proved);
    expected.assert_found(case, room, &found);
    values
}

/// Makes the proved call with every answer shorter than `values`: nothing may change.
pub fn short_answers_change_nothing(
    case: &Case,
    room: Room,
    values: usize,
    proved: impl Fn(Lent, &mut [u64]),
) {
    for length in 0..values {
        let before = Buffers::new(case.seed, room, length);
        let mut after = before.clone();
        after.pass(case, &proved);
        before.assert_found(case, room, &after);
    }
}
