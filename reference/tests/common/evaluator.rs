//! Checking a file and evaluating it on the words of one sequence: simulating a circuit, and running or
//! viewing a table, take and answer alike, so all are tried alike.

use crate::common::{compare, seeds, short_answers_change_nothing, Case, Room, Seen};
use reference::gen::{any_sequence, Rng};
use reference::{Answer, Sizes};

type ProvedCheck = unsafe extern "C" fn(*const u8, usize, *mut u64, usize);
type ProvedEvaluate = fn(&[u8], &[u16], &mut [u16], &mut [u64]);

/// The calls for one kind of file, plain and proved.
pub struct Evaluator {
    pub plain_check: fn(&[u8]) -> Answer,
    pub plain_evaluate: fn(&[u8], &[u16], &mut [u16]) -> Answer,
    pub proved_check: ProvedCheck,
    pub proved_evaluate: ProvedEvaluate,
}

impl Evaluator {
    /// Checks `file` with both implementations.
    pub fn check(&self, seed: u64, file: &[u8]) -> [u64; 2] {
        compare(
            &check_case(seed, file),
            Room::default(),
            |_| (self.plain_check)(file).into(),
            |_, answer| self.call_check(file, answer),
        )
    }

    /// Evaluates `file` with both implementations, with a result of `length` numbers.
    pub fn evaluate(&self, seed: u64, file: &[u8], words: &[u16], length: usize) -> [u64; 2] {
        compare(
            &evaluate_case(seed, file, words),
            result_of(length),
            |lent| (self.plain_evaluate)(file, words, lent.numbers).into(),
            |lent, answer| (self.proved_evaluate)(file, words, lent.numbers, answer),
        )
    }

    fn call_check(&self, file: &[u8], answer: &mut [u64]) {
        // SAFETY: each pointer and length is that of one slice.
        unsafe { (self.proved_check)(file.as_ptr(), file.len(), answer.as_mut_ptr(), answer.len()) }
    }

    /// A file with a fault is refused for it by both calls, before words and result are judged.
    pub fn finds(&self, seed: u64, file: &[u8], fault: Option<[u64; 2]>) {
        assert_eq!(self.check(seed, file), fault.unwrap_or([0, 0]));
        let evaluated = self.evaluate(seed, file, &[u16::MAX; 17], 0);
        assert_eq!(evaluated, fault.unwrap_or([12, 17]));
    }

    /// A legal file is accepted, and evaluated on some sequences with ample room.
    pub fn accepts(&self, seed: u64, file: &[u8], sizes: &Sizes, sequences: usize) {
        let mut rng = Rng::new(seed);
        assert_eq!(self.check(seed, file), [0, 0]);
        for _ in 0..sequences {
            let words = any_sequence(&mut rng, sizes);
            let length = sizes.frames + rng.below(4);
            let answer = self.evaluate(seed, file, &words, length);
            assert_eq!(answer, [0, sizes.frames as u64]);
        }
    }

    /// A legal file is evaluated on every sequence.
    pub fn accepts_every_sequence(&self, seed: u64, file: &[u8], sizes: &Sizes) {
        for sequence in 0..sizes.histories(sizes.frames) {
            let words = sizes.history_words(sizes.frames, sequence);
            let answer = self.evaluate(seed, file, &words, sizes.frames);
            assert_eq!(answer, [0, sizes.frames as u64]);
        }
    }

    /// Files that may have faults are judged alike by both calls.
    pub fn judges(&self, count: u64, make: impl Fn(&mut Rng) -> (Vec<u8>, Sizes)) -> Seen {
        let mut seen = Seen::default();
        for seed in seeds(count) {
            let mut rng = Rng::new(seed);
            let (file, sizes) = make(&mut rng);
            let words = any_sequence(&mut rng, &sizes);
            seen.note(self.check(seed, &file));
            seen.note(self.evaluate(seed, &file, &words, sizes.frames));
        }
        seen
    }

    /// Calls with an answer too short leave everything as it was.
    pub fn needs_two_answers(&self, seed: u64, file: &[u8], sizes: &Sizes) {
        let words = any_sequence(&mut Rng::new(seed), sizes);
        let case = check_case(seed, file);
        short_answers_change_nothing(&case, Room::default(), 2, |_, answer| {
            self.call_check(file, answer)
        });
        let case = evaluate_case(seed, file, &words);
        short_answers_change_nothing(&case, result_of(sizes.frames), 2, |lent, answer| {
            (self.proved_evaluate)(file, &words, lent.numbers, answer)
        });
    }
}

fn check_case(seed: u64, file: &[u8]) -> Case<'_> {
    Case {
        call: "check",
        seed,
        file,
        ..Case::default()
    }
}

fn evaluate_case<'a>(seed: u64, file: &'a [u8], words: &'a [u16]) -> Case<'a> {
    Case {
        call: "evaluate",
        seed,
        file,
        words,
        ..Case::default()
    }
}

fn result_of(numbers: usize) -> Room {
    Room {
        numbers,
        ..Room::default()
    }
}
