//! Faults of files, of lengths and of input words, tried alike on circuits and tables.

use crate::common::Seen;
use crate::evaluator::Evaluator;
use reference::gen::{any_sequence, Rng};
use reference::Sizes;

impl Evaluator {
    /// Of a legal file, every other length is refused.
    pub fn judges_lengths(&self, seed: u64, file: &[u8]) {
        let longer = [file, &[0; 9]].concat();
        for length in 0..longer.len() {
            let fault = (length != file.len()).then_some([1, length as u64]);
            self.finds(seed, &longer[..length], fault);
        }
    }

    /// Lists and results of lengths around the number of frames, with words around their limit.
    pub fn judges_words_and_result(&self, seed: u64, file: &[u8], sizes: &Sizes) -> Seen {
        let mut rng = Rng::new(seed);
        let mut seen = Seen::default();
        let last = sizes.input_words() as u16 - 1;
        let lengths = [0, sizes.frames - 1, sizes.frames, sizes.frames + 1];
        for list in lengths {
            for high in [last, last + 1, u16::MAX] {
                let mut words = any_sequence(&mut rng, sizes);
                words.resize(list, high);
                if list > 0 {
                    words[rng.below(list)] = high;
                }
                for length in lengths {
                    seen.note(self.evaluate(seed, file, &words, length));
                }
            }
        }
        seen
    }

    /// The first word above the highest is named, wherever it stands.
    pub fn names_the_first_high_word(&self, seed: u64, file: &[u8], sizes: &Sizes) {
        let highest = sizes.input_words() as u16 - 1;
        let mut words = vec![highest; sizes.frames];
        let answer = self.evaluate(seed, file, &words, sizes.frames);
        assert_eq!(answer, [0, sizes.frames as u64]);
        for index in (0..sizes.frames).rev() {
            words[index] = highest + 1;
            let answer = self.evaluate(seed, file, &words, sizes.frames);
            assert_eq!(answer, [9, index as u64]);
        }
    }
}
