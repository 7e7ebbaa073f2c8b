//! The outputs of a circuit and its table.

use reference::Sizes;

/// Both are legal, and every sequence gives the same outputs.
pub fn assert_same_outputs(sizes: &Sizes, circuit: &[u8], table: &[u8]) {
    for sequence in 0..sizes.histories(sizes.frames) {
        let words = sizes.history_words(sizes.frames, sequence);
        let [mut simulated, mut run] = [0, 1].map(|fill| vec![fill; sizes.frames]);
        assert_eq!(tff::simulate_one(circuit, &words, &mut simulated).number, 0);
        assert_eq!(tff::run(table, &words, &mut run).number, 0);
        assert_eq!(simulated, run, "words {words:?}");
    }
}
