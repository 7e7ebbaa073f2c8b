//! Folding by the proved library alone.

use tff::Nodes;

/// The table that a circuit folds to, with as many records as it takes.
pub fn folded(circuit: &[u8]) -> Vec<u8> {
    // Enough for every circuit: 65,536 sequences, 131,070 histories.
    let (mut scratch, mut result) = (vec![0; 1 << 17], vec![0; 1 << 20]);
    let answer = Nodes::up_to(Nodes::ENOUGH).fold(circuit, &mut scratch, &mut result);
    assert_eq!(answer.number, 0);
    result.truncate(answer.place as usize);
    result
}
