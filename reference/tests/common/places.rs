//! Where a table can be stepped from, and on what.

use reference::Table;

/// Layer, state and word of a step.
pub type Place = [u16; 3];

/// Every place that a table has an entry for.
pub fn places(table: &Table) -> Vec<Place> {
    let mut places = Vec::new();
    for layer in 0..table.head.sizes.frames as u16 {
        for state in 0..table.head.counts[usize::from(layer)] {
            for word in 0..table.head.sizes.input_words() as u16 {
                places.push([layer, state, word]);
            }
        }
    }
    places
}

/// Places within and just beyond what a table has, in every part.
pub fn places_around(table: &Table) -> Vec<Place> {
    let frames = table.head.sizes.frames as u16;
    let words = table.head.sizes.input_words() as u16;
    let mut places = Vec::new();
    for layer in (0..frames + 3).chain([255, 256, u16::MAX]) {
        let count = *table.head.counts.get(usize::from(layer)).unwrap_or(&1);
        for state in [0, count - 1, count, count + 1, u16::MAX] {
            for word in [0, words - 1, words, u16::MAX] {
                places.push([layer, state, word]);
            }
        }
    }
    places
}
