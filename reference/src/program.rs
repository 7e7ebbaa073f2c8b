//! What the folding program prints.

use crate::fold::fold;
use crate::table::Table;

/// Most bytes that the program reads, one more than the longest circuit has.
pub const MOST_READ: usize = 16_393;
/// Lengths of the slices that the program gives to folding.
pub const SCRATCH_NUMBERS: usize = 8_192;
pub const NODE_RECORDS: usize = 16_384;
pub const RESULT_BYTES: usize = 24_576;

/// The lines printed for `input` on standard input.
pub fn printed(input: &[u8]) -> String {
    let circuit = &input[..input.len().min(MOST_READ)];
    let mut scratch = vec![0; SCRATCH_NUMBERS];
    let mut nodes = vec![[0; 3]; NODE_RECORDS];
    let mut result = vec![0; RESULT_BYTES];
    match fold(circuit, &mut scratch, &mut nodes, &mut result) {
        (0, bytes) => {
            let table = Table::read(&result[..bytes as usize]).expect("folding writes a table");
            counts_printed(&table.head.counts)
        }
        (number, place) => format!("refused {number} {place}\n"),
    }
}

fn counts_printed(counts: &[u16]) -> String {
    let mut text = String::from("layer states\n");
    for (layer, count) in counts.iter().enumerate() {
        text += &format!("{layer} {count}\n");
    }
    let total: u32 = counts.iter().map(|&count| u32::from(count)).sum();
    text + &format!("total {total}\n")
}
