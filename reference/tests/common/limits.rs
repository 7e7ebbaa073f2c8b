//! Sizes within and beyond their limits.

/// Triples of sizes, legal and not.
pub fn sizes_around_the_limits() -> Vec<[u16; 3]> {
    let up_to = |last: u16| (0..=last).chain([255, 256, u16::MAX]);
    let mut all = Vec::new();
    for inputs in up_to(10).chain(15..=18) {
        for outputs in up_to(18) {
            all.extend(up_to(18).map(|frames| [inputs, outputs, frames]));
        }
    }
    all
}
