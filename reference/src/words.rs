//! Words of 16 bits in bytes, low byte first.

/// The word at byte offset `at`.
pub fn word_at(bytes: &[u8], at: usize) -> u16 {
    u16::from_le_bytes([bytes[at], bytes[at + 1]])
}

/// `count` words from byte offset `at` on.
pub fn words_at(bytes: &[u8], at: usize, count: usize) -> Vec<u16> {
    (0..count).map(|i| word_at(bytes, at + 2 * i)).collect()
}

/// Puts `word` at byte offset `at`.
pub fn set_word(bytes: &mut [u8], at: usize, word: u16) {
    bytes[at..at + 2].copy_from_slice(&word.to_le_bytes());
}

/// The bytes of `words`.
pub fn to_bytes(words: &[u16]) -> Vec<u8> {
    words.iter().flat_map(|word| word.to_le_bytes()).collect()
}
