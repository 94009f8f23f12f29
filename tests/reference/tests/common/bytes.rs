//! Word lists as bytes, for the files that test C calls.

pub fn list(words: &[u32]) -> Vec<u8> {
    words.iter().flat_map(|word| word.to_le_bytes()).collect()
}

/// A list of the words, then so many bytes of 0xAA.
pub fn padded(words: &[u32], over: usize) -> Vec<u8> {
    [list(words), vec![0xAA; over]].concat()
}
