//! Bytes by their places, with the language's own bytes of a number.

/// All lowest bytes, then all second bytes, up to the eighth.
pub fn shuffled(own: &[u64]) -> Vec<u8> {
    let figures: Vec<[u8; 8]> = own.iter().map(|figure| figure.to_le_bytes()).collect();
    (0..8).flat_map(|place| figures.iter().map(move |bytes| bytes[place])).collect()
}

/// The column of which these are the bytes.
pub fn unshuffled(bytes: &[u8]) -> Vec<u64> {
    let figures = bytes.len() / 8;
    let figure = |i: usize| std::array::from_fn(|place| bytes[place * figures + i]);
    (0..figures).map(|i| u64::from_le_bytes(figure(i))).collect()
}
