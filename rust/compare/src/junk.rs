//! What lent buffers hold before a call, so that what must be kept is seen to be kept.

/// Words that depend on the seed and on their place. None is 0, which a log is cleared to.
pub(crate) fn words(seed: u64, len: usize) -> Vec<u32> {
    let start = (seed as u32).wrapping_mul(0x9e37_79b9);
    (0..len as u32)
        .map(|place| start.wrapping_add(place).wrapping_mul(0x85eb_ca6b) | 1)
        .collect()
}

/// Words likewise, with the top bit set: no row's number, no count of rows and no cost comes to one of them.
pub(crate) fn records(seed: u64, len: usize) -> Vec<u32> {
    let words = words(seed.rotate_left(7), len).into_iter();
    words.map(|word| word | 1 << 31).collect()
}

/// Bytes likewise. None is ASCII, so that none can pass for a report's byte.
pub(crate) fn bytes(seed: u64, len: usize) -> Vec<u8> {
    let start = seed as u8;
    (0..len)
        .map(|place| start.wrapping_add((place % 251) as u8) | 0x80)
        .collect()
}
