//! The checksum of ends and of the words that end there, as the proved library computes it.
const FACTOR: u64 = 0x100000001b3;

/// Joins an end and the words that end there; no words leave the checksum as it is.
pub fn join(sum: u64, end: usize, words: u64) -> u64 {
    if words == 0 {
        return sum;
    }
    sum.wrapping_add(end as u64)
        .wrapping_mul(FACTOR)
        .wrapping_add(words)
}
