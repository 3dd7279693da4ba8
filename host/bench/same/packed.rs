//! Words in packed bytes, read and written where they lie.

#[inline]
fn of(bytes: &[u8]) -> u64 {
    u64::from_le_bytes(bytes.try_into().expect("eight bytes"))
}

/// Word k.
#[inline]
pub fn word(bytes: &[u8], k: usize) -> u64 {
    of(&bytes[8 * k..8 * k + 8])
}

#[inline]
pub fn put(bytes: &mut [u8], k: usize, word: u64) {
    bytes[8 * k..8 * k + 8].copy_from_slice(&word.to_le_bytes());
}

/// Moves words `from` up to `end` so that they stand at `to` on.
#[inline]
pub fn shift(bytes: &mut [u8], from: usize, end: usize, to: usize) {
    bytes.copy_within(8 * from..8 * end, 8 * to);
}

#[inline]
pub fn clear(bytes: &mut [u8], from: usize, end: usize) {
    bytes[8 * from..8 * end].fill(0);
}

/// Whether words `from` up to `end` are 0: one flag for all, which the compiler makes wide.
#[inline]
pub fn are_zero(bytes: &[u8], from: usize, end: usize) -> bool {
    bytes[8 * from..8 * end].chunks_exact(8).fold(0, |any, word| any | of(word)) == 0
}
