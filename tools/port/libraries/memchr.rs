//! The functions of the library `memchr` that the crates call. They compare eight bytes at a time.

const LOW: u64 = 0x0101_0101_0101_0101;

/// Returns a word in which the highest bit of each byte equal to `byte` is set, up to the first such byte.
#[inline(always)]
fn marks(word: u64, byte: u8) -> u64 {
    let differences = word ^ LOW * u64::from(byte);
    differences.wrapping_sub(LOW) & !differences & LOW << 7
}

pub fn memchr(byte: u8, bytes: &[u8]) -> Option<usize> {
    memchr2(byte, byte, bytes)
}

pub fn memchr2(one: u8, other: u8, bytes: &[u8]) -> Option<usize> {
    let mut words = bytes.chunks_exact(8);
    let mut at = 0;
    for word in words.by_ref() {
        let word = u64::from_le_bytes(word.try_into().unwrap());
        let found = marks(word, one) | marks(word, other);
        if found != 0 {
            return Some(at + found.trailing_zeros() as usize / 8);
        }
        at += 8;
    }
    let found = words.remainder().iter().position(|byte| *byte == one || *byte == other)?;
    Some(at + found)
}
