//! Numbers in bytes, big-endian, and names. Records are arrays, so that with a fixed place nothing is left to look up.

pub type Name = [u8; 32];

#[inline(always)]
pub fn two(s: &[u8], at: usize) -> u16 {
    u16::from_be_bytes(s[at..at + 2].try_into().unwrap())
}

#[inline(always)]
pub fn four(s: &[u8], at: usize) -> u32 {
    u32::from_be_bytes(s[at..at + 4].try_into().unwrap())
}

#[inline(always)]
pub fn eight(s: &[u8], at: usize) -> u64 {
    u64::from_be_bytes(s[at..at + 8].try_into().unwrap())
}

#[inline(always)]
pub fn name(s: &[u8], at: usize) -> &Name {
    s[at..at + 32].try_into().unwrap()
}

/// A name's four words.
#[inline(always)]
pub fn words(name: &Name) -> [u64; 4] {
    [eight(name, 0), eight(name, 8), eight(name, 16), eight(name, 24)]
}

/// Whether a name is genesis'.
#[inline(always)]
pub fn is_zero(name: &Name) -> bool {
    let [a, b, c, d] = words(name);
    a | b | c | d == 0
}

#[inline(always)]
pub fn put_four(s: &mut [u8], at: usize, number: u32) {
    s[at..at + 4].copy_from_slice(&number.to_be_bytes());
}

#[inline(always)]
pub fn put_two(s: &mut [u8], at: usize, number: u16) {
    s[at..at + 2].copy_from_slice(&number.to_be_bytes());
}

/// View and height as one number, which orders as rank does.
#[inline(always)]
pub fn key(view: u32, height: u32) -> u64 {
    u64::from(view) << 32 | u64::from(height)
}
