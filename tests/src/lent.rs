//! Slices that are lent to a call, and what they hold before and after.

/// A lent slice lies between elements that nobody lent, so that a store outside
/// it is seen too.
const SIDE: usize = 4;

/// Known elements, with what is expected at the start of the lent slice.
pub fn lent<T: Copy>(len: usize, fill: fn(usize) -> T, start: &[T]) -> Vec<T> {
    let mut all: Vec<T> = (0..SIDE + len + SIDE).map(fill).collect();
    all[SIDE..SIDE + start.len()].copy_from_slice(start);
    all
}

/// The lent slice itself.
pub fn inside<T>(all: &mut [T]) -> &mut [T] {
    let end = all.len() - SIDE;
    &mut all[SIDE..end]
}

/// Elements that no answer is likely to hold, and no two neighbours alike.
pub fn byte(at: usize) -> u8 {
    (0xA5 + 29 * at % 256) as u8
}

/// At every place another byte than that: what a store leaves as it was in one
/// slice, it changes in the other.
pub fn other_byte(at: usize) -> u8 {
    !byte(at)
}

pub fn word(at: usize) -> u64 {
    0xA5A5_A5A5_0000_0000 + at as u64
}
