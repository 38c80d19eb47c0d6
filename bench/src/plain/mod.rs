//! The calls in plain Rust: masks, slices and recursion, and no proofs.

pub mod answer;
pub mod checker;
pub mod columns;
pub mod function;
pub mod matcher;
pub mod tables;
pub mod wiring;

/// The first byte of a split.
pub const SPLIT: u8 = 0xFF;

/// Checks a claim about f and g: the packed answer.
pub fn check(f: &[u8], g: &[u8], claim: &[u8]) -> u64 {
    checker::check(f, g, claim).packed()
}

/// Finds a match or a refusal of f and g: the packed answer, and the claim at the
/// start of `out`.
pub fn find_match(f: &[u8], g: &[u8], out: &mut [u8]) -> u64 {
    matcher::find(f, g, out).packed()
}

/// Reads a table: the packed answer, and its record at the start of `out`.
pub fn read_table(text: &[u8], out: &mut [u8]) -> u64 {
    tables::read(text, out).packed()
}

/// Writes a record as a table: the packed answer, and the text at the start of `out`.
pub fn write_table(record: &[u8], out: &mut [u8]) -> u64 {
    tables::write(record, out).packed()
}
