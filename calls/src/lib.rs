//! The proved calls, for Rust: declared and linked once, for the command, the tests and the bench.
//!
//! Two archives export them for C: `host` those that users call, `probe` (a feature)
//! those that are for tests alone. A slice is a pointer, then a length. No call asks
//! anything of its caller, so the safe functions here only take the slices apart.
//! Nothing checks these declarations against the archives.

/// No claim is longer, so a buffer of this length holds every answer of `find_match`.
pub const LONGEST_CLAIM: usize = 75_323_621;

/// No function record is longer: 64 and 64 cubes.
pub const LONGEST_RECORD: usize = 261;

/// No table that `write_table` writes is longer: 8 inputs, 128 terms.
pub const LONGEST_TABLE: usize = 1_437;

/// The five numbers of an answer.
#[derive(Clone, Copy, Debug, PartialEq, Eq)]
pub struct Answer {
    pub code: u64,
    pub kind: u64,
    pub record: u64,
    pub place: u64,
    pub pattern: u64,
}

impl Answer {
    /// Out of the one number that a call returns.
    pub fn of(packed: u64) -> Answer {
        Answer {
            code: packed & 255,
            kind: packed >> 8 & 255,
            record: packed >> 16 & 255,
            place: packed >> 24 & 0xFFFF_FFFF,
            pattern: packed >> 56,
        }
    }
}

mod foreign {
    extern "C" {
        pub fn zap_match(
            f: *const u8,
            f_len: usize,
            g: *const u8,
            g_len: usize,
            out: *mut u8,
            out_len: usize,
        ) -> u64;

        pub fn zap_check(
            f: *const u8,
            f_len: usize,
            g: *const u8,
            g_len: usize,
            claim: *const u8,
            claim_len: usize,
        ) -> u64;

        pub fn zap_summary(
            f: *const u8,
            f_len: usize,
            figures: *mut u64,
            figures_len: usize,
        ) -> u64;

        pub fn zap_write(
            n: u8,
            on: *const u8,
            on_len: usize,
            off: *const u8,
            off_len: usize,
            out: *mut u8,
            out_len: usize,
        ) -> u64;

        pub fn zap_read_table(
            text: *const u8,
            text_len: usize,
            out: *mut u8,
            out_len: usize,
        ) -> u64;

        pub fn zap_write_table(
            record: *const u8,
            record_len: usize,
            out: *mut u8,
            out_len: usize,
        ) -> u64;
    }

    #[cfg(feature = "probe")]
    extern "C" {
        pub fn probe_read(
            record: *const u8,
            record_len: usize,
            numbers: *mut u64,
            numbers_len: usize,
        ) -> u64;

        pub fn probe_fault(
            f: *const u8,
            f_len: usize,
            g: *const u8,
            g_len: usize,
            out: *mut u8,
            out_len: usize,
        ) -> u64;

        pub fn probe_dead(
            f: *const u8,
            f_len: usize,
            g: *const u8,
            g_len: usize,
            w: *const u8,
            w_len: usize,
            q: u8,
        ) -> u64;
    }
}

/// Finds a match or a refusal of f and g: the packed answer, and the claim at the
/// start of `out`.
pub fn find_match(f: &[u8], g: &[u8], out: &mut [u8]) -> u64 {
    let len = out.len();
    unsafe { foreign::zap_match(f.as_ptr(), f.len(), g.as_ptr(), g.len(), out.as_mut_ptr(), len) }
}

/// Checks a claim about f and g: the packed answer.
pub fn check(f: &[u8], g: &[u8], claim: &[u8]) -> u64 {
    let len = claim.len();
    unsafe { foreign::zap_check(f.as_ptr(), f.len(), g.as_ptr(), g.len(), claim.as_ptr(), len) }
}

/// Summarises a record: the packed answer, and on patterns, off patterns and inputs
/// in use in the first three numbers if the slice has three or more; else the slice
/// is not touched.
pub fn summary(f: &[u8], figures: &mut [u64]) -> u64 {
    let len = figures.len();
    unsafe { foreign::zap_summary(f.as_ptr(), f.len(), figures.as_mut_ptr(), len) }
}

/// Writes a record from n and two lists of cube bytes: the packed answer, and the
/// record at the start of `out`.
pub fn write(n: u8, on: &[u8], off: &[u8], out: &mut [u8]) -> u64 {
    let (on_len, off_len, len) = (on.len(), off.len(), out.len());
    unsafe {
        foreign::zap_write(n, on.as_ptr(), on_len, off.as_ptr(), off_len, out.as_mut_ptr(), len)
    }
}

/// Reads an espresso table: the packed answer, and its record at the start of `out`.
pub fn read_table(text: &[u8], out: &mut [u8]) -> u64 {
    let len = out.len();
    unsafe { foreign::zap_read_table(text.as_ptr(), text.len(), out.as_mut_ptr(), len) }
}

/// Writes a record as an espresso table: the packed answer, and the text at the start
/// of `out`.
pub fn write_table(record: &[u8], out: &mut [u8]) -> u64 {
    let len = out.len();
    unsafe { foreign::zap_write_table(record.as_ptr(), record.len(), out.as_mut_ptr(), len) }
}

/// Reads a record: the packed answer, and n, a, b put into the slice as `summary`
/// does.
#[cfg(feature = "probe")]
pub fn read(record: &[u8], numbers: &mut [u64]) -> u64 {
    let len = numbers.len();
    unsafe { foreign::probe_read(record.as_ptr(), record.len(), numbers.as_mut_ptr(), len) }
}

/// The bytes at fault: their number, and a copy at the start of `out` if it fits.
#[cfg(feature = "probe")]
pub fn fault(f: &[u8], g: &[u8], out: &mut [u8]) -> u64 {
    let len = out.len();
    unsafe { foreign::probe_fault(f.as_ptr(), f.len(), g.as_ptr(), g.len(), out.as_mut_ptr(), len) }
}

/// The first dead pair of f and g under the partial wiring w: 2 + s + 256·u +
/// 65,536·v, or 1 if no pair is dead, or 0 if f, g or w is not as it should be.
#[cfg(feature = "probe")]
pub fn dead(f: &[u8], g: &[u8], w: &[u8], q: u8) -> u64 {
    unsafe { foreign::probe_dead(f.as_ptr(), f.len(), g.as_ptr(), g.len(), w.as_ptr(), w.len(), q) }
}
