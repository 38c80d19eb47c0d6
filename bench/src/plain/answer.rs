//! Answers and refusals.

pub const F: u8 = 1;
pub const G: u8 = 2;
pub const CLAIM: u8 = 3;
pub const BUFFER: u8 = 4;

pub const MATCH: u8 = 1;
pub const NO_MATCH: u8 = 2;
pub const OTHER: u8 = 3;

pub enum Answer {
    Accepted { kind: u8, place: usize },
    Refused(Refusal),
}

pub struct Refusal {
    pub code: u8,
    pub record: u8,
    pub place: usize,
    /// 0 but for codes 7 and 14.
    pub pattern: u8,
}

impl Refusal {
    /// One without a pattern.
    pub fn new(code: u8, record: u8, place: usize) -> Refusal {
        Refusal { code, record, place, pattern: 0 }
    }
}

impl Answer {
    pub fn packed(&self) -> u64 {
        let (code, kind, record, place, pattern) = match *self {
            Answer::Accepted { kind, place } => (0, kind, 0, place, 0),
            Answer::Refused(Refusal { code, record, place, pattern }) => {
                (code, 0, record, place, pattern)
            }
        };
        // A place that does not fit is told as the largest that does.
        let place = place.min(u32::MAX as usize) as u64;
        let start = u64::from(code) | u64::from(kind) << 8 | u64::from(record) << 16;
        start | place << 24 | u64::from(pattern) << 56
    }
}

/// The first bytes of the buffer.
pub fn room(out: &mut [u8], length: usize) -> Result<&mut [u8], Refusal> {
    out.get_mut(..length).ok_or(Refusal::new(18, BUFFER, length))
}
