//! The five numbers of an answer.

pub const MATCH: u64 = 1;
pub const NO_MATCH: u64 = 2;
pub const ALL_ELSE: u64 = 3;

pub const OF_F: u64 = 1;
pub const OF_G: u64 = 2;
pub const OF_CLAIM: u64 = 3;
pub const OF_BUFFER: u64 = 4;

#[derive(Clone, Copy, Debug, PartialEq, Eq)]
pub struct Answer {
    pub code: u64,
    pub kind: u64,
    pub record: u64,
    pub place: u64,
    /// 0 but for codes 7 and 14.
    pub pattern: u64,
}

/// The largest place that the packed answer has room for. A larger one is told as this.
pub const LARGEST_PLACE: u64 = 4_294_967_295;

impl Answer {
    pub fn accepted(kind: u64, place: usize) -> Answer {
        Answer { code: 0, kind, record: 0, place: place as u64, pattern: 0 }
    }

    pub fn refused(code: u64, record: u64, place: usize) -> Answer {
        Answer { code, kind: 0, record, place: place as u64, pattern: 0 }
    }

    /// The same with the pattern that codes 7 and 14 carry.
    pub fn naming(self, pattern: usize) -> Answer {
        Answer { pattern: pattern as u64, ..self }
    }

    pub fn is_accepted(self) -> bool {
        self.code == 0
    }

    /// The one number that carries all five: 32 bits are for the place, the top eight for
    /// the pattern.
    pub fn packed(self) -> u64 {
        self.code
            + 256 * self.kind
            + 65_536 * self.record
            + 16_777_216 * self.place.min(LARGEST_PLACE)
            + (1 << 56) * self.pattern
    }

    /// The five numbers of a packed answer, to show them when answers differ.
    pub fn unpacked(number: u64) -> Answer {
        Answer {
            code: number % 256,
            kind: number / 256 % 256,
            record: number / 65_536 % 256,
            place: number / 16_777_216 % (1 << 32),
            pattern: number / (1 << 56),
        }
    }
}

#[cfg(test)]
mod tests {
    use super::*;

    #[test]
    fn packing_by_the_formula() {
        assert_eq!(Answer::accepted(ALL_ELSE, 11).packed(), 256 * 3 + 16_777_216 * 11);
        assert_eq!(Answer::refused(18, OF_BUFFER, 6).packed(), 18 + 65_536 * 4 + 16_777_216 * 6);
        let clash = Answer::refused(7, OF_G, 131).naming(255);
        assert_eq!(clash.packed(), 0xFF00_0000_8302_0007);
        let disagreement = Answer::refused(14, OF_CLAIM, 0).naming(1);
        assert_eq!(disagreement.packed(), 0x0100_0000_0003_000E);
    }

    #[test]
    fn no_place_runs_into_the_pattern() {
        for place in [(1 << 32) - 1, 1 << 32, (1 << 32) + 1, 1 << 40, usize::MAX] {
            let packed = Answer::refused(19, OF_F, place).packed();
            assert_eq!(packed, 0x00FF_FFFF_FF01_0013, "{place}");
        }
    }

    #[test]
    fn unpacking_undoes_packing() {
        let answers = [
            Answer::accepted(MATCH, 75_323_621),
            Answer::refused(7, OF_G, 131).naming(200),
            Answer::refused(19, OF_F, LARGEST_PLACE as usize),
        ];
        for answer in answers {
            assert_eq!(Answer::unpacked(answer.packed()), answer);
        }
    }
}
