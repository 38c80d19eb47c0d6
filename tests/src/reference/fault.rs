//! The bytes at fault.

use super::answer::{Answer, OF_F, OF_G};
use super::record::read;

#[derive(Clone, Copy, Debug, PartialEq, Eq)]
pub enum Owner {
    F,
    G,
}

/// A part of one of the two records.
#[derive(Clone, Copy, Debug, PartialEq, Eq)]
pub struct Part {
    pub owner: Owner,
    pub start: usize,
    pub len: usize,
}

impl Part {
    /// The part's bytes, as they stand in the record that it is of.
    pub fn of<'a>(self, f: &'a [u8], g: &'a [u8]) -> &'a [u8] {
        let record = match self.owner {
            Owner::F => f,
            Owner::G => g,
        };
        &record[self.start..self.start + self.len]
    }
}

/// The part of f or g that the function reading finds at fault.
pub fn fault(f: &[u8], g: &[u8]) -> Part {
    part(refusal(f, g))
}

/// What reading f and then g reports; g is looked at only if f is accepted.
pub fn refusal(f: &[u8], g: &[u8]) -> Answer {
    let of_f = read(f, OF_F).answer;
    if of_f.is_accepted() {
        read(g, OF_G).answer
    } else {
        of_f
    }
}

/// The offending cube's two bytes, or else the empty part at the start of f.
pub fn part(refusal: Answer) -> Part {
    let owner = if refusal.record == OF_G { Owner::G } else { Owner::F };
    match refusal.code {
        5..=7 => Part { owner, start: refusal.place as usize, len: 2 },
        _ => Part { owner: Owner::F, start: 0, len: 0 },
    }
}

#[cfg(test)]
mod tests {
    use super::*;
    use crate::cases::FAULTS;

    #[test]
    fn the_faults_that_follow_from_01() {
        for case in FAULTS {
            assert_eq!(fault(case.f, case.g), case.part, "{}", case.name);
            assert_eq!(case.part.of(case.f, case.g), case.bytes, "{}", case.name);
        }
    }
}
