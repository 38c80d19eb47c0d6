//! The two programs: what each prints for the bytes of its standard input.

use super::answer::Answer;
use super::checker::check;
use super::matcher::find;
use super::record::CUBES;

/// The match program lends so many bytes.
pub const LENT: usize = 4_096;

/// The check program takes a claim of so many bytes, and none that is longer.
pub const LONGEST_CHECKED: usize = 49_152;

/// An input, cut into f, g and what follows.
pub struct Parts<'a> {
    pub f: &'a [u8],
    pub g: &'a [u8],
    pub rest: &'a [u8],
}

impl Parts<'_> {
    pub fn of(input: &[u8]) -> Parts<'_> {
        let (f, after) = input.split_at(end(input));
        let (g, rest) = after.split_at(end(after));
        Parts { f, g, rest }
    }
}

/// Where the first record ends: by its counts, untested, or where the bytes end.
pub fn end(bytes: &[u8]) -> usize {
    match bytes {
        [_, _, _, a, b, ..] => (CUBES + 2 * (*a as usize + *b as usize)).min(bytes.len()),
        _ => bytes.len(),
    }
}

/// What a program has to say.
#[derive(Clone, Debug, PartialEq, Eq)]
pub enum Reply {
    /// The five numbers, and the claim where one is shown.
    Told(Answer, Option<Vec<u8>>),
    TooLong,
}

impl Reply {
    /// All that is printed.
    pub fn text(&self) -> String {
        match self {
            Reply::Told(answer, None) => format!("{}\n", numbers(*answer)),
            Reply::Told(answer, Some(claim)) => format!("{}\n{}\n", numbers(*answer), hex(claim)),
            Reply::TooLong => "too long\n".to_string(),
        }
    }
}

/// Code, kind, record, place and pattern in decimal with single blanks.
pub fn numbers(answer: Answer) -> String {
    let Answer { code, kind, record, place, pattern } = answer;
    format!("{code} {kind} {record} {place} {pattern}")
}

/// Capital hex with single blanks.
pub fn hex(bytes: &[u8]) -> String {
    let words: Vec<String> = bytes.iter().map(|byte| format!("{byte:02X}")).collect();
    words.join(" ")
}

/// The match program: what follows g is ignored.
pub fn match_pair(input: &[u8]) -> Reply {
    let Parts { f, g, .. } = Parts::of(input);
    let (answer, claim) = find(f, g, LENT);
    Reply::Told(answer, claim)
}

/// The check program: what follows g is the claim, and nothing is looked at if it is
/// too long.
pub fn check_claim(input: &[u8]) -> Reply {
    let Parts { f, g, rest } = Parts::of(input);
    if rest.len() > LONGEST_CHECKED {
        return Reply::TooLong;
    }
    Reply::Told(check(f, g, rest).answer, None)
}

#[cfg(test)]
mod tests {
    use super::*;
    use crate::cases::{CHECK_TEXTS, MATCH_TEXTS};

    #[test]
    fn the_texts_that_01_names() {
        for case in MATCH_TEXTS {
            assert_eq!(match_pair(&case.input()).text(), case.text, "{}", case.name);
        }
        for case in CHECK_TEXTS {
            assert_eq!(check_claim(&case.input()).text(), case.text, "{}", case.name);
        }
    }

    #[test]
    fn hex_is_capital_and_of_two_digits() {
        assert_eq!(hex(&[]), "");
        assert_eq!(hex(&[0x00, 0x0A, 0xF0, 0xFF]), "00 0A F0 FF");
    }

    #[test]
    fn an_input_is_cut_by_the_counts_as_they_stand() {
        let lengths = |input: &[u8]| {
            let Parts { f, g, rest } = Parts::of(input);
            [f.len(), g.len(), rest.len()]
        };
        assert_eq!(lengths(&[]), [0, 0, 0]);
        assert_eq!(lengths(&[9, 9, 9, 0]), [4, 0, 0]);
        assert_eq!(lengths(&[9, 9, 9, 0, 0, 9, 9, 9, 0]), [5, 4, 0]);
        assert_eq!(lengths(&[9, 9, 9, 1, 0, 9, 9, 9, 9, 9, 0, 1, 9]), [7, 6, 0]);
        assert_eq!(lengths(&[0xFF; 3_000]), [1_025, 1_025, 950]);
    }
}
