//! The summary of a function record.

use super::answer::{Answer, ALL_ELSE, OF_F};
use super::pattern::{patterns, Function, INPUTS};
use super::record::function;

#[derive(Clone, Copy, Debug, PartialEq, Eq)]
pub struct Summary {
    pub answer: Answer,
    pub on: u64,
    pub off: u64,
    pub in_use: u64,
}

/// A refused record gives three zeros with its refusal, record 1.
pub fn summary(record: &[u8]) -> Summary {
    match function(record, OF_F) {
        Err(answer) => Summary { answer, on: 0, off: 0, in_use: 0 },
        Ok(f) => Summary {
            answer: Answer::accepted(ALL_ELSE, record.len()),
            on: patterns(f.n).filter(|&pattern| f.is_on(pattern)).count() as u64,
            off: patterns(f.n).filter(|&pattern| f.is_off(pattern)).count() as u64,
            in_use: in_use(&f),
        },
    }
}

/// The number of inputs that some cube of either list names.
fn in_use(f: &Function) -> u64 {
    (0..INPUTS).filter(|&input| f.cubes().any(|cube| cube.names(input))).count() as u64
}

#[cfg(test)]
mod tests {
    use super::*;
    use crate::cases::{READINGS, SUMMARIES};
    use crate::random::{any_function, Random};
    use crate::reference::record::record;

    #[test]
    fn the_summaries_that_01_names() {
        for case in SUMMARIES {
            let summary = summary(case.record);
            assert_eq!(summary.answer, Answer::accepted(3, case.record.len()), "{}", case.name);
            assert_eq!([summary.on, summary.off, summary.in_use], case.numbers, "{}", case.name);
        }
    }

    #[test]
    fn a_refused_record_gives_three_zeros() {
        for case in READINGS {
            let summary = summary(&case.record());
            assert_eq!(summary.answer, case.answer(1), "{}", case.name);
            if case.code != 0 {
                assert_eq!([summary.on, summary.off, summary.in_use], [0, 0, 0], "{}", case.name);
            }
        }
    }

    #[test]
    fn on_off_and_open_patterns_are_all_patterns() {
        let mut random = Random::new(3);
        for _ in 0..300 {
            let f = any_function(&mut random);
            let open = patterns(f.n).filter(|&pattern| f.is_open(pattern)).count() as u64;
            let summary = summary(&record(&f));
            assert_eq!(summary.on + summary.off + open, 1 << f.n, "{f:?}");
        }
    }
}
