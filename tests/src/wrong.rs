//! What the tests of mistakes share: that each is noticed, wrong readings of two
//! records, and wrong patterns.

use crate::patterns::{OfClash, OF_CLASH};
use crate::records::Outcome;
use crate::reference::answer::{Answer, OF_F, OF_G};
use crate::reference::pattern::{Clash, Function};
use crate::reference::record::{cubes, function, CUBES};

/// Fails at a mistake that goes unnoticed: what is wrong, the wrong call, and the
/// sweep that has to notice.
pub fn all_noticed<C, T>(
    mistakes: impl IntoIterator<Item = (&'static str, C, fn(&mut T) -> Outcome)>,
    trial: impl Fn(C) -> T,
) {
    for (name, call, sweep) in mistakes {
        let difference = sweep(&mut trial(call)).err();
        assert!(difference.is_some(), "not noticed: {name}");
    }
}

/// What is told of f and g in the place of the right answer.
pub type Reading = fn(&[u8], &[u8], Answer) -> Answer;

pub const READINGS: [(&str, Reading); 4] = [
    ("9 before the faults of g", |f, g, right| match right.record {
        OF_G if g.len() > 2 && g[2] != f[2] => Answer::refused(9, OF_G, 2),
        _ => right,
    }),
    ("g before f", |_, g, right| match right.record {
        OF_F => function(g, OF_G).err().unwrap_or(right),
        _ => right,
    }),
    ("9 with record 1", |_, _, right| match right.code {
        9 => Answer { record: OF_F, ..right },
        _ => right,
    }),
    ("the faults of g with record 1", |_, _, right| match (right.record, right.code) {
        (OF_G, 1..=8) => Answer { record: OF_F, ..right },
        _ => right,
    }),
];

/// The function of a record whose length is right, whether or not it is accepted.
pub fn lists(record: &[u8]) -> Function {
    let list = cubes(&record[CUBES..]);
    let (on, off) = list.split_at(record[3] as usize);
    Function { n: record[2] as usize, on: on.to_vec(), off: off.to_vec() }
}

/// What is told with a wrong pattern where 7 is right: of a function whose on cubes start
/// at this place.
pub fn misnamed(
    wrong: OfClash,
    f: impl FnOnce() -> Function,
    start: usize,
    right: Answer,
) -> Answer {
    if right.code != 7 {
        return right;
    }
    let at = (right.place as usize - start) / 2;
    right.naming(wrong(&f(), Clash { at, pattern: right.pattern as usize }))
}

/// Readings of f and g with a wrong pattern.
pub fn misnaming() -> impl Iterator<Item = (&'static str, impl Fn(&[u8], &[u8], Answer) -> Answer)>
{
    let reading = |(name, wrong): (_, OfClash)| {
        let told = move |f: &[u8], g: &[u8], right: Answer| {
            let record = if right.record == OF_G { g } else { f };
            misnamed(wrong, || lists(record), CUBES, right)
        };
        (name, told)
    };
    OF_CLASH.into_iter().map(reading)
}
