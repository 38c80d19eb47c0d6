//! Writing a function record.

use super::answer::{Answer, ALL_ELSE, OF_BUFFER};
use super::pattern::{Clash, Function};
use super::record::{cubes, first_bad_cube, record, MOST_CUBES};

/// In the writer's refusals, record 1 is the on list and 2 the off list.
const ON_LIST: u64 = 1;
const OFF_LIST: u64 = 2;

/// The answer, and the record if it is written. `room` is the buffer's length.
pub fn write(n: u8, on: &[u8], off: &[u8], room: usize) -> (Answer, Option<Vec<u8>>) {
    match check(n, on, off, room) {
        Err(answer) => (answer, None),
        Ok(bytes) => (Answer::accepted(ALL_ELSE, bytes.len()), Some(bytes)),
    }
}

/// The tests in the order of 01: each goes through both lists before the next.
fn check(n: u8, on: &[u8], off: &[u8], room: usize) -> Result<Vec<u8>, Answer> {
    let lists = [(ON_LIST, on), (OFF_LIST, off)];
    if !(1..=8).contains(&n) {
        return Err(Answer::refused(3, 0, 0));
    }
    for (which, list) in lists {
        if list.len() % 2 == 1 {
            return Err(Answer::refused(19, which, list.len()));
        }
    }
    for (which, list) in lists {
        if list.len() / 2 > MOST_CUBES {
            return Err(Answer::refused(4, which, 128));
        }
    }
    for (which, list) in lists {
        if let Some((code, index)) = first_bad_cube(&cubes(list), n as usize) {
            return Err(Answer::refused(code, which, 2 * index));
        }
    }
    let f = Function { n: n as usize, on: cubes(on), off: cubes(off) };
    if let Some(Clash { at, pattern }) = f.first_clash() {
        return Err(Answer::refused(7, ON_LIST, 2 * at).naming(pattern));
    }
    let bytes = record(&f);
    if bytes.len() > room {
        return Err(Answer::refused(18, OF_BUFFER, bytes.len()));
    }
    Ok(bytes)
}

#[cfg(test)]
mod tests {
    use super::*;
    use crate::cases::WRITINGS;
    use crate::random::{any_function, Random};
    use crate::reference::record::bytes;

    #[test]
    fn the_writings_that_follow_from_01() {
        for case in WRITINGS {
            let (answer, written) = write(case.n, &case.on(), &case.off(), case.room);
            assert_eq!(answer, case.answer(), "{}", case.name);
            assert_eq!(written.is_some(), case.code == 0, "{}", case.name);
            if case.written.is_some() {
                assert_eq!(written.as_deref(), case.written, "{}", case.name);
            }
        }
    }

    #[test]
    fn a_function_is_written_as_its_record() {
        let mut random = Random::new(4);
        for _ in 0..300 {
            let f = any_function(&mut random);
            let (answer, written) = write(f.n as u8, &bytes(&f.on), &bytes(&f.off), 261);
            assert_eq!(answer, Answer::accepted(3, record(&f).len()));
            assert_eq!(written, Some(record(&f)));
        }
    }
}
