//! Reading a function record.

use super::answer::{Answer, ALL_ELSE};
use super::pattern::{Clash, Cube, Function, INPUTS};

pub const MARK: [u8; 2] = [0x46, 0x4E];
pub const MOST_CUBES: usize = 64;

/// Where the cubes start in a record.
pub const CUBES: usize = 5;

/// The reader's answer, with n and the two counts; three zeros if refused.
#[derive(Clone, Copy, Debug, PartialEq, Eq)]
pub struct Reading {
    pub answer: Answer,
    pub n: u64,
    pub a: u64,
    pub b: u64,
}

/// Reads a record; `which` is the number that a refusal gives it, 1 for f, 2 for g.
pub fn read(record: &[u8], which: u64) -> Reading {
    match function(record, which) {
        Err(answer) => Reading { answer, n: 0, a: 0, b: 0 },
        Ok(f) => Reading {
            answer: Answer::accepted(ALL_ELSE, record.len()),
            n: f.n as u64,
            a: f.on.len() as u64,
            b: f.off.len() as u64,
        },
    }
}

/// The function that a record holds, or why it is refused.
pub fn function(record: &[u8], which: u64) -> Result<Function, Answer> {
    let refused = |code, place| Err(Answer::refused(code, which, place));

    // Header bytes one by one: a missing byte gives 1 before any test of it.
    for place in 0..CUBES {
        let Some(&byte) = record.get(place) else {
            return refused(1, record.len());
        };
        match place {
            0 if byte != MARK[0] => return refused(2, place),
            1 if byte != MARK[1] => return refused(2, place),
            2 if !(1..=8).contains(&byte) => return refused(3, place),
            3 | 4 if byte as usize > MOST_CUBES => return refused(4, place),
            _ => {}
        }
    }

    // Then the length.
    let n = record[2] as usize;
    let a = record[3] as usize;
    let b = record[4] as usize;
    let end = CUBES + 2 * (a + b);
    if record.len() < end {
        return refused(1, record.len());
    }
    if record.len() > end {
        return refused(8, end);
    }

    // Then the cubes in order, over both lists.
    let list = cubes(&record[CUBES..]);
    if let Some((code, index)) = first_bad_cube(&list, n) {
        return refused(code, CUBES + 2 * index);
    }

    // Last, whether the lists keep apart. On cubes stand first in the record,
    // so an on cube's index is also its index among all cubes.
    let f = Function { n, on: list[..a].to_vec(), off: list[a..].to_vec() };
    if let Some(Clash { at, pattern }) = f.first_clash() {
        return Err(Answer::refused(7, which, CUBES + 2 * at).naming(pattern));
    }
    Ok(f)
}

/// The cubes of a list of bytes, two bytes each, P then N.
pub fn cubes(bytes: &[u8]) -> Vec<Cube> {
    bytes.chunks_exact(2).map(|two| Cube { p: two[0], n: two[1] }).collect()
}

/// The first cube with a fault of its own, and its code: 5 is tested before 6.
pub fn first_bad_cube(list: &[Cube], n: usize) -> Option<(u64, usize)> {
    for (index, cube) in list.iter().enumerate() {
        if (n..INPUTS).any(|input| cube.names(input)) {
            return Some((5, index));
        }
        if (0..INPUTS).any(|input| cube.names_twice(input)) {
            return Some((6, index));
        }
    }
    None
}

/// The bytes of a list of cubes.
pub fn bytes(list: &[Cube]) -> Vec<u8> {
    list.iter().flat_map(|cube| [cube.p, cube.n]).collect()
}

/// The record of a function, whether or not it would be accepted.
pub fn record(f: &Function) -> Vec<u8> {
    let mut record = vec![MARK[0], MARK[1], f.n as u8, f.on.len() as u8, f.off.len() as u8];
    record.extend(bytes(&f.on));
    record.extend(bytes(&f.off));
    record
}

#[cfg(test)]
mod tests {
    use super::*;
    use crate::cases::READINGS;
    use crate::random::{any_function, Random};

    #[test]
    fn the_readings_that_01_names() {
        for case in READINGS {
            let reading = read(&case.record(), 1);
            assert_eq!(reading.answer, case.answer(1), "{}", case.name);
            assert_eq!([reading.n, reading.a, reading.b], case.numbers, "{}", case.name);
        }
    }

    #[test]
    fn a_refusal_carries_the_number_of_the_record() {
        for case in READINGS {
            assert_eq!(read(&case.record(), 2).answer, case.answer(2), "{}", case.name);
        }
    }

    #[test]
    fn a_record_is_read_back_with_the_same_cubes() {
        let mut random = Random::new(2);
        for _ in 0..300 {
            let f = any_function(&mut random);
            assert_eq!(function(&record(&f), 1), Ok(f));
        }
    }
}
