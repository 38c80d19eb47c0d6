//! That the comparison can fail.
//!
//! Each mistake below is the reference with one thing wrong, put in the place of
//! one call. The sweep named beside it has to notice; the reference itself passes.

use zap_tests::calls::RecordCalls;
use zap_tests::patterns::OF_CLASH;
use zap_tests::records::sweeps::{self, Sweep};
use zap_tests::records::Trial;
use zap_tests::reference::answer::Answer;
use zap_tests::reference::fault::{fault, refusal, Owner};
use zap_tests::reference::pattern::{patterns, Cube, Function, INPUTS};
use zap_tests::reference::record::{cubes, first_bad_cube, function, read, CUBES, MARK};
use zap_tests::reference::summary::summary;
use zap_tests::reference::writer::write;
use zap_tests::wrong::{all_noticed, lists, misnamed};

/// The reference in the form of the calls.
const RIGHT: RecordCalls = RecordCalls {
    read: |record, numbers| {
        let reading = read(record, 1);
        put(numbers, [reading.n, reading.a, reading.b]);
        reading.answer.packed()
    },
    summary: |record, numbers| {
        let summary = summary(record);
        put(numbers, [summary.on, summary.off, summary.in_use]);
        summary.answer.packed()
    },
    write: |n, on, off, out| {
        let (answer, written) = write(n, on, off, out.len());
        let written = written.unwrap_or_default();
        out[..written.len()].copy_from_slice(&written);
        answer.packed()
    },
    fault: |f, g, out| copy(out, fault(f, g).of(f, g)),
};

fn put(numbers: &mut [u64], three: [u64; 3]) {
    if numbers.len() >= 3 {
        numbers[..3].copy_from_slice(&three);
    }
}

fn copy(out: &mut [u8], part: &[u8]) -> u64 {
    if part.len() <= out.len() {
        out[..part.len()].copy_from_slice(part);
    }
    part.len() as u64
}

#[test]
fn the_reference_passes() {
    let sweeps: [Sweep; 5] = [
        sweeps::small_functions,
        sweeps::pairs_and_slices,
        sweeps::small_lists,
        sweeps::clashes,
        sweeps::long_lists,
    ];
    for sweep in sweeps {
        assert_eq!(sweep(&mut Trial::new(RIGHT)), Ok(()));
    }
}

#[test]
fn every_mistake_is_noticed() {
    let groups = [
        reader_mistakes(),
        summary_mistakes(),
        writer_mistakes(),
        pattern_mistakes(),
        fault_mistakes(),
    ];
    all_noticed(groups.concat(), Trial::new);
}

type Mistake = (&'static str, RecordCalls, Sweep);

// ---- The reader ----

/// A reader that goes wrong only where it is told another answer than the right one.
fn tell(numbers: &mut [u64], record: &[u8], other: impl Fn(Answer) -> Answer) -> u64 {
    let reading = read(record, 1);
    put(numbers, [reading.n, reading.a, reading.b]);
    other(reading.answer).packed()
}

fn reader(read: fn(&[u8], &mut [u64]) -> u64) -> RecordCalls {
    RecordCalls { read, ..RIGHT }
}

/// The cube at a place of a record.
fn cube_at(record: &[u8], place: u64) -> Cube {
    let place = place as usize;
    Cube { p: record[place], n: record[place + 1] }
}

fn reader_mistakes() -> Vec<Mistake> {
    vec![
        (
            "6 before 5 in one cube",
            reader(|record, numbers| {
                tell(numbers, record, |right| {
                    let twice = |input| cube_at(record, right.place).names_twice(input);
                    if right.code == 5 && (0..INPUTS).any(twice) {
                        Answer { code: 6, ..right }
                    } else {
                        right
                    }
                })
            }),
            sweeps::small_functions,
        ),
        (
            "5 in any cube before 6 in any",
            reader(|record, numbers| {
                tell(numbers, record, |right| {
                    let n = record.get(2).map_or(0, |&n| n as usize);
                    let beyond = |cube: &Cube| (n..INPUTS).any(|input| cube.names(input));
                    match right.code {
                        6 => match cubes(&record[CUBES..]).iter().position(beyond) {
                            Some(at) => Answer::refused(5, 1, CUBES + 2 * at),
                            None => right,
                        },
                        _ => right,
                    }
                })
            }),
            sweeps::small_functions,
        ),
        (
            "64 refused",
            reader(|record, numbers| {
                tell(numbers, record, |right| match record.get(3) {
                    Some(64) if right.code == 0 => Answer::refused(4, 1, 3),
                    _ => right,
                })
            }),
            sweeps::damaged_full_records,
        ),
        (
            "65 off cubes accepted",
            reader(|record, numbers| {
                tell(numbers, record, |right| {
                    let fits = |a: u8| record.len() == CUBES + 2 * (a as usize + 65);
                    if right.code == 4 && record.get(4) == Some(&65) && fits(record[3]) {
                        Answer::accepted(3, record.len())
                    } else {
                        right
                    }
                })
            }),
            sweeps::spoiled_records,
        ),
        (
            "cubes before the length",
            reader(|record, numbers| {
                tell(numbers, record, |right| match right.code {
                    8 => match first_bad_cube(&lists(record).on, record[2] as usize) {
                        Some((code, at)) => Answer::refused(code, 1, CUBES + 2 * at),
                        None => right,
                    },
                    _ => right,
                })
            }),
            sweeps::marked_records,
        ),
        (
            "header tests wait for five bytes",
            reader(|record, numbers| {
                tell(numbers, record, |right| match record.len() {
                    length @ 0..=4 => Answer::refused(1, 1, length),
                    _ => right,
                })
            }),
            sweeps::short_records,
        ),
        (
            "the last clash",
            reader(|record, numbers| {
                tell(numbers, record, |right| match right.code {
                    7 => {
                        let f = lists(record);
                        let off =
                            |cube: &Cube| patterns(f.n).any(|at| cube.holds(at) && f.is_off(at));
                        let last = f.on.iter().rposition(off).expect("7 has a clash");
                        Answer::refused(7, 1, CUBES + 2 * last)
                    }
                    _ => right,
                })
            }),
            sweeps::small_functions,
        ),
        (
            "a refusal leaves the numbers",
            reader(|record, numbers| {
                let reading = read(record, 1);
                if reading.answer.is_accepted() {
                    put(numbers, [reading.n, reading.a, reading.b]);
                }
                reading.answer.packed()
            }),
            sweeps::small_functions,
        ),
        (
            "two numbers are put into two slots",
            reader(|record, numbers| {
                let reading = read(record, 1);
                for (slot, number) in numbers.iter_mut().zip([reading.n, reading.a, reading.b]) {
                    *slot = number;
                }
                reading.answer.packed()
            }),
            sweeps::pairs_and_slices,
        ),
    ]
}

// ---- The summary ----

/// A summary of the right answer with other counts.
fn counts(counts: fn(&[u8], &mut [u64]) -> u64) -> RecordCalls {
    RecordCalls { summary: counts, ..RIGHT }
}

fn recount(numbers: &mut [u64], record: &[u8], other: impl Fn(Function) -> [u64; 3]) -> u64 {
    let right = (RIGHT.summary)(record, numbers);
    if let Ok(f) = function(record, 1) {
        put(numbers, other(f));
    }
    right
}

fn summary_mistakes() -> Vec<Mistake> {
    fn size(cube: &Cube, n: usize) -> u64 {
        patterns(n).filter(|&pattern| cube.holds(pattern)).count() as u64
    }
    vec![
        (
            "cubes counted",
            counts(|record, numbers| {
                let in_use = summary(record).in_use;
                recount(numbers, record, |f| [f.on.len() as u64, f.off.len() as u64, in_use])
            }),
            sweeps::small_functions,
        ),
        (
            "a pattern counted in each cube",
            counts(|record, numbers| {
                let right = summary(record);
                recount(numbers, record, |f| {
                    [f.on.iter().map(|cube| size(cube, f.n)).sum(), right.off, right.in_use]
                })
            }),
            sweeps::small_functions,
        ),
        (
            "open patterns read as off",
            counts(|record, numbers| {
                let right = summary(record);
                recount(numbers, record, |f| [right.on, (1 << f.n) - right.on, right.in_use])
            }),
            sweeps::small_functions,
        ),
        (
            "all inputs in use",
            counts(|record, numbers| {
                let right = summary(record);
                recount(numbers, record, |f| [right.on, right.off, f.n as u64])
            }),
            sweeps::small_functions,
        ),
        (
            "inputs of the on list alone",
            counts(|record, numbers| {
                let right = summary(record);
                recount(numbers, record, |f| {
                    let named = |&input: &usize| f.on.iter().any(|cube| cube.names(input));
                    [right.on, right.off, (0..INPUTS).filter(named).count() as u64]
                })
            }),
            sweeps::small_functions,
        ),
    ]
}

// ---- The writer ----

fn writer(write: fn(u8, &[u8], &[u8], &mut [u8]) -> u64) -> RecordCalls {
    RecordCalls { write, ..RIGHT }
}

fn writer_mistakes() -> Vec<Mistake> {
    vec![
        (
            "the buffer left untouched",
            writer(|n, on, off, out| write(n, on, off, out.len()).0.packed()),
            sweeps::small_lists,
        ),
        (
            "a short buffer filled",
            writer(|n, on, off, out| {
                if let (_, Some(whole)) = write(n, on, off, usize::MAX) {
                    let length = whole.len().min(out.len());
                    out[..length].copy_from_slice(&whole[..length]);
                }
                write(n, on, off, out.len()).0.packed()
            }),
            sweeps::small_lists,
        ),
        (
            "the mark written before a refusal",
            writer(|n, on, off, out| {
                if out.len() >= 2 {
                    out[..2].copy_from_slice(&MARK);
                }
                (RIGHT.write)(n, on, off, out)
            }),
            sweeps::small_lists,
        ),
        (
            "the rest of the buffer cleared",
            writer(|n, on, off, out| {
                if write(n, on, off, out.len()).1.is_some() {
                    out.fill(0);
                }
                (RIGHT.write)(n, on, off, out)
            }),
            sweeps::small_lists,
        ),
        (
            "the exact room refused",
            writer(|n, on, off, out| match write(n, on, off, out.len()) {
                (_, Some(whole)) if whole.len() == out.len() => {
                    Answer::refused(18, 4, whole.len()).packed()
                }
                _ => (RIGHT.write)(n, on, off, out),
            }),
            sweeps::small_lists,
        ),
        (
            "4 before 19",
            writer(|n, on, off, out| {
                let right = Answer::unpacked((RIGHT.write)(n, on, off, out));
                match right.code {
                    19 if on.len() > 128 => Answer::refused(4, 1, 128).packed(),
                    _ => right.packed(),
                }
            }),
            sweeps::lists_of_records,
        ),
        (
            "65 off cubes accepted",
            writer(|n, on, off, out| {
                let right = Answer::unpacked((RIGHT.write)(n, on, off, out));
                match right.code {
                    4 if off.len() == 130 => Answer::accepted(3, 5 + on.len() + 130).packed(),
                    _ => right.packed(),
                }
            }),
            sweeps::lists_of_records,
        ),
        (
            "places of the off list counted from the on list",
            writer(|n, on, off, out| {
                let right = Answer::unpacked((RIGHT.write)(n, on, off, out));
                match (right.code, right.record) {
                    (5 | 6, 2) => Answer { place: right.place + on.len() as u64, ..right },
                    _ => right,
                }
                .packed()
            }),
            sweeps::small_lists,
        ),
        (
            "the lists changed places",
            writer(|n, on, off, out| (RIGHT.write)(n, off, on, out)),
            sweeps::small_lists,
        ),
    ]
}

// ---- The pattern ----

/// Reader, summary and writer with the wrong pattern of this number.
fn misnaming<const MISTAKE: usize>() -> [RecordCalls; 3] {
    let read: fn(&[u8], &mut [u64]) -> u64 = |record, numbers| {
        let (_, wrong) = OF_CLASH[MISTAKE];
        tell(numbers, record, |right| misnamed(wrong, || lists(record), CUBES, right))
    };
    let summary = |record: &[u8], numbers: &mut [u64]| {
        let (_, wrong) = OF_CLASH[MISTAKE];
        let right = Answer::unpacked((RIGHT.summary)(record, numbers));
        misnamed(wrong, || lists(record), CUBES, right).packed()
    };
    let write = |n: u8, on: &[u8], off: &[u8], out: &mut [u8]| {
        let (_, wrong) = OF_CLASH[MISTAKE];
        let right = Answer::unpacked((RIGHT.write)(n, on, off, out));
        let f = || Function { n: n as usize, on: cubes(on), off: cubes(off) };
        misnamed(wrong, f, 0, right).packed()
    };
    [reader(read), counts(summary), writer(write)]
}

/// The number with 40 bits for the place, and the pattern added at the top.
fn packed_by_40_bits(Answer { code, kind, record, place, pattern }: Answer) -> u64 {
    (code + (kind << 8) + (record << 16) + (place << 24)).wrapping_add(pattern << 56)
}

fn pattern_mistakes() -> Vec<Mistake> {
    let misnaming = [
        misnaming::<0>(),
        misnaming::<1>(),
        misnaming::<2>(),
        misnaming::<3>(),
        misnaming::<4>(),
        misnaming::<5>(),
        misnaming::<6>(),
    ];
    assert_eq!(misnaming.len(), OF_CLASH.len());
    let named = OF_CLASH.into_iter().zip(misnaming);
    let wrong = named
        .flat_map(|((name, _), calls)| calls.map(|call| (name, call, sweeps::clashes as Sweep)));
    let others: [Mistake; 9] = [
        (
            "a pattern left in an accepted reading",
            reader(|record, numbers| {
                tell(numbers, record, |right| match right.code {
                    0 => right.naming(1),
                    _ => right,
                })
            }),
            sweeps::small_functions,
        ),
        (
            "a pattern left in an accepted summary",
            counts(|record, numbers| {
                let right = Answer::unpacked((RIGHT.summary)(record, numbers));
                let pattern = if right.code == 0 { 255 } else { right.pattern };
                Answer { pattern, ..right }.packed()
            }),
            sweeps::small_functions,
        ),
        (
            "a pattern left in an accepted writing",
            writer(|n, on, off, out| {
                let right = Answer::unpacked((RIGHT.write)(n, on, off, out));
                let pattern = if right.code == 0 { 1 } else { right.pattern };
                Answer { pattern, ..right }.packed()
            }),
            sweeps::small_lists,
        ),
        (
            "a pattern told with 6",
            reader(|record, numbers| {
                tell(numbers, record, |right| match right.code {
                    6 => right.naming(cube_at(record, right.place).p as usize),
                    _ => right,
                })
            }),
            sweeps::small_functions,
        ),
        (
            "the pattern of 7 told as its place",
            reader(|record, numbers| {
                tell(numbers, record, |right| match right.code {
                    7 => Answer { place: right.pattern, pattern: 0, ..right },
                    _ => right,
                })
            }),
            sweeps::clashes,
        ),
        (
            "the pattern below the top eight bits",
            reader(|record, numbers| {
                let right = Answer::unpacked((RIGHT.read)(record, numbers));
                Answer { pattern: 0, ..right }.packed() + (right.pattern << 48)
            }),
            sweeps::clashes,
        ),
        (
            "the pattern without its top bit",
            reader(|record, numbers| {
                tell(numbers, record, |right| right.naming(right.pattern as usize % 128))
            }),
            sweeps::clashes,
        ),
        (
            "the top bits of a place run into the pattern",
            writer(|n, on, off, out| match write(n, on, off, out.len()) {
                (answer @ Answer { code: 19, .. }, _) => packed_by_40_bits(answer),
                _ => (RIGHT.write)(n, on, off, out),
            }),
            sweeps::long_lists,
        ),
        (
            "a place that is too large without its top bits",
            writer(|n, on, off, out| match write(n, on, off, out.len()) {
                (answer, None) => Answer { place: answer.place % (1 << 32), ..answer }.packed(),
                _ => (RIGHT.write)(n, on, off, out),
            }),
            sweeps::long_lists,
        ),
    ];
    wrong.chain(others).collect()
}

// ---- The bytes at fault ----

fn at_fault(fault: fn(&[u8], &[u8], &mut [u8]) -> u64) -> RecordCalls {
    RecordCalls { fault, ..RIGHT }
}

fn fault_mistakes() -> Vec<Mistake> {
    vec![
        (
            "f's bytes for g's refusal",
            at_fault(|f, g, out| {
                let part = fault(f, g);
                let end = part.start + part.len;
                match part.owner {
                    Owner::G if end <= f.len() => copy(out, &f[part.start..end]),
                    _ => copy(out, part.of(f, g)),
                }
            }),
            sweeps::damaged_records,
        ),
        (
            "g looked at first",
            at_fault(|f, g, out| {
                let part = fault(g, f);
                copy(out, part.of(g, f))
            }),
            sweeps::pairs_and_slices,
        ),
        (
            "g looked at where f has no cube at fault",
            at_fault(|f, g, out| match fault(f, g) {
                part if part.len == 0 => copy(out, fault(g, g).of(g, g)),
                part => copy(out, part.of(f, g)),
            }),
            sweeps::pairs_and_slices,
        ),
        (
            "nothing for 7",
            at_fault(|f, g, out| match refusal(f, g).code {
                7 => 0,
                _ => (RIGHT.fault)(f, g, out),
            }),
            sweeps::small_functions,
        ),
        (
            "P alone",
            at_fault(|f, g, out| {
                let part = fault(f, g);
                match part.len {
                    2 => copy(out, &part.of(f, g)[..1]),
                    _ => copy(out, part.of(f, g)),
                }
            }),
            sweeps::small_functions,
        ),
        (
            "half a cube copied where two bytes do not fit",
            at_fault(|f, g, out| {
                let part = fault(f, g).of(f, g);
                for (to, from) in out.iter_mut().zip(part) {
                    *to = *from;
                }
                part.len() as u64
            }),
            sweeps::pairs_and_slices,
        ),
    ]
}
