//! The small functions and cases that 01 names, with the numbers it gives.
//!
//! What a comment marks "by hand" is worked out from a rule of 01 that it names
//! no case for. So is the pattern of each code 7 and 14: by writing out which patterns
//! the cubes hold. Nothing here was copied from an output.

use crate::reference::answer::Answer;
use crate::reference::fault::{Owner, Part};

pub const CONJ: &[u8] = &[0x46, 0x4E, 0x02, 0x01, 0x02, 0x03, 0x00, 0x00, 0x01, 0x00, 0x02];
pub const DISJ: &[u8] = &[0x46, 0x4E, 0x02, 0x02, 0x01, 0x01, 0x00, 0x02, 0x00, 0x00, 0x03];
pub const ODD: &[u8] =
    &[0x46, 0x4E, 0x02, 0x02, 0x02, 0x01, 0x02, 0x02, 0x01, 0x03, 0x00, 0x00, 0x03];
pub const CONST: &[u8] = &[0x46, 0x4E, 0x01, 0x01, 0x00, 0x00, 0x00];
pub const WIRE: &[u8] = &[0x46, 0x4E, 0x01, 0x01, 0x01, 0x01, 0x00, 0x00, 0x01];
pub const OPEN: &[u8] = &[0x46, 0x4E, 0x01, 0x00, 0x00];

pub const NAMED: [&[u8]; 6] = [CONJ, DISJ, ODD, CONST, WIRE, OPEN];

/// Some bytes, so many times over: it spares writing 64 cubes out.
type Run = (&'static [u8], usize);

fn bytes(runs: &[Run]) -> Vec<u8> {
    runs.iter().flat_map(|(bytes, times)| bytes.repeat(*times)).collect()
}

/// A reading: its code (0 if accepted), its place and pattern, and n, a, b.
pub struct ReadingCase {
    pub name: &'static str,
    pub runs: &'static [Run],
    pub code: u64,
    pub place: usize,
    pub pattern: usize,
    pub numbers: [u64; 3],
}

impl ReadingCase {
    pub fn record(&self) -> Vec<u8> {
        bytes(self.runs)
    }

    /// The answer where a refusal gives the record this number.
    pub fn answer(&self, which: u64) -> Answer {
        match self.code {
            0 => Answer::accepted(3, self.place),
            code => Answer::refused(code, which, self.place).naming(self.pattern),
        }
    }
}

const fn accepted(
    name: &'static str,
    runs: &'static [Run],
    place: usize,
    numbers: [u64; 3],
) -> ReadingCase {
    ReadingCase { name, runs, code: 0, place, pattern: 0, numbers }
}

const fn refused(name: &'static str, runs: &'static [Run], code: u64, place: usize) -> ReadingCase {
    ReadingCase { name, runs, code, place, pattern: 0, numbers: [0, 0, 0] }
}

/// The on cube at this place shares this pattern with an off cube, and none that is
/// smaller.
const fn clashes(
    name: &'static str,
    runs: &'static [Run],
    place: usize,
    pattern: usize,
) -> ReadingCase {
    ReadingCase { name, runs, code: 7, place, pattern, numbers: [0, 0, 0] }
}

pub const READINGS: &[ReadingCase] = &[
    accepted("Conj", &[(CONJ, 1)], 11, [2, 1, 2]),
    accepted("Disj", &[(DISJ, 1)], 11, [2, 2, 1]),
    accepted("Odd", &[(ODD, 1)], 13, [2, 2, 2]),
    accepted("Const", &[(CONST, 1)], 7, [1, 1, 0]),
    accepted("Wire", &[(WIRE, 1)], 9, [1, 1, 1]),
    accepted("Open", &[(OPEN, 1)], 5, [1, 0, 0]),
    // "A count of 64 passes."
    accepted("64 on cubes", &[(&[0x46, 0x4E, 1, 64, 0], 1), (&[1, 0], 64)], 133, [1, 64, 0]),
    accepted("64 off cubes", &[(&[0x46, 0x4E, 1, 0, 64], 1), (&[1, 0], 64)], 133, [1, 0, 64]),
    accepted(
        "64 on cubes and 64 off cubes",
        &[(&[0x46, 0x4E, 8, 64, 64], 1), (&[0x80, 0], 64), (&[0, 0x80], 64)],
        261,
        [8, 64, 64],
    ),
    refused("empty record", &[], 1, 0),
    refused("46 4E 00", &[(&[0x46, 0x4E, 0x00], 1)], 3, 2),
    refused("46 4E 08 41", &[(&[0x46, 0x4E, 0x08, 0x41], 1)], 4, 3),
    // The readings of the order, one for each step of it; by hand.
    refused("the mark's first byte alone", &[(&[0x46], 1)], 1, 1),
    refused("a wrong first byte", &[(&[0x47], 1)], 2, 0),
    refused("a wrong second byte", &[(&[0x46, 0x46], 1)], 2, 1),
    refused("the mark alone", &[(&[0x46, 0x4E], 1)], 1, 2),
    refused("n is 9", &[(&[0x46, 0x4E, 9], 1)], 3, 2),
    refused("no counts", &[(&[0x46, 0x4E, 8], 1)], 1, 3),
    refused("no off count, 64 on", &[(&[0x46, 0x4E, 8, 64], 1)], 1, 4),
    refused("65 off cubes", &[(&[0x46, 0x4E, 8, 64, 65], 1)], 4, 4),
    refused("65 on cubes, all there", &[(&[0x46, 0x4E, 1, 65, 0], 1), (&[1, 0], 65)], 4, 3),
    refused("no cube where one is due", &[(&[0x46, 0x4E, 1, 1, 0], 1)], 1, 5),
    refused("half a cube, and bad", &[(&[0x46, 0x4E, 1, 1, 0, 0xFF], 1)], 1, 6),
    refused("a bad cube, then one byte more", &[(&[0x46, 0x4E, 1, 1, 0, 2, 0, 0], 1)], 8, 7),
    refused("P names input n", &[(&[0x46, 0x4E, 1, 1, 0, 2, 0], 1)], 5, 5),
    refused("N names input n", &[(&[0x46, 0x4E, 1, 1, 0, 0, 2], 1)], 5, 5),
    refused("input n in both masks", &[(&[0x46, 0x4E, 1, 1, 0, 2, 2], 1)], 5, 5),
    refused("input 0 in both masks", &[(&[0x46, 0x4E, 1, 0, 1, 1, 1], 1)], 6, 5),
    refused("6 in cube 0, 5 in cube 1", &[(&[0x46, 0x4E, 1, 1, 1, 1, 1, 2, 0], 1)], 6, 5),
    refused("5 in cube 1, 6 in cube 2", &[(&[0x46, 0x4E, 1, 2, 1, 1, 0, 2, 0, 1, 1], 1)], 5, 7),
    clashes("on and off everywhere", &[(&[0x46, 0x4E, 1, 1, 1, 0, 0, 0, 0], 1)], 5, 0),
    // On at 3 and at 1, off at 0 and at 1, 3.
    clashes(
        "on cube 0 meets the last off cube",
        &[(&[0x46, 0x4E, 2, 2, 2, 3, 0, 1, 2, 0, 3, 1, 0], 1)],
        5,
        3,
    ),
    // On at 3 and at 1, 3, off at 0, 2 and at 1.
    clashes(
        "only on cube 1 meets an off cube",
        &[(&[0x46, 0x4E, 2, 2, 2, 3, 0, 1, 0, 0, 1, 1, 2], 1)],
        7,
        1,
    ),
    // On at 2, 3, off at 3 and at 2.
    clashes(
        "the second off cube's pattern is smaller",
        &[(&[0x46, 0x4E, 2, 1, 2, 2, 0, 3, 0, 2, 1], 1)],
        5,
        2,
    ),
    // On at 2, 3 and everywhere, off at 1, 3.
    clashes(
        "a later on cube's pattern is smaller",
        &[(&[0x46, 0x4E, 2, 2, 1, 2, 0, 0, 0, 1, 0], 1)],
        5,
        3,
    ),
    // Inputs 7 and 6 are 1, inputs 0 and 1 are 0: 192 and those with some of inputs 2
    // to 5 more.
    clashes(
        "a pattern that neither cube asks for alone",
        &[(&[0x46, 0x4E, 8, 1, 1, 0x80, 0x01, 0x40, 0x02], 1)],
        5,
        192,
    ),
    clashes("the last pattern", &[(&[0x46, 0x4E, 8, 1, 1, 0xFF, 0, 0, 0], 1)], 5, 255),
    refused("7 waits for a bad off cube", &[(&[0x46, 0x4E, 1, 1, 2, 0, 0, 0, 0, 1, 1], 1)], 6, 9),
];

/// A summary of an accepted record: on patterns, off patterns, inputs in use.
pub struct SummaryCase {
    pub name: &'static str,
    pub record: &'static [u8],
    pub numbers: [u64; 3],
}

pub const SUMMARIES: &[SummaryCase] = &[
    SummaryCase { name: "Conj", record: CONJ, numbers: [1, 3, 2] },
    SummaryCase { name: "Odd", record: ODD, numbers: [2, 2, 2] },
    SummaryCase { name: "Open", record: OPEN, numbers: [0, 0, 0] },
    // By hand. Both on cubes of Disj hold pattern 3, which counts once.
    SummaryCase { name: "Disj", record: DISJ, numbers: [3, 1, 2] },
    SummaryCase { name: "Const", record: CONST, numbers: [2, 0, 0] },
    SummaryCase { name: "Wire", record: WIRE, numbers: [1, 1, 1] },
    SummaryCase {
        name: "one cube of 128 patterns, one of 64, inputs 7 and 0 in use",
        record: &[0x46, 0x4E, 8, 1, 1, 0x80, 0, 0x01, 0x80],
        numbers: [128, 64, 2],
    },
];

/// A writing. `written` is given where 01 has the record.
pub struct WritingCase {
    pub name: &'static str,
    pub n: u8,
    pub on: Run,
    pub off: Run,
    pub room: usize,
    pub code: u64,
    pub record: u64,
    pub place: usize,
    pub pattern: usize,
    pub written: Option<&'static [u8]>,
}

impl WritingCase {
    pub fn on(&self) -> Vec<u8> {
        bytes(&[self.on])
    }

    pub fn off(&self) -> Vec<u8> {
        bytes(&[self.off])
    }

    pub fn answer(&self) -> Answer {
        match self.code {
            0 => Answer::accepted(3, self.place),
            code => Answer::refused(code, self.record, self.place).naming(self.pattern),
        }
    }
}

const NONE: Run = (&[], 0);

const fn written(
    name: &'static str,
    n: u8,
    on: Run,
    off: Run,
    room: usize,
    written: &'static [u8],
) -> WritingCase {
    let (code, record, place, pattern) = (0, 0, written.len(), 0);
    WritingCase { name, n, on, off, room, code, record, place, pattern, written: Some(written) }
}

const fn unwritten(
    name: &'static str,
    n: u8,
    on: Run,
    off: Run,
    room: usize,
    [code, record, place]: [u64; 3],
) -> WritingCase {
    let (place, pattern) = (place as usize, 0);
    WritingCase { name, n, on, off, room, code, record, place, pattern, written: None }
}

/// The on cube at this place shares this pattern with an off cube, and none that is
/// smaller. There is no room either.
const fn meets(
    name: &'static str,
    n: u8,
    on: Run,
    off: Run,
    [place, pattern]: [usize; 2],
) -> WritingCase {
    let (room, code, record) = (0, 7, 1);
    WritingCase { name, n, on, off, room, code, record, place, pattern, written: None }
}

/// By hand, but for the six records: 01 names no case of the writer.
pub const WRITINGS: &[WritingCase] = &[
    written("Conj", 2, (&[3, 0], 1), (&[0, 1, 0, 2], 1), 11, CONJ),
    written("Disj", 2, (&[1, 0, 2, 0], 1), (&[0, 3], 1), 12, DISJ),
    written("Odd", 2, (&[1, 2, 2, 1], 1), (&[3, 0, 0, 3], 1), 13, ODD),
    written("Const", 1, (&[0, 0], 1), NONE, 7, CONST),
    written("Wire", 1, (&[1, 0], 1), (&[0, 1], 1), 300, WIRE),
    written("Open", 1, NONE, NONE, 5, OPEN),
    WritingCase {
        name: "64 and 64 cubes in the exact room",
        n: 1,
        on: (&[1, 0], 64),
        off: (&[0, 1], 64),
        room: 261,
        code: 0,
        record: 0,
        place: 261,
        pattern: 0,
        written: None,
    },
    unwritten("Conj, one byte short", 2, (&[3, 0], 1), (&[0, 1, 0, 2], 1), 10, [18, 4, 11]),
    unwritten("Open, no room", 1, NONE, NONE, 0, [18, 4, 5]),
    unwritten("n is 0, all else wrong", 0, (&[1], 131), (&[1], 1), 0, [3, 0, 0]),
    unwritten("n is 9", 9, NONE, NONE, 5, [3, 0, 0]),
    unwritten("n is 255", 255, NONE, NONE, 5, [3, 0, 0]),
    unwritten("odd on list, odd off list", 1, (&[2], 1), (&[2], 3), 0, [19, 1, 1]),
    unwritten("odd off list, 65 on cubes", 1, (&[2, 0], 65), (&[2], 3), 0, [19, 2, 3]),
    unwritten("odd and too many", 1, (&[1], 131), NONE, 0, [19, 1, 131]),
    unwritten("65 on cubes, 65 off cubes", 1, (&[2, 0], 65), (&[2, 0], 65), 0, [4, 1, 128]),
    unwritten("65 off cubes, a bad on cube", 1, (&[2, 0], 1), (&[0, 1], 65), 0, [4, 2, 128]),
    unwritten("500 off cubes", 1, NONE, (&[0, 1], 500), 2000, [4, 2, 128]),
    unwritten("5 in the on list", 1, (&[1, 0, 2, 0], 1), (&[1, 1], 1), 0, [5, 1, 2]),
    unwritten("6 in the on list, 5 later", 1, (&[1, 1, 2, 0], 1), NONE, 0, [6, 1, 0]),
    unwritten("5 and 6 in one cube", 1, NONE, (&[1, 0, 3, 3], 1), 0, [5, 2, 2]),
    unwritten("6 in the off list", 2, (&[1, 0], 1), (&[1, 0, 2, 2], 1), 0, [6, 2, 2]),
    // On at 3 and at 1, 3, off at 0, 2 and at 1.
    meets("a shared pattern", 2, (&[3, 0, 1, 0], 1), (&[0, 1, 1, 2], 1), [2, 1]),
    // On at 2, 3, off at 3 and at 2.
    meets("the second off cube's is smaller", 2, (&[2, 0], 1), (&[3, 0, 2, 1], 1), [0, 2]),
    // On at 2, 3 and everywhere, off at 1, 3.
    meets("a later on cube's is smaller", 2, (&[2, 0, 0, 0], 1), (&[1, 0], 1), [0, 3]),
    meets("64 and 64 cubes, at 255", 8, (&[0xFF, 0], 64), (&[0x80, 0], 64), [0, 255]),
];

/// The bytes at fault of two records.
pub struct FaultCase {
    pub name: &'static str,
    pub f: &'static [u8],
    pub g: &'static [u8],
    pub part: Part,
    pub bytes: &'static [u8],
}

const EMPTY: Part = Part { owner: Owner::F, start: 0, len: 0 };

const fn at(owner: Owner, start: usize) -> Part {
    Part { owner, start, len: 2 }
}

/// Cube 1 names input n; cube 0 has input 2 twice; on cube 1 is also off.
const FIVE: &[u8] = &[0x46, 0x4E, 1, 1, 1, 1, 0, 0, 2];
const SIX: &[u8] = &[0x46, 0x4E, 3, 1, 0, 5, 4];
const SEVEN: &[u8] = &[0x46, 0x4E, 2, 2, 1, 0, 3, 3, 0, 2, 0];

/// By hand: 01 names no case of it.
pub const FAULTS: &[FaultCase] = &[
    FaultCase { name: "5 in f", f: FIVE, g: CONJ, part: at(Owner::F, 7), bytes: &[0, 2] },
    FaultCase { name: "6 in f", f: SIX, g: CONJ, part: at(Owner::F, 5), bytes: &[5, 4] },
    FaultCase { name: "7 in f", f: SEVEN, g: CONJ, part: at(Owner::F, 7), bytes: &[3, 0] },
    FaultCase { name: "5 in g", f: CONJ, g: FIVE, part: at(Owner::G, 7), bytes: &[0, 2] },
    FaultCase { name: "6 in g", f: CONJ, g: SIX, part: at(Owner::G, 5), bytes: &[5, 4] },
    FaultCase { name: "7 in g", f: CONJ, g: SEVEN, part: at(Owner::G, 7), bytes: &[3, 0] },
    FaultCase { name: "both", f: SEVEN, g: SIX, part: at(Owner::F, 7), bytes: &[3, 0] },
    FaultCase { name: "none", f: CONJ, g: DISJ, part: EMPTY, bytes: &[] },
    // "Wire to Conj: 9", which is no cube's fault.
    FaultCase { name: "n differs", f: WIRE, g: CONJ, part: EMPTY, bytes: &[] },
    FaultCase { name: "f empty, g bad", f: &[], g: SIX, part: EMPTY, bytes: &[] },
    FaultCase { name: "f good, g empty", f: CONJ, g: &[], part: EMPTY, bytes: &[] },
    FaultCase { name: "f of wrong mark, g bad", f: &[0x47], g: SIX, part: EMPTY, bytes: &[] },
];

/// The first dead pair of two functions under a partial wiring.
pub struct DeadCase {
    pub name: &'static str,
    pub f: &'static [Run],
    pub g: &'static [Run],
    pub w: &'static [u8],
    pub q: u8,
    pub answer: u64,
}

impl DeadCase {
    pub fn f(&self) -> Vec<u8> {
        bytes(self.f)
    }

    pub fn g(&self) -> Vec<u8> {
        bytes(self.g)
    }
}

const fn dead(
    name: &'static str,
    [f, g]: [&'static [Run]; 2],
    w: &'static [u8],
    q: u8,
    answer: u64,
) -> DeadCase {
    DeadCase { name, f, g, w, q, answer }
}

const REFUSED: u64 = 0;
const NOTHING: u64 = 1;

/// The pair that the bytes s, u, v of a closing name.
const fn pair(s: u64, u: u64, v: u64) -> u64 {
    2 + s + 256 * u + 65_536 * v
}

const CONJ_DISJ: [&[Run]; 2] = [&[(CONJ, 1)], &[(DISJ, 1)]];
const CONJ_ODD: [&[Run]; 2] = [&[(CONJ, 1)], &[(ODD, 1)]];
const CONST_WIRE: [&[Run]; 2] = [&[(CONST, 1)], &[(WIRE, 1)]];
const OPEN_WIRE: [&[Run]; 2] = [&[(OPEN, 1)], &[(WIRE, 1)]];
const WIRE_WIRE: [&[Run]; 2] = [&[(WIRE, 1)], &[(WIRE, 1)]];
const WIRE_CONJ: [&[Run]; 2] = [&[(WIRE, 1)], &[(CONJ, 1)]];

/// With input 0 placed straight, it separates all pairs but those with the last
/// cube of g; of these only the last cube of f has no literal left for it.
const LAST_PAIR: [&[Run]; 2] = [
    &[(&[0x46, 0x4E, 2, 64, 0], 1), (&[3, 0], 63), (&[1, 0], 1)],
    &[(&[0x46, 0x4E, 2, 0, 64], 1), (&[0, 3], 63), (&[0, 2], 1)],
];

pub const DEAD: &[DeadCase] = &[
    // The nodes of the refusal that 01 prints for Conj to Odd, both trees.
    dead("Conj to Odd, q 0, root", CONJ_ODD, &[], 0, NOTHING),
    dead("Conj to Odd, q 0, child 0", CONJ_ODD, &[0x00], 0, pair(1, 0, 1)),
    dead("Conj to Odd, q 0, child 1", CONJ_ODD, &[0x10], 0, pair(1, 0, 0)),
    dead("Conj to Odd, q 0, child 2", CONJ_ODD, &[0x01], 0, pair(1, 0, 0)),
    dead("Conj to Odd, q 0, child 3", CONJ_ODD, &[0x11], 0, pair(1, 0, 1)),
    dead("Conj to Odd, q 1, root", CONJ_ODD, &[], 1, NOTHING),
    dead("Conj to Odd, q 1, child 0", CONJ_ODD, &[0x00], 1, pair(1, 0, 1)),
    dead("Conj to Odd, q 1, child 1", CONJ_ODD, &[0x10], 1, pair(1, 0, 0)),
    dead("Conj to Odd, q 1, child 2", CONJ_ODD, &[0x01], 1, pair(1, 0, 1)),
    dead("Conj to Odd, q 1, child 3", CONJ_ODD, &[0x11], 1, pair(1, 0, 0)),
    dead("Const to Wire, q 0", CONST_WIRE, &[], 0, pair(0, 0, 0)),
    dead("Const to Wire, q 1", CONST_WIRE, &[], 1, pair(0, 0, 0)),
    // Wirings that agree, as 01 says, and one that does not.
    dead("Conj to Disj, its match", CONJ_DISJ, &[0x10, 0x11], 1, NOTHING),
    dead("Conj to Disj, the match's start", CONJ_DISJ, &[0x10], 1, NOTHING),
    dead("Open to Wire", OPEN_WIRE, &[0x00], 0, NOTHING),
    dead("Open to Wire, inverted", OPEN_WIRE, &[0x10], 0, NOTHING),
    dead("Wire to Wire, inverted, q 0", WIRE_WIRE, &[0x10], 0, pair(0, 0, 0)),
    dead("Wire to Wire, inverted, q 1", WIRE_WIRE, &[0x10], 1, NOTHING),
    dead("Wire to Conj", WIRE_CONJ, &[], 0, REFUSED),
    dead("Conj to Disj, an input of g twice", CONJ_DISJ, &[0x10, 0x10], 1, REFUSED),
    // By hand.
    dead("an input of g twice, plain and inverted", CONJ_DISJ, &[0x00, 0x10], 1, REFUSED),
    dead("input n of g", CONJ_DISJ, &[0x02], 0, REFUSED),
    dead("input n of g, inverted", CONJ_DISJ, &[0x12], 0, REFUSED),
    dead("three choices for two inputs", CONJ_DISJ, &[0x00, 0x01, 0x02], 0, REFUSED),
    dead("Conj to Disj, straight", CONJ_DISJ, &[0x00, 0x01], 0, pair(1, 0, 1)),
    dead("q 2 counts as 1", CONJ_ODD, &[0x01], 2, pair(1, 0, 1)),
    dead("q 255 counts as 1", CONJ_ODD, &[0x01], 255, pair(1, 0, 1)),
    dead("cube 63 and cube 63", LAST_PAIR, &[0x00], 0, pair(0, 63, 63)),
    dead("no pair under q 1", LAST_PAIR, &[0x00], 1, NOTHING),
];

/// The checker's answer to a claim about two functions.
pub struct ClaimCase {
    pub name: &'static str,
    pub f: &'static [u8],
    pub g: &'static [u8],
    pub claim: &'static [u8],
    /// Code, kind, record, place, pattern.
    pub numbers: [u64; 5],
}

impl ClaimCase {
    pub fn answer(&self) -> Answer {
        answer(self.numbers)
    }
}

fn answer([code, kind, record, place, pattern]: [u64; 5]) -> Answer {
    Answer { code, kind, record, place, pattern }
}

/// f and g.
type Records = [&'static [u8]; 2];

/// Accepted as a claim of this kind, all of it.
const fn holds(name: &'static str, [f, g]: Records, claim: &'static [u8], kind: u64) -> ClaimCase {
    ClaimCase { name, f, g, claim, numbers: [0, kind, 0, claim.len() as u64, 0] }
}

/// The claim is refused with this code at this place.
const fn fails(
    name: &'static str,
    [f, g]: Records,
    claim: &'static [u8],
    [code, place]: [u64; 2],
) -> ClaimCase {
    ClaimCase { name, f, g, claim, numbers: [code, 0, 3, place, 0] }
}

/// The functions disagree at this pattern of g, and at none that is smaller.
const fn disagrees(
    name: &'static str,
    [f, g]: Records,
    claim: &'static [u8],
    pattern: u64,
) -> ClaimCase {
    ClaimCase { name, f, g, claim, numbers: [14, 0, 3, 0, pattern] }
}

/// One of the records is refused, whatever the claim: code, record, place, pattern.
const fn unread(
    name: &'static str,
    [f, g]: Records,
    claim: &'static [u8],
    [code, record, place, pattern]: [u64; 4],
) -> ClaimCase {
    ClaimCase { name, f, g, claim, numbers: [code, 0, record, place, pattern] }
}

/// The refusal that 01 prints for Conj to Odd.
pub const CONJ_ODD_CLAIM: &[u8] = &[
    0x52, 0x46, 0x02, 0xFF, 0x01, 0x00, 0x01, 0x01, 0x00, 0x00, 0x01, 0x00, 0x00, 0x01, 0x00, 0x01,
    0xFF, 0x01, 0x00, 0x01, 0x01, 0x00, 0x00, 0x01, 0x00, 0x01, 0x01, 0x00, 0x00,
];

/// The same with the first child of the first tree split once more: its pair
/// stays dead under both choices for input 1.
const CONJ_ODD_DEEPER: &[u8] = &[
    0x52, 0x46, 0x02, 0xFF, 0xFF, 0x01, 0x00, 0x01, 0x01, 0x00, 0x01, 0x01, 0x00, 0x00, 0x01, 0x00,
    0x00, 0x01, 0x00, 0x01, 0xFF, 0x01, 0x00, 0x01, 0x01, 0x00, 0x00, 0x01, 0x00, 0x01, 0x01, 0x00,
    0x00,
];

pub const CLAIMS: &[ClaimCase] = &[
    holds("Conj to Disj", [CONJ, DISJ], &[0x4D, 0x54, 2, 1, 0x10, 0x11], 1),
    holds("Conj to Odd", [CONJ, ODD], CONJ_ODD_CLAIM, 2),
    holds("Const to Wire", [CONST, WIRE], &[0x52, 0x46, 1, 0, 0, 0, 0, 0, 0], 2),
    holds("Open to Wire", [OPEN, WIRE], &[0x4D, 0x54, 1, 0, 0x00], 1),
    holds("Open to Wire, inverted", [OPEN, WIRE], &[0x4D, 0x54, 1, 0, 0x10], 1),
    // At 0, f is read at 1 and on, and g is off.
    disagrees("Wire to Wire, inverted, q 0", [WIRE, WIRE], &[0x4D, 0x54, 1, 0, 0x10], 0),
    holds("Wire to Wire, inverted, q 1", [WIRE, WIRE], &[0x4D, 0x54, 1, 1, 0x10], 1),
    unread("Wire to Conj", [WIRE, CONJ], &[0x4D, 0x54, 1, 0, 0x00], [9, 2, 2, 0]),
    fails("an input of g twice", [CONJ, DISJ], &[0x4D, 0x54, 2, 1, 0x10, 0x10], [13, 5]),
    fails("a split cut short", [CONST, WIRE], &[0x52, 0x46, 1, 0xFF], [1, 4]),
    fails("v beyond its list", [CONST, WIRE], &[0x52, 0x46, 1, 0, 0, 1], [15, 5]),
    // By hand, from the order of the tests.
    fails("an empty claim", [CONJ, DISJ], &[], [1, 0]),
    fails("a wrong first byte, alone", [CONJ, DISJ], &[0x46], [2, 0]),
    fails("half a mark", [CONJ, DISJ], &[0x4D], [1, 1]),
    fails("half the other mark", [CONJ, DISJ], &[0x52], [1, 1]),
    fails("the marks mixed", [CONJ, DISJ], &[0x4D, 0x46], [2, 1]),
    fails("the marks mixed otherwise", [CONJ, DISJ], &[0x52, 0x54], [2, 1]),
    fails("no n", [CONJ, DISJ], &[0x4D, 0x54], [1, 2]),
    fails("no n in a refusal", [CONJ, DISJ], &[0x52, 0x46], [1, 2]),
    fails("another n, and cut", [CONJ, DISJ], &[0x4D, 0x54, 3], [10, 2]),
    fails("another n in a refusal", [CONJ, DISJ], &[0x52, 0x46, 1], [10, 2]),
    fails("a match claim of n alone", [CONJ, DISJ], &[0x4D, 0x54, 2], [1, 3]),
    fails("a refusal without trees", [CONJ, DISJ], &[0x52, 0x46, 2], [1, 3]),
    fails("cut, with a bad q", [CONJ, DISJ], &[0x4D, 0x54, 2, 2, 0x10], [1, 5]),
    fails("too long, with a bad q", [CONJ, DISJ], &[0x4D, 0x54, 2, 2, 0, 1, 1], [8, 6]),
    fails("q is 2, and bad bytes", [CONJ, DISJ], &[0x4D, 0x54, 2, 2, 9, 9], [11, 3]),
    fails("input 2 of 2", [CONJ, DISJ], &[0x4D, 0x54, 2, 1, 0x02, 0x02], [12, 4]),
    fails("input 2 of 2, inverted", [CONJ, DISJ], &[0x4D, 0x54, 2, 1, 0x10, 0x12], [12, 5]),
    fails("plain and inverted", [CONJ, DISJ], &[0x4D, 0x54, 2, 1, 0x11, 0x01], [13, 5]),
    // At 0, f is read at 3 and on, and g is off.
    disagrees("q 0 where q 1 agrees", [CONJ, DISJ], &[0x4D, 0x54, 2, 0, 0x10, 0x11], 0),
    holds("the inputs of g crossed", [CONJ, DISJ], &[0x4D, 0x54, 2, 1, 0x11, 0x10], 1),
    holds("a split although a pair is dead", [CONJ, ODD], CONJ_ODD_DEEPER, 2),
    holds(
        "splits at both roots although a pair is dead",
        [CONST, WIRE],
        &[0x52, 0x46, 1, 0xFF, 0, 0, 0, 0, 0, 0, 0xFF, 0, 0, 0, 0, 0, 0],
        2,
    ),
    fails("a pair not dead at the root", [CONJ, ODD], &[0x52, 0x46, 2, 1, 0, 1], [17, 3]),
    fails("a dead one for another child", [CONJ, ODD], &[0x52, 0x46, 2, 0xFF, 1, 0, 0], [17, 4]),
    fails("u beyond, and v missing", [CONST, WIRE], &[0x52, 0x46, 1, 0, 1], [15, 4]),
    fails("u good, and v missing", [CONST, WIRE], &[0x52, 0x46, 1, 0, 0], [1, 5]),
    fails("u of an empty list", [CONST, WIRE], &[0x52, 0x46, 1, 1, 0, 0], [15, 4]),
    fails("v of an empty list", [WIRE, CONST], &[0x52, 0x46, 1, 0, 0, 0], [15, 5]),
    fails("a node of 2", [CONST, WIRE], &[0x52, 0x46, 1, 2, 0, 0], [15, 3]),
    fails("a node of FE at depth n", [CONST, WIRE], &[0x52, 0x46, 1, 0xFF, 0xFE], [15, 4]),
    fails("a split at depth n", [CONST, WIRE], &[0x52, 0x46, 1, 0xFF, 0xFF], [16, 4]),
    fails("one tree alone", [CONST, WIRE], &[0x52, 0x46, 1, 0, 0, 0], [1, 6]),
    fails("a third tree", [CONST, WIRE], &[0x52, 0x46, 1, 0, 0, 0, 0, 0, 0, 0, 0, 0], [8, 9]),
    unread("f cut", [&[0x46], CONJ], &[], [1, 1, 1, 0]),
    unread("g cut, and of another n", [WIRE, &[0x46, 0x4E, 2]], &[], [1, 2, 3, 0]),
    // On at 0 and at 3, off at 2, 3.
    unread("on and off at once in f", [SEVEN, CONJ], &[], [7, 1, 7, 3]),
    unread("on and off at once in g", [CONJ, SEVEN], &[0x4D], [7, 2, 7, 3]),
    // Conj is off at 0, 1, 2 and Disj on at 1, 2, 3.
    disagrees("Conj to Disj, straight", [CONJ, DISJ], &[0x4D, 0x54, 2, 0, 0x00, 0x01], 1),
    // Both are on at 3, and off at 0.
    disagrees("Conj to Disj, straight, q 1", [CONJ, DISJ], &[0x4D, 0x54, 2, 1, 0x00, 0x01], 0),
    // Conj is on where input 1 of Disj is 0 and input 0 is 1, so it is off at 0, 2, 3. At
    // 2 it is read at 0.
    disagrees("Conj to Disj, half inverted", [CONJ, DISJ], &[0x4D, 0x54, 2, 0, 0x11, 0x00], 2),
    // On everywhere, and on at 1.
    disagrees("Const to Wire, q 1", [CONST, WIRE], &[0x4D, 0x54, 1, 1, 0x00], 1),
    // Off everywhere, and on at 1.
    disagrees("off everywhere to Wire", [NEVER, WIRE], &[0x4D, 0x54, 1, 0, 0x10], 1),
    // f is on at 2, 3, g off at 3 and at 2.
    disagrees(
        "the second pair's pattern is smaller",
        [&[0x46, 0x4E, 2, 1, 0, 2, 0], &[0x46, 0x4E, 2, 0, 2, 3, 0, 2, 1]],
        &[0x4D, 0x54, 2, 0, 0x00, 0x01],
        2,
    ),
    // f is on at 3 and off at 1, g the other way round.
    disagrees(
        "the pattern of f's off list is smaller",
        [&[0x46, 0x4E, 2, 1, 1, 3, 0, 1, 2], &[0x46, 0x4E, 2, 1, 1, 1, 2, 3, 0]],
        &[0x4D, 0x54, 2, 0, 0x00, 0x01],
        1,
    ),
    // f is on where input 0 of g is 1, since that serves input 7 of f; g is off where its
    // input 4 is 1: at 16 + 1, where f is read at 128 + 8.
    disagrees(
        "eight inputs turned round",
        [&[0x46, 0x4E, 8, 1, 0, 0x80, 0], &[0x46, 0x4E, 8, 0, 1, 0x10, 0]],
        &[0x4D, 0x54, 8, 0, 7, 6, 5, 4, 3, 2, 1, 0],
        17,
    ),
    // f is on at 0 alone, and read there at 255, since all inputs are inverted. g is on
    // everywhere.
    disagrees(
        "eight inputs inverted",
        [&[0x46, 0x4E, 8, 1, 0, 0, 0xFF], &[0x46, 0x4E, 8, 1, 0, 0, 0]],
        &[0x4D, 0x54, 8, 1, 0x10, 0x11, 0x12, 0x13, 0x14, 0x15, 0x16, 0x17],
        255,
    ),
];

/// The matcher's answer to two functions, with a buffer of so many bytes.
pub struct MatchingCase {
    pub name: &'static str,
    pub f: &'static [u8],
    pub g: &'static [u8],
    pub room: usize,
    /// Code, kind, record, place, pattern.
    pub numbers: [u64; 5],
    pub written: Option<&'static [u8]>,
}

impl MatchingCase {
    pub fn answer(&self) -> Answer {
        answer(self.numbers)
    }
}

/// The claim is written, in just the room that it needs; the mark tells its kind.
const fn finds(name: &'static str, [f, g]: Records, claim: &'static [u8]) -> MatchingCase {
    let place = claim.len();
    let kind = if claim[0] == 0x4D { 1 } else { 2 };
    let numbers = [0, kind, 0, place as u64, 0];
    MatchingCase { name, f, g, room: place, numbers, written: Some(claim) }
}

/// Nothing is written: code, record, place.
const fn withholds(
    name: &'static str,
    records: Records,
    room: usize,
    [code, record, place]: [u64; 3],
) -> MatchingCase {
    unfound(name, records, room, [code, record, place, 0])
}

/// The same with a pattern.
const fn unfound(
    name: &'static str,
    [f, g]: Records,
    room: usize,
    [code, record, place, pattern]: [u64; 4],
) -> MatchingCase {
    MatchingCase { name, f, g, room, numbers: [code, 0, record, place, pattern], written: None }
}

/// The paper's example 2.1, with its inputs counted from 0, and the wiring that it
/// names: x1, x2, x3 to y2, y3 and y1 inverted.
pub const EXAMPLE_2_1: Records = [
    &[0x46, 0x4E, 3, 2, 1, 0, 0b011, 0b100, 0b001, 0b101, 0],
    &[0x46, 0x4E, 3, 1, 1, 0b001, 0b100, 0b010, 0b001],
];
pub const WIRING_OF_2_1: &[u8] = &[0x4D, 0x54, 3, 0, 0x01, 0x02, 0x10];

/// Its example 3.2, and the two wirings that example 3.3 finds: x1, x2, x3 to y3,
/// y1, y2 and to y1, y3, y2.
pub const EXAMPLE_3_2: Records = [
    &[0x46, 0x4E, 3, 2, 2, 0, 0b011, 0b111, 0, 0b010, 0b100, 0b001, 0b100],
    &[0x46, 0x4E, 3, 1, 2, 0b010, 0b001, 0b001, 0b100, 0b100, 0b011],
];
pub const WIRINGS_OF_3_3: [&[u8]; 2] =
    [&[0x4D, 0x54, 3, 0, 0x02, 0x00, 0x01], &[0x4D, 0x54, 3, 0, 0x00, 0x02, 0x01]];

/// f is on where both inputs 0 and 1 are 1; g where input 1 is 0 and input 2 is 1.
const TURNED: Records = [
    &[0x46, 0x4E, 3, 1, 2, 0b011, 0, 0, 0b001, 0, 0b010],
    &[0x46, 0x4E, 3, 1, 2, 0b100, 0b010, 0b010, 0, 0, 0b100],
];

/// f is its last input; g is on at the first pattern and at the last. Whatever the
/// last input is led to, one of the two is not kept apart, and no pair is dead
/// before it is placed.
const LAST_INPUT: Records =
    [&[0x46, 0x4E, 2, 1, 1, 0b10, 0, 0, 0b10], &[0x46, 0x4E, 2, 2, 0, 0, 0b11, 0b11, 0]];

/// Off everywhere.
const NEVER: &[u8] = &[0x46, 0x4E, 1, 0, 1, 0, 0];

pub const MATCHINGS: &[MatchingCase] = &[
    finds("Conj to Disj, with a buffer of 6", [CONJ, DISJ], &[0x4D, 0x54, 2, 1, 0x10, 0x11]),
    withholds("Conj to Disj, with a buffer of 5", [CONJ, DISJ], 5, [18, 4, 6]),
    finds("Conj to Odd", [CONJ, ODD], CONJ_ODD_CLAIM),
    finds("Const to Wire", [CONST, WIRE], &[0x52, 0x46, 1, 0, 0, 0, 0, 0, 0]),
    finds("Open to Wire", [OPEN, WIRE], &[0x4D, 0x54, 1, 0, 0x00]),
    withholds("Wire to Conj", [WIRE, CONJ], 4_096, [9, 2, 2]),
    // By hand. In example 2.1, x1 to y1 leaves both on cubes to be kept apart at y2,
    // which serves one input; x1 to y1 inverted separates all three pairs.
    finds("example 2.1", EXAMPLE_2_1, &[0x4D, 0x54, 3, 0, 0x10, 0x01, 0x02]),
    // In example 3.2, x1 to y1 leaves three pairs: the first asks for x2 to y2 inverted
    // or to y3, the second for x2 or x3 to y3, the third for x2 to y2 inverted or x3
    // to y2.
    finds("example 3.2", EXAMPLE_3_2, &[0x4D, 0x54, 3, 0, 0x00, 0x11, 0x02]),
    // Input 0 of f must be led to input 1 inverted or to input 2, and input 1 then to
    // the other.
    finds("to inputs 1 and 2, the first inverted", TURNED, &[0x4D, 0x54, 3, 0, 0x11, 0x02, 0x00]),
    finds("Wire to Wire", [WIRE, WIRE], &[0x4D, 0x54, 1, 0, 0x00]),
    finds("Wire to Open", [WIRE, OPEN], &[0x4D, 0x54, 1, 0, 0x00]),
    finds("Odd to Odd", [ODD, ODD], &[0x4D, 0x54, 2, 0, 0x00, 0x01]),
    finds("Const to Const", [CONST, CONST], &[0x4D, 0x54, 1, 0, 0x00]),
    finds("on everywhere to off everywhere", [CONST, NEVER], &[0x4D, 0x54, 1, 1, 0x00]),
    finds("off everywhere to Wire", [NEVER, WIRE], &[0x52, 0x46, 1, 1, 0, 0, 1, 0, 0]),
    finds("Wire to off everywhere", [WIRE, NEVER], &[0x52, 0x46, 1, 0, 0, 0, 1, 0, 0]),
    finds(
        "the last input to the first and last pattern",
        LAST_INPUT,
        &[
            0x52, 0x46, 2, //
            0xFF, 0xFF, 1, 0, 0, 1, 0, 1, 0xFF, 1, 0, 0, 1, 0, 1, //
            0xFF, 1, 0, 0, 1, 0, 1, 0xFF, 1, 0, 0, 1, 0, 1, //
            0xFF, 0xFF, 0, 0, 1, 0, 0, 0, 0xFF, 0, 0, 1, 0, 0, 0, //
            0xFF, 0, 0, 1, 0, 0, 0, 0xFF, 0, 0, 1, 0, 0, 0,
        ],
    ),
    withholds("Conj to Disj, no buffer", [CONJ, DISJ], 0, [18, 4, 6]),
    withholds("Conj to Odd, one byte short", [CONJ, ODD], 28, [18, 4, 29]),
    withholds("Const to Wire, room for a match", [CONST, WIRE], 5, [18, 4, 9]),
    withholds("Open to Wire, one byte short", [OPEN, WIRE], 4, [18, 4, 5]),
    withholds("Wire to Conj, no buffer", [WIRE, CONJ], 0, [9, 2, 2]),
    withholds("f cut, no buffer", [&[0x46], CONJ], 0, [1, 1, 1]),
    withholds("g of another n, and cut", [WIRE, &[0x46, 0x4E, 2]], 0, [1, 2, 3]),
    withholds("both of a wrong mark", [&[0x47], &[0x47]], 9, [2, 1, 0]),
    withholds("a bad cube in g", [CONJ, FIVE], 9, [5, 2, 7]),
    // On at 0 and at 3, off at 2, 3.
    unfound("on and off at once in f", [SEVEN, CONJ], 9, [7, 1, 7, 3]),
    unfound("on and off at once in g", [CONJ, SEVEN], 0, [7, 2, 7, 3]),
];

/// What a program prints for an input.
pub struct TextCase {
    pub name: &'static str,
    pub runs: &'static [Run],
    pub text: &'static str,
}

impl TextCase {
    pub fn input(&self) -> Vec<u8> {
        bytes(self.runs)
    }
}

const fn prints(name: &'static str, runs: &'static [Run], text: &'static str) -> TextCase {
    TextCase { name, runs, text }
}

/// A record of which the mark and n are right and the counts as high as they can be:
/// it is cut at 1,025.
const COUNTS_255: &[u8] = &[0x46, 0x4E, 1, 0xFF, 0xFF];
const CUBES_510: Run = (&[0], 1_020);

/// 64 on cubes, and no off cube.
const FULL: [Run; 2] = [(&[0x46, 0x4E, 1, 64, 0], 1), (&[1, 0], 64)];

/// The last input of 5, and the first pattern and the last, as above: no node above
/// depth 5 is closed. A tree takes 3 bytes at depth 5 and then, upward, 1 + 2·3 = 7,
/// 1 + 4·7 = 29, 1 + 6·29 = 175, 1 + 8·175 = 1,401 and 1 + 10·1,401 = 14,011.
const LAST_OF_5: Records =
    [&[0x46, 0x4E, 5, 1, 1, 0x10, 0, 0, 0x10], &[0x46, 0x4E, 5, 2, 0, 0, 0x1F, 0x1F, 0]];

/// The match program.
pub const MATCH_TEXTS: &[TextCase] = &[
    prints("Conj to Disj", &[(CONJ, 1), (DISJ, 1)], "0 1 0 6 0\n4D 54 02 01 10 11\n"),
    prints(
        "Conj to Odd",
        &[(CONJ, 1), (ODD, 1)],
        "0 2 0 29 0\n52 46 02 FF 01 00 01 01 00 00 01 00 00 01 00 01 \
         FF 01 00 01 01 00 00 01 00 01 01 00 00\n",
    ),
    prints("Const to Wire", &[(CONST, 1), (WIRE, 1)], "0 2 0 9 0\n52 46 01 00 00 00 00 00 00\n"),
    prints("Open to Wire", &[(OPEN, 1), (WIRE, 1)], "0 1 0 5 0\n4D 54 01 00 00\n"),
    prints("Wire to Conj", &[(WIRE, 1), (CONJ, 1)], "9 0 2 2 0\n"),
    prints("nothing", &[], "1 0 1 0 0\n"),
    prints("46 4E 00", &[(&[0x46, 0x4E, 0x00], 1)], "3 0 1 2 0\n"),
    prints("46 4E 08 41", &[(&[0x46, 0x4E, 0x08, 0x41], 1)], "4 0 1 3 0\n"),
    // Without off cubes there is nothing to keep apart.
    prints(
        "a count of 64 passes",
        &[FULL[0], FULL[1], FULL[0], FULL[1]],
        "0 1 0 5 0\n4D 54 01 00 00\n",
    ),
    // By hand, from the cut and from the order of the tests.
    prints("one byte", &[(&[0x46], 1)], "1 0 1 1 0\n"),
    prints("four bytes are f's", &[(&[0x46, 0x4E, 1, 0], 1)], "1 0 1 4 0\n"),
    prints("f cut", &[(&[0x46, 0x4E, 1, 1, 1, 1, 0, 0], 1)], "1 0 1 8 0\n"),
    prints("f alone", &[(CONJ, 1)], "1 0 2 0 0\n"),
    prints("f and four bytes", &[(CONJ, 1), (&[0x46, 0x4E, 2, 1], 1)], "1 0 2 4 0\n"),
    prints("g cut", &[(OPEN, 1), (&[0x46, 0x4E, 1, 1, 1, 1, 0, 0], 1)], "1 0 2 8 0\n"),
    prints("a cube of f from g", &[(&[0x46, 0x4E, 1, 1, 0], 1), (WIRE, 1)], "5 0 1 5 0\n"),
    prints("a byte after g", &[(OPEN, 1), (WIRE, 1), (&[0], 1)], "0 1 0 5 0\n4D 54 01 00 00\n"),
    prints("Odd after g", &[(OPEN, 1), (WIRE, 1), (ODD, 1)], "0 1 0 5 0\n4D 54 01 00 00\n"),
    prints("f of a wrong mark", &[(&[0x47, 0x4E, 2, 0, 0], 1), (CONJ, 1)], "2 0 1 0 0\n"),
    prints("g of a wrong mark", &[(CONJ, 1), (&[0x46, 0x46, 2, 0, 0], 1)], "2 0 2 1 0\n"),
    prints("n is 9 in f", &[(&[0x46, 0x4E, 9, 0, 0], 1), (CONJ, 1)], "3 0 1 2 0\n"),
    prints("n is 0 in g", &[(CONJ, 1), (&[0x46, 0x4E, 0, 0, 0], 1)], "3 0 2 2 0\n"),
    prints("255 cubes twice in f", &[(COUNTS_255, 1), CUBES_510, (CONJ, 1)], "4 0 1 3 0\n"),
    prints("255 cubes twice in g", &[(WIRE, 1), (COUNTS_255, 1), CUBES_510], "4 0 2 3 0\n"),
    prints("a bad cube in g", &[(CONJ, 1), (FIVE, 1)], "5 0 2 7 0\n"),
    prints("an input twice in f", &[(SIX, 1), (CONJ, 1)], "6 0 1 5 0\n"),
    // On at 0 and at 3, off at 2, 3.
    prints("on and off at once in f", &[(SEVEN, 1), (CONJ, 1)], "7 0 1 7 3\n"),
    prints("on and off at once in g", &[(CONJ, 1), (SEVEN, 1)], "7 0 2 7 3\n"),
    prints("a long refusal", &[(LAST_OF_5[0], 1), (LAST_OF_5[1], 1)], "18 0 4 28025 0\n"),
];

/// The check program.
pub const CHECK_TEXTS: &[TextCase] = &[
    prints(
        "Conj to Disj",
        &[(CONJ, 1), (DISJ, 1), (&[0x4D, 0x54, 2, 1, 0x10, 0x11], 1)],
        "0 1 0 6 0\n",
    ),
    prints("Conj to Odd", &[(CONJ, 1), (ODD, 1), (CONJ_ODD_CLAIM, 1)], "0 2 0 29 0\n"),
    prints(
        "Const to Wire",
        &[(CONST, 1), (WIRE, 1), (&[0x52, 0x46, 1], 1), (&[0], 6)],
        "0 2 0 9 0\n",
    ),
    prints("Open to Wire", &[(OPEN, 1), (WIRE, 1), (&[0x4D, 0x54, 1, 0, 0], 1)], "0 1 0 5 0\n"),
    prints(
        "Open to Wire, inverted",
        &[(OPEN, 1), (WIRE, 1), (&[0x4D, 0x54, 1, 0, 0x10], 1)],
        "0 1 0 5 0\n",
    ),
    prints(
        "Wire to Wire, inverted, q 0",
        &[(WIRE, 2), (&[0x4D, 0x54, 1, 0, 0x10], 1)],
        "14 0 3 0 0\n",
    ),
    prints(
        "Wire to Wire, inverted, q 1",
        &[(WIRE, 2), (&[0x4D, 0x54, 1, 1, 0x10], 1)],
        "0 1 0 5 0\n",
    ),
    prints("Wire to Conj", &[(WIRE, 1), (CONJ, 1), (&[0x4D, 0x54, 1, 0, 0], 1)], "9 0 2 2 0\n"),
    prints(
        "an input of g twice",
        &[(CONJ, 1), (DISJ, 1), (&[0x4D, 0x54, 2, 1, 0x10, 0x10], 1)],
        "13 0 3 5 0\n",
    ),
    prints(
        "a split cut short",
        &[(CONST, 1), (WIRE, 1), (&[0x52, 0x46, 1, 0xFF], 1)],
        "1 0 3 4 0\n",
    ),
    prints(
        "v beyond its list",
        &[(CONST, 1), (WIRE, 1), (&[0x52, 0x46, 1, 0, 0, 1], 1)],
        "15 0 3 5 0\n",
    ),
    prints("nothing", &[], "1 0 1 0 0\n"),
    prints("46 4E 00", &[(&[0x46, 0x4E, 0x00], 1)], "3 0 1 2 0\n"),
    prints("46 4E 08 41", &[(&[0x46, 0x4E, 0x08, 0x41], 1)], "4 0 1 3 0\n"),
    prints(
        "a count of 64 passes",
        &[FULL[0], FULL[1], FULL[0], FULL[1], (&[0x4D, 0x54, 1, 0, 0], 1)],
        "0 1 0 5 0\n",
    ),
    // By hand, from the cut and from the order of the tests.
    prints("four bytes are f's", &[(&[0x46, 0x4E, 1, 0], 1)], "1 0 1 4 0\n"),
    prints("f and four bytes", &[(CONJ, 1), (&[0x46, 0x4E, 2, 1], 1)], "1 0 2 4 0\n"),
    prints("no claim", &[(CONJ, 1), (DISJ, 1)], "1 0 3 0 0\n"),
    prints("a wrong mark", &[(CONJ, 1), (DISJ, 1), (&[0x46], 1)], "2 0 3 0 0\n"),
    prints("another n", &[(CONJ, 1), (DISJ, 1), (&[0x4D, 0x54, 3], 1)], "10 0 3 2 0\n"),
    prints("q is 2", &[(WIRE, 2), (&[0x4D, 0x54, 1, 2, 0], 1)], "11 0 3 3 0\n"),
    prints("input 1 of 1, inverted", &[(WIRE, 2), (&[0x4D, 0x54, 1, 0, 0x11], 1)], "12 0 3 4 0\n"),
    prints(
        "a split at depth n",
        &[(CONST, 1), (WIRE, 1), (&[0x52, 0x46, 1, 0xFF, 0xFF], 1)],
        "16 0 3 4 0\n",
    ),
    prints(
        "a pair not dead",
        &[(CONJ, 1), (ODD, 1), (&[0x52, 0x46, 2, 1, 0, 1], 1)],
        "17 0 3 3 0\n",
    ),
    prints(
        "a line's end after the claim",
        &[(OPEN, 1), (WIRE, 1), (&[0x4D, 0x54, 1, 0, 0, 0x0A], 1)],
        "8 0 3 5 0\n",
    ),
    // As in the claims above.
    prints(
        "Conj to Disj, half inverted",
        &[(CONJ, 1), (DISJ, 1), (&[0x4D, 0x54, 2, 0, 0x11, 0x00], 1)],
        "14 0 3 0 2\n",
    ),
    prints(
        "eight inputs inverted",
        &[
            (&[0x46, 0x4E, 8, 1, 0, 0, 0xFF], 1),
            (&[0x46, 0x4E, 8, 1, 0, 0, 0], 1),
            (&[0x4D, 0x54, 8, 1, 0x10, 0x11, 0x12, 0x13, 0x14, 0x15, 0x16, 0x17], 1),
        ],
        "14 0 3 0 255\n",
    ),
    prints("on and off at once in g", &[(CONJ, 1), (SEVEN, 1)], "7 0 2 7 3\n"),
    prints("f of a wrong mark", &[(&[0x47, 0x4E, 2, 0, 0], 2), (&[0], 49_152)], "2 0 1 0 0\n"),
    prints("and too long", &[(&[0x47, 0x4E, 2, 0, 0], 2), (&[0], 49_153)], "too long\n"),
    prints("255 cubes twice", &[(COUNTS_255, 1), CUBES_510, (CONJ, 1)], "4 0 1 3 0\n"),
    prints(
        "255 cubes twice in g",
        &[(CONJ, 1), (COUNTS_255, 1), CUBES_510, (&[0], 49_152)],
        "4 0 2 3 0\n",
    ),
    prints(
        "255 cubes four times",
        &[(COUNTS_255, 1), CUBES_510, (COUNTS_255, 1), CUBES_510, (&[0], 49_152)],
        "4 0 1 3 0\n",
    ),
    prints(
        "255 cubes four times, and too long",
        &[(COUNTS_255, 1), CUBES_510, (COUNTS_255, 1), CUBES_510, (&[0], 49_153)],
        "too long\n",
    ),
];
