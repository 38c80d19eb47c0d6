//! Wrong answers and wrong bytes, made from the right ones.

use zap_tests::matches::sweeps::Sweep;
use zap_tests::matches::{sweeps, Call};
use zap_tests::reference::answer::{Answer, ALL_ELSE, MATCH, NO_MATCH, OF_BUFFER, OF_CLAIM};
use zap_tests::reference::answer::{OF_F, OF_G};
use zap_tests::reference::claim::{MATCH_MARK, REFUSAL_MARK, TREES, WIRING};
use zap_tests::reference::matcher::find;
use zap_tests::wrong::{misnaming, READINGS};

use super::{kind, Mistake};

pub fn mistakes() -> Vec<Mistake> {
    [numbers(), rooms(), bytes(), records()].into_iter().flatten().collect()
}

/// The right answer and the right bytes.
pub fn unchanged() -> Call {
    by(RIGHT)
}

/// What was asked, and what is right.
struct Asked<'a> {
    f: &'a [u8],
    room: usize,
    right: Answer,
    /// The claim if the records are accepted, whether or not there is room for it.
    claim: Vec<u8>,
}

impl Asked<'_> {
    /// The answer where there is room for the claim.
    fn accepted(&self) -> Answer {
        Answer::accepted(kind(&self.claim), self.claim.len())
    }

    fn is_refusal(&self) -> bool {
        self.claim.starts_with(&REFUSAL_MARK)
    }

    /// Whether it is the buffer that is refused.
    fn too_short(&self) -> bool {
        self.right.record == OF_BUFFER
    }
}

/// What a call tells and what it writes.
struct Rules {
    tell: fn(&Asked) -> Answer,
    write: fn(&Asked, &mut [u8]),
}

const RIGHT: Rules = Rules {
    tell: |asked| asked.right,
    write: |asked, out| {
        if asked.right.is_accepted() {
            out[..asked.claim.len()].copy_from_slice(&asked.claim);
        }
    },
};

fn by(Rules { tell, write }: Rules) -> Call {
    Box::new(move |f, g, out| {
        let room = out.len();
        let (right, _) = find(f, g, room);
        let claim = find(f, g, usize::MAX).1.unwrap_or_default();
        let asked = Asked { f, room, right, claim };
        write(&asked, out);
        tell(&asked).packed()
    })
}

/// Another answer.
fn told(tell: fn(&Asked) -> Answer) -> Call {
    by(Rules { tell, ..RIGHT })
}

/// Other bytes.
fn written(write: fn(&Asked, &mut [u8])) -> Call {
    by(Rules { write, ..RIGHT })
}

fn numbers() -> Vec<Mistake> {
    vec![
        (
            "the kinds changed places",
            told(|asked| match asked.right.kind {
                0 => asked.right,
                kind => Answer { kind: MATCH + NO_MATCH - kind, ..asked.right },
            }),
            sweeps::small_functions,
        ),
        (
            "a refusal is of kind 3",
            told(|asked| match asked.right.kind {
                NO_MATCH => Answer { kind: ALL_ELSE, ..asked.right },
                _ => asked.right,
            }),
            sweeps::small_functions,
        ),
        (
            "the kind told with 18",
            told(|asked| match asked.too_short() {
                true => Answer { kind: kind(&asked.claim), ..asked.right },
                false => asked.right,
            }),
            sweeps::small_functions,
        ),
        (
            "18 for the claim",
            told(|asked| match asked.too_short() {
                true => Answer { record: OF_CLAIM, ..asked.right },
                false => asked.right,
            }),
            sweeps::small_functions,
        ),
        (
            "18 for no record",
            told(|asked| match asked.too_short() {
                true => Answer { record: 0, ..asked.right },
                false => asked.right,
            }),
            sweeps::small_functions,
        ),
        (
            "an accepted answer for the buffer",
            told(|asked| match asked.right.code {
                0 => Answer { record: OF_BUFFER, ..asked.right },
                _ => asked.right,
            }),
            sweeps::small_functions,
        ),
        (
            "the place of a claim is the buffer's length",
            told(|asked| match asked.right.code {
                0 => Answer { place: asked.room as u64, ..asked.right },
                _ => asked.right,
            }),
            sweeps::small_functions,
        ),
        (
            "the place of a claim is 0",
            told(|asked| match asked.right.code {
                0 => Answer { place: 0, ..asked.right },
                _ => asked.right,
            }),
            sweeps::small_functions,
        ),
        (
            "the place of a refusal leaves out its header",
            told(|asked| match asked.right.kind {
                NO_MATCH => Answer { place: asked.right.place - TREES as u64, ..asked.right },
                _ => asked.right,
            }),
            sweeps::small_functions,
        ),
        (
            "places of one byte",
            told(|asked| Answer { place: asked.right.place % (1 << 8), ..asked.right }),
            sweeps::other_pairs,
        ),
        (
            "places of two bytes",
            told(|asked| Answer { place: asked.right.place % (1 << 16), ..asked.right }),
            sweeps::deep_trees,
        ),
    ]
}

fn rooms() -> Vec<Mistake> {
    vec![
        (
            "18 where the buffer is just long enough",
            by(Rules {
                tell: |asked| match asked.room == asked.claim.len() && asked.right.code == 0 {
                    true => Answer::refused(18, OF_BUFFER, asked.room),
                    false => asked.right,
                },
                write: |asked, out| match asked.room == asked.claim.len() {
                    true => {}
                    false => (RIGHT.write)(asked, out),
                },
            }),
            sweeps::small_functions,
        ),
        (
            "one byte short, and the rest written",
            by(Rules {
                tell: |asked| match asked.room + 1 == asked.claim.len() {
                    true => asked.accepted(),
                    false => asked.right,
                },
                write: |asked, out| match asked.room + 1 == asked.claim.len() {
                    true => out.copy_from_slice(&asked.claim[..asked.room]),
                    false => (RIGHT.write)(asked, out),
                },
            }),
            sweeps::small_functions,
        ),
        (
            "a refusal cut to the buffer's length",
            by(Rules {
                tell: |asked| match asked.too_short() && asked.is_refusal() {
                    true => asked.accepted(),
                    false => asked.right,
                },
                write: |asked, out| {
                    let length = asked.room.min(asked.claim.len());
                    if asked.right.is_accepted() || asked.is_refusal() {
                        out[..length].copy_from_slice(&asked.claim[..length]);
                    }
                },
            }),
            sweeps::small_functions,
        ),
        (
            "18 at the buffer's length",
            told(|asked| match asked.too_short() {
                true => Answer { place: asked.room as u64, ..asked.right },
                false => asked.right,
            }),
            sweeps::small_functions,
        ),
        (
            "18 at the number of bytes that are missing",
            told(|asked| match asked.too_short() {
                true => Answer { place: asked.right.place - asked.room as u64, ..asked.right },
                false => asked.right,
            }),
            sweeps::small_functions,
        ),
        (
            "18 at the last byte",
            told(|asked| match asked.too_short() {
                true => Answer { place: asked.right.place - 1, ..asked.right },
                false => asked.right,
            }),
            sweeps::small_functions,
        ),
        (
            "18 at the length of a match, whatever is found",
            told(|asked| match asked.too_short() {
                true => Answer { place: WIRING as u64 + asked.f[2] as u64, ..asked.right },
                false => asked.right,
            }),
            sweeps::small_functions,
        ),
        (
            "18 at the length of the first tree",
            told(|asked| match asked.too_short() && asked.is_refusal() {
                true => Answer { place: asked.right.place - 3, ..asked.right },
                false => asked.right,
            }),
            sweeps::small_functions,
        ),
        (
            "no 18 before the first bytes do not fit",
            told(|asked| match asked.too_short() && asked.room > 0 {
                true => asked.accepted(),
                false => asked.right,
            }),
            sweeps::small_functions,
        ),
        (
            "18 before the faults of f",
            told(|asked| match asked.right.record {
                OF_F if asked.room == 0 => Answer::refused(18, OF_BUFFER, 5),
                _ => asked.right,
            }),
            sweeps::bad_records,
        ),
        (
            "18 before the faults of g",
            told(|asked| match (asked.right.record, asked.right.code) {
                (OF_G, 1..=8) if asked.room == 0 => too_short_for_a_match(asked),
                _ => asked.right,
            }),
            sweeps::bad_records,
        ),
        (
            "18 before 9",
            told(|asked| match asked.right.code {
                9 if asked.room < WIRING + asked.f[2] as usize => too_short_for_a_match(asked),
                _ => asked.right,
            }),
            sweeps::bad_records,
        ),
    ]
}

fn too_short_for_a_match(asked: &Asked) -> Answer {
    Answer::refused(18, OF_BUFFER, WIRING + asked.f[2] as usize)
}

fn bytes() -> Vec<Mistake> {
    vec![
        ("the buffer untouched", written(|_, _| {}), sweeps::small_functions),
        (
            "the buffer untouched by a refusal",
            written(|asked, out| {
                if !asked.is_refusal() {
                    (RIGHT.write)(asked, out);
                }
            }),
            sweeps::small_functions,
        ),
        (
            "a byte after the claim's end",
            written(|asked, out| {
                (RIGHT.write)(asked, out);
                if let (0, Some(next)) = (asked.right.code, out.get_mut(asked.claim.len())) {
                    *next = 0;
                }
            }),
            sweeps::small_functions,
        ),
        (
            "the buffer cleared to its end",
            written(|asked, out| {
                if asked.right.is_accepted() {
                    out.fill(0);
                }
                (RIGHT.write)(asked, out);
            }),
            sweeps::small_functions,
        ),
        (
            "the buffer's last byte cleared",
            written(|asked, out| {
                if let (0, Some(last)) = (asked.right.code, out.last_mut()) {
                    *last = 0;
                }
                (RIGHT.write)(asked, out);
            }),
            sweeps::small_functions,
        ),
        (
            "the claim at the buffer's end",
            written(|asked, out| {
                if asked.right.is_accepted() {
                    out[asked.room - asked.claim.len()..].copy_from_slice(&asked.claim);
                }
            }),
            sweeps::small_functions,
        ),
        (
            "as much as fits written although it is too short",
            written(|asked, out| {
                let length = asked.room.min(asked.claim.len());
                out[..length].copy_from_slice(&asked.claim[..length]);
            }),
            sweeps::small_functions,
        ),
        (
            "the mark written although it is too short",
            written(|asked, out| {
                (RIGHT.write)(asked, out);
                if let (18, [first, second, ..]) = (asked.right.code, out) {
                    [*first, *second] = MATCH_MARK;
                }
            }),
            sweeps::small_functions,
        ),
        (
            "the first tree written although the second does not fit",
            written(|asked, out| {
                (RIGHT.write)(asked, out);
                let length = asked.claim.len().saturating_sub(3);
                if asked.is_refusal() && asked.too_short() && asked.room >= length {
                    out[..length].copy_from_slice(&asked.claim[..length]);
                }
            }),
            sweeps::small_functions,
        ),
        (
            "the mark written although f and g differ in n",
            written(|asked, out| {
                (RIGHT.write)(asked, out);
                if let (9, [first, second, ..]) = (asked.right.code, out) {
                    [*first, *second] = MATCH_MARK;
                }
            }),
            sweeps::bad_records,
        ),
        (
            "the buffer cleared although a record is refused",
            written(|asked, out| match asked.right.record {
                OF_F | OF_G => out.fill(0),
                _ => (RIGHT.write)(asked, out),
            }),
            sweeps::bad_records,
        ),
        ("the first byte not written", all_but(|_| 0), sweeps::small_functions),
        ("the last byte not written", all_but(|claim| claim.len() - 1), sweeps::small_functions),
        ("n not written", all_but(|_| 2), sweeps::small_functions),
        ("q not written", all_but(|_| 3), sweeps::small_functions),
        (
            "the marks changed places",
            written(|asked, out| {
                (RIGHT.write)(asked, out);
                if asked.right.is_accepted() {
                    let mark = if asked.is_refusal() { MATCH_MARK } else { REFUSAL_MARK };
                    out[..2].copy_from_slice(&mark);
                }
            }),
            sweeps::small_functions,
        ),
        (
            "n and q changed places",
            written(|asked, out| {
                (RIGHT.write)(asked, out);
                if asked.right.kind == MATCH {
                    out.swap(2, 3);
                }
            }),
            sweeps::small_functions,
        ),
        (
            "inverted choices as j + 8",
            written(|asked, out| {
                (RIGHT.write)(asked, out);
                if asked.right.kind == MATCH {
                    let wiring = &mut out[WIRING..asked.claim.len()];
                    wiring.iter_mut().filter(|byte| **byte >= 16).for_each(|byte| *byte -= 8);
                }
            }),
            sweeps::small_functions,
        ),
    ]
}

/// The claim without the byte at a place, which stays as it was.
fn all_but(place: fn(&[u8]) -> usize) -> Call {
    Box::new(move |f, g, out| {
        let before = out.to_vec();
        let answer = unchanged()(f, g, out);
        if let Some(claim) = find(f, g, out.len()).1 {
            let place = place(&claim);
            out[place] = before[place];
        }
        answer
    })
}

/// A wrong reading of the records.
fn read(other: impl Fn(&[u8], &[u8], Answer) -> Answer + 'static) -> Call {
    Box::new(move |f, g, out| other(f, g, Answer::unpacked(unchanged()(f, g, out))).packed())
}

fn records() -> Vec<Mistake> {
    let readings = READINGS.map(|(name, other)| (name, read(other), sweeps::bad_records as Sweep));
    let patterns =
        misnaming().map(|(name, other)| (name, read(other), sweeps::clashing_records as Sweep));
    let others: [Mistake; 4] = [
        (
            "a pattern left in an accepted answer",
            told(|asked| match asked.right.code {
                0 => asked.right.naming(1),
                _ => asked.right,
            }),
            sweeps::small_functions,
        ),
        (
            "a pattern told with 18",
            told(|asked| match asked.right.code {
                18 => asked.right.naming(255),
                _ => asked.right,
            }),
            sweeps::small_functions,
        ),
        (
            "9 at the start",
            told(|asked| match asked.right.code {
                9 => Answer { place: 0, ..asked.right },
                _ => asked.right,
            }),
            sweeps::bad_records,
        ),
        (
            "a refused record is no match",
            told(|asked| match asked.right.record {
                OF_F | OF_G => Answer { kind: NO_MATCH, ..asked.right },
                _ => asked.right,
            }),
            sweeps::bad_records,
        ),
    ];
    readings.into_iter().chain(patterns).chain(others).collect()
}
