//! Wrong answers, made from the right one.

use zap_tests::claims::sweeps::Sweep;
use zap_tests::claims::{sweeps, Call};
use zap_tests::matches::wiring_of;
use zap_tests::patterns::{OfWiring, OF_WIRING};
use zap_tests::reference::answer::{Answer, ALL_ELSE, MATCH, NO_MATCH, OF_CLAIM, OF_F, OF_G};
use zap_tests::reference::checker::{check, Checked, Node, NodeByte};
use zap_tests::reference::claim::{MATCH_MARK, REFUSAL_MARK, SPLIT, TREES, WIRING};
use zap_tests::reference::two::two;
use zap_tests::reference::wiring::Choice;
use zap_tests::wirings::Given;
use zap_tests::wrong::{misnaming, READINGS};

use super::Mistake;

pub fn mistakes() -> Vec<Mistake> {
    [everything(), numbers(), headers(), wirings(), patterns(), places(), records()]
        .into_iter()
        .flatten()
        .collect()
}

/// The right answer.
pub fn unchanged() -> Call {
    told(|asked| asked.right)
}

/// What was asked, and the right answer.
struct Asked<'a> {
    f: &'a [u8],
    g: &'a [u8],
    claim: &'a [u8],
    right: Answer,
    node: Option<Node>,
}

impl Asked<'_> {
    fn is_match(&self) -> bool {
        self.claim.first() == Some(&MATCH_MARK[0])
    }

    /// The number of inputs, where f is accepted.
    fn n(&self) -> usize {
        self.f[2] as usize
    }

    /// The byte at the place that the right answer tells.
    fn fault(&self) -> u8 {
        self.claim[self.right.place as usize]
    }

    /// The right answer at an earlier place.
    fn earlier(&self, by: u64) -> Answer {
        Answer { place: self.right.place - by, ..self.right }
    }

    /// What a claim with another byte is answered.
    fn with(&self, place: usize, byte: u8) -> Answer {
        let mut claim = self.claim.to_vec();
        claim[place] = byte;
        check(self.f, self.g, &claim).answer
    }

    /// The other answer if it has one of these codes, else the right one.
    fn or_right(&self, other: Answer, codes: [u64; 2]) -> Answer {
        if codes.contains(&other.code) {
            other
        } else {
            self.right
        }
    }

    fn at(&self, byte: NodeByte) -> bool {
        self.node.is_some_and(|node| node.byte == byte)
    }
}

/// What is told in the place of the right answer.
fn told(other: fn(&Asked) -> Answer) -> Call {
    Box::new(move |f, g, claim| {
        let Checked { answer: right, node } = check(f, g, claim);
        other(&Asked { f, g, claim, right, node }).packed()
    })
}

/// The same where the claim gets this code; 0 is for an accepted one.
fn instead(code: u64, other: fn(&Asked) -> Answer) -> Call {
    Box::new(move |f, g, claim| {
        let Checked { answer: right, node } = check(f, g, claim);
        let of_records = right.record == OF_F || right.record == OF_G;
        if right.code != code || of_records {
            return right.packed();
        }
        other(&Asked { f, g, claim, right, node }).packed()
    })
}

/// The claim is refused with this code at this place.
pub fn refused(code: u64, place: usize) -> Answer {
    Answer::refused(code, OF_CLAIM, place)
}

fn everything() -> Vec<Mistake> {
    vec![
        ("refuses all", told(|_| refused(14, 0)), sweeps::match_claims),
        (
            "refuses all match claims",
            instead(0, |asked| if asked.is_match() { refused(14, 0) } else { asked.right }),
            sweeps::match_claims,
        ),
        (
            "refuses all refusals",
            instead(0, |asked| if asked.is_match() { asked.right } else { refused(17, TREES) }),
            sweeps::small_trees,
        ),
        (
            "refuses refusals with a split",
            instead(0, |asked| match asked.claim.contains(&SPLIT) {
                true => refused(17, TREES),
                false => asked.right,
            }),
            sweeps::small_trees,
        ),
        (
            "accepts all",
            told(|asked| {
                let kind = if asked.is_match() { MATCH } else { NO_MATCH };
                Answer::accepted(kind, asked.claim.len())
            }),
            sweeps::match_claims,
        ),
    ]
}

fn numbers() -> Vec<Mistake> {
    vec![
        (
            "the kinds of accepted claims changed places",
            instead(0, |asked| Answer { kind: MATCH + NO_MATCH - asked.right.kind, ..asked.right }),
            sweeps::match_claims,
        ),
        (
            "an accepted refusal is of kind 3",
            instead(0, |asked| match asked.right.kind {
                NO_MATCH => Answer { kind: ALL_ELSE, ..asked.right },
                _ => asked.right,
            }),
            sweeps::small_trees,
        ),
        (
            "a claim that does not agree keeps its kind",
            instead(14, |asked| Answer { kind: MATCH, ..asked.right }),
            sweeps::match_claims,
        ),
        (
            "an accepted claim at place 0",
            instead(0, |asked| Answer { place: 0, ..asked.right }),
            sweeps::match_claims,
        ),
        (
            "an accepted claim of record 3",
            instead(0, |asked| Answer { record: OF_CLAIM, ..asked.right }),
            sweeps::match_claims,
        ),
        (
            "a refused claim of record 0",
            told(|asked| match asked.right.record {
                OF_CLAIM => Answer { record: 0, ..asked.right },
                _ => asked.right,
            }),
            sweeps::match_claims,
        ),
        (
            "places of one byte",
            told(|asked| Answer { place: asked.right.place % (1 << 8), ..asked.right }),
            sweeps::damaged_trees,
        ),
        (
            "places of two bytes",
            told(|asked| Answer { place: asked.right.place % (1 << 16), ..asked.right }),
            sweeps::large_trees,
        ),
    ]
}

fn headers() -> Vec<Mistake> {
    vec![
        (
            "the header's length before its bytes",
            instead(2, |asked| match asked.claim.len() {
                length @ 0..=2 => refused(1, length),
                _ => asked.right,
            }),
            sweeps::short_claims,
        ),
        (
            "a header cut short told at its end",
            instead(1, |asked| refused(1, asked.claim.len().max(3))),
            sweeps::short_claims,
        ),
        (
            "a wrong second byte of the mark told at the first",
            instead(2, |_| refused(2, 0)),
            sweeps::short_claims,
        ),
        (
            "the second byte of the mark not tested",
            instead(2, |asked| match (asked.right.place, asked.is_match()) {
                (1, true) => asked.with(1, MATCH_MARK[1]),
                (1, false) => asked.with(1, REFUSAL_MARK[1]),
                _ => asked.right,
            }),
            sweeps::short_claims,
        ),
        (
            "either second byte of a mark after either first",
            instead(2, |asked| match asked.claim {
                [0x4D, 0x46, ..] => asked.with(1, MATCH_MARK[1]),
                [0x52, 0x54, ..] => asked.with(1, REFUSAL_MARK[1]),
                _ => asked.right,
            }),
            sweeps::short_claims,
        ),
        (
            "n not tested in a match claim",
            instead(10, |asked| match asked.is_match() {
                true => asked.with(2, asked.f[2]),
                false => asked.right,
            }),
            sweeps::damaged_match_claims,
        ),
        (
            "n not tested in a refusal",
            instead(10, |asked| match asked.is_match() {
                true => asked.right,
                false => asked.with(2, asked.f[2]),
            }),
            sweeps::small_trees,
        ),
        (
            "the length before n",
            instead(10, |asked| match asked.is_match() {
                true => asked.or_right(asked.with(2, asked.f[2]), [1, 8]),
                false => asked.right,
            }),
            sweeps::damaged_match_claims,
        ),
        ("q before the length of a claim cut short", q_before(1), sweeps::damaged_match_claims),
        ("q before the length of a longer claim", q_before(8), sweeps::damaged_match_claims),
        (
            "bytes after a match claim pass",
            instead(8, |asked| match asked.is_match() {
                true => check(asked.f, asked.g, &asked.claim[..WIRING + asked.n()]).answer,
                false => asked.right,
            }),
            sweeps::damaged_match_claims,
        ),
        (
            "bytes after a refusal pass",
            instead(8, |asked| match asked.is_match() {
                true => asked.right,
                false => Answer::accepted(NO_MATCH, asked.claim.len()),
            }),
            sweeps::small_trees,
        ),
        (
            "8 at the last byte",
            instead(8, |asked| refused(8, asked.claim.len() - 1)),
            sweeps::small_trees,
        ),
    ]
}

/// A bad q is told in the place of this code for the length.
fn q_before(code: u64) -> Call {
    instead(code, |asked| match asked.claim.get(3) {
        Some(2..) if asked.is_match() => refused(11, 3),
        _ => asked.right,
    })
}

fn wirings() -> Vec<Mistake> {
    vec![
        (
            "q above 1 counts as 1",
            instead(11, |asked| asked.with(3, 1)),
            sweeps::damaged_match_claims,
        ),
        (
            "q after the wiring bytes",
            instead(11, |asked| asked.or_right(asked.with(3, 0), [12, 13])),
            sweeps::damaged_match_claims,
        ),
        (
            "12 at any byte before 13 at any",
            instead(13, |asked| {
                let bad = |&at: &usize| Choice::from_byte(asked.claim[at], asked.n()).is_none();
                let first = (WIRING..asked.claim.len()).find(bad);
                first.map_or(asked.right, |at| refused(12, at))
            }),
            sweeps::damaged_match_claims,
        ),
        (
            "12 after 13",
            instead(12, |asked| {
                let all = WIRING..asked.claim.len();
                let j = |at: usize| Choice::from_byte(asked.claim[at], asked.n()).map(|it| it.j);
                let twice = |&at: &usize| j(at).is_some() && (WIRING..at).any(|it| j(it) == j(at));
                all.into_iter().find(twice).map_or(asked.right, |at| refused(13, at))
            }),
            sweeps::damaged_match_claims,
        ),
        (
            "13 at the first use",
            instead(13, |asked| {
                let uses = |&at: &usize| asked.claim[at] % 16 == asked.fault() % 16;
                let first = (WIRING..asked.claim.len()).find(uses);
                first.map_or(asked.right, |at| refused(13, at))
            }),
            sweeps::damaged_match_claims,
        ),
        (
            "one input of g both plain and inverted",
            instead(13, |asked| {
                let before = &asked.claim[WIRING..asked.right.place as usize];
                match before.contains(&asked.fault()) {
                    true => asked.right,
                    false => refused(14, 0),
                }
            }),
            sweeps::damaged_match_claims,
        ),
        (
            "input n of g, inverted",
            instead(12, |asked| match asked.fault() as usize == 16 + asked.n() {
                true => refused(14, 0),
                false => asked.right,
            }),
            sweeps::damaged_match_claims,
        ),
        (
            "bytes from 32 upward read like those below",
            instead(12, |asked| asked.with(asked.right.place as usize, asked.fault() % 32)),
            sweeps::damaged_match_claims,
        ),
        (
            "14 at the first wiring byte",
            instead(14, |asked| Answer { place: WIRING as u64, ..asked.right }),
            sweeps::match_claims,
        ),
    ]
}

/// 14 with a wrong pattern.
fn misnamed(wrong: OfWiring) -> Call {
    Box::new(move |f, g, claim| {
        let right = check(f, g, claim).answer;
        if right.code != 14 {
            return right.packed();
        }
        let given = Given::new(two(f, g).expect("14 is of the claim"));
        right.naming(wrong(&given, &wiring_of(claim), right.pattern as usize)).packed()
    })
}

fn patterns() -> Vec<Mistake> {
    let wirings = OF_WIRING.map(|(name, wrong)| (name, misnamed(wrong)));
    let wirings = wirings.map(|(name, call)| (name, call, sweeps::wrong_wirings as Sweep));
    let records =
        misnaming().map(|(name, other)| (name, read(other), sweeps::clashing_records as Sweep));
    let others: [Mistake; 6] = [
        (
            "a pattern left in an accepted match",
            instead(0, |asked| match asked.right.kind {
                MATCH => asked.right.naming(1),
                _ => asked.right,
            }),
            sweeps::match_claims,
        ),
        (
            "a pattern left in an accepted refusal",
            instead(0, |asked| match asked.right.kind {
                NO_MATCH => asked.right.naming(255),
                _ => asked.right,
            }),
            sweeps::small_trees,
        ),
        (
            "a pattern told with 13",
            instead(13, |asked| asked.right.naming(1)),
            sweeps::short_claims,
        ),
        (
            "the pattern of 14 told as its place",
            instead(14, |asked| Answer { place: asked.right.pattern, pattern: 0, ..asked.right }),
            sweeps::match_claims,
        ),
        (
            "the pattern and its place",
            instead(14, |asked| Answer { place: asked.right.pattern, ..asked.right }),
            sweeps::match_claims,
        ),
        (
            "the pattern without its top bit",
            instead(14, |asked| asked.right.naming(asked.right.pattern as usize % 128)),
            sweeps::known_patterns,
        ),
    ];
    wirings.into_iter().chain(records).chain(others).collect()
}

fn places() -> Vec<Mistake> {
    vec![
        (
            "places counted from the first tree's start",
            told(|asked| match asked.node {
                Some(_) => asked.earlier(TREES as u64),
                None => asked.right,
            }),
            sweeps::small_trees,
        ),
        ("a missing u or v told at its node", instead(1, at_the_node), sweeps::small_trees),
        ("15 for u or v told at its node", instead(15, at_the_node), sweeps::small_trees),
        (
            "15 for v told at u",
            instead(15, |asked| asked.earlier(asked.at(NodeByte::V) as u64)),
            sweeps::small_trees,
        ),
        (
            "17 at u's place",
            instead(17, |asked| Answer { place: asked.right.place + 1, ..asked.right }),
            sweeps::other_closings,
        ),
        (
            "u not tested before v is looked for",
            instead(15, |asked| {
                let last = asked.right.place as usize + 1 == asked.claim.len();
                match asked.at(NodeByte::U) && last {
                    true => refused(1, asked.claim.len()),
                    false => asked.right,
                }
            }),
            sweeps::short_claims,
        ),
        (
            "a split at depth n told as 15",
            instead(16, |asked| Answer { code: 15, ..asked.right }),
            sweeps::small_trees,
        ),
        (
            "any bad first byte at depth n told as 16",
            instead(15, |asked| match asked.node {
                Some(Node { depth, byte: NodeByte::First, .. }) if depth == asked.n() => {
                    Answer { code: 16, ..asked.right }
                }
                _ => asked.right,
            }),
            sweeps::small_trees,
        ),
        (
            "the second tree not read",
            told(|asked| match asked.node {
                Some(Node { q: true, .. }) => Answer::accepted(NO_MATCH, asked.claim.len()),
                _ => asked.right,
            }),
            sweeps::small_trees,
        ),
    ]
}

/// The right answer at the first byte of its node, if it has one.
fn at_the_node(asked: &Asked) -> Answer {
    match asked.node {
        Some(Node { byte: NodeByte::U, .. }) => asked.earlier(1),
        Some(Node { byte: NodeByte::V, .. }) => asked.earlier(2),
        _ => asked.right,
    }
}

/// A wrong reading of the records.
fn read(other: impl Fn(&[u8], &[u8], Answer) -> Answer + 'static) -> Call {
    Box::new(move |f, g, claim| other(f, g, check(f, g, claim).answer).packed())
}

fn records() -> Vec<Mistake> {
    let readings = READINGS.map(|(name, other)| (name, read(other), sweeps::bad_records as Sweep));
    let others: [Mistake; 2] = [
        (
            "the claim before 9",
            told(|asked| match asked.right.code {
                9 => check(asked.f, asked.f, asked.claim).answer,
                _ => asked.right,
            }),
            sweeps::bad_records,
        ),
        (
            "f and g changed places",
            told(|asked| check(asked.g, asked.f, asked.claim).answer),
            sweeps::match_claims,
        ),
    ];
    readings.into_iter().chain(others).collect()
}
