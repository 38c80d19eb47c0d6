//! The checker: whether a claim about two functions is accepted, and if not why.

use super::agreement::Tables;
use super::answer::{Answer, MATCH, NO_MATCH, OF_CLAIM};
use super::claim::{MATCH_MARK, REFUSAL_MARK, SPLIT, TREES, WIRING};
use super::dead::is_dead;
use super::pair::Pair;
use super::two::{two, Two};
use super::wiring::{Choice, Partial};

/// The checker's answer. The node is not told by the answer; it is kept so that a
/// test can see which sorts of nodes its claims were refused at.
#[derive(Clone, Copy, Debug, PartialEq, Eq)]
pub struct Checked {
    pub answer: Answer,
    pub node: Option<Node>,
}

/// The node of a tree at which a refusal claim is refused.
#[derive(Clone, Copy, Debug, PartialEq, Eq)]
pub struct Node {
    pub q: bool,
    pub depth: usize,
    pub byte: NodeByte,
}

/// The byte of a node that is missing or at fault; 17 counts as its first byte's.
#[derive(Clone, Copy, Debug, PartialEq, Eq)]
pub enum NodeByte {
    First,
    U,
    V,
}

/// The call: two records and a claim.
pub fn check(f: &[u8], g: &[u8], claim: &[u8]) -> Checked {
    match two(f, g) {
        Err(answer) => Checked { answer, node: None },
        Ok(two) => check_in(&two, claim),
    }
}

/// The same with both records read.
pub fn check_in(two: &Two, claim: &[u8]) -> Checked {
    let kind = match header(two, claim) {
        Ok(kind) => kind,
        Err(answer) => return Checked { answer, node: None },
    };
    let refusal = match kind {
        MATCH => match_claim(two, claim).err().map(|answer| Checked { answer, node: None }),
        _ => refusal_claim(two, claim).err(),
    };
    let accepted = Checked { answer: Answer::accepted(kind, claim.len()), node: None };
    refusal.unwrap_or(accepted)
}

fn refused(code: u64, place: usize) -> Answer {
    Answer::refused(code, OF_CLAIM, place)
}

/// The byte at a place; a missing one gives 1, at the length.
fn byte_at(claim: &[u8], place: usize) -> Result<u8, Answer> {
    claim.get(place).copied().ok_or(refused(1, claim.len()))
}

/// The mark and n, byte by byte: the kind of the claim. The first byte of the
/// mark decides it.
fn header(two: &Two, claim: &[u8]) -> Result<u64, Answer> {
    let first = byte_at(claim, 0)?;
    let (kind, mark) = if first == MATCH_MARK[0] {
        (MATCH, MATCH_MARK)
    } else if first == REFUSAL_MARK[0] {
        (NO_MATCH, REFUSAL_MARK)
    } else {
        return Err(refused(2, 0));
    };
    if byte_at(claim, 1)? != mark[1] {
        return Err(refused(2, 1));
    }
    if byte_at(claim, 2)? as usize != two.n() {
        return Err(refused(10, 2));
    }
    Ok(kind)
}

/// The rest of a match claim: its length, q, the wiring byte by byte, agreement.
fn match_claim(two: &Two, claim: &[u8]) -> Result<(), Answer> {
    let n = two.n();
    let end = WIRING + n;
    if claim.len() < end {
        return Err(refused(1, claim.len()));
    }
    if claim.len() > end {
        return Err(refused(8, end));
    }
    let q = match claim[3] {
        0 => false,
        1 => true,
        _ => return Err(refused(11, 3)),
    };
    let mut inputs = Partial::empty(n);
    for (place, &byte) in claim.iter().enumerate().skip(WIRING) {
        let Some(choice) = Choice::from_byte(byte, n) else {
            return Err(refused(12, place));
        };
        if inputs.uses(choice.j) {
            return Err(refused(13, place));
        }
        inputs = inputs.with(choice);
    }
    let first = Tables::of(two).disagreements(q, &inputs).next();
    first.map_or(Ok(()), |pattern| Err(refused(14, 0).naming(pattern)))
}

/// The rest of a refusal claim: a tree for q = 0, a tree for q = 1, nothing more.
fn refusal_claim(two: &Two, claim: &[u8]) -> Result<(), Checked> {
    let mut place = TREES;
    for q in [false, true] {
        place = tree(two, claim, q, &Partial::empty(two.n()), place)?;
    }
    if place < claim.len() {
        return Err(Checked { answer: refused(8, place), node: None });
    }
    Ok(())
}

/// Reads the tree that starts at a place: the place after its end.
fn tree(
    two: &Two,
    claim: &[u8],
    q: bool,
    partial: &Partial,
    start: usize,
) -> Result<usize, Checked> {
    // What a refusal here tells besides its answer.
    let depth = partial.placed.len();
    let at = |byte| move |answer| Checked { answer, node: Some(Node { q, depth, byte }) };
    let (at_first, at_u, at_v) = (at(NodeByte::First), at(NodeByte::U), at(NodeByte::V));

    let first = byte_at(claim, start).map_err(at_first)?;
    match first {
        0 | 1 => {
            let s = first as usize;
            let (of_f, of_g) = two.lists(q, s);
            let u = byte_at(claim, start + 1).map_err(at_u)? as usize;
            if u >= of_f.len() {
                return Err(at_u(refused(15, start + 1)));
            }
            let v = byte_at(claim, start + 2).map_err(at_v)? as usize;
            if v >= of_g.len() {
                return Err(at_v(refused(15, start + 2)));
            }
            let (one, other) = two.cubes(q, Pair { s, u, v }).expect("both are in their lists");
            if !is_dead(partial, one, other) {
                return Err(at_first(refused(17, start)));
            }
            Ok(start + 3)
        }
        SPLIT if partial.is_whole() => Err(at_first(refused(16, start))),
        SPLIT => {
            let mut place = start + 1;
            for choice in partial.free() {
                place = tree(two, claim, q, &partial.with(choice), place)?;
            }
            Ok(place)
        }
        _ => Err(at_first(refused(15, start))),
    }
}

#[cfg(test)]
mod tests {
    use super::*;
    use crate::cases::CLAIMS;

    #[test]
    fn the_claims_that_01_names() {
        for case in CLAIMS {
            let checked = check(case.f, case.g, case.claim);
            assert_eq!(checked.answer, case.answer(), "{}", case.name);
        }
    }
}
