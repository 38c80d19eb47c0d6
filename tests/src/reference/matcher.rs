//! The matcher: the first agreeing wiring, or else a refusal with trees of its own.
//!
//! For few inputs everything is tried: all wirings in order, each on patterns, and
//! for each node of a tree all completions. For more inputs the rule on literals
//! says which starts of wirings are passed over. A test below holds the two
//! against each other.

use super::agreement::Tables;
use super::answer::{Answer, MATCH, NO_MATCH, OF_BUFFER};
use super::claim::{match_claim, refusal_claim, Tree};
use super::dead::TRIED;
use super::two::{two, Two};
use super::wiring::{Partial, Wiring};

/// What there is to claim about two functions.
#[derive(Clone, Debug, PartialEq, Eq)]
pub enum Found {
    Match(Wiring),
    /// The trees for q = 0 and for q = 1.
    NoMatch([Tree; 2]),
}

impl Found {
    pub fn of(two: &Two) -> Found {
        let few = two.n() <= TRIED;
        let first = if few { first_on_patterns(two) } else { first_by_the_rule(two) };
        if let Some(wiring) = first {
            return Found::Match(wiring);
        }
        let own_tree = if few { Two::own_tree_by_completions } else { Two::own_tree };
        Found::NoMatch([false, true].map(|q| own_tree(two, q).expect("no wiring agrees")))
    }

    pub fn kind(&self) -> u64 {
        match self {
            Found::Match(_) => MATCH,
            Found::NoMatch(_) => NO_MATCH,
        }
    }

    /// The bytes of the claim.
    pub fn claim(&self, n: usize) -> Vec<u8> {
        match self {
            Found::Match(wiring) => match_claim(wiring),
            Found::NoMatch(trees) => refusal_claim(n, trees),
        }
    }
}

/// The first of all wirings that agrees on patterns.
pub fn first_on_patterns(two: &Two) -> Option<Wiring> {
    let tables = Tables::of(two);
    first_of(|q| Partial::empty(two.n()).first_completion(&|inputs| tables.agree(q, inputs)))
}

/// The first wiring in which the rule finds no dead pair, nor in any of its starts.
pub fn first_by_the_rule(two: &Two) -> Option<Wiring> {
    fn below(two: &Two, q: bool, partial: &Partial) -> Option<Partial> {
        if two.dead_pairs(q, partial).next().is_some() {
            return None;
        }
        if partial.is_whole() {
            return Some(partial.clone());
        }
        partial.free().into_iter().find_map(|choice| below(two, q, &partial.with(choice)))
    }
    first_of(|q| below(two, q, &Partial::empty(two.n())))
}

/// The first wiring under either q: q = 0 comes before q = 1.
fn first_of(under: impl Fn(bool) -> Option<Partial>) -> Option<Wiring> {
    let with = |q| under(q).map(|inputs| Wiring { q, inputs });
    with(false).or_else(|| with(true))
}

impl Two {
    /// The matcher's own tree, each node by all of its completions.
    fn own_tree_by_completions(&self, q: bool) -> Option<Tree> {
        Tree::grown(&Partial::empty(self.n()), &mut |partial| self.first_dead(q, partial))
    }
}

/// The call: the answer, and the claim if it is written. `room` is the buffer's
/// length.
pub fn find(f: &[u8], g: &[u8], room: usize) -> (Answer, Option<Vec<u8>>) {
    match two(f, g) {
        Err(answer) => (answer, None),
        Ok(two) => {
            let found = Found::of(&two);
            put(found.kind(), found.claim(two.n()), room)
        }
    }
}

/// The claim, if there is room for all of it.
pub fn put(kind: u64, claim: Vec<u8>, room: usize) -> (Answer, Option<Vec<u8>>) {
    if claim.len() > room {
        return (Answer::refused(18, OF_BUFFER, claim.len()), None);
    }
    (Answer::accepted(kind, claim.len()), Some(claim))
}

#[cfg(test)]
mod tests {
    use super::*;
    use crate::cases::MATCHINGS;
    use crate::claims::trees::refused_pair;
    use crate::random::Random;
    use crate::reference::checker::check_in;
    use crate::wirings::pairs::any_pair;

    #[test]
    fn the_matchings_that_01_names() {
        for case in MATCHINGS {
            let (answer, written) = find(case.f, case.g, case.room);
            assert_eq!(answer, case.answer(), "{}", case.name);
            assert_eq!(written.as_deref(), case.written, "{}", case.name);
        }
    }

    /// What is found by trying everything is found by the rule, and the other way
    /// round: up to 4 inputs the trees as well, with 5 the wirings alone.
    #[test]
    fn the_rule_finds_what_is_found_by_trying_everything() {
        let mut random = Random::new(13);
        let mut seen = [0; 2];
        for (n, rounds) in [(1, 100), (2, 200), (3, 200), (4, 60), (5, 20)] {
            for round in 0..rounds {
                let two = match round % 3 {
                    0 if n <= TRIED => refused_pair(&mut random, n),
                    _ => any_pair(&mut random, n).two,
                };
                let first = first_on_patterns(&two);
                assert_eq!(first_by_the_rule(&two), first, "{two:?}");
                if n <= TRIED {
                    for q in [false, true] {
                        assert_eq!(two.own_tree(q), two.own_tree_by_completions(q), "{two:?}");
                    }
                }
                seen[first.is_some() as usize] += 1;
            }
        }
        assert!(seen.iter().all(|&count| count >= 100), "{seen:?}");
    }

    /// Each claim is accepted, with its kind, and is as long as it is said to be.
    #[test]
    fn every_claim_is_accepted() {
        let mut random = Random::new(14);
        for n in 1..=4 {
            for _ in 0..100 {
                let two = any_pair(&mut random, n).two;
                let found = Found::of(&two);
                let claim = found.claim(n);
                let checked = check_in(&two, &claim).answer;
                assert_eq!(checked, Answer::accepted(found.kind(), claim.len()), "{two:?}");
            }
        }
    }
}
