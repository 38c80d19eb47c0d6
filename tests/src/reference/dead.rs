//! Dead pairs, by what they are for: no completion separates them.
//!
//! 01 also has a rule on literals for this, and says that it comes to the same.
//! The calls follow the rule; here all completions are tried, unless there are
//! too many. A test below holds the two against each other.

use super::pair::{asks, separates, Pair};
use super::pattern::Cube;
use super::two::{two, Two};
use super::wiring::{BadWiring, Partial};

/// Whether none of these whole wirings separates the pair.
pub fn dead(completions: &[Partial], of_f: Cube, of_g: Cube) -> bool {
    !completions.iter().any(|inputs| separates(inputs, of_f, of_g))
}

/// The rule on literals: no placed literal separates the pair, and either the
/// cube of f has no literal on an unplaced input or the cube of g has none on an
/// unused input.
pub fn dead_by_the_rule(partial: &Partial, of_f: Cube, of_g: Cube) -> bool {
    let Partial { n, placed } = partial;
    let no_unplaced = (placed.len()..*n).all(|i| asks(of_f, i).is_none());
    let no_unused = (0..*n).all(|j| partial.uses(j) || asks(of_g, j).is_none());
    !separates(partial, of_f, of_g) && (no_unplaced || no_unused)
}

/// Up to so many inputs there are few enough completions, 384 at most.
pub const TRIED: usize = 4;

/// Whether a pair is dead under a partial wiring: by its completions for few
/// inputs, by the rule for more.
pub fn is_dead(partial: &Partial, of_f: Cube, of_g: Cube) -> bool {
    if partial.n > TRIED {
        return dead_by_the_rule(partial, of_f, of_g);
    }
    if partial.is_whole() {
        return !separates(partial, of_f, of_g);
    }
    partial.free().into_iter().all(|choice| is_dead(&partial.with(choice), of_f, of_g))
}

impl Two {
    /// The pairs that are dead under a partial wiring, in order, by the rule:
    /// a claim made from them is read by a checker that tries completions.
    pub fn dead_pairs<'a>(
        &'a self,
        q: bool,
        partial: &'a Partial,
    ) -> impl Iterator<Item = Pair> + 'a {
        let pairs = self.pairs(q);
        pairs
            .filter(|&(_, of_f, of_g)| dead_by_the_rule(partial, of_f, of_g))
            .map(|(pair, ..)| pair)
    }

    /// The first pair, in order of s, u, v, that is dead under a partial wiring.
    pub fn first_dead(&self, q: bool, partial: &Partial) -> Option<Pair> {
        let completions = partial.completions();
        let mut pairs = self.pairs(q);
        pairs.find(|&(_, of_f, of_g)| dead(&completions, of_f, of_g)).map(|(pair, ..)| pair)
    }
}

/// What the call for dead pairs has to say.
#[derive(Clone, Copy, Debug, PartialEq, Eq)]
pub enum Found {
    /// The records are refused with this code, or differ in n (code 9).
    BadRecords(u64),
    BadWiring(BadWiring),
    /// No pair is to be kept apart, so none is dead.
    NoPairs,
    /// There are pairs, and none is dead.
    Nothing,
    Pair(Pair),
}

impl Found {
    /// The one number that carries it.
    pub fn packed(self) -> u64 {
        match self {
            Found::BadRecords(_) | Found::BadWiring(_) => 0,
            Found::NoPairs | Found::Nothing => 1,
            Found::Pair(Pair { s, u, v }) => (2 + s + 256 * u + 65_536 * v) as u64,
        }
    }
}

/// The call: two records, the bytes of a partial wiring, and q.
pub fn find(f: &[u8], g: &[u8], w: &[u8], q: u8) -> Found {
    match two(f, g) {
        Err(answer) => Found::BadRecords(answer.code),
        Ok(two) => find_in(&two, w, q),
    }
}

/// The same with both records read. Any q above 0 counts as 1.
pub fn find_in(two: &Two, w: &[u8], q: u8) -> Found {
    match Partial::from_bytes(w, two.n()) {
        Err(why) => Found::BadWiring(why),
        Ok(partial) => match two.first_dead(q > 0, &partial) {
            None if two.pairs(q > 0).next().is_none() => Found::NoPairs,
            None => Found::Nothing,
            Some(pair) => Found::Pair(pair),
        },
    }
}

#[cfg(test)]
mod tests {
    use super::*;
    use crate::cases::DEAD;
    use crate::random::{any_cube, Random};
    use crate::reference::pattern::every_cube;

    #[test]
    fn the_dead_pairs_that_01_names() {
        for case in DEAD {
            let found = find(&case.f(), &case.g(), case.w, case.q);
            assert_eq!(found.packed(), case.answer, "{}: {found:?}", case.name);
        }
    }

    #[test]
    fn the_rule_on_literals_comes_to_the_same() {
        let mut random = Random::new(8);
        for n in 1..=5 {
            for partial in Partial::empty(n).continuations() {
                let completions = partial.completions();
                for (of_f, of_g) in cubes(&mut random, n) {
                    let meant = dead(&completions, of_f, of_g);
                    let ruled = dead_by_the_rule(&partial, of_f, of_g);
                    assert_eq!(ruled, meant, "{partial:?} {of_f:?} {of_g:?}");
                }
            }
        }
    }

    /// Every pair of cubes up to 3 inputs, then only some.
    fn cubes(random: &mut Random, n: usize) -> Vec<(Cube, Cube)> {
        if n > 3 {
            return (0..50).map(|_| (any_cube(random, n), any_cube(random, n))).collect();
        }
        let all = every_cube(n);
        all.iter().flat_map(|&of_f| all.iter().map(move |&of_g| (of_f, of_g))).collect()
    }
}
