//! Pairs to be kept apart, and the literals that do it.

use super::pattern::{names, Cube};
use super::two::Two;
use super::wiring::Partial;

/// A pair to be kept apart under some q, named as a closing names it.
///
/// s = 0 takes cube u of f's on list, s = 1 of f's off list; v is the index in
/// the list of g from which it must be kept apart. Their order is s, u, v.
#[derive(Clone, Copy, Debug, PartialEq, Eq, PartialOrd, Ord)]
pub struct Pair {
    pub s: usize,
    pub u: usize,
    pub v: usize,
}

impl Two {
    /// The list of f that s takes, and the list of g to keep it apart from.
    pub fn lists(&self, q: bool, s: usize) -> (&[Cube], &[Cube]) {
        match (q, s) {
            (false, 0) => (&self.f.on, &self.g.off),
            (false, _) => (&self.f.off, &self.g.on),
            (true, 0) => (&self.f.on, &self.g.on),
            (true, _) => (&self.f.off, &self.g.off),
        }
    }

    /// The cube of f and the cube of g of a pair, if the lists reach so far.
    pub fn cubes(&self, q: bool, pair: Pair) -> Option<(Cube, Cube)> {
        let (of_f, of_g) = self.lists(q, pair.s);
        Some((*of_f.get(pair.u)?, *of_g.get(pair.v)?))
    }

    /// The pairs to be kept apart under q in order, each with its two cubes.
    pub fn pairs(&self, q: bool) -> impl Iterator<Item = (Pair, Cube, Cube)> + '_ {
        (0..2).flat_map(move |s| {
            let (of_f, of_g) = self.lists(q, s);
            of_f.iter().enumerate().flat_map(move |(u, &one)| {
                of_g.iter().enumerate().map(move |(v, &other)| (Pair { s, u, v }, one, other))
            })
        })
    }

    /// Whether a whole wiring separates every pair to be kept apart under q.
    pub fn all_separated(&self, q: bool, inputs: &Partial) -> bool {
        self.pairs(q).all(|(_, of_f, of_g)| separates(inputs, of_f, of_g))
    }
}

/// The value that a cube's literal asks of an input, if it has a literal there.
pub fn asks(cube: Cube, input: usize) -> Option<bool> {
    if names(cube.p, input) {
        Some(true)
    } else if names(cube.n, input) {
        Some(false)
    } else {
        None
    }
}

/// Whether some literal of f's cube, carried over, is the opposite of a literal
/// of g's cube. Under a partial wiring the placed inputs alone count.
pub fn separates(inputs: &Partial, of_f: Cube, of_g: Cube) -> bool {
    inputs.placed.iter().enumerate().any(|(i, choice)| match asks(of_f, i) {
        Some(of_i) => {
            // Input i of f has this value where input j of g has that one.
            let of_j = of_i != choice.inverted;
            asks(of_g, choice.j) == Some(!of_j)
        }
        None => false,
    })
}

#[cfg(test)]
mod tests {
    use super::*;
    use crate::cases::{CONJ, ODD};
    use crate::reference::agreement::read_at;
    use crate::reference::pattern::{every_cube, patterns};
    use crate::reference::two::two;

    /// A pair is separated just if the cubes share no pattern when f's is read
    /// through the wiring: every pair of cubes, every whole wiring.
    #[test]
    fn separated_cubes_share_no_pattern() {
        for n in 1..=3 {
            for inputs in Partial::empty(n).completions() {
                for of_f in every_cube(n) {
                    for of_g in every_cube(n) {
                        let both = |y| of_f.holds(read_at(&inputs, y)) && of_g.holds(y);
                        let apart = !patterns(n).any(both);
                        let by_literals = separates(&inputs, of_f, of_g);
                        assert_eq!(by_literals, apart, "{inputs:?} {of_f:?} {of_g:?}");
                    }
                }
            }
        }
    }

    #[test]
    fn pairs_come_in_order_from_the_lists_of_their_phase() {
        let two = two(CONJ, ODD).expect("two cases of 01");
        // Conj has 1 on cube and 2 off cubes, Odd has 2 and 2.
        let named = |q| two.pairs(q).map(|(pair, ..)| [pair.s, pair.u, pair.v]);
        let expected = [[0, 0, 0], [0, 0, 1], [1, 0, 0], [1, 0, 1], [1, 1, 0], [1, 1, 1]];
        for q in [false, true] {
            assert!(named(q).eq(expected), "q {q}");
            for (pair, of_f, of_g) in two.pairs(q) {
                assert_eq!(two.cubes(q, pair), Some((of_f, of_g)));
            }
        }
        let first = |q| two.pairs(q).next().map(|(_, of_f, of_g)| (of_f, of_g));
        assert_eq!(first(false), Some((Cube { p: 3, n: 0 }, Cube { p: 3, n: 0 })));
        assert_eq!(first(true), Some((Cube { p: 3, n: 0 }, Cube { p: 1, n: 2 })));
        assert_eq!(two.cubes(true, Pair { s: 0, u: 1, v: 0 }), None);
    }
}
