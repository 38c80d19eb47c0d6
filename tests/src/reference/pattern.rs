//! Patterns, cubes, and where a function is on, off or open.

use std::ops::Range;

/// A mask is a byte, so it can name the inputs 0 to 7, whatever n is.
pub const INPUTS: usize = 8;

/// The patterns of n inputs: the numbers from 0 to 2^n - 1.
pub fn patterns(n: usize) -> Range<usize> {
    0..1 << n
}

/// The value of an input at a pattern: input i has the value of bit i.
pub fn value(pattern: usize, input: usize) -> bool {
    (pattern >> input) % 2 == 1
}

/// Whether a mask names an input.
pub fn names(mask: u8, input: usize) -> bool {
    (mask >> input) % 2 == 1
}

/// A cube is two masks: P names the inputs that must be 1, N those that must be 0.
#[derive(Clone, Copy, Debug, PartialEq, Eq)]
pub struct Cube {
    pub p: u8,
    pub n: u8,
}

impl Cube {
    /// A cube without literals.
    pub const ALL: Cube = Cube { p: 0, n: 0 };

    /// Whether every input of P is 1 and every input of N is 0.
    pub fn holds(self, pattern: usize) -> bool {
        for input in 0..INPUTS {
            if names(self.p, input) && !value(pattern, input) {
                return false;
            }
            if names(self.n, input) && value(pattern, input) {
                return false;
            }
        }
        true
    }

    /// Whether either mask names an input.
    pub fn names(self, input: usize) -> bool {
        names(self.p, input) || names(self.n, input)
    }

    /// Whether both masks name an input.
    pub fn names_twice(self, input: usize) -> bool {
        names(self.p, input) && names(self.n, input)
    }
}

/// The cubes of n inputs: each input is in P, in N or in neither.
pub fn every_cube(n: usize) -> Vec<Cube> {
    let masks = 0..=(patterns(n).end - 1) as u8;
    let cubes = masks.clone().flat_map(|p| masks.clone().map(move |n| Cube { p, n }));
    cubes.filter(|cube| !(0..n).any(|input| cube.names_twice(input))).collect()
}

/// The smallest pattern that two cubes share: all 256 are tried.
pub fn smallest_shared(one: Cube, other: Cube) -> Option<usize> {
    patterns(INPUTS).find(|&pattern| one.holds(pattern) && other.holds(pattern))
}

/// Whether two cubes share a pattern.
pub fn share(one: Cube, other: Cube) -> bool {
    smallest_shared(one, other).is_some()
}

/// For each pattern of n inputs, whether some cube of the list holds it.
pub fn held(cubes: &[Cube], n: usize) -> Vec<bool> {
    patterns(n).map(|pattern| cubes.iter().any(|cube| cube.holds(pattern))).collect()
}

/// What is told of a function whose lists meet.
#[derive(Clone, Copy, Debug, PartialEq, Eq)]
pub struct Clash {
    /// The first on cube that shares a pattern with any off cube, by its index.
    pub at: usize,
    /// The smallest pattern that this cube shares with any off cube.
    pub pattern: usize,
}

/// A function of n inputs. Either list may be empty; both may be.
#[derive(Clone, Debug, PartialEq, Eq)]
pub struct Function {
    pub n: usize,
    pub on: Vec<Cube>,
    pub off: Vec<Cube>,
}

impl Function {
    pub fn is_on(&self, pattern: usize) -> bool {
        self.on.iter().any(|cube| cube.holds(pattern))
    }

    pub fn is_off(&self, pattern: usize) -> bool {
        self.off.iter().any(|cube| cube.holds(pattern))
    }

    pub fn is_open(&self, pattern: usize) -> bool {
        !self.is_on(pattern) && !self.is_off(pattern)
    }

    /// The cubes of both lists, the on list first.
    pub fn cubes(&self) -> impl Iterator<Item = Cube> + '_ {
        self.on.iter().chain(&self.off).copied()
    }

    /// The first clash.
    ///
    /// Asking for the smallest pattern of an on cube that is off is the same as asking
    /// `smallest_shared` of every off cube in turn, and much quicker. A test below says so.
    pub fn first_clash(&self) -> Option<Clash> {
        let off = held(&self.off, self.n);
        self.on.iter().enumerate().find_map(|(at, cube)| {
            let mut shared =
                patterns(self.n).filter(|&pattern| off[pattern] && cube.holds(pattern));
            shared.next().map(|pattern| Clash { at, pattern })
        })
    }
}

#[cfg(test)]
mod tests {
    use super::*;
    use crate::random::{any_function, clash, Random};
    use std::collections::BTreeSet;

    #[test]
    fn a_cube_without_literals_holds_all_patterns() {
        assert!(patterns(INPUTS).all(|pattern| Cube::ALL.holds(pattern)));
    }

    #[test]
    fn there_are_three_cubes_for_each_input() {
        assert_eq!([1, 2, 3, 4].map(|n| every_cube(n).len()), [3, 9, 27, 81]);
        assert!(every_cube(3).iter().all(|cube| patterns(3).any(|pattern| cube.holds(pattern))));
    }

    #[test]
    fn a_cube_holds_by_its_literals_alone() {
        // Input 0 is 1 and input 2 is 0.
        let cube = Cube { p: 0b001, n: 0b100 };
        let expected = [false, true, false, true, false, false, false, false];
        for pattern in patterns(3) {
            assert_eq!(cube.holds(pattern), expected[pattern], "pattern {pattern}");
        }
    }

    #[test]
    fn an_input_in_both_masks_leaves_no_pattern() {
        let cube = Cube { p: 2, n: 2 };
        assert!(patterns(INPUTS).all(|pattern| !cube.holds(pattern)));
        assert!(!share(cube, Cube::ALL));
    }

    #[test]
    fn cubes_share_unless_a_literal_opposes() {
        assert!(share(Cube { p: 1, n: 0 }, Cube { p: 2, n: 0 }));
        assert!(!share(Cube { p: 1, n: 2 }, Cube { p: 2, n: 0 }));
    }

    #[test]
    fn the_smallest_shared_pattern_has_all_ones_that_are_asked_and_no_others() {
        // Inputs 0 and 1 must be 1, input 2 must be 0; input 3 may be either.
        let (one, other) = (Cube { p: 0b0001, n: 0b0100 }, Cube { p: 0b0010, n: 0 });
        assert_eq!(smallest_shared(one, other), Some(0b0011));
        assert_eq!(smallest_shared(Cube { p: 0x80, n: 0 }, Cube::ALL), Some(0x80));
        assert_eq!(smallest_shared(Cube::ALL, Cube { p: 0, n: 0xFF }), Some(0));
        assert_eq!(smallest_shared(Cube { p: 1, n: 0 }, Cube { p: 0, n: 1 }), None);
    }

    #[test]
    fn on_off_and_open() {
        let f = Function { n: 2, on: vec![Cube { p: 3, n: 0 }], off: vec![Cube { p: 0, n: 1 }] };
        assert!(f.is_on(3) && !f.is_off(3) && !f.is_open(3));
        assert!(f.is_off(0) && f.is_off(2));
        assert!(f.is_open(1));
    }

    #[test]
    fn the_first_clash_is_the_one_found_pair_by_pair() {
        let mut random = Random::new(1);
        let mut patterns = BTreeSet::new();
        for _ in 0..300 {
            let mut f = any_function(&mut random);
            clash(&mut random, &mut f);
            let first = f.on.iter().position(|&on| f.off.iter().any(|&off| share(on, off)));
            let by_pairs = first.map(|at| {
                let shared = f.off.iter().filter_map(|&off| smallest_shared(f.on[at], off));
                Clash { at, pattern: shared.min().expect("it shares one") }
            });
            assert_eq!(f.first_clash(), by_pairs, "{f:?}");
            patterns.extend(by_pairs.map(|clash| clash.pattern));
        }
        assert!(patterns.len() > 20, "only {patterns:?}");
    }
}
