//! Pairs of functions for the matcher.

use crate::random::{constant, few, function_of, one_sided, with_one_list, Random};
use crate::reference::pattern::{every_cube, Cube, Function};
use crate::reference::two::Two;
use crate::reference::wiring::Partial;

/// All valid functions of n inputs with so many cubes in a list at most.
pub fn every_function(n: usize, most: usize) -> Vec<Function> {
    let mut lists: Vec<Vec<Cube>> = vec![vec![]];
    let mut longest = lists.clone();
    for _ in 0..most {
        let longer = |list: &Vec<Cube>| {
            let list = list.clone();
            every_cube(n).into_iter().map(move |cube| [&list[..], &[cube]].concat())
        };
        longest = longest.iter().flat_map(longer).collect();
        lists.extend(longest.clone());
    }
    let with_on = |on: &Vec<Cube>| {
        let on = on.clone();
        lists.iter().map(move |off| Function { n, on: on.clone(), off: off.clone() })
    };
    lists.iter().flat_map(with_on).filter(|f| f.first_clash().is_none()).collect()
}

/// Lists of more than a few cubes leave few wirings that agree.
pub fn several(random: &mut Random) -> usize {
    3 + random.below(6)
}

/// So many cubes leave hardly any wiring but the one that they were carried by.
pub fn many(random: &mut Random) -> usize {
    8 + random.below(25)
}

/// A function that is open, or constant, or has one list alone, or any.
pub fn special(random: &mut Random, n: usize) -> Function {
    let size = few(random);
    match random.below(5) {
        0 => Function { n, on: vec![], off: vec![] },
        1 => constant(random, n, 1),
        2 => constant(random, n, size),
        3 => one_sided(random, n, size),
        _ => function_of(random, n, few),
    }
}

/// The last input alone.
pub fn last_input(n: usize) -> Function {
    let last = 1 << (n - 1);
    Function { n, on: vec![Cube { p: last, n: 0 }], off: vec![Cube { p: 0, n: last }] }
}

/// On, or else off, at the first pattern and at the last. With the last input alone
/// nothing is dead before all is placed: the longest refusal of n inputs.
pub fn both_ends(n: usize, on: bool) -> Function {
    let all = ((1 << n) - 1) as u8;
    with_one_list(n, vec![Cube { p: 0, n: all }, Cube { p: all, n: 0 }], on)
}

/// Whether the search for two functions comes to its end within so many nodes: of
/// more inputs than four only such pairs are asked.
pub fn ends_within(two: &Two, nodes: usize) -> bool {
    /// Whether a wiring below agrees; nothing if there are not nodes enough.
    fn below(two: &Two, q: bool, partial: &Partial, left: &mut usize) -> Option<bool> {
        *left = left.checked_sub(1)?;
        if two.dead_pairs(q, partial).next().is_some() {
            return Some(false);
        }
        if partial.is_whole() {
            return Some(true);
        }
        for choice in partial.free() {
            if below(two, q, &partial.with(choice), left)? {
                return Some(true);
            }
        }
        Some(false)
    }
    let mut left = nodes;
    let mut under = |q| below(two, q, &Partial::empty(two.n()), &mut left);
    match under(false) {
        Some(false) => under(true).is_some(),
        ended => ended.is_some(),
    }
}

#[cfg(test)]
mod tests {
    use super::*;
    use crate::reference::matcher::first_by_the_rule;
    use crate::wirings::pairs::any_pair;

    #[test]
    fn every_function_is_there_and_valid() {
        // Three cubes, of which two share no pattern: both lists in use have one each.
        assert_eq!(every_function(1, 1).len(), 1 + 2 * 3 + 2);
        // Also both one-sided ones of two cubes, and either cube twice in its list.
        assert_eq!(every_function(1, 2).len(), 1 + 2 * 3 + 2 * 9 + 2 * 4);
        assert!(every_function(2, 1).iter().all(|f| f.first_clash().is_none()));
    }

    /// With as many nodes as there are it ends, with one less it does not.
    #[test]
    fn a_search_ends_within_its_nodes() {
        let mut random = Random::new(16);
        for n in 1..=4 {
            for _ in 0..50 {
                let two = any_pair(&mut random, n).two;
                let nodes = (0..).find(|&nodes| ends_within(&two, nodes)).expect("it ends");
                assert!(ends_within(&two, nodes + 1));
                // The way to a match has a node for each start of its wiring.
                if let Some(wiring) = first_by_the_rule(&two) {
                    assert!(nodes > n + wiring.q as usize, "{two:?}");
                } else {
                    assert!(nodes >= 2, "{two:?}");
                }
            }
        }
    }
}
