//! Refusal claims of several shapes, and pairs of functions for them.

use crate::random::Random;
use crate::reference::claim::{refusal_claim, Tree, SPLIT, TREES};
use crate::reference::pair::Pair;
use crate::reference::pattern::{Cube, Function};
use crate::reference::two::Two;
use crate::reference::wiring::Partial;
use crate::wirings::pairs::{any_pair, any_wiring, carried, start};

/// How a tree is made. All of these are valid: 01 leaves the claimant free to
/// split where a pair is dead, and to close by any dead pair.
#[derive(Clone, Copy, Debug, PartialEq, Eq)]
pub enum Shape {
    /// The matcher's own: the first dead pair, and a split only where none is.
    Own,
    /// As the matcher's own, but by any dead pair.
    AnyPair,
    /// Split wherever it may be, and closed by the first dead pair.
    Deepest,
    /// Now and then a split too many, and any dead pair.
    Mixed,
}

pub const SHAPES: [Shape; 4] = [Shape::Own, Shape::AnyPair, Shape::Deepest, Shape::Mixed];

/// The refusal claim of this shape. No wiring agrees.
pub fn refusal(random: &mut Random, two: &Two, shape: Shape) -> Vec<u8> {
    refusal_claim(two.n(), &trees(random, two, shape))
}

/// Its two trees.
pub fn trees(random: &mut Random, two: &Two, shape: Shape) -> [Tree; 2] {
    [false, true].map(|q| {
        let mut close = |partial: &Partial| {
            let early = !partial.is_whole();
            match shape {
                Shape::Deepest if early => None,
                Shape::Mixed if early && random.flip() => None,
                Shape::Own | Shape::Deepest => two.dead_pairs(q, partial).next(),
                Shape::AnyPair | Shape::Mixed => any_dead(random, two, q, partial),
            }
        };
        Tree::grown(&Partial::empty(two.n()), &mut close).expect("no wiring agrees")
    })
}

/// One of the dead pairs, if there are any.
fn any_dead(random: &mut Random, two: &Two, q: bool, partial: &Partial) -> Option<Pair> {
    let dead: Vec<Pair> = two.dead_pairs(q, partial).collect();
    (!dead.is_empty()).then(|| random.pick(&dead))
}

/// A refusal claim about any two functions: a whole wiring that agrees is closed
/// all the same, by any pair, and by any bytes if there is no pair.
pub fn forged(random: &mut Random, two: &Two) -> Vec<u8> {
    let trees = [false, true].map(|q| {
        let pairs: Vec<Pair> = two.pairs(q).map(|(pair, ..)| pair).collect();
        let mut close = |partial: &Partial| {
            let dead = any_dead(random, two, q, partial);
            match dead {
                None if partial.is_whole() && pairs.is_empty() => Some(Pair { s: 0, u: 0, v: 0 }),
                None if partial.is_whole() => Some(random.pick(&pairs)),
                _ => dead,
            }
        };
        Tree::grown(&Partial::empty(two.n()), &mut close).expect("every whole wiring is closed")
    });
    refusal_claim(two.n(), &trees)
}

/// Writes a tree that splits wherever it may, with so many inputs unplaced, 1 or
/// more. Its closings are those for the last input plain and inverted.
pub fn split_everywhere(unplaced: usize, closings: [[u8; 3]; 2], claim: &mut Vec<u8>) {
    claim.push(SPLIT);
    if unplaced == 1 {
        claim.extend(closings.concat());
        return;
    }
    for _ in 0..2 * unplaced {
        split_everywhere(unplaced - 1, closings, claim);
    }
}

/// Two functions of 6 inputs, f on everywhere: every pair is dead at once, so that a
/// tree may be split wherever one likes.
pub const DEAD_AT_ONCE: [&[u8]; 2] =
    [&[0x46, 0x4E, 6, 1, 0, 0, 0], &[0x46, 0x4E, 6, 1, 1, 1, 0, 0, 1]];

/// A refusal of these two, of just so many bytes: an odd number from 36,775 on.
pub fn refusal_of_length(length: usize) -> Vec<u8> {
    // Split down to depth 4, the claim has 36,749 bytes. A split there has 13 bytes in
    // the place of 3, one at depth 5 has 7: some of these, and the rest goes by tens.
    let more = length - 36_749;
    let at_5 = [0, 3, 1, 4, 2][more % 10 / 2];
    let mut left = [(more - 4 * at_5) / 10, at_5];
    let mut close = |partial: &Partial| {
        let split = match partial.placed.len() {
            0..=3 => true,
            depth @ 4..=5 if left[depth - 4] > 0 => {
                left[depth - 4] -= 1;
                true
            }
            _ => false,
        };
        (!split).then_some(Pair { s: 0, u: 0, v: 0 })
    };
    let mut tree = || Tree::grown(&Partial::empty(6), &mut close).expect("closed at depth 6");
    refusal_claim(6, &[tree(), tree()])
}

/// Where the closings of a refusal claim start, each with its q.
pub fn closings(trees: &[Tree; 2]) -> Vec<(usize, bool)> {
    fn walk(tree: &Tree, q: bool, place: &mut usize, found: &mut Vec<(usize, bool)>) {
        match tree {
            Tree::Closing(_) => {
                found.push((*place, q));
                *place += 3;
            }
            Tree::Split(children) => {
                *place += 1;
                children.iter().for_each(|child| walk(child, q, place, found));
            }
        }
    }
    let mut place = TREES;
    let mut found = vec![];
    for (tree, q) in trees.iter().zip([false, true]) {
        walk(tree, q, &mut place, &mut found);
    }
    found
}

/// Two functions of n inputs that no wiring fits, seldom such that both trees
/// can close at the root. With 1 input they always can.
///
/// The search for them takes long where n is large.
pub fn refused_pair(random: &mut Random, n: usize) -> Two {
    loop {
        let two = any_pair(random, n).two;
        if let [Some(one), Some(other)] = [false, true].map(|q| two.own_tree(q)) {
            let deep = [one, other].iter().any(|tree| matches!(tree, Tree::Split(_)));
            if deep || n == 1 || random.below(8) == 0 {
                return two;
            }
        }
    }
}

/// The same two functions with n inputs, of which each uses no more than before:
/// f the first ones, g any.
///
/// If no wiring fitted, none does now. One that leads an input in use to an input
/// out of use separates no more than one that leads it to an input in use.
pub fn widened(random: &mut Random, two: &Two, n: usize) -> Two {
    let inputs = start(&any_wiring(random, n).inputs, two.n());
    let moved = |list: &[Cube]| list.iter().map(|&cube| carried(cube, &inputs)).collect();
    Two {
        f: Function { n, ..two.f.clone() },
        g: Function { n, on: moved(&two.g.on), off: moved(&two.g.off) },
    }
}

#[cfg(test)]
mod tests {
    use super::*;
    use crate::reference::agreement::Tables;
    use crate::reference::checker::check_in;
    use crate::reference::two::two;
    use crate::reference::wiring::wirings;

    #[test]
    fn no_wiring_agrees_with_a_refused_pair() {
        let mut random = Random::new(11);
        for n in 1..=4 {
            for _ in 0..50 {
                let two = refused_pair(&mut random, n);
                let wider = widened(&mut random, &two, 4);
                for two in [two, wider] {
                    let tables = Tables::of(&two);
                    let agrees =
                        wirings(two.n()).iter().any(|one| tables.agree(one.q, &one.inputs));
                    assert!(!agrees, "{two:?}");
                }
            }
        }
    }

    #[test]
    fn refusals_of_any_odd_length() {
        let two = two(DEAD_AT_ONCE[0], DEAD_AT_ONCE[1]).expect("two functions");
        for length in (36_775..36_795).chain([49_151]).filter(|length| length % 2 == 1) {
            let claim = refusal_of_length(length);
            assert_eq!(claim.len(), length);
            assert!(check_in(&two, &claim).answer.is_accepted(), "{length}");
        }
    }

    #[test]
    fn the_shapes_differ_and_closings_are_where_they_are_said_to_be() {
        let mut random = Random::new(12);
        let mut longer = [0; 4];
        for n in 1..=4 {
            for _ in 0..50 {
                let two = refused_pair(&mut random, n);
                let own = refusal(&mut random, &two, Shape::Own);
                for (shape, longer) in SHAPES.into_iter().zip(&mut longer) {
                    let trees = trees(&mut random, &two, shape);
                    let claim = refusal_claim(n, &trees);
                    *longer += (claim.len() > own.len()) as usize;
                    // Each closing is read back as a pair of its lists.
                    for (place, q) in closings(&trees) {
                        let [s, u, v] = [0, 1, 2].map(|more| claim[place + more] as usize);
                        assert!(two.cubes(q, Pair { s, u, v }).is_some(), "{claim:X?} {place}");
                    }
                }
            }
        }
        let [own, any_pair, deepest, mixed] = longer;
        assert!(own == 0 && any_pair == 0 && deepest > 150 && mixed > 100, "{longer:?}");
    }
}
