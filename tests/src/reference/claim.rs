//! The bytes of claims, and the tree of a refusal that the matcher's rule makes.

use super::pair::Pair;
use super::two::Two;
use super::wiring::{Partial, Wiring};

pub const MATCH_MARK: [u8; 2] = [0x4D, 0x54];
pub const REFUSAL_MARK: [u8; 2] = [0x52, 0x46];

/// The first byte of a split.
pub const SPLIT: u8 = 0xFF;

/// Where the wiring bytes start in a match claim, and the first tree in a refusal.
pub const WIRING: usize = 4;
pub const TREES: usize = 3;

/// The match claim of a wiring.
pub fn match_claim(wiring: &Wiring) -> Vec<u8> {
    let mut claim = MATCH_MARK.to_vec();
    claim.extend([wiring.inputs.n as u8, wiring.q as u8]);
    claim.extend(wiring.inputs.bytes());
    claim
}

/// A tree of a refusal claim.
#[derive(Clone, Debug, PartialEq, Eq)]
pub enum Tree {
    Closing(Pair),
    /// A tree for each free choice of the next input, in order.
    Split(Vec<Tree>),
}

impl Tree {
    /// The tree below a partial wiring in which `close` names the pair that closes
    /// a node, or none for a split. There is no tree if a whole wiring gets none.
    pub fn grown(
        partial: &Partial,
        close: &mut dyn FnMut(&Partial) -> Option<Pair>,
    ) -> Option<Tree> {
        if let Some(pair) = close(partial) {
            return Some(Tree::Closing(pair));
        }
        if partial.is_whole() {
            return None;
        }
        let free = partial.free().into_iter();
        let children = free.map(|choice| Tree::grown(&partial.with(choice), close));
        children.collect::<Option<Vec<Tree>>>().map(Tree::Split)
    }

    fn put(&self, claim: &mut Vec<u8>) {
        match self {
            Tree::Closing(pair) => claim.extend([pair.s as u8, pair.u as u8, pair.v as u8]),
            Tree::Split(children) => {
                claim.push(SPLIT);
                children.iter().for_each(|child| child.put(claim));
            }
        }
    }
}

/// The refusal claim of two trees, for q = 0 and for q = 1.
pub fn refusal_claim(n: usize, trees: &[Tree; 2]) -> Vec<u8> {
    let mut claim = REFUSAL_MARK.to_vec();
    claim.push(n as u8);
    trees.iter().for_each(|tree| tree.put(&mut claim));
    claim
}

impl Two {
    /// The matcher's own tree for q: it closes every node that has a dead pair,
    /// with the first, and splits every other. There is none if a wiring agrees.
    pub fn own_tree(&self, q: bool) -> Option<Tree> {
        Tree::grown(&Partial::empty(self.n()), &mut |partial| self.dead_pairs(q, partial).next())
    }
}

#[cfg(test)]
mod tests {
    use super::*;
    use crate::cases::{CONJ, CONJ_ODD_CLAIM, CONST, DISJ, ODD, OPEN, WIRE};
    use crate::reference::two::two;

    /// The matcher's own refusal claim, if no wiring agrees.
    fn own_claim(f: &[u8], g: &[u8]) -> Option<Vec<u8>> {
        let two = two(f, g).expect("a case of 01");
        Some(refusal_claim(two.n(), &[two.own_tree(false)?, two.own_tree(true)?]))
    }

    #[test]
    fn the_refusals_that_01_prints() {
        assert_eq!(own_claim(CONJ, ODD).as_deref(), Some(CONJ_ODD_CLAIM));
        let const_wire = [0x52, 0x46, 0x01, 0x00, 0x00, 0x00, 0x00, 0x00, 0x00];
        assert_eq!(own_claim(CONST, WIRE).as_deref(), Some(&const_wire[..]));
        assert_eq!(own_claim(CONJ, DISJ), None);
        assert_eq!(own_claim(OPEN, WIRE), None);
    }

    /// "No refusal claim by these rules is longer than 75,323,621 bytes": the
    /// longest splits wherever it may.
    #[test]
    fn the_longest_claim_is_as_long_as_01_says() {
        // Counted from depth n upward.
        fn longest(n: usize, depth: usize) -> usize {
            let children = 2 * (n - depth);
            if children == 0 {
                3
            } else {
                1 + children * longest(n, depth + 1)
            }
        }
        assert_eq!(TREES + 2 * longest(8, 0), 75_323_621);
        for n in 1..=5 {
            let pair = Pair { s: 0, u: 0, v: 0 };
            let deepest =
                Tree::grown(&Partial::empty(n), &mut |at| at.is_whole().then_some(pair)).unwrap();
            let claim = refusal_claim(n, &[deepest.clone(), deepest]);
            assert_eq!(claim.len(), TREES + 2 * longest(n, 0), "n {n}");
        }
    }
}
