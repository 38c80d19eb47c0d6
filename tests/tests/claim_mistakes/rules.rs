//! Wrong rules, in a checker that goes by them.

use std::cmp::Reverse;

use zap_tests::claims::{sweeps, Call};
use zap_tests::reference::agreement::{Table, Tables};
use zap_tests::reference::answer::{Answer, MATCH, NO_MATCH};
use zap_tests::reference::checker::check;
use zap_tests::reference::claim::{SPLIT, TREES, WIRING};
use zap_tests::reference::dead::is_dead;
use zap_tests::reference::pair::{asks, separates, Pair};
use zap_tests::reference::pattern::Cube;
use zap_tests::reference::two::{two, Two};
use zap_tests::reference::wiring::{Choice, Partial};
use zap_tests::wirings::pairs::{the_wrong_way_round, without_inversions};

use super::answers::refused;
use super::Mistake;

pub fn mistakes() -> Vec<Mistake> {
    [agreement(), trees(), closings(), splits()].into_iter().flatten().collect()
}

/// The right rules.
pub fn unchanged() -> Call {
    by(RULES)
}

/// What the checker below goes by, so that a mistake can change one thing.
#[derive(Clone, Copy)]
struct Rules {
    /// Whether a whole wiring agrees.
    agree: fn(&Two, bool, &Partial) -> bool,
    /// The q of the first tree and of the second.
    phases: [bool; 2],
    /// The s that the first byte of a closing stands for.
    closing: fn(u8) -> Option<usize>,
    /// How many cubes u and v choose from.
    reach: fn(&Two, bool, usize) -> [usize; 2],
    /// The cubes that they choose.
    cubes: fn(&Two, bool, Pair) -> Option<(Cube, Cube)>,
    /// Whether the pair of these cubes closes a node.
    closes: fn(&At, Pair, Cube, Cube) -> bool,
    /// Whether a node may be split.
    splits: fn(&At) -> bool,
    /// The choices that a split has trees for.
    choices: fn(&Partial) -> Vec<Choice>,
}

/// A node of a tree.
struct At<'a> {
    two: &'a Two,
    q: bool,
    partial: &'a Partial,
}

/// The right ones.
const RULES: Rules = Rules {
    agree: |two, q, inputs| Tables::of(two).agree(q, inputs),
    phases: [false, true],
    closing: |byte| (byte <= 1).then_some(byte as usize),
    reach,
    cubes: Two::cubes,
    closes: |at, _, of_f, of_g| is_dead(at.partial, of_f, of_g),
    splits: |at| !at.partial.is_whole(),
    choices: Partial::free,
};

fn reach(two: &Two, q: bool, s: usize) -> [usize; 2] {
    let (of_f, of_g) = two.lists(q, s);
    [of_f.len(), of_g.len()]
}

/// The checker by these rules. All but wirings and trees is left to the reference.
fn by(rules: Rules) -> Call {
    Box::new(move |f, g, claim| {
        let right = check(f, g, claim).answer;
        let answer = match (two(f, g), claim) {
            (Ok(two), [0x52, 0x46, n, _, ..]) if *n == f[2] => rules.trees(&two, claim),
            (Ok(two), _) if right.kind == MATCH || right.code == 14 => {
                let inputs = Partial::from_bytes(&claim[WIRING..], two.n()).expect("a wiring");
                match (rules.agree)(&two, claim[3] == 1, &inputs) {
                    true => Ok(Answer::accepted(MATCH, claim.len())),
                    // The right pattern, if there is one: the mistakes are in the code.
                    false => Err(Answer { pattern: right.pattern, ..refused(14, 0) }),
                }
            }
            _ => Ok(right),
        };
        answer.unwrap_or_else(|refusal| refusal).packed()
    })
}

impl Rules {
    fn trees(&self, two: &Two, claim: &[u8]) -> Result<Answer, Answer> {
        let mut place = TREES;
        for q in self.phases {
            place = self.tree(At { two, q, partial: &Partial::empty(two.n()) }, claim, place)?;
        }
        match place < claim.len() {
            true => Err(refused(8, place)),
            false => Ok(Answer::accepted(NO_MATCH, claim.len())),
        }
    }

    /// Reads the tree that starts at a place: the place after its end.
    fn tree(&self, at: At, claim: &[u8], start: usize) -> Result<usize, Answer> {
        let byte = |place: usize| claim.get(place).copied().ok_or(refused(1, claim.len()));
        let first = byte(start)?;
        if first == SPLIT {
            if !(self.splits)(&at) {
                return Err(refused(16, start));
            }
            let choices = (self.choices)(at.partial).into_iter();
            return choices
                .map(|choice| at.partial.with(choice))
                .try_fold(start + 1, |place, partial| {
                    self.tree(At { partial: &partial, ..at }, claim, place)
                });
        }
        let s = (self.closing)(first).ok_or(refused(15, start))?;
        let reach = (self.reach)(at.two, at.q, s);
        let index = |place: usize, reach: usize| match byte(place)? as usize {
            index if index < reach => Ok(index),
            _ => Err(refused(15, place)),
        };
        let pair = Pair { s, u: index(start + 1, reach[0])?, v: index(start + 2, reach[1])? };
        match (self.cubes)(at.two, at.q, pair) {
            Some((one, other)) if (self.closes)(&at, pair, one, other) => Ok(start + 3),
            _ => Err(refused(17, start)),
        }
    }
}

fn agreement() -> Vec<Mistake> {
    let by = |agree| by(Rules { agree, ..RULES });
    vec![
        (
            "with q = 1, on against off",
            by(|two, _, inputs| Tables::of(two).agree(false, inputs)),
            sweeps::match_claims,
        ),
        (
            "open read as off",
            by(|two, q, inputs| {
                let closed =
                    |Table { on, .. }| Table { off: on.iter().map(|on| !on).collect(), on };
                let Tables { f, g } = Tables::of(two);
                Tables { f: closed(f), g: closed(g) }.agree(q, inputs)
            }),
            sweeps::match_claims,
        ),
        (
            "f's off list not tested",
            by(|two, q, inputs| {
                let mut tables = Tables::of(two);
                tables.f.off.fill(false);
                tables.agree(q, inputs)
            }),
            sweeps::match_claims,
        ),
        (
            "j applied the wrong way round in a match",
            by(|two, q, inputs| Tables::of(two).agree(q, &the_wrong_way_round(inputs))),
            sweeps::match_claims,
        ),
        (
            "inverted read as plain in a match",
            by(|two, q, inputs| Tables::of(two).agree(q, &without_inversions(inputs))),
            sweeps::match_claims,
        ),
    ]
}

fn trees() -> Vec<Mistake> {
    vec![
        (
            "the second tree only skipped",
            by(Rules {
                reach: |two, q, s| if q { [256; 2] } else { reach(two, q, s) },
                cubes: |two, q, pair| match q {
                    true => Some((Cube::ALL, Cube::ALL)),
                    false => two.cubes(q, pair),
                },
                ..RULES
            }),
            sweeps::small_trees,
        ),
        (
            "no dead test in the second tree",
            by(Rules {
                closes: |at, _, of_f, of_g| at.q || is_dead(at.partial, of_f, of_g),
                ..RULES
            }),
            sweeps::small_trees,
        ),
        (
            "both trees for q = 0",
            by(Rules { phases: [false, false], ..RULES }),
            sweeps::small_trees,
        ),
        (
            "the tree for q = 1 first",
            by(Rules { phases: [true, false], ..RULES }),
            sweeps::small_trees,
        ),
        (
            "any odd byte stands for s = 1",
            by(Rules { closing: |byte| Some(byte as usize % 2), ..RULES }),
            sweeps::small_trees,
        ),
        (
            "s = 1 takes f's on list",
            by(Rules {
                reach: |two, q, _| reach(two, q, 0),
                cubes: |two, q, pair| two.cubes(q, Pair { s: 0, ..pair }),
                ..RULES
            }),
            sweeps::small_trees,
        ),
        (
            "v tested against g's other list under q = 1",
            by_reach(|two, q, s| [reach(two, q, s)[0], reach(two, false, s)[1]]),
            sweeps::small_trees,
        ),
        (
            "u tested against f's other list",
            by_reach(|two, q, s| [reach(two, q, 1 - s)[0], reach(two, q, s)[1]]),
            sweeps::small_trees,
        ),
        (
            "u equal to the number of cubes passes",
            by_reach(|two, q, s| [reach(two, q, s)[0] + 1, reach(two, q, s)[1]]),
            sweeps::other_closings,
        ),
        (
            "v tested against 64 alone",
            by_reach(|two, q, s| [reach(two, q, s)[0], 64]),
            sweeps::other_closings,
        ),
        (
            "the last of 64 cubes out of reach",
            by_reach(|two, q, s| reach(two, q, s).map(|count| count.min(63))),
            sweeps::other_closings,
        ),
    ]
}

/// By other numbers of cubes to choose from.
fn by_reach(reach: fn(&Two, bool, usize) -> [usize; 2]) -> Call {
    by(Rules { reach, ..RULES })
}

/// Whether f's cube has no literal on an unplaced input.
fn none_unplaced(at: &At, of_f: Cube) -> bool {
    (at.partial.placed.len()..at.partial.n).all(|i| asks(of_f, i).is_none())
}

/// Whether g's cube has no literal on an unused input.
fn none_unused(at: &At, of_g: Cube) -> bool {
    (0..at.partial.n).all(|j| at.partial.uses(j) || asks(of_g, j).is_none())
}

fn closings() -> Vec<Mistake> {
    let by = |closes| by(Rules { closes, ..RULES });
    vec![
        ("closed without the dead test", by(|_, _, _, _| true), sweeps::forged_claims),
        (
            "at depth n closed without the dead test",
            by(|at, _, of_f, of_g| at.partial.is_whole() || is_dead(at.partial, of_f, of_g)),
            sweeps::forged_claims,
        ),
        (
            "dead as soon as the placed literals fail to separate",
            by(|at, _, of_f, of_g| !separates(at.partial, of_f, of_g)),
            sweeps::other_closings,
        ),
        (
            "dead only if neither cube has a literal left",
            by(|at, _, of_f, of_g| {
                let none_left = none_unplaced(at, of_f) && none_unused(at, of_g);
                none_left && !separates(at.partial, of_f, of_g)
            }),
            sweeps::damaged_trees,
        ),
        (
            "only the cube of f looked at for literals left",
            by(|at, _, of_f, of_g| none_unplaced(at, of_f) && !separates(at.partial, of_f, of_g)),
            sweeps::damaged_trees,
        ),
        (
            "only the cube of g looked at for literals left",
            by(|at, _, of_f, of_g| none_unused(at, of_g) && !separates(at.partial, of_f, of_g)),
            sweeps::damaged_trees,
        ),
        (
            "the placed literals not looked at",
            by(|at, _, of_f, of_g| none_unplaced(at, of_f) || none_unused(at, of_g)),
            sweeps::forged_claims,
        ),
        (
            "j applied the wrong way round in a tree",
            by(|at, _, of_f, of_g| match at.partial.is_whole() {
                true => is_dead(&the_wrong_way_round(at.partial), of_f, of_g),
                false => is_dead(at.partial, of_f, of_g),
            }),
            sweeps::damaged_trees,
        ),
        (
            "inverted read as plain in a tree",
            by(|at, _, of_f, of_g| is_dead(&without_inversions(at.partial), of_f, of_g)),
            sweeps::small_trees,
        ),
        (
            "another dead pair than the first refused",
            by(|at, pair, _, _| at.two.dead_pairs(at.q, at.partial).next() == Some(pair)),
            sweeps::small_trees,
        ),
        (
            "the first cube of g's list in the place of cube v",
            by(|at, pair, of_f, _| is_dead(at.partial, of_f, at.two.lists(at.q, pair.s).1[0])),
            sweeps::small_trees,
        ),
    ]
}

fn splits() -> Vec<Mistake> {
    let at = |splits| by(Rules { splits, ..RULES });
    let into = |choices| by(Rules { choices, ..RULES });
    vec![
        ("a split at depth n passes", at(|_| true), sweeps::small_trees),
        (
            "no split of the last input",
            at(|at| at.partial.placed.len() + 1 < at.partial.n),
            sweeps::small_trees,
        ),
        (
            "a split where a pair is dead refused",
            at(|at| at.two.dead_pairs(at.q, at.partial).next().is_none()),
            sweeps::small_trees,
        ),
        (
            "choices in the order of their bytes",
            into(|partial| sorted(partial, |choice| (choice.inverted, choice.j))),
            sweeps::damaged_trees,
        ),
        (
            "inverted before plain",
            into(|partial| sorted(partial, |choice| (choice.j, !choice.inverted))),
            sweeps::small_trees,
        ),
        (
            "choices by j downward",
            into(|partial| sorted(partial, |choice| (Reverse(choice.j), choice.inverted))),
            sweeps::damaged_trees,
        ),
        (
            "inputs of g in use not left out",
            into(|partial| if partial.is_whole() { vec![] } else { Choice::all(partial.n) }),
            sweeps::damaged_trees,
        ),
        (
            "the last free choice left out",
            into(|partial| {
                let mut choices = partial.free();
                choices.pop();
                choices
            }),
            sweeps::small_trees,
        ),
    ]
}

/// The free choices in another order.
fn sorted<K: Ord>(partial: &Partial, key: fn(&Choice) -> K) -> Vec<Choice> {
    let mut choices = partial.free();
    choices.sort_by_key(key);
    choices
}
