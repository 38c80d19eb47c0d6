//! Wrong rules, in a matcher that goes by them.

use std::cmp::Reverse;

use zap_tests::claims::trees::{refused_pair, widened};
use zap_tests::matches::{sweeps, Call, Trial};
use zap_tests::random::{few, function_of, Random};
use zap_tests::records::Outcome;
use zap_tests::reference::agreement::Tables;
use zap_tests::reference::answer::NO_MATCH;
use zap_tests::reference::claim::{match_claim, refusal_claim, Tree};
use zap_tests::reference::dead::dead_by_the_rule;
use zap_tests::reference::matcher::{first_on_patterns, put, Found};
use zap_tests::reference::pair::{asks, separates, Pair};
use zap_tests::reference::pattern::{patterns, Cube, Function};
use zap_tests::reference::two::{two, Two};
use zap_tests::reference::wiring::{wirings, Choice, Partial, Wiring};
use zap_tests::wirings::pairs::{any_wiring, copied};
use zap_tests::wirings::pairs::{straight, the_wrong_way_round, without_inversions};

use super::{kind, Mistake};

pub fn mistakes() -> Vec<Mistake> {
    [matches(), order(), phases(), pairs(), closings(), trees(), more_inputs()]
        .into_iter()
        .flatten()
        .collect()
}

/// The right rules.
pub fn unchanged() -> Call {
    by(RULES)
}

/// A pair to be kept apart, with its cubes.
type Kept = (Pair, Cube, Cube);

/// What the matcher below goes by, so that a mistake can change one thing.
#[derive(Clone, Copy)]
struct Rules {
    /// The two functions that are searched for.
    functions: fn(Two) -> Two,
    /// The phases in the order in which they are tried.
    phases: [bool; 2],
    /// The pairs to be kept apart, in order.
    pairs: fn(&Two, bool) -> Vec<Kept>,
    /// Whether a pair is dead.
    dead: fn(&Partial, Cube, Cube) -> bool,
    /// Which of the dead pairs closes a node, if it is closed.
    closes: fn(&Partial, &[Pair]) -> Option<Pair>,
    /// The choices that a split has trees for, and that are tried.
    choices: fn(&Two, &Partial) -> Vec<Choice>,
    /// The wiring that is told of the one found.
    tells: fn(&Two, Wiring) -> Wiring,
    /// The trees that are told of those grown.
    trees: fn([Tree; 2]) -> [Tree; 2],
}

/// The right ones.
const RULES: Rules = Rules {
    functions: |two| two,
    phases: [false, true],
    pairs: |two, q| two.pairs(q).collect(),
    dead: dead_by_the_rule,
    closes: |_, dead| dead.first().copied(),
    choices: |_, partial| partial.free(),
    tells: |_, wiring| wiring,
    trees: |trees| trees,
};

/// The matcher by these rules. All but the claim is left to the reference.
fn by(rules: Rules) -> Call {
    claiming(move |two| {
        let two = (rules.functions)(two);
        let [one, other] = rules.phases;
        let trees = rules.search(&two, one).and_then(|tree| Ok([tree, rules.search(&two, other)?]));
        match trees {
            Ok(trees) => refusal_claim(two.n(), &(rules.trees)(trees)),
            Err(wiring) => match_claim(&(rules.tells)(&two, wiring)),
        }
    })
}

/// The matcher that makes this claim where both records are accepted.
fn claiming(claim: impl Fn(Two) -> Vec<u8> + 'static) -> Call {
    Box::new(move |f, g, out| match two(f, g) {
        Err(refusal) => refusal.packed(),
        Ok(two) => {
            let claim = claim(two);
            let (answer, written) = put(kind(&claim), claim, out.len());
            if let Some(written) = written {
                out[..written.len()].copy_from_slice(&written);
            }
            answer.packed()
        }
    })
}

impl Rules {
    /// The tree for q, or else the first wiring without a dead pair.
    fn search(&self, two: &Two, q: bool) -> Result<Tree, Wiring> {
        let pairs = (self.pairs)(two, q);
        self.below(two, &pairs, &Partial::empty(two.n())).map_err(|inputs| Wiring { q, inputs })
    }

    fn below(&self, two: &Two, pairs: &[Kept], partial: &Partial) -> Result<Tree, Partial> {
        let dead = pairs.iter().filter(|(_, one, other)| (self.dead)(partial, *one, *other));
        let dead: Vec<Pair> = dead.map(|(pair, ..)| *pair).collect();
        if let Some(pair) = (self.closes)(partial, &dead) {
            return Ok(Tree::Closing(pair));
        }
        if partial.is_whole() {
            return Err(partial.clone());
        }
        let choices = (self.choices)(two, partial).into_iter();
        let trees = choices.map(|choice| self.below(two, pairs, &partial.with(choice)));
        trees.collect::<Result<Vec<Tree>, Partial>>().map(Tree::Split)
    }
}

// ---- The wiring told ----

fn matches() -> Vec<Mistake> {
    let tells = |tells| by(Rules { tells, ..RULES });
    vec![
        (
            "always the straight wiring",
            claiming(|two| match_claim(&Wiring { q: false, inputs: straight(two.n()) })),
            sweeps::small_functions,
        ),
        (
            "the straight wiring wherever one agrees",
            tells(|two, _| Wiring { q: false, inputs: straight(two.n()) }),
            sweeps::small_functions,
        ),
        ("the last agreeing wiring", picking(|all| all.last()), sweeps::small_functions),
        (
            "the second agreeing wiring",
            picking(|all| all.get(1).or(all.first())),
            sweeps::small_functions,
        ),
        (
            "the first agreeing wiring with q = 1, if there is one",
            picking(|all| all.iter().find(|wiring| wiring.q).or(all.first())),
            sweeps::small_functions,
        ),
        (
            "the agreeing wiring of least bytes",
            picking(|all| all.iter().min_by_key(|wiring| (wiring.q, wiring.inputs.bytes()))),
            sweeps::small_functions,
        ),
        (
            "the agreeing wiring with the fewest inversions",
            picking(|all| {
                let inverted = |choice: &&Choice| choice.inverted;
                all.iter().min_by_key(|one| one.inputs.placed.iter().filter(inverted).count())
            }),
            sweeps::fitting_pairs,
        ),
        (
            "the wiring told the wrong way round",
            tells(|_, Wiring { q, inputs }| Wiring { q, inputs: the_wrong_way_round(&inputs) }),
            sweeps::small_functions,
        ),
        (
            "the inversions not told",
            tells(|_, Wiring { q, inputs }| Wiring { q, inputs: without_inversions(&inputs) }),
            sweeps::small_functions,
        ),
        ("q told as 0", tells(|_, found| Wiring { q: false, ..found }), sweeps::small_functions),
        (
            "q turned round",
            tells(|_, found| Wiring { q: !found.q, ..found }),
            sweeps::small_functions,
        ),
        (
            "a match for everything: where none agrees, the straight wiring",
            claiming(|two| match Found::of(&two) {
                Found::NoMatch(_) => match_claim(&Wiring { q: false, inputs: straight(two.n()) }),
                found => found.claim(two.n()),
            }),
            sweeps::small_functions,
        ),
    ]
}

/// The one that is picked of all agreeing wirings, which come in order.
fn picking(pick: fn(&[Wiring]) -> Option<&Wiring>) -> Call {
    claiming(move |two| {
        let tables = Tables::of(&two);
        let agreeing = wirings(two.n()).into_iter();
        let agreeing = agreeing.filter(|wiring| tables.agree(wiring.q, &wiring.inputs));
        match pick(&agreeing.collect::<Vec<Wiring>>()) {
            Some(wiring) => match_claim(wiring),
            None => Found::of(&two).claim(two.n()),
        }
    })
}

// ---- The order of choices ----

fn order() -> Vec<Mistake> {
    let into = |choices| by(Rules { choices, ..RULES });
    vec![
        (
            "inverted before plain",
            into(|_, partial| sorted(partial, |choice| (choice.j, !choice.inverted))),
            sweeps::small_functions,
        ),
        (
            "g's inputs downward",
            into(|_, partial| sorted(partial, |choice| (Reverse(choice.j), choice.inverted))),
            sweeps::small_functions,
        ),
        (
            "choices in the order of their bytes",
            into(|_, partial| sorted(partial, |choice| (choice.inverted, choice.j))),
            sweeps::small_functions,
        ),
        (
            "plain choices alone",
            into(|_, partial| {
                partial.free().into_iter().filter(|choice| !choice.inverted).collect()
            }),
            sweeps::small_functions,
        ),
        (
            "the last free choice left out",
            into(|_, partial| {
                let mut choices = partial.free();
                choices.pop();
                choices
            }),
            sweeps::small_functions,
        ),
        (
            "an input of f out of use takes the first free choice",
            into(|two, partial| {
                let mut choices = partial.free();
                let d = partial.placed.len();
                if !two.f.cubes().any(|cube| cube.names(d)) {
                    choices.truncate(1);
                }
                choices
            }),
            sweeps::other_pairs,
        ),
        (
            "an input of g out of use is tried plain alone",
            into(|two, partial| {
                let in_use = |j| two.g.cubes().any(|cube| cube.names(j));
                let free = partial.free().into_iter();
                free.filter(|choice| !choice.inverted || in_use(choice.j)).collect()
            }),
            sweeps::other_pairs,
        ),
        (
            "f's last input placed first",
            by(Rules {
                functions: |Two { f, g }| Two { f: mirrored(f), g },
                tells: |_, Wiring { q, mut inputs }| {
                    inputs.placed.reverse();
                    Wiring { q, inputs }
                },
                ..RULES
            }),
            sweeps::small_functions,
        ),
        (
            "g's inputs placed, by f's upward",
            by(Rules {
                functions: |Two { f, g }| Two { f: g, g: f },
                tells: |_, Wiring { q, inputs }| Wiring { q, inputs: the_wrong_way_round(&inputs) },
                ..RULES
            }),
            sweeps::small_functions,
        ),
        (
            "f and g changed places",
            by(Rules { functions: |Two { f, g }| Two { f: g, g: f }, ..RULES }),
            sweeps::small_functions,
        ),
    ]
}

/// The free choices in another order.
fn sorted<K: Ord>(partial: &Partial, key: fn(&Choice) -> K) -> Vec<Choice> {
    let mut choices = partial.free();
    choices.sort_by_key(key);
    choices
}

/// The function with its inputs in the other order.
fn mirrored(f: Function) -> Function {
    let mask = |mask: u8| mask.reverse_bits() >> (8 - f.n);
    let list = |list: Vec<Cube>| {
        list.into_iter().map(|cube| Cube { p: mask(cube.p), n: mask(cube.n) }).collect()
    };
    Function { n: f.n, on: list(f.on), off: list(f.off) }
}

// ---- The phase ----

fn phases() -> Vec<Mistake> {
    vec![
        (
            "q = 1 tested as q = 0",
            by(Rules { pairs: |two, _| two.pairs(false).collect(), ..RULES }),
            sweeps::small_functions,
        ),
        (
            "q = 0 tested as q = 1",
            by(Rules { pairs: |two, _| two.pairs(true).collect(), ..RULES }),
            sweeps::small_functions,
        ),
        (
            "q = 1 tried first",
            by(Rules { phases: [true, false], trees: |[one, other]| [other, one], ..RULES }),
            sweeps::small_functions,
        ),
        ("q = 0 alone tried", by(Rules { phases: [false; 2], ..RULES }), sweeps::small_functions),
        ("q = 1 alone tried", by(Rules { phases: [true; 2], ..RULES }), sweeps::small_functions),
        (
            "the second tree for q = 0",
            by(Rules { trees: |[one, _]| [one.clone(), one], ..RULES }),
            sweeps::small_functions,
        ),
        (
            "the first tree for q = 1",
            by(Rules { trees: |[_, other]| [other.clone(), other], ..RULES }),
            sweeps::small_functions,
        ),
        (
            "the trees changed places",
            by(Rules { trees: |[one, other]| [other, one], ..RULES }),
            sweeps::small_functions,
        ),
    ]
}

// ---- Which pairs, and which of them are dead ----

fn pairs() -> Vec<Mistake> {
    let dead = |dead| by(Rules { dead, ..RULES });
    vec![
        (
            "open read as off",
            by(Rules { functions: |Two { f, g }| Two { f: closed(f), g: closed(g) }, ..RULES }),
            sweeps::special_functions,
        ),
        (
            "open patterns of g alone read as off",
            by(Rules { functions: |Two { f, g }| Two { f, g: closed(g) }, ..RULES }),
            sweeps::special_functions,
        ),
        (
            "f's off list not looked at",
            by(Rules {
                pairs: |two, q| two.pairs(q).filter(|(pair, ..)| pair.s == 0).collect(),
                ..RULES
            }),
            sweeps::small_functions,
        ),
        (
            "the last cube of a list of 64 not looked at",
            by(Rules {
                pairs: |two, q| {
                    two.pairs(q).filter(|(pair, ..)| pair.u < 63 && pair.v < 63).collect()
                },
                ..RULES
            }),
            sweeps::full_lists,
        ),
        (
            "dead as soon as the placed literals fail to separate",
            dead(|partial, of_f, of_g| !separates(partial, of_f, of_g)),
            sweeps::small_functions,
        ),
        (
            "dead only under whole wirings",
            dead(|partial, of_f, of_g| partial.is_whole() && !separates(partial, of_f, of_g)),
            sweeps::small_functions,
        ),
        (
            "dead only if neither cube has a literal left",
            dead(|partial, of_f, of_g| {
                let none_left = none_unplaced(partial, of_f) && none_unused(partial, of_g);
                none_left && !separates(partial, of_f, of_g)
            }),
            sweeps::small_functions,
        ),
        (
            "only the cube of f looked at for literals left",
            dead(|partial, of_f, of_g| {
                none_unplaced(partial, of_f) && !separates(partial, of_f, of_g)
            }),
            sweeps::small_functions,
        ),
        (
            "only the cube of g looked at for literals left",
            dead(|partial, of_f, of_g| {
                none_unused(partial, of_g) && !separates(partial, of_f, of_g)
            }),
            sweeps::small_functions,
        ),
        (
            "the unplaced inputs taken for the unused ones",
            dead(|partial, of_f, of_g| {
                let none_left = none_unplaced(partial, of_f) || none_unplaced(partial, of_g);
                none_left && !separates(partial, of_f, of_g)
            }),
            sweeps::small_functions,
        ),
        (
            "the placed literals not looked at",
            dead(|partial, of_f, of_g| none_unplaced(partial, of_f) || none_unused(partial, of_g)),
            sweeps::small_functions,
        ),
        (
            "inverted tested as plain",
            dead(|partial, of_f, of_g| dead_by_the_rule(&without_inversions(partial), of_f, of_g)),
            sweeps::small_functions,
        ),
        (
            "j tested the wrong way round",
            dead(|partial, of_f, of_g| match partial.is_whole() {
                true => dead_by_the_rule(&the_wrong_way_round(partial), of_f, of_g),
                false => dead_by_the_rule(partial, of_f, of_g),
            }),
            sweeps::small_functions,
        ),
    ]
}

/// The function with its open patterns as off cubes of one pattern each.
fn closed(f: Function) -> Function {
    let all = (patterns(f.n).end - 1) as u8;
    let open = patterns(f.n).filter(|&pattern| f.is_open(pattern));
    let open: Vec<Cube> = open.map(|at| Cube { p: at as u8, n: all & !(at as u8) }).collect();
    Function { off: [&f.off[..], &open[..]].concat(), ..f }
}

/// Whether f's cube has no literal on an unplaced input.
fn none_unplaced(partial: &Partial, of_f: Cube) -> bool {
    (partial.placed.len()..partial.n).all(|i| asks(of_f, i).is_none())
}

/// Whether g's cube has no literal on an unused input.
fn none_unused(partial: &Partial, of_g: Cube) -> bool {
    (0..partial.n).all(|j| partial.uses(j) || asks(of_g, j).is_none())
}

// ---- Which dead pair closes ----

fn closings() -> Vec<Mistake> {
    let closes = |closes| by(Rules { closes, ..RULES });
    vec![
        (
            "the second dead pair",
            closes(|_, dead| dead.get(1).or(dead.first()).copied()),
            sweeps::other_pairs,
        ),
        ("the last dead pair", closes(|_, dead| dead.last().copied()), sweeps::other_pairs),
        (
            "the off list before the on list",
            closes(|_, dead| dead.iter().copied().min_by_key(|at| (1 - at.s, at.u, at.v))),
            sweeps::other_pairs,
        ),
        (
            "v before u",
            closes(|_, dead| dead.iter().copied().min_by_key(|at| (at.s, at.v, at.u))),
            sweeps::other_pairs,
        ),
        (
            "the last v of the first u",
            closes(|_, dead| {
                let first = dead.first()?;
                dead.iter().copied().rfind(|at| (at.s, at.u) == (first.s, first.u))
            }),
            sweeps::other_pairs,
        ),
        (
            "the last dead pair at the root",
            closes(|partial, dead| match partial.placed.is_empty() {
                true => dead.last().copied(),
                false => dead.first().copied(),
            }),
            sweeps::other_pairs,
        ),
        (
            "the last dead pair under whole wirings",
            closes(|partial, dead| match partial.is_whole() {
                true => dead.last().copied(),
                false => dead.first().copied(),
            }),
            sweeps::other_pairs,
        ),
        (
            "split everywhere",
            closes(|partial, dead| match partial.is_whole() {
                true => dead.first().copied(),
                false => None,
            }),
            sweeps::small_functions,
        ),
        (
            "split at the root although a pair is dead",
            closes(|partial, dead| match partial.placed.is_empty() {
                true => None,
                false => dead.first().copied(),
            }),
            sweeps::small_functions,
        ),
        (
            "split before whole wirings although a pair is dead",
            closes(|partial, dead| match partial.placed.len() + 1 == partial.n {
                true => None,
                false => dead.first().copied(),
            }),
            sweeps::small_functions,
        ),
    ]
}

// ---- The trees told ----

fn trees() -> Vec<Mistake> {
    let changed = |change: fn(&Two, bool, Pair) -> Pair| {
        claiming(move |two| match Found::of(&two) {
            Found::NoMatch([one, other]) => {
                let trees = [(false, one), (true, other)]
                    .map(|(q, tree)| closed_by(tree, &|pair| change(&two, q, pair)));
                refusal_claim(two.n(), &trees)
            }
            found => found.claim(two.n()),
        })
    };
    vec![
        (
            "u and v changed places",
            changed(|_, _, Pair { s, u, v }| Pair { s, u: v, v: u }),
            sweeps::other_pairs,
        ),
        (
            "s turned round",
            changed(|_, _, pair| Pair { s: 1 - pair.s, ..pair }),
            sweeps::other_pairs,
        ),
        (
            "s by g's list under q = 1",
            changed(|_, q, pair| Pair { s: if q { 1 - pair.s } else { pair.s }, ..pair }),
            sweeps::other_pairs,
        ),
        (
            "u counted through both lists",
            changed(|two, _, pair| Pair { u: pair.u + pair.s * two.f.on.len(), ..pair }),
            sweeps::other_pairs,
        ),
        (
            "v counted through both lists",
            changed(|two, q, pair| {
                let off = (pair.s == 0) != q;
                Pair { v: if off { pair.v + two.g.on.len() } else { pair.v }, ..pair }
            }),
            sweeps::other_pairs,
        ),
        (
            "u and v counted from 1",
            changed(|_, _, Pair { s, u, v }| Pair { s, u: u + 1, v: v + 1 }),
            sweeps::other_pairs,
        ),
        (
            "the trees of a split from the last to the first",
            by(Rules { trees: |trees| trees.map(reversed), ..RULES }),
            sweeps::other_pairs,
        ),
        (
            "one tree for both choices of an input",
            by(Rules { trees: |trees| trees.map(halved), ..RULES }),
            sweeps::other_pairs,
        ),
        (
            "the second tree left out",
            claiming(|two| match Found::of(&two) {
                Found::NoMatch([one, _]) => {
                    let twice = refusal_claim(two.n(), &[one.clone(), one]);
                    twice[..(twice.len() + 3) / 2].to_vec()
                }
                found => found.claim(two.n()),
            }),
            sweeps::small_functions,
        ),
    ]
}

/// The tree with other pairs in its closings.
fn closed_by(tree: Tree, change: &dyn Fn(Pair) -> Pair) -> Tree {
    match tree {
        Tree::Closing(pair) => Tree::Closing(change(pair)),
        Tree::Split(children) => {
            Tree::Split(children.into_iter().map(|child| closed_by(child, change)).collect())
        }
    }
}

fn reversed(tree: Tree) -> Tree {
    match tree {
        Tree::Closing(pair) => Tree::Closing(pair),
        Tree::Split(children) => Tree::Split(children.into_iter().rev().map(reversed).collect()),
    }
}

/// Without the trees of the inverted choices.
fn halved(tree: Tree) -> Tree {
    match tree {
        Tree::Closing(pair) => Tree::Closing(pair),
        Tree::Split(children) => Tree::Split(children.into_iter().step_by(2).map(halved).collect()),
    }
}

// ---- More than 4 inputs ----

fn more_inputs() -> Vec<Mistake> {
    let tells = |tells| by(Rules { tells, ..RULES });
    vec![
        (
            "all but the straight wiring too much for more than 4 inputs",
            claiming(|two| match two.n() {
                0..=4 => Found::of(&two).claim(two.n()),
                n => match_claim(&Wiring { q: false, inputs: straight(n) }),
            }),
            accepted_alone,
        ),
        (
            "no match told for more than 4 inputs, with closings at the root",
            claiming(|two| match two.n() {
                0..=4 => Found::of(&two).claim(two.n()),
                n => {
                    let closing = Tree::Closing(Pair { s: 0, u: 0, v: 0 });
                    refusal_claim(n, &[closing.clone(), closing])
                }
            }),
            accepted_alone,
        ),
        (
            "a later agreeing wiring of 5 inputs",
            claiming(|two| {
                let tables = Tables::of(&two);
                let agrees = |q| {
                    let mut all = Partial::empty(two.n()).completions().into_iter();
                    let last = all.rfind(|inputs| tables.agree(q, inputs));
                    last.map(|inputs| Wiring { q, inputs })
                };
                match agrees(false).or_else(|| agrees(true)) {
                    Some(wiring) => match_claim(&wiring),
                    None => Found::of(&two).claim(two.n()),
                }
            }),
            accepted_alone,
        ),
        (
            "a closing of the second tree by another cube",
            claiming(|two| {
                let mut claim = Found::of(&two).claim(two.n());
                if kind(&claim) == NO_MATCH {
                    *claim.last_mut().expect("a claim has bytes") ^= 1;
                }
                claim
            }),
            accepted_alone,
        ),
        (
            "input 4 and those after it inverted first",
            by(Rules {
                choices: |_, partial| match partial.placed.len() {
                    0..=3 => partial.free(),
                    _ => sorted(partial, |choice| (choice.j, !choice.inverted)),
                },
                ..RULES
            }),
            sweeps::selves,
        ),
        (
            "literals on inputs from 4 on not looked at",
            by(Rules {
                pairs: |two, q| {
                    let low = |cube: Cube| Cube { p: cube.p & 0x0F, n: cube.n & 0x0F };
                    two.pairs(q).map(|(pair, one, other)| (pair, low(one), low(other))).collect()
                },
                ..RULES
            }),
            sweeps::known_wirings,
        ),
        (
            "the choices of inputs 4 to 7 told as plain",
            tells(|_, Wiring { q, mut inputs }| {
                inputs.placed.iter_mut().skip(4).for_each(|choice| choice.inverted = false);
                Wiring { q, inputs }
            }),
            sweeps::known_wirings,
        ),
        (
            "the last dead pair where more than 4 inputs are placed",
            by(Rules {
                closes: |partial, dead| match partial.placed.len() {
                    0..=4 => dead.first().copied(),
                    _ => dead.last().copied(),
                },
                ..RULES
            }),
            sweeps::other_pairs_of_more,
        ),
    ]
}

/// Pairs of 5 inputs whose claims are read by the checkers alone, as those of long
/// searches are.
fn accepted_alone(trial: &mut Trial) -> Outcome {
    let mut random = Random::new(412);
    for round in 0..60 {
        let two = match round % 2 {
            0 => {
                let small = refused_pair(&mut random, 2);
                widened(&mut random, &small, 5)
            }
            _ => {
                let f = function_of(&mut random, 5, few);
                let wiring = any_wiring(&mut random, 5);
                let g = copied(&mut random, &f, &wiring, 0);
                Two { f, g }
            }
        };
        let known = first_on_patterns(&two);
        trial.accepted(&two, known.as_ref())?;
    }
    Ok(())
}
