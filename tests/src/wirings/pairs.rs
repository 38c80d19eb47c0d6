//! Random wirings, and pairs of functions that some wiring nearly fits.
//!
//! Two functions made apart from each other have a dead pair almost at once. So
//! g is mostly made from f by a wiring, which then agrees or just fails to.

use crate::random::{any_cube, any_size, few, function_of};
use crate::random::{with, with_one_list, without, Random};
use crate::reference::pair::{asks, Pair};
use crate::reference::pattern::{Cube, Function};
use crate::reference::record::MOST_CUBES;
use crate::reference::two::Two;
use crate::reference::wiring::{Choice, Partial, Wiring};

/// Two functions and a wiring to try them with.
pub struct Made {
    pub two: Two,
    pub wiring: Wiring,
}

/// A pair of functions of n inputs.
pub fn any_pair(random: &mut Random, n: usize) -> Made {
    let size = if random.below(3) == 0 { any_size } else { few };
    let mut f = function_of(random, n, size);
    // A function with one list, and one that fits it, have no pairs to keep apart.
    while (f.on.is_empty() || f.off.is_empty()) && random.below(8) > 0 {
        f = function_of(random, n, size);
    }
    let wiring = any_wiring(random, n);
    let g = match random.below(6) {
        0 => function_of(random, n, size),
        1..=3 => fitting(random, &f, &wiring),
        _ => {
            let g = fitting(random, &f, &wiring);
            changed(random, g)
        }
    };
    Made { two: Two { f, g }, wiring }
}

// ---- Wirings ----

pub fn any_wiring(random: &mut Random, n: usize) -> Wiring {
    let mut order: Vec<usize> = (0..n).collect();
    random.shuffle(&mut order);
    let placed = order.into_iter().map(|j| Choice { j, inverted: random.flip() }).collect();
    Wiring { q: random.flip(), inputs: Partial { n, placed } }
}

/// A wiring with one thing other: q, a choice's inversion or two choices' places.
pub fn neighbour(random: &mut Random, wiring: &Wiring) -> Wiring {
    let mut other = wiring.clone();
    let placed = &mut other.inputs.placed;
    let at = random.below(placed.len());
    match random.below(5) {
        0 => other.q = !other.q,
        1 | 2 => placed[at].inverted = !placed[at].inverted,
        _ => {
            let beside = random.below(placed.len());
            placed.swap(at, beside);
        }
    }
    other
}

/// Each input to the input of the same number, plain.
pub fn straight(n: usize) -> Partial {
    Partial { n, placed: (0..n).map(|j| Choice { j, inverted: false }).collect() }
}

/// The byte at place i taken to say which input of f serves input i of g. The wiring
/// is whole.
pub fn the_wrong_way_round(inputs: &Partial) -> Partial {
    let mut placed = inputs.placed.clone();
    for (i, choice) in inputs.placed.iter().enumerate() {
        placed[choice.j] = Choice { j: i, inverted: choice.inverted };
    }
    Partial { n: inputs.n, placed }
}

/// The same choices, all plain.
pub fn without_inversions(partial: &Partial) -> Partial {
    let plain = |choice: &Choice| Choice { inverted: false, ..*choice };
    Partial { n: partial.n, placed: partial.placed.iter().map(plain).collect() }
}

/// The choices for the first inputs alone.
pub fn start(inputs: &Partial, length: usize) -> Partial {
    Partial { n: inputs.n, placed: inputs.placed[..length].to_vec() }
}

// ---- Functions that fit ----

/// A function that f agrees with under the wiring: cubes of f carried over, some
/// left out, some with more literals.
fn fitting(random: &mut Random, f: &Function, wiring: &Wiring) -> Function {
    carried_over(random, f, wiring, 1, narrowed)
}

/// The copy of f under the wiring, with so many in six of its cubes left out.
pub fn copied(random: &mut Random, f: &Function, wiring: &Wiring, left_out: usize) -> Function {
    carried_over(random, f, wiring, left_out, |_, _, cube| cube)
}

/// The cubes of f carried over, so many in six left out and the others changed. Under
/// q = 1 the lists change places.
fn carried_over(
    random: &mut Random,
    f: &Function,
    wiring: &Wiring,
    left_out: usize,
    change: fn(&mut Random, usize, Cube) -> Cube,
) -> Function {
    let mut list = |cubes: &[Cube]| -> Vec<Cube> {
        let mut list = vec![];
        for &cube in cubes {
            if random.below(6) >= left_out {
                list.push(change(random, f.n, carried(cube, &wiring.inputs)));
            }
        }
        random.shuffle(&mut list);
        list
    };
    let (on, off) = (list(&f.on), list(&f.off));
    if wiring.q {
        Function { n: f.n, on: off, off: on }
    } else {
        Function { n: f.n, on, off }
    }
}

/// The cube of g that asks the same as a cube of f, whose literals are on placed
/// inputs.
pub fn carried(cube: Cube, inputs: &Partial) -> Cube {
    inputs.placed.iter().enumerate().fold(Cube::ALL, |so_far, (i, choice)| match asks(cube, i) {
        Some(side) => with(so_far, choice.j, side != choice.inverted),
        None => so_far,
    })
}

/// Now and then a literal more, where there is none.
fn narrowed(random: &mut Random, n: usize, mut cube: Cube) -> Cube {
    for input in 0..n {
        if asks(cube, input).is_none() && random.below(6) == 0 {
            cube = with(cube, input, random.flip());
        }
    }
    cube
}

/// One literal of one cube dropped or turned round, if the function stays valid.
fn changed(random: &mut Random, g: Function) -> Function {
    let mut other = g.clone();
    let list = if random.flip() { &mut other.on } else { &mut other.off };
    if list.is_empty() {
        return g;
    }
    let at = random.below(list.len());
    let input = random.below(g.n);
    let side = asks(list[at], input);
    list[at] = without(list[at], input);
    if let (Some(side), true) = (side, random.flip()) {
        list[at] = with(list[at], input, !side);
    }
    if other.first_clash().is_some() {
        g
    } else {
        other
    }
}

// ---- One dead pair among many ----

/// Two lists of 64 cubes in which the wiring separates every pair but the one.
/// It takes 2 inputs or more.
pub fn one_dead_pair(random: &mut Random, wiring: &Wiring, pair: Pair) -> Two {
    let n = wiring.inputs.n;
    let mut order: Vec<usize> = (0..n).collect();
    random.shuffle(&mut order);
    let (first, second) = (order[0], order[1]);
    let (side, other_side) = (random.flip(), random.flip());

    // Cube u of f has a literal on the second input, the others on the first.
    // Cube v of g has the opposite of that on the first input alone, the others
    // on both; g's cubes are made as f's and then carried over.
    let mut of_f = vec![];
    let mut of_g = vec![];
    for at in 0..MOST_CUBES {
        let any = |random: &mut Random| without(without(any_cube(random, n), first), second);
        let (left, right) = (any(random), with(any(random), first, !side));
        of_f.push(if at == pair.u {
            with(Cube::ALL, second, other_side)
        } else {
            with(left, first, side)
        });
        let cube = if at == pair.v { right } else { with(right, second, !other_side) };
        of_g.push(carried(cube, &wiring.inputs));
    }
    let on = pair.s == 0;
    Two { f: with_one_list(n, of_f, on), g: with_one_list(n, of_g, on == wiring.q) }
}

#[cfg(test)]
mod tests {
    use super::*;
    use crate::reference::agreement::Tables;
    use crate::reference::pair::separates;
    use crate::reference::record::record;
    use crate::reference::two::two;

    #[test]
    fn every_pair_is_valid_and_many_agree_under_their_wiring() {
        let mut random = Random::new(9);
        for n in 1..=8 {
            let mut agree = 0;
            for _ in 0..300 {
                let Made { two: made, wiring } = any_pair(&mut random, n);
                assert_eq!(two(&record(&made.f), &record(&made.g)), Ok(made.clone()));
                assert_eq!(
                    Partial::from_bytes(&wiring.inputs.bytes(), n),
                    Ok(wiring.inputs.clone())
                );
                agree += Tables::of(&made).agree(wiring.q, &wiring.inputs) as usize;
            }
            assert!((100..300).contains(&agree), "n {n}: {agree} of 300");
        }
    }

    #[test]
    fn a_function_agrees_with_its_copy() {
        let mut random = Random::new(15);
        for n in 1..=8 {
            for round in 0..100 {
                let f = function_of(&mut random, n, few);
                let wiring = any_wiring(&mut random, n);
                let g = copied(&mut random, &f, &wiring, round % 4);
                let two = Two { f, g };
                assert!(Tables::of(&two).agree(wiring.q, &wiring.inputs), "{two:?} {wiring:?}");
            }
        }
    }

    #[test]
    fn the_one_dead_pair_is_the_only_one() {
        let mut random = Random::new(10);
        for n in 2..=8 {
            for s in 0..2 {
                let pair = Pair { s, u: random.below(64), v: random.below(64) };
                let wiring = any_wiring(&mut random, n);
                let two = one_dead_pair(&mut random, &wiring, pair);
                assert_eq!(two.pairs(wiring.q).count(), 64 * 64);
                let apart = |one, other| separates(&wiring.inputs, one, other);
                let left = two.pairs(wiring.q).filter(|&(_, one, other)| !apart(one, other));
                assert!(left.map(|(pair, ..)| pair).eq([pair]), "n {n}");
            }
        }
    }
}
