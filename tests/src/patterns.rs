//! The patterns that codes 7 and 14 carry: functions and claims that give many of them,
//! and wrong ones.
//!
//! A wrong pattern is what a call with one mistake would tell. The sweeps count how often
//! each is another than the right one, so that no such mistake can hide; the tests of
//! mistakes put it in the right one's place.

use crate::random::Random;
use crate::random::{any_size, clash, from_points, full_function, function_of, point, without};
use crate::reference::agreement::{read_at, Table, Tables};
use crate::reference::pair::separates;
use crate::reference::pattern::{patterns, smallest_shared, value, Clash, Cube, Function};
use crate::reference::record::MOST_CUBES;
use crate::reference::two::Two;
use crate::reference::wiring::Wiring;
use crate::wirings::pairs::{any_wiring, the_wrong_way_round, without_inversions};
use crate::wirings::Given;

// ---- Wrong patterns of code 7 ----

/// From the function and what is right.
pub type OfClash = fn(&Function, Clash) -> usize;

pub const OF_CLASH: [(&str, OfClash); 7] = [
    ("7 with the largest pattern", |f, right| {
        let shared = |&at: &usize| f.on[right.at].holds(at) && f.is_off(at);
        patterns(f.n).rev().find(shared).expect("the right one, or a larger")
    }),
    ("7 with the smallest pattern of any on cube", |f, _| {
        patterns(f.n).find(|&at| f.is_on(at) && f.is_off(at)).expect("the right one, or a smaller")
    }),
    ("7 with the first off cube's pattern", |f, right| {
        f.off.iter().find_map(|&off| smallest_shared(f.on[right.at], off)).expect("they meet")
    }),
    ("7 with the last off cube's pattern", |f, right| {
        f.off.iter().rev().find_map(|&off| smallest_shared(f.on[right.at], off)).expect("they meet")
    }),
    ("7 with the on cube's own smallest pattern", |f, right| smallest(f.on[right.at])),
    ("7 with the off cube's own smallest pattern", |f, right| {
        let at_fault = |off: &&Cube| off.holds(right.pattern);
        smallest(*f.off.iter().find(at_fault).expect("it is off"))
    }),
    ("7 without its pattern", |_, _| 0),
];

/// The wrong patterns that are other than the right one, by their index.
pub fn others_of_clash(f: &Function, right: Clash) -> impl Iterator<Item = u64> + '_ {
    let all = (0..).zip(OF_CLASH);
    all.filter(move |(_, (_, wrong))| wrong(f, right) != right.pattern).map(|(index, _)| index)
}

fn smallest(cube: Cube) -> usize {
    smallest_shared(cube, Cube::ALL).expect("no input is named twice")
}

// ---- Wrong patterns of code 14 ----

/// From the functions, the wiring and what is right.
pub type OfWiring = fn(&Given, &Wiring, usize) -> usize;

pub const OF_WIRING: [(&str, OfWiring); 10] = [
    ("14 with the largest pattern", |given, wiring, _| {
        disagreements(&given.tables, wiring).pop().expect("there is one")
    }),
    ("14 with the pattern of f that is read", |_, wiring, right| read_at(&wiring.inputs, right)),
    ("14 with the smallest pattern of f", |given, wiring, _| {
        let all = disagreements(&given.tables, wiring).into_iter();
        all.map(|y| read_at(&wiring.inputs, y)).min().expect("there is one")
    }),
    ("14 with the first pair's pattern", |given, Wiring { q, inputs }, _| {
        let mut pairs = given.two.pairs(*q);
        let first = pairs.find(|(_, of_f, of_g)| !separates(inputs, *of_f, *of_g));
        let (_, of_f, of_g) = first.expect("a pair is not separated");
        let shared = |&y: &usize| of_f.holds(read_at(inputs, y)) && of_g.holds(y);
        patterns(inputs.n).find(shared).expect("it is not separated")
    }),
    ("14 with the smallest pattern of f's on list, if any", |given, wiring, right| {
        let all = disagreements(&given.tables, wiring).into_iter();
        let mut on = all.filter(|&y| given.tables.f.on[read_at(&wiring.inputs, y)]);
        on.next().unwrap_or(right)
    }),
    ("14 with the phase ignored", |given, wiring, _| {
        first(&given.tables, &Wiring { q: false, inputs: wiring.inputs.clone() })
    }),
    ("14 with open read as off", |given, wiring, _| {
        let closed = |Table { on, .. }: Table| Table { off: on.iter().map(|on| !on).collect(), on };
        let Tables { f, g } = given.tables.clone();
        first(&Tables { f: closed(f), g: closed(g) }, wiring)
    }),
    ("14 with j applied the wrong way round", |given, Wiring { q, inputs }, _| {
        first(&given.tables, &Wiring { q: *q, inputs: the_wrong_way_round(inputs) })
    }),
    ("14 with inverted read as plain", |given, Wiring { q, inputs }, _| {
        first(&given.tables, &Wiring { q: *q, inputs: without_inversions(inputs) })
    }),
    ("14 without its pattern", |_, _, _| 0),
];

/// The wrong patterns that are other than the right one, by their index.
pub fn others_of_wiring<'a>(
    given: &'a Given,
    wiring: &'a Wiring,
    right: usize,
) -> impl Iterator<Item = u64> + 'a {
    let all = (0..).zip(OF_WIRING);
    all.filter(move |(_, (_, wrong))| wrong(given, wiring, right) != right).map(|(index, _)| index)
}

fn disagreements(tables: &Tables, wiring: &Wiring) -> Vec<usize> {
    tables.disagreements(wiring.q, &wiring.inputs).collect()
}

/// The first of them, or 0 if there is none.
fn first(tables: &Tables, wiring: &Wiring) -> usize {
    disagreements(tables, wiring).first().copied().unwrap_or(0)
}

// ---- Functions whose lists meet ----

/// A function with up to three on cubes changed so that they meet off cubes: often
/// several of them, and before or behind other cubes.
pub fn clashing(random: &mut Random, n: usize) -> Function {
    loop {
        let mut f = any_lists(random, n);
        for _ in 0..1 + random.below(3) {
            clash(random, &mut f);
        }
        if f.first_clash().is_some() {
            return f;
        }
    }
}

/// A valid function of any style, with full lists and single patterns among them.
pub fn any_lists(random: &mut Random, n: usize) -> Function {
    match random.below(4) {
        0 => full_function(random, n),
        1 => {
            let sizes = [any_size(random), any_size(random)];
            from_points(random, n, sizes)
        }
        _ => function_of(random, n, any_size),
    }
}

/// A function whose lists meet at this pattern, which is known by the way it is made: it
/// is off and the smallest that the on cube holds. The on cubes before it meet no off
/// cube; of those behind it some do, at any pattern.
pub fn clash_at(random: &mut Random, n: usize, pattern: usize) -> (Function, Clash) {
    let mut others: Vec<usize> = patterns(n).filter(|&other| other != pattern).collect();
    random.shuffle(&mut others);
    // One of each is still to come.
    let [a, b] = [(); 2].map(|()| random.below(MOST_CUBES.min(others.len() / 2 + 1)));
    let points = |list: &[usize]| -> Vec<Cube> { list.iter().map(|&at| point(n, at)).collect() };
    let mut on = points(&others[..a]);
    let mut off = points(&others[a..a + b]);
    off.push(point(n, pattern));
    random.shuffle(&mut off);

    // Where its literals are dropped, the other value makes a pattern larger.
    let zeros = (0..n).filter(|&input| !value(pattern, input));
    let drop = |cube, input| if random.flip() { without(cube, input) } else { cube };
    let cube = zeros.fold(point(n, pattern), drop);
    let at = random.below(on.len() + 1);
    on.insert(at, cube);
    for later in &mut on[at + 1..] {
        if random.below(3) == 0 {
            *later = random.pick(&off);
        }
    }
    (Function { n, on, off }, Clash { at, pattern })
}

// ---- Claims that do not agree ----

/// Two functions and a wiring with this q that fits them but for these patterns of g, at
/// most 64: each list has single patterns, now and then repeated until it is full.
pub fn flipped_at(random: &mut Random, n: usize, q: bool, at: &[usize]) -> (Two, Wiring) {
    let wiring = Wiring { q, ..any_wiring(random, n) };
    let mut others: Vec<usize> = patterns(n).filter(|other| !at.contains(other)).collect();
    random.shuffle(&mut others);
    others.truncate(random.below(MOST_CUBES + 1 - at.len()));

    let [mut f, mut g] = [(); 2].map(|()| Function { n, on: vec![], off: vec![] });
    for &y in at.iter().chain(&others) {
        let of_g = random.flip();
        let of_f = of_g ^ q ^ at.contains(&y);
        let list = if of_g { &mut g.on } else { &mut g.off };
        list.push(point(n, y));
        let list = if of_f { &mut f.on } else { &mut f.off };
        list.push(point(n, read_at(&wiring.inputs, y)));
    }
    for list in [&mut f.on, &mut f.off, &mut g.on, &mut g.off] {
        if !list.is_empty() && random.below(3) == 0 {
            *list = list.iter().copied().cycle().take(MOST_CUBES).collect();
        }
        random.shuffle(list);
    }
    (Two { f, g }, wiring)
}

/// All functions of n inputs as their single patterns: each is on, off or open.
pub fn every_table(n: usize) -> Vec<Function> {
    let mut all = vec![Function { n, on: vec![], off: vec![] }];
    for pattern in patterns(n) {
        let with = |f: &Function| {
            let (mut on, mut off) = (f.clone(), f.clone());
            on.on.push(point(n, pattern));
            off.off.push(point(n, pattern));
            [f.clone(), on, off]
        };
        all = all.iter().flat_map(with).collect();
    }
    all
}

#[cfg(test)]
mod tests {
    use super::*;
    use crate::reference::record::{read, record};
    use crate::reference::two::two;

    #[test]
    fn every_function_made_clashes_and_is_right_otherwise() {
        let mut random = Random::new(17);
        for round in 0..400 {
            let f = clashing(&mut random, 1 + round % 8);
            assert_eq!(read(&record(&f), 1).answer.code, 7, "{f:?}");
        }
    }

    #[test]
    fn a_clash_is_where_it_was_made() {
        let mut random = Random::new(18);
        for n in 1..=8 {
            for pattern in patterns(n) {
                let (f, clash) = clash_at(&mut random, n, pattern);
                assert_eq!(f.first_clash(), Some(clash), "{f:?}");
                assert_eq!(read(&record(&f), 1).answer.code, 7, "{f:?}");
            }
        }
    }

    #[test]
    fn a_wiring_fails_where_it_was_made_to() {
        let mut random = Random::new(19);
        for n in 1..=8 {
            for pattern in patterns(n) {
                let mut at = vec![pattern, random.below(1 << n), random.below(1 << n)];
                at.sort();
                at.dedup();
                let q = random.flip();
                let (made, wiring) = flipped_at(&mut random, n, q, &at);
                assert_eq!(two(&record(&made.f), &record(&made.g)), Ok(made.clone()));
                assert_eq!(disagreements(&Tables::of(&made), &wiring), at, "{made:?}");
            }
        }
    }

    #[test]
    fn every_table_is_there() {
        assert_eq!([1, 2].map(|n| every_table(n).len()), [9, 81]);
    }
}
