//! The inputs of the comparison, sweep by sweep.

use super::trees::{closings, forged, refusal, refused_pair, trees, widened, Shape, SHAPES};
use super::Trial;
use crate::cases::{CLAIMS, CONJ, CONST, DISJ, NAMED, ODD, OPEN, WIRE};
use crate::matches::pairs::every_function;
use crate::patterns::{any_lists, clash_at, clashing, every_table, flipped_at};
use crate::random::{any_function, any_size, function_of, spoiled, Random};
use crate::records::sweeps::every_string;
use crate::records::Outcome;
use crate::reference::claim::{match_claim, refusal_claim, MATCH_MARK, REFUSAL_MARK, SPLIT};
use crate::reference::pattern::{patterns, INPUTS};
use crate::reference::record::record;
use crate::reference::two::{two, Two};
use crate::reference::wiring::wirings;
use crate::wirings::pairs::{any_pair, any_wiring, copied, neighbour, Made};
use crate::wirings::Given;

/// A sweep makes its inputs and lets the trial compare them.
pub type Sweep = fn(&mut Trial) -> Outcome;

/// All sweeps, the longest first.
pub const ALL: [Sweep; 15] = [
    large_trees,
    damaged_trees,
    small_trees,
    other_closings,
    forged_claims,
    wrong_wirings,
    every_wiring,
    bad_records,
    clashing_records,
    known_patterns,
    match_claims,
    random_claims,
    damaged_match_claims,
    short_claims,
    named_functions,
];

// ---- All short claims ----

/// Pairs that match and pairs that do not, of 1 and of 2 inputs.
const SMALL_PAIRS: [[&[u8]; 2]; 5] =
    [[CONST, WIRE], [WIRE, WIRE], [OPEN, WIRE], [CONJ, DISJ], [CONJ, ODD]];

/// All strings of a few telling bytes, and all tails after either header.
pub fn short_claims(trial: &mut Trial) -> Outcome {
    for [f, g] in SMALL_PAIRS {
        let given = Given::new(two(f, g).expect("two cases of 01"));
        let n = f[2];
        let mut after = |start: &[u8], alphabet: &[u8], more: usize| {
            let mut visit = |claim: &[u8]| trial.claim(&given, claim);
            every_string(alphabet, &mut start.to_vec(), more, &mut visit)
        };
        after(&[], &[0x4D, 0x54, 0x52, 0x46, 0, 1, 2, 3, 0x10, SPLIT], 4)?;
        after(&[0x4D, 0x54, n], &[0, 1, 2, 3, 0x0F, 0x10, 0x11, 0x12, 0x20, SPLIT], 4)?;
        after(&[0x52, 0x46, n], &[0, 1, 2, SPLIT], 7)?;
    }
    // One input, with the first tree split and closed: all second trees.
    let given = Given::new(two(CONST, WIRE).expect("two cases of 01"));
    let mut start = vec![0x52, 0x46, 1, SPLIT, 0, 0, 0, 0, 0, 0];
    every_string(&[0, 1, SPLIT], &mut start, 8, &mut |claim| trial.claim(&given, claim))
}

/// The claims of 01 about every pair of its functions.
pub fn named_functions(trial: &mut Trial) -> Outcome {
    for f in NAMED {
        for g in NAMED {
            for case in CLAIMS {
                trial.bytes(f, g, case.claim)?;
            }
        }
    }
    Ok(())
}

// ---- Match claims ----

/// All wirings of few inputs; of more, the one that fits or nearly fits and some
/// beside it.
pub fn match_claims(trial: &mut Trial) -> Outcome {
    let mut random = Random::new(301);
    for n in 1..=8 {
        for round in 0..150 {
            let Made { two, wiring } = any_pair(&mut random, n);
            let given = Given::new(two);
            let mut tried = vec![neighbour(&mut random, &wiring), any_wiring(&mut random, n)];
            tried.push(wiring);
            if n <= 3 || n == 4 && round % 10 == 0 {
                tried.extend(wirings(n));
            }
            for wiring in tried {
                let claim = match_claim(&wiring);
                if given.tables.agree(wiring.q, &wiring.inputs) {
                    trial.valid(&given, &claim)?;
                } else {
                    trial.claim(&given, &claim)?;
                }
            }
        }
    }
    Ok(())
}

/// Claims that fit or nearly fit, with every value at every byte, and with two
/// bytes changed.
pub fn damaged_match_claims(trial: &mut Trial) -> Outcome {
    let mut random = Random::new(302);
    for n in 1..=8 {
        let telling = [0, 1, 2, n as u8, 0x10, 0x11, 16 + n as u8, 0xFF];
        for _ in 0..8 {
            let Made { two, wiring } = any_pair(&mut random, n);
            let given = Given::new(two);
            let claim = match_claim(&wiring);
            every_damage(trial, &mut random, &given, &claim)?;
            for _ in 0..400 {
                let mut damaged = claim.clone();
                for _ in 0..2 {
                    damaged[random.below(claim.len())] = random.pick(&telling);
                }
                match random.below(4) {
                    0 => damaged.truncate(random.below(claim.len())),
                    1 => damaged.push(random.byte()),
                    _ => {}
                }
                trial.claim(&given, &damaged)?;
            }
        }
    }
    Ok(())
}

// ---- Claims that do not agree, and where ----

/// All functions of 1 and of 2 inputs, as single patterns and as few cubes: each to each,
/// by all wirings.
pub fn every_wiring(trial: &mut Trial) -> Outcome {
    let sets = [every_table(1), every_function(1, 2), every_table(2), every_function(2, 1)];
    for functions in sets {
        let wirings = wirings(functions[0].n);
        for f in &functions {
            for g in &functions {
                let given = Given::new(Two { f: f.clone(), g: g.clone() });
                for wiring in &wirings {
                    trial.wiring(&given, wiring)?;
                }
            }
        }
    }
    Ok(())
}

/// A function and its copy under a wiring, with one or two things wrong in the wiring: two
/// inputs changed places, an inversion, q.
pub fn wrong_wirings(trial: &mut Trial) -> Outcome {
    let mut random = Random::new(311);
    for n in 1..=INPUTS {
        for round in 0..120 {
            let f = any_lists(&mut random, n);
            let wiring = any_wiring(&mut random, n);
            let g = copied(&mut random, &f, &wiring, round % 2);
            let given = Given::new(Two { f, g });
            for _ in 0..3 {
                let wrong = neighbour(&mut random, &wiring);
                trial.wiring(&given, &wrong)?;
                trial.wiring(&given, &neighbour(&mut random, &wrong))?;
            }
        }
    }
    Ok(())
}

/// Wirings that fit but at known patterns: each in turn is the smallest of them.
pub fn known_patterns(trial: &mut Trial) -> Outcome {
    let mut random = Random::new(312);
    for n in 1..=INPUTS {
        for pattern in patterns(n) {
            for (q, others) in
                [(false, 0), (false, 2), (false, 40), (true, 0), (true, 2), (true, 40)]
            {
                let larger = (1 << n) - pattern;
                let mut at = vec![pattern];
                at.extend((0..others).map(|_| pattern + random.below(larger)));
                at.sort();
                at.dedup();
                let (two, wiring) = flipped_at(&mut random, n, q, &at);
                trial.disagrees(&Given::new(two), &wiring, pattern)?;
            }
        }
    }
    Ok(())
}

/// Functions whose lists meet, in the place of f, of g and of both.
pub fn clashing_records(trial: &mut Trial) -> Outcome {
    let mut random = Random::new(313);
    for n in 1..=INPUTS {
        for pattern in patterns(n) {
            let claim = match_claim(&any_wiring(&mut random, n));
            let right = record(&any_lists(&mut random, n));
            let bad = record(&clashing(&mut random, n));
            let known = record(&clash_at(&mut random, n, pattern).0);
            for [f, g] in [[&bad, &right], [&right, &bad], [&known, &right], [&right, &known]] {
                trial.bytes(f, g, &claim)?;
            }
            trial.bytes(&bad, &known, &claim)?;
            trial.bytes(&known, &bad, &[])?;
        }
    }
    Ok(())
}

// ---- Refusal claims ----

/// Short trees of every shape, with every value at every byte.
pub fn small_trees(trial: &mut Trial) -> Outcome {
    const SHORT: usize = 100;
    let mut random = Random::new(303);
    for n in 1..=4 {
        let mut damaged = 0;
        while damaged < 10 {
            let given = Given::new(refused_pair(&mut random, n));
            let shape = random.pick(&SHAPES);
            let claim = refusal(&mut random, &given.two, shape);
            trial.valid(&given, &claim)?;
            if claim.len() <= SHORT {
                every_damage(trial, &mut random, &given, &claim)?;
                damaged += 1;
            }
        }
    }
    Ok(())
}

/// Trees of every shape and up to 4 inputs, damaged at every byte.
pub fn damaged_trees(trial: &mut Trial) -> Outcome {
    let mut random = Random::new(304);
    for (n, rounds, values) in [(1, 40, 8), (2, 40, 8), (3, 10, 5), (4, 2, 2)] {
        for _ in 0..rounds {
            let given = Given::new(refused_pair(&mut random, n));
            for shape in SHAPES {
                let claim = refusal(&mut random, &given.two, shape);
                trial.valid(&given, &claim)?;
                for at in 0..claim.len() {
                    let values = telling(&mut random, &given, claim[at], values);
                    change(trial, &given, &claim, at, &values)?;
                    trial.claim(&given, &claim[..at])?;
                }
                extend(trial, &mut random, &given, &claim)?;
            }
        }
    }
    Ok(())
}

/// Trees of more inputs, damaged at some bytes and always at the last ones.
pub fn large_trees(trial: &mut Trial) -> Outcome {
    let mut random = Random::new(305);
    for n in 5..=8 {
        for round in 0..30 {
            // What 2 or 3 inputs decide closes at depth 3 at most.
            let small = refused_pair(&mut random, 2 + round % 2);
            let given = Given::new(widened(&mut random, &small, n));
            let shape = random.pick(&[Shape::Own, Shape::AnyPair]);
            some_damage(trial, &mut random, &given, shape)?;
        }
    }
    // Searched for, so that deeper nodes are closed by need.
    for _ in 0..10 {
        let given = Given::new(refused_pair(&mut random, 5));
        some_damage(trial, &mut random, &given, Shape::AnyPair)?;
    }
    // The deepest of 6 inputs has places beyond 2^16.
    for n in [5, 6] {
        let small = refused_pair(&mut random, 3);
        let given = Given::new(widened(&mut random, &small, n));
        some_damage(trial, &mut random, &given, Shape::Mixed)?;
        some_damage(trial, &mut random, &given, Shape::Deepest)?;
    }
    Ok(())
}

/// A claim of this shape, damaged at some bytes.
fn some_damage(trial: &mut Trial, random: &mut Random, given: &Given, shape: Shape) -> Outcome {
    let claim = refusal(random, &given.two, shape);
    trial.valid(given, &claim)?;
    let last = claim.len() - 4..claim.len();
    let any: Vec<usize> = (0..8).map(|_| random.below(claim.len())).collect();
    for at in last.chain(any) {
        let values = telling(random, given, claim[at], 2);
        change(trial, given, &claim, at, &values)?;
        trial.claim(given, &claim[..at])?;
    }
    extend(trial, random, given, &claim)
}

/// Closings of valid claims with any list and any cubes in their place, often at
/// the ends of the lists: most of these pairs are not dead.
pub fn other_closings(trial: &mut Trial) -> Outcome {
    let mut random = Random::new(306);
    for (n, rounds) in [(1, 100), (2, 200), (3, 200), (4, 60), (5, 3)] {
        for _ in 0..rounds {
            let given = Given::new(refused_pair(&mut random, n));
            let shape = random.pick(&SHAPES);
            let trees = trees(&mut random, &given.two, shape);
            let claim = refusal_claim(n, &trees);
            let closings = closings(&trees);
            for _ in 0..30 {
                let (place, q) = random.pick(&closings);
                let s = random.below(2);
                let (of_f, of_g) = given.two.lists(q, s);
                let mut changed = claim.clone();
                changed[place] = s as u8;
                changed[place + 1] = near_the_end(&mut random, of_f.len());
                changed[place + 2] = near_the_end(&mut random, of_g.len());
                trial.claim(&given, &changed)?;
            }
        }
    }
    Ok(())
}

/// An index of a list of so many cubes: any, the last, or one beyond.
fn near_the_end(random: &mut Random, len: usize) -> u8 {
    match random.below(6) {
        0 => len as u8,
        1 => len.saturating_sub(1) as u8,
        2 if random.below(4) == 0 => random.byte(),
        _ => random.below(len.max(1)) as u8,
    }
}

/// Refusals of pairs that match: only an agreeing wiring gives them away.
pub fn forged_claims(trial: &mut Trial) -> Outcome {
    let mut random = Random::new(307);
    for (n, rounds) in [(1, 500), (2, 1_000), (3, 1_000), (4, 200), (5, 20)] {
        for _ in 0..rounds {
            let Made { two, .. } = any_pair(&mut random, n);
            let claim = forged(&mut random, &two);
            trial.claim(&Given::new(two), &claim)?;
        }
    }
    Ok(())
}

// ---- Other bytes ----

/// Claims of bytes at random, most of them after a right header.
pub fn random_claims(trial: &mut Trial) -> Outcome {
    let mut random = Random::new(308);
    for n in 1..=8 {
        for round in 0..400 {
            let Made { two, .. } = any_pair(&mut random, n);
            let given = Given::new(two);
            let mark = if round % 4 == 0 { MATCH_MARK } else { REFUSAL_MARK };
            let mut claim = mark.to_vec();
            claim.push(n as u8);
            let tail = random.below(40);
            // Bytes that make trees, or any bytes.
            let tree = random.below(3) > 0;
            for _ in 0..tail {
                let any = random.byte();
                claim.push(if tree { random.pick(&[0, 0, 0, 1, 2, SPLIT, SPLIT]) } else { any });
            }
            trial.claim(&given, &claim)?;
            // The header spoiled, and no header at all.
            let at = random.below(3);
            claim[at] = random.pick(&[MATCH_MARK[0], MATCH_MARK[1], REFUSAL_MARK[1], any_n(n)]);
            trial.claim(&given, &claim)?;
            trial.claim(&given, &claim[3..])?;
        }
    }
    Ok(())
}

/// An n that is not this one, 8 at most.
fn any_n(n: usize) -> u8 {
    (n % 8 + 1) as u8
}

/// Records with faults in the place of f, of g and of both, and functions that
/// differ in n, with claims that fit f or g or nothing.
pub fn bad_records(trial: &mut Trial) -> Outcome {
    let mut random = Random::new(309);
    for _ in 0..2_000 {
        let f = any_function(&mut random);
        let n = f.n;
        let same = record(&function_of(&mut random, n, any_size));
        let other = any_function(&mut random);
        let of_f = match_claim(&any_wiring(&mut random, n));
        let of_other = match_claim(&any_wiring(&mut random, other.n));
        let bad = spoiled(&mut random, f.clone());
        let (f, other) = (record(&f), record(&other));
        let cut = &f[..random.below(f.len())];
        let refusal = [&REFUSAL_MARK[..], &[n as u8, 0, 0, 0, 0, 0, 0]].concat();
        for claim in [&of_f[..], &of_other[..], &refusal[..], &[0x46], &[]] {
            trial.bytes(&bad, &same, claim)?;
            trial.bytes(&same, &bad, claim)?;
            trial.bytes(&bad, &bad, claim)?;
            trial.bytes(&f, &same, claim)?;
            trial.bytes(&f, &other, claim)?;
            trial.bytes(&bad, &other, claim)?;
            trial.bytes(&other, &bad, claim)?;
            trial.bytes(cut, &same, claim)?;
            trial.bytes(&same, cut, claim)?;
        }
    }
    Ok(())
}

// ---- Damage ----

/// Every value at every byte, every length that is shorter, and some longer.
fn every_damage(trial: &mut Trial, random: &mut Random, given: &Given, claim: &[u8]) -> Outcome {
    let all: Vec<u8> = (0..=255).collect();
    for at in 0..claim.len() {
        change(trial, given, claim, at, &all)?;
        // The rest of the claim still follows the cut one in memory.
        trial.claim(given, &claim[..at])?;
    }
    extend(trial, random, given, claim)
}

/// The claim with each of these values at one byte.
fn change(trial: &mut Trial, given: &Given, claim: &[u8], at: usize, values: &[u8]) -> Outcome {
    let mut changed = claim.to_vec();
    for &value in values {
        changed[at] = value;
        trial.claim(given, &changed)?;
    }
    Ok(())
}

/// The claim with bytes after its end: one, several, and more than a small number
/// can count.
fn extend(trial: &mut Trial, random: &mut Random, given: &Given, claim: &[u8]) -> Outcome {
    for more in [1, 2, 3, 255, 70_000] {
        let mut longer = claim.to_vec();
        longer.extend((0..more).map(|_| random.byte()));
        trial.claim(given, &longer)?;
    }
    Ok(())
}

/// So many other values for a byte of a refusal claim.
fn telling(random: &mut Random, given: &Given, byte: u8, count: usize) -> Vec<u8> {
    let Two { f, g } = &given.two;
    let lengths = [&f.on, &f.off, &g.on, &g.off].map(|list| list.len() as u8);
    let mut values = vec![0, 1, 2, SPLIT, SPLIT - 1, byte ^ 1, byte.wrapping_add(1), random.byte()];
    values.extend(lengths);
    values.retain(|&value| value != byte);
    values.sort();
    values.dedup();
    random.shuffle(&mut values);
    values.truncate(count);
    values
}
