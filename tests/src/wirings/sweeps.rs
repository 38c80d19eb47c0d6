//! The inputs of the comparison, sweep by sweep.

use super::pairs::{any_pair, any_wiring, neighbour, one_dead_pair, start, Made};
use super::{Given, Trial};
use crate::cases::NAMED;
use crate::random::{any_function, any_size, full_function, function_of};
use crate::random::{spoiled, with_one_list, Random};
use crate::records::Outcome;
use crate::reference::pair::Pair;
use crate::reference::pattern::every_cube;
use crate::reference::record::{record, MOST_CUBES};
use crate::reference::two::Two;
use crate::reference::wiring::{wirings, Partial};

/// A sweep makes its inputs and lets the trial compare them.
pub type Sweep = fn(&mut Trial) -> Outcome;

/// All sweeps, the longest first.
pub const ALL: [Sweep; 9] = [
    some_prefixes,
    every_prefix,
    single_cubes,
    whole_wirings,
    full_functions,
    bad_records,
    late_pairs,
    bad_wirings,
    named_functions,
];

// ---- Every partial wiring of few inputs ----

/// One cube against one cube, in every list of either function, under every
/// partial wiring of up to 3 inputs.
pub fn single_cubes(trial: &mut Trial) -> Outcome {
    for n in 1..=3 {
        let partials = Partial::empty(n).continuations();
        for of_f in every_cube(n) {
            for of_g in every_cube(n) {
                for lists in 0..4 {
                    let f = with_one_list(n, vec![of_f], lists % 2 == 0);
                    let g = with_one_list(n, vec![of_g], lists / 2 == 0);
                    every_partial(trial, Two { f, g }, &partials, &[0, 1])?;
                }
            }
        }
    }
    Ok(())
}

/// Random pairs of functions under every partial wiring of up to 3 inputs.
pub fn every_prefix(trial: &mut Trial) -> Outcome {
    let mut random = Random::new(201);
    for n in 1..=3 {
        let partials = Partial::empty(n).continuations();
        for _ in 0..2_000 {
            let above_1 = 2 + random.below(254) as u8;
            let Made { two, .. } = any_pair(&mut random, n);
            every_partial(trial, two, &partials, &[0, 1, above_1])?;
        }
    }
    Ok(())
}

/// The functions that 01 names, all pairs: those that differ in n are refused.
pub fn named_functions(trial: &mut Trial) -> Outcome {
    for f in NAMED {
        for g in NAMED {
            for n in 1..=2 {
                for partial in Partial::empty(n).continuations() {
                    for q in [0, 1, 2, 3, 16, 127, 128, 254, 255] {
                        trial.bytes(f, g, &partial.bytes(), q)?;
                    }
                }
            }
        }
    }
    Ok(())
}

fn every_partial(trial: &mut Trial, two: Two, partials: &[Partial], phases: &[u8]) -> Outcome {
    let given = Given::new(two);
    for partial in partials {
        for &q in phases {
            trial.dead(&given, &partial.bytes(), q)?;
        }
    }
    Ok(())
}

// ---- Some wirings of more inputs ----

/// So many inputs may be unplaced: the reference tries all completions.
const UNPLACED: usize = 4;

/// The starts of a wiring that fits or nearly fits, and of others beside it.
pub fn some_prefixes(trial: &mut Trial) -> Outcome {
    let mut random = Random::new(202);
    for n in 4..=8 {
        for round in 0..600 {
            let Made { two, wiring } = any_pair(&mut random, n);
            let given = Given::new(two);
            if n == 5 && round % 3 == 0 {
                // None of 5 inputs placed: more completions, so not every time.
                trial.dead(&given, &[], 0)?;
                trial.dead(&given, &[], 1)?;
            }
            let others = [neighbour(&mut random, &wiring), any_wiring(&mut random, n)];
            for other in [&wiring].into_iter().chain(&others) {
                for length in n.saturating_sub(UNPLACED)..=n {
                    let w = start(&other.inputs, length).bytes();
                    trial.dead(&given, &w, other.q as u8)?;
                }
                // The other phase, with few inputs unplaced.
                let w = start(&other.inputs, n - random.below(4)).bytes();
                trial.dead(&given, &w, !other.q as u8)?;
            }
        }
    }
    Ok(())
}

/// Whole wirings: all of them for few inputs, else the one that fits or nearly
/// fits, and some beside it.
pub fn whole_wirings(trial: &mut Trial) -> Outcome {
    let mut random = Random::new(203);
    for n in 1..=8 {
        for round in 0..200 {
            let Made { two, wiring } = any_pair(&mut random, n);
            let given = Given::new(two);
            trial.whole(&given, &wiring)?;
            for _ in 0..10 {
                trial.whole(&given, &neighbour(&mut random, &wiring))?;
                trial.whole(&given, &any_wiring(&mut random, n))?;
            }
            if n <= 4 && round < 50 {
                for wiring in wirings(n) {
                    trial.whole(&given, &wiring)?;
                }
            }
        }
    }
    Ok(())
}

/// Functions of 64 and 64 cubes, the same one twice or two of them.
pub fn full_functions(trial: &mut Trial) -> Outcome {
    let mut random = Random::new(204);
    for n in 1..=8 {
        for _ in 0..10 {
            let f = full_function(&mut random, n);
            let g = if random.flip() { f.clone() } else { full_function(&mut random, n) };
            let given = Given::new(Two { f, g });
            for _ in 0..10 {
                let wiring = any_wiring(&mut random, n);
                trial.whole(&given, &wiring)?;
                let length = n - random.below(1 + n.min(UNPLACED));
                trial.dead(&given, &start(&wiring.inputs, length).bytes(), wiring.q as u8)?;
            }
        }
    }
    Ok(())
}

/// Lists of 64 cubes with one dead pair, at the ends of the lists and between.
pub fn late_pairs(trial: &mut Trial) -> Outcome {
    let mut random = Random::new(208);
    for n in 2..=8 {
        for s in 0..2 {
            for [u, v] in [[0, 0], [0, 63], [63, 0], [63, 63], [62, 63], [63, 62], [99, 99]] {
                // The last round takes any cubes.
                let [u, v] = [u, v].map(|at| if at < 99 { at } else { random.below(MOST_CUBES) });
                let wiring = any_wiring(&mut random, n);
                let two = one_dead_pair(&mut random, &wiring, Pair { s, u, v });
                let given = Given::new(two);
                trial.whole(&given, &wiring)?;
                for length in n.saturating_sub(UNPLACED)..n {
                    trial.dead(&given, &start(&wiring.inputs, length).bytes(), wiring.q as u8)?;
                }
            }
        }
    }
    Ok(())
}

// ---- What is refused ----

/// Every byte at every place of a wiring, and wirings that are too long.
pub fn bad_wirings(trial: &mut Trial) -> Outcome {
    let mut random = Random::new(205);
    for n in 1..=8 {
        for _ in 0..4 {
            let Made { two, wiring } = any_pair(&mut random, n);
            let given = Given::new(two);
            let whole = wiring.inputs.bytes();
            let q = random.byte();
            for at in 0..n {
                for byte in 0..=255 {
                    let mut w = whole.clone();
                    w[at] = byte;
                    trial.dead(&given, &w, q)?;
                    // And cut, so that it is the last one.
                    if n - (at + 1) <= UNPLACED {
                        trial.dead(&given, &w[..at + 1], q)?;
                    }
                }
            }
            for more in [1, 2, 8, 9, 248, 256, 70_000] {
                // Bytes that would be right at another place, and any bytes.
                let mut w = whole.clone();
                w.extend(whole.iter().cycle().take(more));
                trial.dead(&given, &w, q)?;
                w.truncate(n);
                w.extend((0..more).map(|_| random.byte()));
                trial.dead(&given, &w, q)?;
            }
        }
    }
    Ok(())
}

/// Records with faults in the place of f, of g and of both, and functions that
/// differ in n, with a wiring of f's n or of g's.
pub fn bad_records(trial: &mut Trial) -> Outcome {
    let mut random = Random::new(206);
    for _ in 0..2_000 {
        let f = any_function(&mut random);
        let n = f.n;
        let same = record(&function_of(&mut random, n, any_size));
        let other = any_function(&mut random);
        let bad = spoiled(&mut random, f.clone());
        let f = record(&f);
        let q = random.byte();
        let whole = any_wiring(&mut random, n).inputs.bytes();
        // A fault may happen to do no harm, so not too many inputs are unplaced.
        for w in [&whole[..], &whole[..n - 1], &whole[..n.saturating_sub(UNPLACED)]] {
            trial.bytes(&bad, &same, w, q)?;
            trial.bytes(&same, &bad, w, q)?;
            trial.bytes(&bad, &bad, w, q)?;
        }
        trial.bytes(&f, &same, &whole, q)?;
        for w in [whole, any_wiring(&mut random, other.n).inputs.bytes()] {
            trial.bytes(&f, &record(&other), &w, q)?;
        }
        let cut = &f[..random.below(f.len())];
        trial.bytes(cut, &same, &[], q)?;
        trial.bytes(&same, cut, &[], q)?;
    }
    Ok(())
}
