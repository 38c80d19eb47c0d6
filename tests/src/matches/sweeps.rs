//! The inputs of the comparison, sweep by sweep.

use super::pairs::{both_ends, ends_within, every_function, last_input, many, several, special};
use super::Trial;
use crate::cases::{EXAMPLE_2_1, EXAMPLE_3_2, NAMED};
use crate::claims::trees::{refused_pair, widened};
use crate::patterns::{any_lists, clash_at, clashing};
use crate::random::{any_function, any_size, few, from_points, full_function, function_of};
use crate::random::{spoiled, Random};
use crate::records::Outcome;
use crate::reference::dead::TRIED;
use crate::reference::matcher::first_on_patterns;
use crate::reference::pair::Pair;
use crate::reference::pattern::{patterns, Cube, Function, INPUTS};
use crate::reference::record::{record, MOST_CUBES};
use crate::reference::two::{two, Two};
use crate::reference::wiring::Wiring;
use crate::wirings::pairs::{any_pair, any_wiring, copied, one_dead_pair, straight};

/// A sweep makes its inputs and lets the trial compare them.
pub type Sweep = fn(&mut Trial) -> Outcome;

/// All sweeps, the longest first.
pub const ALL: [Sweep; 15] = [
    longer_searches,
    other_pairs,
    fitting_pairs,
    deep_trees,
    other_pairs_of_more,
    copies,
    known_wirings,
    every_room,
    bad_records,
    clashing_records,
    small_functions,
    special_functions,
    full_lists,
    selves,
    named_functions,
];

// ---- Up to 4 inputs ----

/// All functions of 1 input with up to two cubes in a list, and of 2 inputs with up
/// to one, each to each; of 3 inputs with up to one, each to some.
pub fn small_functions(trial: &mut Trial) -> Outcome {
    let mut random = Random::new(400);
    for (n, most) in [(1, 2), (2, 1), (3, 1)] {
        let functions = every_function(n, most);
        for f in &functions {
            let some: Vec<Function> =
                (0..40).map(|_| functions[random.below(functions.len())].clone()).collect();
            for g in if n < 3 { &functions } else { &some } {
                trial.pair(&Two { f: f.clone(), g: g.clone() })?;
            }
        }
    }
    Ok(())
}

/// Pairs that a wiring fits, or nearly fits.
pub fn fitting_pairs(trial: &mut Trial) -> Outcome {
    let mut random = Random::new(401);
    for (n, rounds) in [(1, 3_000), (2, 8_000), (3, 12_000), (4, 12_000)] {
        for _ in 0..rounds {
            trial.pair(&any_pair(&mut random, n).two)?;
        }
    }
    Ok(())
}

/// Two functions made apart from each other, with enough cubes that seldom a wiring
/// fits.
pub fn other_pairs(trial: &mut Trial) -> Outcome {
    let mut random = Random::new(402);
    for (n, rounds) in [(1, 2_000), (2, 4_000), (3, 6_000), (4, 6_000)] {
        for _ in 0..rounds {
            let [f, g] = [(); 2].map(|()| function_of(&mut random, n, several));
            trial.pair(&Two { f, g })?;
        }
    }
    Ok(())
}

/// A function and its copy under a wiring, none or some of its cubes dropped.
pub fn copies(trial: &mut Trial) -> Outcome {
    let mut random = Random::new(403);
    for (n, rounds) in [(1, 2_000), (2, 6_000), (3, 8_000), (4, 8_000)] {
        for round in 0..rounds {
            let size = if round % 4 == 0 { any_size } else { few };
            let f = function_of(&mut random, n, size);
            let wiring = any_wiring(&mut random, n);
            let g = copied(&mut random, &f, &wiring, round % 3);
            trial.pair(&Two { f, g })?;
        }
    }
    Ok(())
}

/// Open and constant functions and functions of one list, with each other and with
/// any.
pub fn special_functions(trial: &mut Trial) -> Outcome {
    let mut random = Random::new(404);
    for n in 1..=TRIED {
        for _ in 0..2_000 {
            let [f, g] = [(); 2].map(|()| special(&mut random, n));
            trial.pair(&Two { f, g })?;
        }
    }
    Ok(())
}

/// Lists of 64 cubes, of which some pair at the ends of the lists or between is the
/// last to be kept apart.
pub fn full_lists(trial: &mut Trial) -> Outcome {
    let mut random = Random::new(405);
    for n in 2..=TRIED {
        for s in 0..2 {
            for [u, v] in [[0, 63], [63, 0], [63, 63], [62, 63], [99, 99]] {
                let [u, v] = [u, v].map(|at| if at < 99 { at } else { random.below(MOST_CUBES) });
                let wiring = any_wiring(&mut random, n);
                trial.pair(&one_dead_pair(&mut random, &wiring, Pair { s, u, v }))?;
            }
        }
    }
    for n in 1..=TRIED {
        for round in 0..20 {
            let f = full_function(&mut random, n);
            let wiring = any_wiring(&mut random, n);
            let g = match round % 2 {
                0 => full_function(&mut random, n),
                _ => copied(&mut random, &f, &wiring, 0),
            };
            trial.pair(&Two { f, g })?;
        }
    }
    Ok(())
}

/// Buffers of every length.
pub fn every_room(trial: &mut Trial) -> Outcome {
    let mut random = Random::new(406);
    for (n, rounds) in [(1, 30), (2, 60), (3, 30), (4, 6)] {
        for round in 0..rounds {
            let two = match round % 2 {
                0 => refused_pair(&mut random, n),
                _ => any_pair(&mut random, n).two,
            };
            trial.every_room(&two)?;
        }
    }
    Ok(())
}

/// The functions that 01 names, all pairs, with every buffer up to the longest claim
/// of 2 inputs; and the examples of the paper.
pub fn named_functions(trial: &mut Trial) -> Outcome {
    for f in NAMED {
        for g in NAMED {
            for room in 0..=62 {
                trial.bytes(f, g, room)?;
            }
        }
    }
    for [f, g] in [EXAMPLE_2_1, EXAMPLE_3_2] {
        trial.every_room(&two(f, g).expect("an example of the paper"))?;
        trial.every_room(&two(g, f).expect("an example of the paper"))?;
    }
    Ok(())
}

// ---- More inputs ----

/// So many nodes the search for a pair of more inputs may have, where the reference
/// goes through them too.
const NODES: usize = 2_000;

/// A function and its copy under a wiring, which agrees: no later one is right.
pub fn known_wirings(trial: &mut Trial) -> Outcome {
    let mut random = Random::new(407);
    for n in TRIED + 1..=INPUTS {
        let mut found = 0;
        while found < 200 {
            // Where few inputs decide, there are fewer wirings to look at.
            let inputs = [2, 3, 4, n][found % 4];
            let f = Function { n, ..function_of(&mut random, inputs, several) };
            let wiring = any_wiring(&mut random, n);
            let g = copied(&mut random, &f, &wiring, found % 3);
            let two = Two { f, g };
            if ends_within(&two, NODES) {
                trial.checked(&two, Some(&wiring))?;
                found += 1;
            }
        }
        // With many cubes, and then with full lists, hardly another wiring agrees. The
        // search comes to it soon if it is straight but at its end.
        let mut found = 0;
        while found < 40 {
            let f = match found % 4 {
                0 => full_function(&mut random, n),
                _ => function_of(&mut random, n, many),
            };
            let mut wiring = Wiring { q: false, inputs: straight(n) };
            let last = &mut wiring.inputs.placed[n - 3..];
            random.shuffle(last);
            last.iter_mut().for_each(|choice| choice.inverted = random.flip());
            let g = copied(&mut random, &f, &wiring, 0);
            let two = Two { f, g };
            if ends_within(&two, 100) {
                trial.checked(&two, Some(&wiring))?;
                found += 1;
            }
        }
    }
    Ok(())
}

/// Pairs of more inputs that no wiring fits, and some others.
pub fn other_pairs_of_more(trial: &mut Trial) -> Outcome {
    let mut random = Random::new(408);
    for n in TRIED + 1..=INPUTS {
        for round in 0..50 {
            // What 2 or 3 inputs decide closes at depth 3 at most.
            let small = refused_pair(&mut random, 2 + round % 2);
            trial.checked(&widened(&mut random, &small, n), None)?;
        }
        // With 5 inputs the largest tree is not too large.
        let nodes = if n == 5 { 20_000 } else { NODES };
        let mut found = 0;
        while found < 100 {
            let [f, g] = [(); 2].map(|()| function_of(&mut random, n, several));
            let two = Two { f, g };
            if ends_within(&two, nodes) {
                trial.checked(&two, None)?;
                found += 1;
            }
        }
    }
    Ok(())
}

/// Searches that are too long for the rule as the reference has it: up to 6 inputs
/// the first agreeing wiring is known from all of them, with 7 one that agrees.
pub fn longer_searches(trial: &mut Trial) -> Outcome {
    let mut random = Random::new(411);
    for (n, rounds) in [(5, 150), (6, 30), (7, 12)] {
        for _ in 0..rounds {
            let [f, other] = [(); 2].map(|()| function_of(&mut random, n, many));
            let wiring = any_wiring(&mut random, n);
            let g = copied(&mut random, &f, &wiring, 0);
            for (g, carried_by) in [(g, Some(wiring)), (other, None)] {
                let two = Two { f: f.clone(), g };
                let known = if n <= 6 { first_on_patterns(&two) } else { carried_by };
                trial.accepted(&two, known.as_ref())?;
            }
        }
    }
    Ok(())
}

/// Trees in which nothing is dead for long: the last input of f alone with two cubes
/// of g, and cubes of all literals.
pub fn deep_trees(trial: &mut Trial) -> Outcome {
    // Either of two inputs; of 7 inputs the claim's places are beyond 2^16.
    for n in 2..=7 {
        let either = Function {
            n,
            on: vec![Cube { p: 1, n: 0 }, Cube { p: 2, n: 0 }],
            off: vec![Cube { p: 0, n: 3 }],
        };
        trial.checked(&Two { f: last_input(n), g: either }, None)?;
    }
    for n in 1..=5 {
        for on in [false, true] {
            trial.checked(&Two { f: last_input(n), g: both_ends(n, on) }, None)?;
        }
    }
    // Enough patterns that often no wiring keeps all apart.
    let mut random = Random::new(412);
    for (n, size, rounds) in [(2, 2, 20), (3, 3, 40), (4, 6, 40), (5, 12, 16)] {
        for _ in 0..rounds {
            let [f, g] = [(); 2].map(|()| from_points(&mut random, n, [size; 2]));
            trial.checked(&Two { f, g }, None)?;
        }
    }
    Ok(())
}

/// Any function and itself: straight, whatever n is.
pub fn selves(trial: &mut Trial) -> Outcome {
    let mut random = Random::new(409);
    for n in 1..=INPUTS {
        for round in 0..12 {
            let f = match round {
                0 => full_function(&mut random, n),
                _ => function_of(&mut random, n, any_size),
            };
            let wiring = Wiring { q: false, inputs: straight(n) };
            trial.checked(&Two { g: f.clone(), f }, Some(&wiring))?;
        }
    }
    Ok(())
}

// ---- What is refused ----

/// Records with faults in the place of f, of g and of both, and functions that
/// differ in n, with buffers of any length.
pub fn bad_records(trial: &mut Trial) -> Outcome {
    let mut random = Random::new(410);
    for _ in 0..2_000 {
        let f = any_function(&mut random);
        let same = record(&function_of(&mut random, f.n, any_size));
        let other = record(&any_function(&mut random));
        let bad = spoiled(&mut random, f.clone());
        let f = record(&f);
        let cut = &f[..random.below(f.len())];
        let mut longer = f.clone();
        longer.resize(f.len() + random.pick(&[1, 2, 255, 256, 70_000]), random.byte());
        let pairs: [[&[u8]; 2]; 10] = [
            [&bad, &same],
            [&same, &bad],
            [&bad, &bad],
            [&bad, &other],
            [&other, &bad],
            [&f, &other],
            [cut, &same],
            [&same, cut],
            [&longer, &other],
            [&other, &longer],
        ];
        for [f, g] in pairs {
            // Some faults do no harm: then there is a search, which may be long.
            if two(f, g).is_ok_and(|two| two.n() > TRIED) {
                continue;
            }
            for room in [0, random.below(16), 300] {
                trial.bytes(f, g, room)?;
            }
        }
    }
    Ok(())
}

/// Functions whose lists meet, in the place of f, of g and of both.
pub fn clashing_records(trial: &mut Trial) -> Outcome {
    let mut random = Random::new(413);
    for n in 1..=INPUTS {
        for pattern in patterns(n) {
            let right = record(&any_lists(&mut random, n));
            let bad = record(&clashing(&mut random, n));
            let known = record(&clash_at(&mut random, n, pattern).0);
            for [f, g] in [[&bad, &right], [&right, &bad], [&known, &bad], [&right, &known]] {
                trial.bytes(f, g, random.pick(&[0, 12, 300]))?;
            }
        }
    }
    Ok(())
}
