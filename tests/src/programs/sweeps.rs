//! The inputs of the comparison, sweep by sweep.

use super::run::Portions;
use super::Trial;
use crate::cases::{CLAIMS, CONJ, CONJ_ODD_CLAIM, CONST, DISJ, MATCHINGS, NAMED, ODD, WIRE};
use crate::claims::trees::{forged, refusal, refusal_of_length, refused_pair};
use crate::claims::trees::{split_everywhere, DEAD_AT_ONCE, SHAPES};
use crate::matches::pairs::{both_ends, last_input};
use crate::patterns::{clash_at, flipped_at};
use crate::random::{few, full_function, function_of, spoiled, Random};
use crate::records::Outcome;
use crate::reference::claim::{match_claim, MATCH_MARK, REFUSAL_MARK, SPLIT};
use crate::reference::dead::TRIED;
use crate::reference::pattern::INPUTS;
use crate::reference::programs::LONGEST_CHECKED;
use crate::reference::record::{record, MARK};
use crate::reference::two::Two;
use crate::wirings::pairs::{any_pair, any_wiring, Made};

/// A sweep makes its inputs and lets the trial compare them.
pub type Sweep = fn(&mut Trial) -> Outcome;

/// All sweeps, the longest first.
pub const ALL: [Sweep; 14] = [
    portions,
    long_portions,
    damaged_claims,
    bad_records,
    random_claims,
    patterns,
    rests,
    cut_inputs,
    short_inputs,
    following_bytes,
    named_functions,
    rooms,
    noise,
    long_claims,
];

/// The match that 01 names for Conj to Disj.
const CONJ_DISJ_CLAIM: &[u8] = &[0x4D, 0x54, 2, 1, 0x10, 0x11];

/// Inputs that both programs have much to do with.
const WHOLE: [[&[u8]; 3]; 3] = [
    [CONJ, DISJ, CONJ_DISJ_CLAIM],
    [CONJ, ODD, CONJ_ODD_CLAIM],
    [CONST, WIRE, &[0x52, 0x46, 1, 0, 0, 0, 0, 0, 0]],
];

// ---- Short inputs, and what follows ----

/// The cases of matcher and checker: f, g and the claim one after the other. Where f
/// is not whole, it is so much of them as its counts say.
pub fn named_functions(trial: &mut Trial) -> Outcome {
    for case in MATCHINGS {
        trial.input(&[case.f, case.g].concat())?;
    }
    for case in CLAIMS {
        trial.input(&[case.f, case.g, case.claim].concat())?;
    }
    Ok(())
}

/// Up to 12 bytes of functions and of what is none.
pub fn short_inputs(trial: &mut Trial) -> Outcome {
    const MOST: usize = 12;
    const OTHERS: [[u8; 5]; 7] = [
        [0x47, 0x4E, 1, 0, 0],
        [0x46, 0x4D, 1, 1, 1],
        [0x46, 0x4E, 0, 0, 0],
        [0x46, 0x4E, 9, 0, 0],
        [0x46, 0x4E, 1, 0xFF, 0xFF],
        [0; 5],
        [0xFF; 5],
    ];
    let mut random = Random::new(501);
    for start in NAMED.into_iter().chain(OTHERS.iter().map(|start| &start[..])) {
        let mut input = [start, WIRE].concat();
        input.resize_with(MOST.max(input.len()), || random.byte());
        for length in 0..=MOST {
            trial.input(&input[..length])?;
        }
    }
    Ok(())
}

/// Inputs cut at every length; with full lists, where something begins or ends.
pub fn cut_inputs(trial: &mut Trial) -> Outcome {
    for parts in WHOLE {
        let input = parts.concat();
        for length in 0..=input.len() {
            trial.input(&input[..length])?;
        }
    }
    let mut random = Random::new(502);
    let full = record(&full_function(&mut random, 3));
    let claim = [0x4D, 0x54, 3, 0, 0, 1, 2];
    let input = [&full[..], &full, &claim].concat();
    for part in [0, full.len(), 2 * full.len()] {
        for length in part.saturating_sub(2)..=part + 6 {
            trial.input(&input[..length])?;
        }
    }
    Ok(())
}

/// Bytes after f, g and the claim: what may look like the end of a line or of a text is
/// a byte like any other.
pub fn following_bytes(trial: &mut Trial) -> Outcome {
    let tails: [&[u8]; 9] =
        [&[0], b"\n", b"\r\n", b" ", &[0x1A], &[0x04], &[0xFF], CONJ, CONJ_DISJ_CLAIM];
    for [f, g, claim] in WHOLE {
        for tail in tails {
            trial.input(&[f, tail, g, claim].concat())?;
            trial.input(&[f, g, tail].concat())?;
            trial.input(&[f, g, tail, claim].concat())?;
            trial.input(&[f, g, claim, tail].concat())?;
        }
    }
    Ok(())
}

/// 1 MB of noise, alone and after the start of what is right; and 1 MB of zeros.
pub fn noise(trial: &mut Trial) -> Outcome {
    const LENGTH: usize = 1 << 20;
    for seed in 503..506 {
        let mut random = Random::new(seed);
        let noise: Vec<u8> = (0..LENGTH).map(|_| random.byte()).collect();
        let starts: [&[&[u8]]; 5] =
            [&[], &[&MARK, &[3]], &[CONJ], &[CONJ, DISJ], &[CONJ, ODD, CONJ_ODD_CLAIM]];
        for start in starts {
            trial.input(&[&start.concat(), &noise[..]].concat())?;
        }
    }
    trial.input(&[0; LENGTH])?;
    trial.input(&[CONJ, DISJ, &[0; LENGTH]].concat())
}

// ---- Portions ----

/// The same inputs in one piece and in portions, with pauses and without: one byte at
/// a time, cut in two at every place, and cut anywhere.
pub fn portions(trial: &mut Trial) -> Outcome {
    let mut random = Random::new(506);
    for parts in WHOLE {
        let input = parts.concat();
        trial.input(&input)?;
        let bytes = vec![1; input.len()];
        trial.portions(&input, &Portions::of(bytes.clone()))?;
        trial.portions(&input, &Portions::apart(bytes))?;
        for first in 1..input.len() {
            trial.portions(&input, &Portions::apart(vec![first]))?;
        }
        for _ in 0..5 {
            let lengths = some_lengths(&mut random, 8);
            trial.portions(&input, &Portions::of(lengths.clone()))?;
            trial.portions(&input, &Portions::apart(lengths))?;
        }
    }
    Ok(())
}

/// Ten lengths, so long at most.
fn some_lengths(random: &mut Random, most: usize) -> Vec<usize> {
    (0..10).map(|_| 1 + random.below(most)).collect()
}

/// Claims up to the limit and beyond it in portions.
pub fn long_portions(trial: &mut Trial) -> Outcome {
    let mut random = Random::new(510);
    let [f, g] = DEAD_AT_ONCE;
    let claim = refusal_of_length(LONGEST_CHECKED - 1);
    for tail in [&[][..], &[0], &[0, 0]] {
        let input = [f, g, &claim, tail].concat();
        trial.portions(&input, &Portions::of(vec![1; 1_000]))?;
        trial.portions(&input, &Portions::apart(vec![input.len() - 1]))?;
        for most in [100, 5_000, 20_000] {
            let lengths = some_lengths(&mut random, most);
            trial.portions(&input, &Portions::apart(lengths))?;
        }
    }
    Ok(())
}

// ---- The limits ----

/// Rests about as long as a claim may be, after records of all sorts: the rest is
/// what their counts leave, whether or not they are right.
pub fn rests(trial: &mut Trial) -> Outcome {
    let counted = |start: [u8; 5]| {
        let cubes = vec![0; 2 * (start[3] as usize + start[4] as usize)];
        [&start[..], &cubes].concat()
    };
    let sorts = [
        [0x46, 0x4E, 2, 0, 0],
        [0x46, 0x4E, 2, 1, 0],
        [0x47, 0x4E, 2, 0, 3],
        [0x46, 0x4F, 2, 7, 0],
        [0x46, 0x4E, 0, 2, 1],
        [0x46, 0x4E, 9, 1, 2],
        [0x46, 0x4E, 2, 64, 64],
        [0x46, 0x4E, 2, 65, 0],
        [0x46, 0x4E, 2, 0, 65],
        [0x46, 0x4E, 2, 128, 128],
        [0x46, 0x4E, 2, 255, 0],
        [0x46, 0x4E, 2, 0, 255],
        [0, 0, 0, 255, 255],
    ];
    for sort in sorts.map(counted) {
        for [f, g] in [[&sort, DISJ], [CONJ, &sort], [&sort, &sort]] {
            for length in LONGEST_CHECKED - 1..=LONGEST_CHECKED + 1 {
                let mut rest = CONJ_DISJ_CLAIM.to_vec();
                rest.resize(length, 0);
                trial.input(&[f, g, &rest].concat())?;
            }
        }
    }
    Ok(())
}

/// Claims about as long as one may be that are read to their end.
pub fn long_claims(trial: &mut Trial) -> Outcome {
    let [f, g] = DEAD_AT_ONCE;
    let mut with = |claim: &[u8]| trial.input(&[f, g, claim].concat());
    // Right ones, and with one byte less and some more.
    for length in [LONGEST_CHECKED - 3, LONGEST_CHECKED - 1, LONGEST_CHECKED + 1] {
        let right = refusal_of_length(length);
        with(&right[..length - 1])?;
        for more in 0..4 {
            with(&[&right[..], &vec![0; more]].concat())?;
        }
    }
    // One that goes on.
    let mut endless = [&REFUSAL_MARK[..], &[6]].concat();
    split_everywhere(6, [[0; 3]; 2], &mut endless);
    for length in LONGEST_CHECKED - 2..=LONGEST_CHECKED + 2 {
        with(&endless[..length])?;
    }
    Ok(())
}

/// Two functions of 5 inputs whose refusal has 4,095 bytes, and two whose refusal has
/// 4,097, found by a search. No refusal has an even length.
const JUST_SHORT: [&[u8]; 2] = [
    &[
        0x46, 0x4E, 5, 6, 6, 0x18, 0x07, 0x18, 0x07, 0x18, 0x07, 0x16, 0x08, 0x18, 0x07, 0x14,
        0x0B, 0x00, 0x10, 0x0A, 0x00, 0x02, 0x04, 0x02, 0x04, 0x01, 0x10, 0x00, 0x11,
    ],
    &[0x46, 0x4E, 5, 3, 3, 0x00, 0x15, 0x19, 0x04, 0x13, 0x00, 0x1A, 0x01, 0x0D, 0x02, 0x10, 0x0A],
];
const JUST_LONGER: [&[u8]; 2] = [
    &[0x46, 0x4E, 5, 2, 1, 0x10, 0x09, 0x10, 0x09, 0x18, 0x01],
    &[0x46, 0x4E, 5, 6, 0, 0x09, 0x00, 0x00, 0x08, 0x08, 0x12, 0x1A, 0x00, 0x08, 0x01, 0x00, 0x01],
];

/// Refusals about as long as the buffer that is lent, and much longer ones.
pub fn rooms(trial: &mut Trial) -> Outcome {
    for [f, g] in [JUST_SHORT, JUST_LONGER] {
        trial.input(&[f, g].concat())?;
        trial.input(&[f, g, f].concat())?;
    }
    for n in TRIED..=TRIED + 2 {
        for on in [false, true] {
            let [f, g] = longest_refusal(n, on);
            trial.input(&[f, g].concat())?;
        }
    }
    Ok(())
}

/// Two functions with the longest refusal of n inputs, g on or off at both ends.
pub fn longest_refusal(n: usize, on: bool) -> [Vec<u8>; 2] {
    [record(&last_input(n)), record(&both_ends(n, on))]
}

// ---- Random inputs ----

/// Two functions that fit or nearly fit, and a claim about them: of the wiring, of
/// another, or a refusal, right or not.
pub fn random_claims(trial: &mut Trial) -> Outcome {
    let mut random = Random::new(507);
    for n in 1..=TRIED {
        for _ in 0..50 {
            let Made { two, wiring } = any_pair(&mut random, n);
            let claim = match random.below(4) {
                0 => match_claim(&any_wiring(&mut random, n)),
                1 => forged(&mut random, &two),
                _ => match_claim(&wiring),
            };
            trial.input(&input(&two, &claim))?;
        }
        for _ in 0..20 {
            let (two, claim) = refused(&mut random, n);
            trial.input(&input(&two, &claim))?;
        }
    }
    Ok(())
}

/// Two functions that no wiring fits, and a refusal of any shape.
fn refused(random: &mut Random, n: usize) -> (Two, Vec<u8>) {
    let two = refused_pair(random, n);
    let shape = random.pick(&SHAPES);
    let claim = refusal(random, &two, shape);
    (two, claim)
}

fn input(two: &Two, claim: &[u8]) -> Vec<u8> {
    [&record(&two.f), &record(&two.g), claim].concat()
}

/// Claims with a byte or two changed, cut, or with bytes after their end.
pub fn damaged_claims(trial: &mut Trial) -> Outcome {
    let mut random = Random::new(508);
    for n in 1..=TRIED {
        let mut values = vec![0, 1, 2, 3, n as u8, 0x10, 0x12, MATCH_MARK[0], REFUSAL_MARK[1]];
        values.extend([SPLIT; 4]);
        for round in 0..100 {
            let Made { two, wiring } = any_pair(&mut random, n);
            let (two, mut claim) = match round % 2 {
                0 => (two, match_claim(&wiring)),
                _ => refused(&mut random, n),
            };
            // The first bytes often, so that every test of them comes up.
            for _ in 0..1 + random.below(2) {
                let reach = if random.flip() { claim.len().min(8) } else { claim.len() };
                claim[random.below(reach)] = random.pick(&values);
            }
            match random.below(6) {
                0 => claim.truncate(random.below(claim.len())),
                1 => claim.push(random.byte()),
                _ => {}
            }
            trial.input(&input(&two, &claim))?;
        }
    }
    Ok(())
}

/// Records with faults in the place of f, of g and of both, records that are cut, and
/// functions that differ in n.
pub fn bad_records(trial: &mut Trial) -> Outcome {
    let mut random = Random::new(509);
    for _ in 0..50 {
        let [n, m] = [(); 2].map(|()| 1 + random.below(TRIED));
        let f = function_of(&mut random, n, few);
        let right = record(&function_of(&mut random, n, few));
        let other = record(&function_of(&mut random, m, few));
        let bad = spoiled(&mut random, f.clone());
        let whole = record(&f);
        let cut = &whole[..random.below(whole.len())];
        let claim = match_claim(&any_wiring(&mut random, n));
        let pairs: [[&[u8]; 2]; 6] = [
            [&bad, &right],
            [&right, &bad],
            [&bad, &bad],
            [&whole, &other],
            [cut, &right],
            [&whole, cut],
        ];
        for [f, g] in pairs {
            trial.input(&[f, g, &claim].concat())?;
        }
    }
    Ok(())
}

/// The patterns that the sweep below has of 8 inputs: from the first to the last.
pub fn some_patterns() -> impl Iterator<Item = usize> {
    (0..=255).step_by(17)
}

/// Lists that meet in f and in g, and wirings that fail, at known patterns.
pub fn patterns(trial: &mut Trial) -> Outcome {
    let mut random = Random::new(511);
    for n in 1..=INPUTS {
        for pattern in some_patterns().filter(|pattern| pattern >> n == 0) {
            let bad = record(&clash_at(&mut random, n, pattern).0);
            // There, and often at larger ones.
            let at: Vec<usize> = (pattern..1 << n).take(1 + random.below(20)).collect();
            let q = random.flip();
            let (two, wiring) = flipped_at(&mut random, n, q, &at);
            let (f, claim) = (record(&two.f), match_claim(&wiring));
            trial.input(&[&bad, &f, &claim[..]].concat())?;
            trial.input(&[&f, &bad, &claim[..]].concat())?;
            trial.check(&input(&two, &claim), &Portions::ONE)?;
        }
    }
    Ok(())
}

#[cfg(test)]
mod tests {
    use super::*;
    use crate::reference::matcher::find;
    use crate::reference::programs::LENT;

    #[test]
    fn refusals_on_both_sides_of_the_lent_length() {
        for ([f, g], length) in [(JUST_SHORT, LENT - 1), (JUST_LONGER, LENT + 1)] {
            let (answer, claim) = find(f, g, usize::MAX);
            assert_eq!([answer.kind, answer.place], [2, length as u64]);
            assert_eq!(claim.expect("there is room").len(), length);
        }
    }
}
