//! The call for dead pairs, exported for tests, and what 01 says of wirings.

use zap_tests::calls;
use zap_tests::cases::DEAD;
use zap_tests::random::Random;
use zap_tests::reference::agreement::Tables;
use zap_tests::reference::wiring::{wirings, Wiring};
use zap_tests::show::hex;
use zap_tests::tally;
use zap_tests::wirings::pairs::{any_pair, any_wiring, neighbour, Made};
use zap_tests::wirings::{sweeps, Trial};
use zap_tests::wirings::{AGREES, BAD_RECORDS, BAD_WIRING, DIFFERS};
use zap_tests::wirings::{NOTHING, NO_PAIRS, OF_OFF_LIST, OF_ON_LIST};

/// Each kind of answer came at least so often, for each n or for each code.
const FLOOR: u64 = 100;

#[test]
fn the_call_answers_as_the_reference() {
    let tally = tally::of_all(sweeps::ALL.map(|sweep| {
        move || {
            let mut trial = Trial::new(calls::dead);
            sweep(&mut trial).map(|()| trial.tally)
        }
    }));
    let every_n: &[u64] = &[1, 2, 3, 4, 5, 6, 7, 8];
    let accepted = [NO_PAIRS, NOTHING, OF_ON_LIST, OF_OFF_LIST, AGREES, DIFFERS];
    let mut wanted: Vec<(_, &[u64])> = accepted.map(|line| (line, every_n)).into();
    wanted.push((BAD_RECORDS, &[1, 2, 3, 4, 5, 6, 7, 8, 9]));
    wanted.push((BAD_WIRING, &[8, 12, 13]));
    tally.require(&wanted, FLOOR);
}

/// The cases that 01 names, and some worked out by hand from its rules: the
/// reference has no say in what is expected here.
#[test]
fn the_dead_pairs_of_01() {
    for case in DEAD {
        let (f, g) = (case.f(), case.g());
        let got = calls::dead(&f, &g, case.w, case.q);
        let input = format!("{}: f {}, g {}, w {}", case.name, hex(&f), hex(&g), hex(case.w));
        assert_eq!(got, case.answer, "{input}");
    }
}

// ---- The reference against 01, and against itself ----

/// The numbers that 01 gives for n = 1 to 8.
const NUMBERS: [usize; 8] = [4, 16, 96, 768, 7_680, 92_160, 1_290_240, 20_643_840];

#[test]
fn there_are_as_many_wirings_as_01_says() {
    for n in 1..=8 {
        let orders: usize = (1..=n).product();
        assert_eq!(2 * orders * (1 << n), NUMBERS[n - 1], "n {n}, by the formula");
    }
    for n in 1..=6 {
        assert_eq!(wirings(n).len(), NUMBERS[n - 1], "n {n}, one by one");
    }
}

#[test]
fn wirings_rise_strictly_so_each_comes_once() {
    for n in 1..=6 {
        let all = wirings(n);
        assert!(all.windows(2).all(|two| before(&two[0], &two[1])), "n {n}");
    }
}

/// The order in the words of 01: q = 0 before q = 1; then the first input
/// with another choice decides, by j upward, plain before inverted.
fn before(one: &Wiring, other: &Wiring) -> bool {
    let differ = |i: &usize| one.inputs.placed[*i] != other.inputs.placed[*i];
    match (one.q, other.q, (0..one.inputs.n).find(differ)) {
        (false, true, _) => true,
        (true, false, _) | (_, _, None) => false,
        (_, _, Some(i)) => {
            let (left, right) = (one.inputs.placed[i], other.inputs.placed[i]);
            left.j < right.j || left.j == right.j && !left.inverted
        }
    }
}

#[test]
fn the_derived_order_is_the_one_of_01() {
    let all = wirings(3);
    for one in &all {
        for other in &all {
            assert_eq!(one < other, before(one, other), "{one:?} {other:?}");
        }
    }
}

/// "A wiring agrees exactly when it separates every such pair": patterns against
/// literals, both by the reference. All wirings up to 4 inputs, some of more.
#[test]
fn a_wiring_agrees_just_if_it_separates_every_pair() {
    let mut random = Random::new(207);
    let mut seen = [0; 2];
    for n in 1..=8 {
        for _ in 0..100 {
            let Made { two, wiring } = any_pair(&mut random, n);
            let tables = Tables::of(&two);
            let mut tried = vec![neighbour(&mut random, &wiring), any_wiring(&mut random, n)];
            tried.push(wiring);
            if n <= 4 {
                tried.extend(wirings(n));
            }
            for wiring in tried {
                let agrees = tables.agree(wiring.q, &wiring.inputs);
                let separates = two.all_separated(wiring.q, &wiring.inputs);
                assert_eq!(agrees, separates, "{two:?} {wiring:?}");
                seen[agrees as usize] += 1;
            }
        }
    }
    assert!(seen.iter().all(|&count| count > 1_000), "{seen:?}");
}
