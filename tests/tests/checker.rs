//! The checker of claims, as a host calls it, and what 01 says of claims.

use zap_tests::calls;
use zap_tests::cases::CLAIMS;
use zap_tests::claims::trees::{forged, refused_pair, split_everywhere};
use zap_tests::claims::{sweeps, Trial};
use zap_tests::claims::{BEYOND, CHECK, CLOSED, CUT, HEADER_CUT, HEADER_MARK, MATCHES};
use zap_tests::claims::{CLASH_PATTERNS, OTHER_PATTERN, PATTERNS};
use zap_tests::claims::{
    MATCH_CLAIM, NOT_DEAD, OF_F_OR_G, REFUSAL_CLAIM, SPLITS, SPLIT_AT_N, TREE,
};
use zap_tests::patterns::OF_WIRING;
use zap_tests::random::Random;
use zap_tests::reference::agreement::Tables;
use zap_tests::reference::answer::{Answer, NO_MATCH, OF_CLAIM};
use zap_tests::reference::checker::check_in;
use zap_tests::reference::claim::{refusal_claim, Tree, REFUSAL_MARK};
use zap_tests::reference::wiring::wirings;
use zap_tests::show::{self, hex};
use zap_tests::tally;
use zap_tests::wirings::pairs::any_pair;

/// Each kind of answer came at least so often, for each code, place, depth or n; 7 with
/// each pattern of 8 inputs once, and 14 so often.
const FLOOR: u64 = 100;
const FLOOR_OF_A_PATTERN: u64 = 3;

#[test]
fn the_call_answers_as_the_reference() {
    let tally = tally::of_all(sweeps::ALL.map(|sweep| {
        move || {
            let mut trial = Trial::new(calls::check);
            sweep(&mut trial).map(|()| trial.tally)
        }
    }));
    let every_n: &[u64] = &[1, 2, 3, 4, 5, 6, 7, 8];
    let depths: &[u64] = &[0, 1, 2, 3, 4];
    let mut wanted: Vec<(_, &[u64])> = vec![
        (CHECK, &[0, 1, 2, 3, 4, 5, 6, 7, 8, 9, 10, 11, 12, 13, 14, 15, 16, 17]),
        (OF_F_OR_G[0], &[1, 2, 3, 4, 5, 6, 7, 8]),
        (OF_F_OR_G[1], &[1, 2, 3, 4, 5, 6, 7, 8, 9]),
        (HEADER_CUT, &[0, 1, 2]),
        (HEADER_MARK, &[0, 1]),
        (MATCH_CLAIM, &[1, 8, 10, 11, 12, 13, 14]),
        (REFUSAL_CLAIM, &[1, 8, 10, 15, 16, 17]),
        // No input is placed at the root, and n is not 0.
        (SPLIT_AT_N, &[1, 2, 3, 4]),
        (NOT_DEAD, depths),
        (MATCHES, every_n),
        (SPLITS, every_n),
        (CLOSED, &[1, 2, 3, 4]),
    ];
    let mistakes: Vec<u64> = (0..OF_WIRING.len() as u64).collect();
    wanted.push((OTHER_PATTERN, &mistakes));
    wanted.extend(TREE.map(|line| (line, &[1, 15, 16, 17][..])));
    wanted.extend([CUT, BEYOND].concat().into_iter().map(|line| (line, depths)));
    tally.require(&wanted, FLOOR);
    let all: Vec<u64> = (0..256).collect();
    tally.demand(&CLASH_PATTERNS.map(|line| (line, &all[..])), 1);
    tally.demand(&PATTERNS.map(|line| (line, &all[..])), FLOOR_OF_A_PATTERN);
}

/// The cases that 01 names, and some worked out by hand from its rules: the
/// reference has no say in what is expected here.
#[test]
fn the_claims_of_01() {
    for case in CLAIMS {
        let got = calls::check(case.f, case.g, case.claim);
        let [f, g, claim] = [case.f, case.g, case.claim].map(hex);
        expect(&format!("{}: f {f}, g {g}, claim {claim}", case.name), got, case.answer());
    }
}

/// "No refusal claim by these rules is longer than 75,323,621 bytes": this one is
/// as long. f is on everywhere, so that its one cube is never kept apart.
#[test]
fn the_longest_claim_of_01() {
    const LENGTH: usize = 75_323_621;
    let f = [0x46, 0x4E, 8, 1, 0, 0, 0];
    let g = [0x46, 0x4E, 8, 1, 1, 1, 0, 0, 1];
    let mut claim = REFUSAL_MARK.to_vec();
    claim.push(8);
    for _ in 0..2 {
        split_everywhere(8, [[0, 0, 0]; 2], &mut claim);
    }
    assert_eq!(claim.len(), LENGTH);
    claim.push(0);
    let check = |length: usize| calls::check(&f, &g, &claim[..length]);
    expect("the longest", check(LENGTH), Answer::accepted(NO_MATCH, LENGTH));
    expect("cut", check(LENGTH - 1), Answer::refused(1, OF_CLAIM, LENGTH - 1));
    expect("and more", check(LENGTH + 1), Answer::refused(8, OF_CLAIM, LENGTH));
}

fn expect(input: &str, got: u64, want: Answer) {
    let (wanted, found) = (show::answer(want), show::answer(Answer::unpacked(got)));
    assert_eq!(got, want.packed(), "{input}\n  want {wanted}\n  got  {found}");
}

// ---- The reference against 01, and against itself ----

/// The matcher's own trees are there, and accepted, just if no wiring agrees. No
/// other claim is accepted where one does.
#[test]
fn a_refusal_is_accepted_just_where_no_wiring_agrees() {
    let mut random = Random::new(310);
    let mut seen = [0; 2];
    for n in 1..=4 {
        for round in 0..100 {
            let two = match round % 3 {
                0 => refused_pair(&mut random, n),
                _ => any_pair(&mut random, n).two,
            };
            let tables = Tables::of(&two);
            let agrees = wirings(n).iter().any(|one| tables.agree(one.q, &one.inputs));
            let accepted = |claim: &[u8]| check_in(&two, claim).answer.is_accepted();

            let own: Option<Vec<Tree>> =
                [false, true].map(|q| two.own_tree(q)).into_iter().collect();
            assert_eq!(own.is_none(), agrees, "{two:?}");
            if let Some(trees) = own {
                let trees: [Tree; 2] = trees.try_into().expect("two of them");
                assert!(accepted(&refusal_claim(n, &trees)), "{two:?}");
            }
            // What is forged is valid where there is nothing to forge.
            for _ in 0..2 {
                let claim = forged(&mut random, &two);
                assert_eq!(accepted(&claim), !agrees, "{two:?} {}", hex(&claim));
            }
            seen[agrees as usize] += 1;
        }
    }
    assert!(seen.iter().all(|&count| count >= 100), "{seen:?}");
}
