//! The two programs, run as a person would run them.

use zap_tests::cases::{TextCase, CHECK_TEXTS, MATCH_TEXTS};
use zap_tests::claims::trees::{refusal_of_length, split_everywhere, DEAD_AT_ONCE};
use zap_tests::programs::run::Portions;
use zap_tests::programs::sweeps::{self, longest_refusal, some_patterns};
use zap_tests::programs::{Program, Programs, Trial};
use zap_tests::programs::{CHECK_CLAIM, MATCH_PAIR, NO_CODE, TOO_LONG};
use zap_tests::reference::answer::{MATCH, NO_MATCH};
use zap_tests::reference::claim::REFUSAL_MARK;
use zap_tests::reference::programs::hex;
use zap_tests::show;
use zap_tests::tally;

/// Each code and kind came at least so often from a program that can give it.
const FLOOR: u64 = 5;

#[test]
fn the_programs_print_as_the_reference() {
    let tally = tally::of_all(sweeps::ALL.map(|sweep| {
        move || {
            let mut trial = Trial::new(Programs::built());
            sweep(&mut trial).map(|()| trial.tally)
        }
    }));
    // No record is followed by bytes: it is cut where it ends.
    let of_a_record: &[u64] = &[1, 2, 3, 4, 5, 6, 7];
    let of_g: &[u64] = &[1, 2, 3, 4, 5, 6, 7, 9];
    let kinds: &[u64] = &[MATCH, NO_MATCH];
    let wanted: [(_, &[u64]); 9] = [
        (MATCH_PAIR.program, &[0, 18]),
        (MATCH_PAIR.of_f, of_a_record),
        (MATCH_PAIR.of_g, of_g),
        (MATCH_PAIR.accepted, kinds),
        (CHECK_CLAIM.program, &[0, 1, 2, 8, 10, 11, 12, 13, 14, 15, 16, 17]),
        (CHECK_CLAIM.of_f, of_a_record),
        (CHECK_CLAIM.of_g, of_g),
        (CHECK_CLAIM.accepted, kinds),
        (TOO_LONG, &[NO_CODE]),
    ];
    tally.require(&wanted, FLOOR);
    let patterns: Vec<u64> = some_patterns().map(|pattern| pattern as u64).collect();
    let lines = [MATCH_PAIR.clashes, CHECK_CLAIM.clashes, CHECK_CLAIM.disagreements];
    tally.demand(&lines.map(|line| (line, &patterns[..])), 1);
}

// What 01 says of the programs, and some inputs worked out by hand from its rules:
// the reference has no say in what is expected here.

fn expect(name: &str, program: &Program, input: &[u8], text: &str) {
    let printed = program(input, &Portions::ONE);
    assert_eq!(printed.as_deref(), Ok(text), "{name}: {}", show::hex_near(input, 0));
}

fn expect_all(program: Program, cases: &[TextCase]) {
    for case in cases {
        expect(case.name, &program, &case.input(), case.text);
    }
}

#[test]
fn the_texts_of_01() {
    let Programs { match_pair, check_claim } = Programs::built();
    expect_all(match_pair, MATCH_TEXTS);
    expect_all(check_claim, CHECK_TEXTS);
}

/// "If the rest exceeds 49,152 bytes": a refusal of an odd length comes up to one less
/// and is accepted; a byte after its end is noticed, and two are too many.
#[test]
fn the_longest_claims_that_are_checked() {
    let [f, g] = DEAD_AT_ONCE;
    let check = Programs::built().check_claim;
    let prints = |name, claim: &[u8], text| expect(name, &check, &[f, g, claim].concat(), text);
    let mut claim = refusal_of_length(49_151);
    prints("cut", &claim[..49_150], "1 0 3 49150 0\n");
    prints("right", &claim, "0 2 0 49151 0\n");
    claim.push(0);
    prints("a byte more", &claim, "8 0 3 49151 0\n");
    claim.push(0);
    prints("two bytes more", &claim, "too long\n");

    // One that would be accepted, if it were taken.
    prints("right and too long", &refusal_of_length(49_153), "too long\n");
    // One of which all bytes are read, and more are missing.
    let mut endless = [&REFUSAL_MARK[..], &[6]].concat();
    split_everywhere(6, [[0; 3]; 2], &mut endless);
    prints("one byte below", &endless[..49_151], "1 0 3 49151 0\n");
    prints("as long as may be", &endless[..49_152], "1 0 3 49152 0\n");
    prints("one byte above", &endless[..49_153], "too long\n");
}

/// "It lends 4,096 bytes": a longer refusal is told by its length alone.
#[test]
fn a_refusal_that_fits_and_one_that_does_not() {
    let find = Programs::built().match_pair;
    // With 4 inputs a tree has 1 + 8·(1 + 6·(1 + 4·7)) = 1,401 bytes.
    let mut claim = [&REFUSAL_MARK[..], &[4]].concat();
    split_everywhere(4, [[1, 0, 0], [1, 0, 1]], &mut claim);
    split_everywhere(4, [[0, 0, 1], [0, 0, 0]], &mut claim);
    let text = format!("0 2 0 2805 0\n{}\n", hex(&claim));
    expect("4 inputs", &find, &longest_refusal(4, true).concat(), &text);
    // With 6 inputs one has 1 + 12·(1 + 10·1,401) = 168,133.
    expect("6 inputs", &find, &longest_refusal(6, true).concat(), "18 0 4 336269 0\n");
}
