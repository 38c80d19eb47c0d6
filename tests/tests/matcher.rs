//! The matcher, as a host calls it.

use zap_tests::calls;
use zap_tests::cases::{EXAMPLE_2_1, EXAMPLE_3_2, MATCHINGS, WIRINGS_OF_3_3, WIRING_OF_2_1};
use zap_tests::claims::trees::split_everywhere;
use zap_tests::matches::{sweeps, wiring_of, Trial};
use zap_tests::matches::{CHECKED, CLASH_PATTERNS, CLOSED, CLOSED_AT, CLOSED_BY, SPLITS, SPLIT_AT};
use zap_tests::matches::{EMPTY, EXACT, FIND, LONGER, OF_F_OR_G, ONE_SHORT, SHORT};
use zap_tests::matches::{KNOWN, NOT_STRAIGHT, ONE_WAY, PHASE};
use zap_tests::reference::answer::{Answer, MATCH, NO_MATCH, OF_BUFFER};
use zap_tests::reference::claim::REFUSAL_MARK;
use zap_tests::show::{self, hex};
use zap_tests::tally;

/// Each kind of answer came at least so often, for each code, kind, depth or n; for
/// more inputs than 4, and for each pattern of 8 inputs, at least so often.
const FLOOR: u64 = 100;
const FLOOR_OF_MORE: u64 = 20;
const FLOOR_OF_A_PATTERN: u64 = 1;

#[test]
fn the_call_answers_as_the_reference() {
    let tally = tally::of_all(sweeps::ALL.map(|sweep| {
        move || {
            let mut trial = Trial::new(calls::find_match);
            sweep(&mut trial).map(|()| trial.tally)
        }
    }));
    let few: &[u64] = &[1, 2, 3, 4];
    let mut wanted: Vec<(_, &[u64])> = vec![
        (FIND, &[0, 1, 2, 3, 4, 5, 6, 7, 8, 9, 18]),
        (OF_F_OR_G[0], &[1, 2, 3, 4, 5, 6, 7, 8]),
        (OF_F_OR_G[1], &[1, 2, 3, 4, 5, 6, 7, 8, 9]),
        (PHASE[0], few),
        (PHASE[1], few),
        (NOT_STRAIGHT, few),
        // One input cannot be led the wrong way round.
        (ONE_WAY, &[2, 3, 4]),
        (CLOSED, few),
        (SPLITS, few),
    ];
    let rooms = [EMPTY, SHORT, ONE_SHORT, EXACT, LONGER];
    wanted.extend(rooms.map(|line| (line, &[MATCH, NO_MATCH][..])));
    wanted.extend(SPLIT_AT.map(|line| (line, &[0, 1, 2, 3][..])));
    let closings = CLOSED_AT.into_iter().chain(CLOSED_BY);
    wanted.extend(closings.map(|line| (line, &[0, 1, 2, 3, 4][..])));
    tally.require(&wanted, FLOOR);

    let of_more = [CHECKED, KNOWN, PHASE].concat().into_iter();
    let of_more = of_more.chain([NOT_STRAIGHT, ONE_WAY, SPLITS]);
    let mut wanted: Vec<(_, &[u64])> = of_more.map(|line| (line, &[5, 6, 7, 8][..])).collect();
    wanted.extend(SPLIT_AT.map(|line| (line, &[4][..])));
    wanted.extend(CLOSED_AT.map(|line| (line, &[5][..])));
    tally.demand(&wanted, FLOOR_OF_MORE);

    let all: Vec<u64> = (0..256).collect();
    tally.demand(&CLASH_PATTERNS.map(|line| (line, &all[..])), FLOOR_OF_A_PATTERN);
}

/// The cases that 01 names, the examples of the paper, and some worked out by hand
/// from the rules: the reference has no say in what is expected here.
#[test]
fn the_matchings_of_01() {
    for case in MATCHINGS {
        let mut buffer = vec![0xA5; case.room];
        let got = calls::find_match(case.f, case.g, &mut buffer);
        let [f, g] = [case.f, case.g].map(hex);
        let input = format!("{}: f {f}, g {g}, room {}", case.name, case.room);
        expect(&input, got, case.answer());
        // What is written fills the buffer.
        let untouched = vec![0xA5; case.room];
        assert_eq!(hex(&buffer), hex(case.written.unwrap_or(&untouched)), "{input}");
    }
}

/// The wirings that the paper names agree, and what is found is not later.
#[test]
fn the_wirings_of_the_paper() {
    for ([f, g], claim) in [
        (EXAMPLE_2_1, WIRING_OF_2_1),
        (EXAMPLE_3_2, WIRINGS_OF_3_3[0]),
        (EXAMPLE_3_2, WIRINGS_OF_3_3[1]),
    ] {
        let accepted = Answer::accepted(MATCH, claim.len());
        expect(&hex(claim), calls::check(f, g, claim), accepted);
        let mut found = vec![0; claim.len()];
        expect(&hex(claim), calls::find_match(f, g, &mut found), accepted);
        assert!(wiring_of(&found) <= wiring_of(claim), "{} and {}", hex(&found), hex(claim));
    }
}

/// "No refusal claim by these rules is longer than 75,323,621 bytes": this one is as
/// long. f is its last input and g is on at the first pattern and at the last, so
/// that one of these is not kept apart, and nothing is dead until all is placed.
#[test]
fn the_longest_refusal_of_01() {
    const LENGTH: usize = 75_323_621;
    let f = [0x46, 0x4E, 8, 1, 1, 0x80, 0, 0, 0x80];
    let g = [0x46, 0x4E, 8, 2, 0, 0, 0xFF, 0xFF, 0];
    let mut claim = REFUSAL_MARK.to_vec();
    claim.push(8);
    split_everywhere(8, [[1, 0, 0], [1, 0, 1]], &mut claim);
    split_everywhere(8, [[0, 0, 1], [0, 0, 0]], &mut claim);
    assert_eq!(claim.len(), LENGTH);

    let mut buffer = vec![0xA5; LENGTH + 1];
    let short = calls::find_match(&f, &g, &mut buffer[..LENGTH - 1]);
    expect("one byte short", short, Answer::refused(18, OF_BUFFER, LENGTH));
    assert!(buffer.iter().all(|&byte| byte == 0xA5), "written although it is too short");
    let got = calls::find_match(&f, &g, &mut buffer);
    expect("the longest", got, Answer::accepted(NO_MATCH, LENGTH));
    assert!(buffer[..LENGTH] == claim, "another tree");
    assert_eq!(buffer[LENGTH], 0xA5, "a byte after the end");
    expect("checked", calls::check(&f, &g, &claim), Answer::accepted(NO_MATCH, LENGTH));
}

fn expect(input: &str, got: u64, want: Answer) {
    let (wanted, found) = (show::answer(want), show::answer(Answer::unpacked(got)));
    assert_eq!(got, want.packed(), "{input}\n  want {wanted}\n  got  {found}");
}
