//! The calls on function records, exported for tests.

use zap_tests::calls::{self, ARCHIVE};
use zap_tests::cases::{FAULTS, READINGS, SUMMARIES, WRITINGS};
use zap_tests::patterns::OF_CLASH;
use zap_tests::records::{sweeps, Trial};
use zap_tests::records::{FAULT_EMPTY, FAULT_OF_F, FAULT_OF_G, READ, SUMMARY, WRITE};
use zap_tests::records::{OTHER_PATTERN, PATTERNS};
use zap_tests::reference::answer::Answer;
use zap_tests::show::{self, hex};
use zap_tests::tally;

/// Each call gave each code that it can give at least so often, and with code 7 each
/// pattern of 8 inputs.
const FLOOR: u64 = 100;
const FLOOR_OF_A_PATTERN: u64 = 4;

#[test]
fn every_call_answers_as_the_reference() {
    let tally = tally::of_all(sweeps::ALL.map(|sweep| {
        move || {
            let mut trial = Trial::new(ARCHIVE);
            sweep(&mut trial).map(|()| trial.tally)
        }
    }));
    let mistakes: Vec<u64> = (0..OF_CLASH.len() as u64).collect();
    let wanted: [(_, &[u64]); 7] = [
        (READ, &[0, 1, 2, 3, 4, 5, 6, 7, 8]),
        (SUMMARY, &[0, 1, 2, 3, 4, 5, 6, 7, 8]),
        (WRITE, &[0, 3, 4, 5, 6, 7, 18, 19]),
        (FAULT_OF_F, &[5, 6, 7]),
        (FAULT_OF_G, &[5, 6, 7]),
        (FAULT_EMPTY, &[0, 1, 2, 3, 4, 8]),
        (OTHER_PATTERN, &mistakes),
    ];
    tally.require(&wanted, FLOOR);
    let all: Vec<u64> = (0..256).collect();
    tally.demand(&PATTERNS.map(|line| (line, &all[..])), FLOOR_OF_A_PATTERN);
}

// The cases that 01 names, and some worked out by hand from its rules: neither
// the reference nor the calls have a say in what is expected here.

#[test]
fn the_readings_of_01() {
    for case in READINGS {
        let record = case.record();
        let mut numbers = [99; 3];
        let got = calls::read(&record, &mut numbers);
        let input = format!("{}: {}", case.name, hex(&record));
        expect(&input, got, case.answer(1));
        assert_eq!(numbers, case.numbers, "{input}");
    }
}

#[test]
fn the_summaries_of_01() {
    for case in SUMMARIES {
        let mut numbers = [99; 3];
        let got = calls::summary(case.record, &mut numbers);
        let input = format!("{}: {}", case.name, hex(case.record));
        expect(&input, got, Answer::accepted(3, case.record.len()));
        assert_eq!(numbers, case.numbers, "{input}");
    }
}

#[test]
fn the_summaries_of_refused_records() {
    for case in READINGS.iter().filter(|case| case.code != 0) {
        let record = case.record();
        let mut numbers = [99; 3];
        let got = calls::summary(&record, &mut numbers);
        let input = format!("{}: {}", case.name, hex(&record));
        expect(&input, got, case.answer(1));
        assert_eq!(numbers, [0, 0, 0], "{input}");
    }
}

#[test]
fn the_writings_by_hand() {
    for case in WRITINGS {
        let (on, off) = (case.on(), case.off());
        let mut buffer = vec![0xA5; case.room];
        let got = calls::write(case.n, &on, &off, &mut buffer);
        let input = format!("{}: n {}, on {}, off {}", case.name, case.n, hex(&on), hex(&off));
        expect(&input, got, case.answer());
        let length = if case.code == 0 { case.place } else { 0 };
        if let Some(written) = case.written {
            assert_eq!(hex(&buffer[..length]), hex(written), "{input}");
        }
        assert!(buffer[length..].iter().all(|&byte| byte == 0xA5), "{input}: {}", hex(&buffer));
    }
}

#[test]
fn the_bytes_at_fault_by_hand() {
    for case in FAULTS {
        let mut buffer = [0xA5; 2];
        let length = calls::fault(case.f, case.g, &mut buffer) as usize;
        let input = format!("{}: f {}, g {}", case.name, hex(case.f), hex(case.g));
        assert_eq!(length, case.bytes.len(), "{input}");
        assert_eq!(hex(&buffer[..length]), hex(case.bytes), "{input}");
        assert!(buffer[length..].iter().all(|&byte| byte == 0xA5), "{input}: {}", hex(&buffer));
    }
}

fn expect(input: &str, got: u64, want: Answer) {
    let (wanted, found) = (show::answer(want), show::answer(Answer::unpacked(got)));
    assert_eq!(got, want.packed(), "{input}\n  want {wanted}\n  got  {found}");
}
