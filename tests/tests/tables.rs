//! The calls on espresso tables, as a host makes them.

use zap_tests::calls::{self, TABLE_CALLS};
use zap_tests::cases::{NAMED, READINGS};
use zap_tests::patterns::OF_CLASH;
use zap_tests::reference::answer::Answer;
use zap_tests::show::{self, hex};
use zap_tests::tables::cases::{TABLES, TABLES_OF_NAMED};
use zap_tests::tables::{order, sweeps, Trial};
use zap_tests::tables::{BACK, BEFORE, CLASH, OVER, READ, RULE, TOO_MANY, WRITE};
use zap_tests::tables::{EMPTY, EXACT, LONGER, ONE_SHORT};
use zap_tests::tables::{OTHER_PATTERN, PATTERNS};
use zap_tests::tally;

/// Each answer came at least so often, and each side of each rule of order.
const FLOOR: u64 = 100;

#[test]
fn the_calls_answer_as_the_reference() {
    let tally = tally::of_all(sweeps::ALL.map(|sweep| {
        move || {
            let mut trial = Trial::new(TABLE_CALLS);
            sweep(&mut trial).map(|()| trial.tally)
        }
    }));
    let rules: Vec<u64> = (0..order::RULES as u64).collect();
    let mistakes: Vec<u64> = (0..OF_CLASH.len() as u64).collect();
    let mut wanted: Vec<(_, &[u64])> = vec![
        (OTHER_PATTERN, &mistakes),
        (READ, &[0, 3, 4, 7, 18, 20, 21, 22]),
        (TOO_MANY, &[3, 4]),
        (CLASH, &[0, 1, 2, 3]),
        (WRITE, &[0, 1, 2, 3, 4, 5, 6, 7, 8, 18]),
        (BACK, &[1, 2, 3, 4, 5, 6, 7, 8]),
        (RULE[0], &rules),
        (RULE[1], &rules),
    ];
    // In a buffer of no bytes nothing is accepted, and in one that is just long enough
    // nothing is too short.
    for of_call in [0, 1] {
        wanted.extend([
            (EMPTY[of_call], &[18][..]),
            (ONE_SHORT[of_call], &[18]),
            (EXACT[of_call], &[0]),
            (LONGER[of_call], &[0]),
        ]);
    }
    // Which codes can meet: 3 only with a short buffer, since no term comes before it.
    for (told, line) in OVER {
        let others: &[u64] = match told {
            20 => &[3, 4, 7, 18],
            21 => &[20, 22, 4, 7, 18],
            3 => &[18],
            22 => &[4, 7, 18],
            4 => &[4, 7, 18],
            _ => &[18],
        };
        wanted.push((line, others));
    }
    // A later line at fault: 22 is the last that can be.
    for (told, line) in BEFORE {
        let later: &[u64] = match told {
            20 => &[21, 3, 22],
            21 => &[20, 3, 22],
            _ => &[20, 21, 22],
        };
        wanted.push((line, later));
    }
    tally.require(&wanted, FLOOR);
    // Each cube of a full list.
    tally.demand(&[(CLASH, &(0..64).collect::<Vec<_>>())], 20);
    // Each pattern of 8 inputs.
    let all: Vec<u64> = (0..256).collect();
    tally.demand(&PATTERNS.map(|line| (line, &all[..])), 1);
}

// The cases that the readings of the request name, and some worked out by hand from its
// rules: neither the reference nor the calls have a say in what is expected here.

#[test]
fn the_tables_of_the_readings() {
    for case in TABLES {
        let text = case.text();
        let shown: String = String::from_utf8_lossy(&text).chars().take(200).collect();
        let input = format!("{}: {shown:?}", case.name);
        let mut buffer = [0xA5; 300];
        expect(&input, calls::read_table(&text, &mut buffer), case.answer());
        let written = case.record.unwrap_or(&[]);
        assert_eq!(hex(&buffer[..written.len()]), hex(written), "{input}");
        assert!(buffer[written.len()..].iter().all(|&byte| byte == 0xA5), "{input}");
        if let Some(record) = case.record {
            let (mut exact, mut short) = (vec![0xA5; record.len()], vec![0xA5; record.len() - 1]);
            expect(&input, calls::read_table(&text, &mut exact), case.answer());
            assert_eq!(hex(&exact), hex(record), "{input}");
            let too_short = Answer::refused(18, 4, record.len());
            expect(&input, calls::read_table(&text, &mut short), too_short);
            assert!(short.iter().all(|&byte| byte == 0xA5), "{input}");
        }
    }
}

#[test]
fn the_named_functions_as_tables() {
    for (record, text) in NAMED.iter().zip(TABLES_OF_NAMED) {
        let input = hex(record);
        let mut buffer = [0xA5; 100];
        let got = calls::write_table(record, &mut buffer);
        expect(&input, got, Answer::accepted(3, text.len()));
        assert_eq!(&buffer[..text.len()], text.as_bytes(), "{input}");
        assert!(buffer[text.len()..].iter().all(|&byte| byte == 0xA5), "{input}");
        let mut short = vec![0xA5; text.len() - 1];
        let got = calls::write_table(record, &mut short);
        expect(&input, got, Answer::refused(18, 4, text.len()));
        assert!(short.iter().all(|&byte| byte == 0xA5), "{input}");
    }
}

/// A refused record gives what reading it gives; one of mark 46 50 is 2 at 1.
#[test]
fn refused_records_make_no_table() {
    let mut buffer = [0xA5; 1_500];
    for case in READINGS.iter().filter(|case| case.code != 0) {
        let record = case.record();
        expect(case.name, calls::write_table(&record, &mut buffer), case.answer(1));
    }
    let barred = [0x46, 0x50, 1, 0, 0, 0];
    expect("barred", calls::write_table(&barred, &mut buffer), Answer::refused(2, 1, 1));
    assert!(buffer.iter().all(|&byte| byte == 0xA5));
}

/// The longest: 8 inputs, 64 terms in each list. Four lines of keywords have 5, 5, 9 and
/// 7 bytes, 128 terms 11 each, the last line 3.
#[test]
fn the_longest_table() {
    let mut record = vec![0x46, 0x4E, 8, 64, 64];
    record.extend([0x81, 0x00].repeat(64));
    record.extend([0x00, 0x81].repeat(64));
    let text = format!(
        ".i 8\n.o 1\n.type fr\n.p 128\n{}{}.e\n",
        "1------1 1\n".repeat(64),
        "0------0 0\n".repeat(64)
    );
    assert_eq!(text.len(), 1_437);
    let mut buffer = [0xA5; 1_437];
    expect("all", calls::write_table(&record, &mut buffer), Answer::accepted(3, 1_437));
    assert_eq!(buffer, text.as_bytes());
    let mut back = [0xA5; 261];
    expect("back", calls::read_table(&buffer, &mut back), Answer::accepted(3, 261));
    assert_eq!(back, record[..]);
}

/// Line numbers beyond 16 bits, and a text of many megabytes.
#[test]
fn far_lines() {
    let mut buffer = [0xA5; 261];
    for ends in [65_535, 65_536, 70_000, 20_000_000] {
        let mut text = vec![b'\n'; ends];
        text.extend(b".i 9");
        let input = format!("{ends} empty lines");
        let at = Answer::refused(3, 1, ends + 1);
        expect(&input, calls::read_table(&text, &mut buffer), at);
        let none = Answer::refused(21, 1, ends + 1);
        expect(&input, calls::read_table(&text[..ends], &mut buffer), none);
    }
    // 70,000 terms that add nothing, counted.
    let idle = "- -\n".repeat(70_000);
    for (said, answer) in
        [("70000", Answer::accepted(3, 5)), ("4464", Answer::refused(22, 1, 70_005))]
    {
        let text = format!(".i 1\n.o 1\n.type fr\n.p {said}\n{idle}.e");
        expect(said, calls::read_table(text.as_bytes(), &mut buffer), answer);
    }
}

fn expect(input: &str, got: u64, want: Answer) {
    let (wanted, found) = (show::answer(want), show::answer(Answer::unpacked(got)));
    assert_eq!(got, want.packed(), "{input}\n  want {wanted}\n  got  {found}");
}
