//! Files that are not what they should be, or cannot be read.

use std::fs::{self, File};
use std::os::unix::fs::symlink;
use std::process::Command;

use zap_tests::cases::{CONJ, WIRE};
use zap_tests::command::{binary, command, repository, Folder, Ran};
use zap_tests::random::Random;
use zap_tests::reference::answer::Answer;
use zap_tests::reference::programs::hex;
use zap_tests::reference::table::read_table;

use crate::ways::{numbers_in_json, utf_16};
use crate::written::make_pipe;

/// Wherever one file is wanted, by its verb and words; F is the one at fault.
const ONE_WANTED: [&str; 10] = [
    "show F",
    "table F",
    "record F",
    "match F g",
    "check F g c",
    "check g F c",
    "check g g F",
    "explain F g c",
    "explain g F c",
    "explain g g F",
];

/// Those of them where it is a claim, which no text can be that is not hex.
const CLAIM_WANTED: [&str; 2] = ["check g g F", "explain g g F"];

/// Where a folder would stand for its files.
const ANY_NUMBER: [&str; 2] = ["summary F", "match g F"];

pub fn quoted(text: &str) -> String {
    format!("\"{}\"", text.replace('\\', "\\\\").replace('"', "\\\""))
}

/// There is no answer, for a reason that is told in a line; with --json in an object.
fn expect_trouble(folder: &Folder, places: &[&str], file: &str, why: impl Fn(&str) -> bool) {
    folder.write("g", WIRE);
    folder.write("c", "4D 54 01 00 00");
    for words in places {
        let words: Vec<&str> =
            words.split(' ').map(|word| if word == "F" { file } else { word }).collect();
        let run = |more: &[&str]| {
            Ran::of(command().current_dir(folder.path()).args(&words).args(more), b"")
        };
        let ran = run(&[]);
        let line = ran.err.strip_prefix("zap: ").and_then(|line| line.strip_suffix('\n'));
        let line = line.unwrap_or_else(|| panic!("{words:?}: {ran:?}"));
        assert!(!line.contains('\n') && why(line), "{words:?}: {line}");
        assert_eq!((ran.out.as_str(), ran.status), ("", 2), "{words:?}");

        let json = run(&["--json"]);
        let (start, end) =
            (format!("{{\"verb\":\"{}\",", words[0]), format!("\"error\":{}}}\n", quoted(line)));
        assert!(json.out.starts_with(&start) && json.out.ends_with(&end), "{words:?}: {json:?}");
        assert_eq!((json.out.lines().count(), json.status), (1, 2), "{words:?}");
    }
}

fn everywhere() -> Vec<&'static str> {
    [&ONE_WANTED[..], &ANY_NUMBER].concat()
}

const NO_HEX: [(&str, usize, usize, &str); 17] = [
    ("46 4G", 1, 5, "'G'"),
    ("46 4E\n\n 02 zz", 3, 5, "'z'"),
    ("46 4E\r\n02\tx1", 2, 4, "'x'"),
    ("46;4E", 1, 3, "';'"),
    ("\"46\"", 1, 1, "'\"'"),
    ("46 4E # fine\n# \u{e4}\u{f6}\n46 \u{e4}", 3, 4, "'\u{e4}'"),
    ("46 \u{1F600}", 1, 4, "'\u{1F600}'"),
    ("\u{feff}46 4\u{e9}", 1, 5, "'\u{e9}'"),
    ("0xg", 1, 3, "'g'"),
    ("46 4E 2 01", 1, 7, "2 "),
    ("46 4E\n2", 2, 1, "2 "),
    ("46 4E021 00", 1, 4, "4E021 "),
    ("46,0x4E1", 1, 4, "0x4E1 "),
    ("46 0x", 1, 4, "0x "),
    ("46 0x\n4E", 1, 4, "0x "),
    ("0x,46", 1, 1, "0x "),
    ("0x#", 1, 1, "0x "),
];

/// A file whose name says hex is hex, and so is every claim.
#[test]
fn text_that_is_no_hex() {
    let folder = Folder::new();
    for (text, line, column, what) in NO_HEX {
        let place = format!("; line {line}, column {column}: {what}");
        for (file, places) in
            [("f.hex", &everywhere()[..]), ("f.fn", &["summary F"]), ("f", &CLAIM_WANTED)]
        {
            folder.write(file, text);
            let start = format!("{file}: taken for hex, as it is text without a mark at its start");
            let told = |why: &str| why.starts_with(&start) && why.contains(&place);
            expect_trouble(&folder, places, file, told);
        }
    }
    // A long group is not told whole.
    folder.write("f.hex", "4".repeat(100_001));
    let told = |why: &str| why.contains("line 1, column 1: 4444") && why.len() < 300;
    expect_trouble(&folder, &["summary F"], "f.hex", told);
}

/// Any other function is then a table: refused where its first term stands, and it is
/// told as well why it is no hex.
#[test]
fn text_that_is_neither_hex_nor_a_table() {
    let folder = Folder::new();
    for (text, line, column, what) in NO_HEX {
        folder.write("f", text);
        let (answer, _) = read_table(text.trim_start_matches('\u{feff}').as_bytes(), 261);
        assert_eq!(answer.code, 21, "{text}");
        let why = format!("line {line}, column {column}: {what}");
        expect_table_refused(&folder, "f", answer.place, &why);
        let piped = Ran::of(command().args(["summary", "-"]), text.as_bytes());
        let start = "standard input, taken for a table: refused: ";
        let told = piped.out.starts_with(start) && piped.out.contains(&why);
        assert!(told && piped.status == 2, "{text:?}: {piped:?}");
    }
}

/// Refused by 21 at this line, and no hex for this reason, wherever it is a function.
fn expect_table_refused(folder: &Folder, file: &str, line: u64, why: &str) {
    folder.write("g", WIRE);
    folder.write("c", "4D 54 01 00 00");
    let places = everywhere().into_iter().filter(|words| !CLAIM_WANTED.contains(words));
    for words in places {
        // f is the first file, g the second.
        let record = words.split(' ').position(|word| word == "F").expect("a function") as u64;
        let words: Vec<&str> =
            words.split(' ').map(|word| if word == "F" { file } else { word }).collect();
        let run = |more: &[&str]| {
            Ran::of(command().current_dir(folder.path()).args(&words).args(more), b"")
        };
        let ran = run(&[]);
        let told = [
            format!("{file}, taken for a table"),
            format!("missing before the first term (code 21), at line {line}; it is no hex either: {why}"),
        ];
        assert!(told.iter().all(|part| ran.out.contains(part)), "{words:?}: {ran:?}");
        assert_eq!((ran.err.as_str(), ran.status), ("", 2), "{words:?}");
        let json = run(&["--json"]);
        let numbers = numbers_in_json(Answer::refused(21, record, line as usize));
        let parts =
            [numbers, "\"taken_for\":\"table\"".to_string(), "\"no_hex\":\"line ".to_string()];
        assert!(parts.iter().all(|part| json.out.contains(part)), "{words:?}: {json:?}");
        assert_eq!((json.out.lines().count(), json.status), (1, 2), "{words:?}");
    }
}

/// All that may stand between groups is text: it makes no file binary.
#[test]
fn white_space_is_text() {
    let folder = Folder::new();
    for blank in ["\t", "\x0B", "\x0C", "\r"] {
        folder.write("f.hex", format!("46{blank}4G"));
        let told = |why: &str| why.contains("; line 1, column 5: 'G'");
        expect_trouble(&folder, &["summary F"], "f.hex", told);
    }
}

/// A mistake in text that the command would read, were it not for the mistake.
#[test]
fn wide_text_that_is_no_hex() {
    let folder = Folder::new();
    for unit in [u16::to_le_bytes, u16::to_be_bytes] {
        for (file, places) in [("f.hex", &everywhere()[..]), ("f", &CLAIM_WANTED)] {
            folder.write(file, utf_16("46 4E\r\n02 4G 01", unit));
            let start = format!("{file}: taken for hex");
            let told =
                |why: &str| why.starts_with(&start) && why.contains("; line 2, column 5: 'G'");
            expect_trouble(&folder, places, file, told);
        }
        expect_table_refused(&folder, "f", 1, "line 2, column 5: 'G'");
    }
}

/// Half a unit of UTF-16 at the end: some byte has been lost, or came in by mistake.
#[test]
fn wide_text_of_an_odd_length_is_not_accepted() {
    let folder = Folder::new();
    for unit in [u16::to_le_bytes, u16::to_be_bytes] {
        folder.write("f", [&utf_16(&hex(CONJ), unit)[..], &[0x30]].concat());
        let ran = folder.zap("summary f");
        assert_eq!(ran.status, 2, "{ran:?}");
    }
}

/// A heading is a comment, and what follows is none.
#[test]
fn a_text_for_a_function() {
    let readme = repository().join("README.md");
    let text = fs::read_to_string(&readme).expect("it is there");
    let is_prose = |line: &str| !line.trim().is_empty() && !line.starts_with('#');
    let line = 1 + text.lines().position(is_prose).expect("some prose");
    let name = readme.to_str().expect("text");
    let start =
        format!("{name}: taken for hex, as it is text without a mark at its start; line {line}, ");
    let folder = Folder::new();
    expect_trouble(&folder, &CLAIM_WANTED, name, |why| why.starts_with(&start));
    expect_table_refused(&folder, name, line as u64, &format!("line {line}, column "));
}

/// A table is no claim, and it is said so.
#[test]
fn a_table_for_a_claim() {
    let folder = Folder::new();
    folder.write("f", "# a table\n.i 1\n");
    let why = "f begins as a table does, and a claim is wanted here";
    expect_trouble(&folder, &CLAIM_WANTED, "f", |told| told == why);
}

/// Where the archive answers: the words that show it, and the same in an object. A
/// refused function gives no answer, a refused claim is a no.
fn expect_refusals(folder: &Folder, file: &str, [code, place]: [u64; 2], taken: &str, form: &str) {
    folder.write("g", WIRE);
    folder.write("c", "4D 54 01 00 00");
    let cases = [
        ("summary F", 1),
        ("show F", 1),
        ("table F", 1),
        ("record F", 1),
        ("match F g", 1),
        ("match g F", 2),
        ("check F g c", 1),
        ("check g F c", 2),
        ("check g g F", 3),
        ("explain g g F", 3),
    ];
    for (words, record) in cases {
        let words = words.replace('F', file);
        let status = if record == 3 { 1 } else { 2 };
        let ran = folder.zap(&words);
        let told = ran.out.contains(taken) && ran.out.contains(&format!("(code {code})"));
        assert!(told && ran.err.is_empty() && ran.status == status, "{words}: {ran:?}");
        let json = folder.zap(&format!("{words} --json"));
        let answer = format!(
            "\"result\":\"refused\",{}",
            numbers_in_json(Answer::refused(code, record, place as usize))
        );
        let form = format!("\"taken_for\":\"{form}\"");
        let told = json.out.contains(&answer) && json.out.contains(&form);
        let one = json.out.lines().count() == 1 && json.out.ends_with("}\n");
        assert!(told && one && json.err.is_empty() && json.status == status, "{words}: {json:?}");
    }
}

#[test]
fn noise_is_binary() {
    let folder = Folder::new();
    let mut random = Random::new(63);
    for start in [0x00, 0x01, 0x47, 0x7F, 0x80, 0xC3, 0xEF, 0xFE, 0xFF] {
        let noise: Vec<u8> = (0..500).map(|_| random.byte()).collect();
        folder.write("noise", [&[start, 0x00][..], &noise].concat());
        expect_refusals(&folder, "noise", [2, 0], "noise, taken for binary", "binary");
    }
    // The mark makes it binary, whatever follows.
    folder.write("letters", "FN or so");
    let ran = folder.zap("summary letters");
    let out = "letters, taken for binary: refused: n not 1 to 8 in a function record (code 3), at byte 2\n";
    assert_eq!(ran, Ran { out: out.to_string(), err: String::new(), status: 2 });
}

#[test]
fn nothing_at_all() {
    let folder = Folder::new();
    folder.write("empty", "");
    expect_refusals(&folder, "empty", [1, 0], "empty, which is empty", "empty");
    for (words, place) in [("summary -", 1), ("show -", 1), ("match - g", 1), ("check g - c", 2)] {
        let ran = folder.zap(words);
        let told =
            ran.out.contains("standard input, which is empty") && ran.out.contains("(code 1)");
        assert!(told && ran.status == 2, "{words}: {ran:?}");
        let json = folder.zap(&format!("{words} --json"));
        let numbers = numbers_in_json(Answer::refused(1, place, 0));
        assert!(json.out.contains(&numbers) && json.status == 2, "{words}: {json:?}");
    }
    // Comments are text, but no bytes.
    folder.write("comment", "# nothing\n");
    expect_refusals(&folder, "comment", [1, 0], "comment, taken for hex", "hex");
}

#[test]
fn files_that_cannot_be_read() {
    let folder = Folder::new();
    fs::create_dir(folder.path().join("sub")).expect("a new folder");
    symlink("gone", folder.path().join("dangling")).expect("a new link");
    symlink("circle", folder.path().join("circle")).expect("a new link");
    let said = |name: &'static str, reason: &'static str| {
        move |why: &str| why == format!("{name} cannot be read: {reason}")
    };
    let missing = "No such file or directory";
    expect_trouble(&folder, &everywhere(), "missing", said("missing", missing));
    expect_trouble(&folder, &everywhere(), "no/file", said("no/file", missing));
    expect_trouble(&folder, &everywhere(), "g/file", said("g/file", "Not a directory"));
    expect_trouble(&folder, &everywhere(), "dangling", said("dangling", missing));
    let circle = "Too many levels of symbolic links";
    expect_trouble(&folder, &everywhere(), "circle", said("circle", circle));
    // It opens for whoever owns the process, and place 0 is never there.
    let memory = said("/proc/self/mem", "Input/output error");
    expect_trouble(&folder, &everywhere(), "/proc/self/mem", memory);
    let is_folder = |why: &str| why.starts_with("sub is a folder");
    expect_trouble(&folder, &ONE_WANTED, "sub", is_folder);
}

#[test]
fn standard_input_that_cannot_be_read() {
    let folder = Folder::new();
    let run = |more: &[&str]| {
        let input = File::open(folder.path()).expect("a folder opens");
        let output = command().args(["show", "-"]).args(more).stdin(input).output().expect("run");
        let text = |bytes| String::from_utf8(bytes).expect("text");
        (text(output.stdout), text(output.stderr), output.status.code())
    };
    let why = "standard input cannot be read: Is a directory";
    assert_eq!(run(&[]), (String::new(), format!("zap: {why}\n"), Some(2)));
    let (out, _, status) = run(&["--json"]);
    assert_eq!(
        (out, status),
        (format!("{{\"verb\":\"show\",\"result\":\"trouble\",\"error\":\"{why}\"}}\n"), Some(2))
    );
}

// ---- Folders ----

/// To read a pipe in a folder would take for ever, so the run has an end of its own.
#[test]
fn what_is_no_plain_file_of_a_folder_is_left_out() {
    let folder = Folder::new();
    folder.write("cells/conj", CONJ);
    fs::create_dir(folder.path().join("cells/sub")).expect("a new folder");
    make_pipe(&folder, "cells/pipe");
    for words in ["match cells/conj cells --json", "summary cells --json"] {
        let mut within = Command::new("timeout");
        within.current_dir(folder.path()).arg("20").arg(binary()).args(words.split(' '));
        let ran = Ran::of(&mut within, b"");
        assert_eq!((ran.err.as_str(), ran.status), ("", 0), "{words}: {}", ran.out);
        assert_eq!(ran.out.lines().count(), 1, "{words}: {}", ran.out);
        assert!(ran.out.contains("\"cells/conj\""), "{words}: {}", ran.out);
    }
}

/// A link that leads nowhere may have been a function.
#[test]
fn a_dangling_link_of_a_folder_is_told() {
    let folder = Folder::new();
    folder.write("cells/conj", CONJ);
    symlink("nowhere", folder.path().join("cells/lost")).expect("a new link");
    for words in ["match cells/conj cells", "summary cells"] {
        let ran = folder.zap(words);
        assert_eq!(ran.status, 2, "{words}: {ran:?}");
        let told = "cells/lost cannot be read: No such file or directory\n";
        assert!((ran.out + &ran.err).contains(told), "{words}");
    }
}

#[test]
fn a_folder_without_files() {
    let folder = Folder::new();
    folder.write("conj", CONJ);
    folder.write("cells/.hidden", CONJ);
    for words in ["match conj cells", "summary cells"] {
        let ran = folder.zap(words);
        assert_eq!((ran.out.as_str(), ran.status), ("", 2), "{words}");
        assert!(ran.err.ends_with(" folder cells\n"), "{words}: {}", ran.err);
    }
}
