//! Pipes that close, outputs that are full.

use std::fs::{self, File, OpenOptions};
use std::io::Read;
use std::process::{Child, Command, ExitStatus, Stdio};
use std::thread;
use std::time::{Duration, Instant};

use zap_tests::command::{command, Folder, Ran};

use crate::written::{functions, longest_refusal, CONJ_DISJ_CLAIM};

/// How a run ends; one that does not is ended.
fn end_of(child: &mut Child) -> ExitStatus {
    let start = Instant::now();
    while start.elapsed() < Duration::from_secs(30) {
        if let Some(status) = child.try_wait().expect("a child") {
            return status;
        }
        thread::sleep(Duration::from_millis(2));
    }
    child.kill().expect("it runs");
    child.wait().expect("it ended");
    panic!("no end")
}

/// With the refusal of f to g, of which `explain --depth 6` has megabytes to say.
fn with_long_refusal() -> Folder {
    let folder = functions();
    folder.write("c", longest_refusal(6));
    fs::create_dir(folder.path().join("tmp")).expect("a new folder");
    folder
}

const MUCH: [&str; 6] = ["explain", "f", "g", "c", "--depth", "6"];

#[test]
fn a_reader_that_closes_early() {
    let folder = with_long_refusal();
    let run = |more: &[&str]| {
        let mut command = command();
        command.args(MUCH).args(more).current_dir(folder.path());
        command.env("TMPDIR", folder.path().join("tmp"));
        command
    };
    // There is far more than any pipe holds.
    assert!(Ran::of(&mut run(&[]), b"").out.len() > 5_000_000);
    for more in [&[][..], &["--json"]] {
        // It closes at once, or after some bytes.
        for taken in [0, 1, 100_000] {
            let mut command = run(more);
            command.stdin(Stdio::null()).stdout(Stdio::piped()).stderr(Stdio::piped());
            let mut child = command.spawn().expect("it can be run");
            let mut out = child.stdout.take().expect("piped");
            out.read_exact(&mut vec![0; taken]).expect("so much is there");
            drop(out);
            let status = end_of(&mut child);
            let mut err = String::new();
            child.stderr.take().expect("piped").read_to_string(&mut err).expect("text");
            assert_eq!((err.as_str(), status.code()), ("", Some(2)), "{taken} {more:?}");
        }
        // In a shell: the status stands alone on standard error. An object is one line.
        let (head, start) = match more {
            [] => ("head -n 1", "accepted: "),
            _ => ("head -c 9", "{\"verb\":\""),
        };
        let mut shell = Command::new("sh");
        shell.args(["-c", &format!("{{ \"$0\" \"$@\"; echo $? >&2; }} | {head}")]);
        shell.arg(command().get_program()).args(MUCH).args(more).current_dir(folder.path());
        let ran = Ran::of(shell.env("TMPDIR", folder.path().join("tmp")), b"");
        assert!(ran.out.starts_with(start) && ran.out.len() < 100, "{ran:?}");
        assert_eq!((ran.err.as_str(), ran.status), ("2\n", 0), "{more:?}");
    }
    assert_eq!(fs::read_dir(folder.path().join("tmp")).expect("a folder").count(), 0);
}

/// The claim itself, and its words after the reader has gone.
#[test]
fn a_claim_whose_reader_closes_early() {
    let folder = with_long_refusal();
    for form in [&[][..], &["--hex"]] {
        let mut command = command();
        command.args(["match", "f", "g", "-o", "-"]).args(form).current_dir(folder.path());
        command.stdin(Stdio::null()).stdout(Stdio::piped()).stderr(Stdio::piped());
        let mut child = command.spawn().expect("it can be run");
        drop(child.stdout.take());
        let status = end_of(&mut child);
        let mut err = String::new();
        child.stderr.take().expect("piped").read_to_string(&mut err).expect("text");
        assert_eq!((err.as_str(), status.code()), ("", Some(2)));
    }
}

/// Of every verb, and of every sort of answer.
pub const EVERY_VERB: [&str; 25] = [
    "match conj disj",
    "match conj odd",
    "match conj disj odd",
    "match f g -o -",
    "match conj empty",
    "check conj disj m",
    "check f g c",
    "check conj odd m",
    "check empty conj m",
    "summary conj",
    "summary conj disj empty",
    "show conj",
    "show empty",
    "show bad.pla",
    "table conj",
    "table conj -o -",
    "table bad.pla",
    "record conj",
    "record empty",
    "explain conj disj m",
    "explain f g c --depth 4",
    "explain conj odd m",
    "help",
    "help match",
    "help codes",
];

pub fn for_every_verb() -> Folder {
    let folder = with_long_refusal();
    folder.write("m", CONJ_DISJ_CLAIM);
    folder.write("empty", "");
    folder.write("bad.pla", ".i 2\n.o 1\n.type fr\n1x 1\n");
    folder
}

pub fn full() -> File {
    OpenOptions::new().write(true).open("/dev/full").expect("there on every Linux")
}

#[test]
fn standard_output_is_full() {
    let folder = for_every_verb();
    let run = |words: &str, more: &[&str], err: Stdio| {
        let mut command = command();
        command.args(words.split(' ')).args(more).current_dir(folder.path());
        let output = command.stdin(Stdio::null()).stdout(full()).stderr(err).output().expect("run");
        (String::from_utf8(output.stderr).expect("text"), output.status.code())
    };
    for words in EVERY_VERB.into_iter().chain(["--version", "--help"]) {
        for more in [&[][..], &["--json"]] {
            let told = "zap: standard output: No space left on device\n".to_string();
            assert_eq!(run(words, more, Stdio::piped()), (told, Some(2)), "{words} {more:?}");
            let silent = run(words, more, full().into());
            assert_eq!(silent, (String::new(), Some(2)), "{words} {more:?}");
        }
    }
    // Trouble has nothing for standard output, and one line too many for the other.
    for words in ["show missing", "frobnicate", "match conj", "show conj --jsn"] {
        let silent = run(words, &[], full().into());
        assert_eq!(silent, (String::new(), Some(2)), "{words}");
    }
}

/// No words at all: they would go to standard error.
#[test]
fn standard_error_is_full() {
    let folder = for_every_verb();
    for words in [&[][..], &["show", "missing"], &["match", "conj", "disj", "-o", "-"]] {
        let mut command = command();
        command.args(words).current_dir(folder.path()).stdin(Stdio::null()).stderr(full());
        let output = command.output().expect("run");
        assert_eq!(output.status.code(), Some(2), "{words:?}");
    }
}

#[test]
fn no_room_for_temporary_files() {
    let folder = for_every_verb();
    let run = |words: &str, tmp: Option<&str>| {
        let mut command = command();
        command.args(words.split(' ')).current_dir(folder.path());
        match tmp {
            Some(tmp) => Ran::of(command.env("TMPDIR", folder.path().join(tmp)), b""),
            None => Ran::of(command.env_remove("TMPDIR"), b""),
        }
    };
    for words in EVERY_VERB.into_iter().filter(|words| !words.ends_with("-o -")) {
        let plain = run(words, None);
        for tmp in ["missing", "conj"] {
            assert_eq!(run(words, Some(tmp)), plain, "{words}, TMPDIR {tmp}");
        }
    }
    let before = folder.names();
    assert_eq!(run("match f g -o c", Some("missing")).status, 1);
    assert!(fs::read(folder.path().join("c")).expect("written") == longest_refusal(6));
    assert_eq!(folder.names(), before);
}

/// No panic, which would be status 101, and no file of the command's in their place.
#[test]
fn standard_files_that_are_closed() {
    let folder = for_every_verb();
    let run = |words: &str, closed: &str| {
        let mut shell = Command::new("sh");
        shell.args(["-c", &format!("exec \"$0\" \"$@\" {closed}")]);
        let output = shell
            .arg(command().get_program())
            .args(words.split(' '))
            .current_dir(folder.path())
            .output()
            .expect("run");
        let err = String::from_utf8(output.stderr).expect("text");
        assert!(!err.contains("panicked"), "{words} {closed}: {err}");
        output.status.code().expect("it ended by itself")
    };
    for words in EVERY_VERB {
        let usual = run(words, "");
        assert_eq!(run(words, "<&-"), usual, "{words}");
        for closed in [">&-", "2>&-", ">&- 2>&-", "<&- >&- 2>&-"] {
            let status = run(words, closed);
            assert!(status == usual || status == 2, "{words} {closed}: {status}");
        }
    }
    for words in ["summary -", "match - conj", "check conj disj -"] {
        assert!([1, 2].contains(&run(words, "<&-")), "{words}");
    }
    // What takes the number of a closed file must not be written over.
    assert!([1, 2].contains(&run("match f g -o c", "<&- >&- 2>&-")));
    assert!(fs::read(folder.path().join("c")).expect("there") == longest_refusal(6));
}
