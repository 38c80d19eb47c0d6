//! Terminals: colour and the progress line.

use std::ffi::{c_char, CStr};
use std::fs::OpenOptions;
use std::io::{Read, Write};
use std::os::fd::AsRawFd;
use std::os::unix::fs::OpenOptionsExt;
use std::path::Path;
use std::process::{Command, Stdio};
use std::thread;
use std::time::{Duration, Instant};

use zap_tests::cases::DISJ;
use zap_tests::command::{command, Folder, Ran};

use crate::pipes::{for_every_verb, EVERY_VERB};
use crate::written::{functions, longest_pair, make_pipe, CONJ_DISJ_CLAIM};

/// What came out of a terminal, and of the pipes beside it.
struct Seen {
    terminal: String,
    out: String,
    err: String,
    status: Option<i32>,
}

/// Runs it with a terminal for standard output, for standard error, or for both.
fn on_terminal(mut command: Command, [for_out, for_err]: [bool; 2]) -> Seen {
    extern "C" {
        fn unlockpt(fd: i32) -> i32;
        fn ptsname_r(fd: i32, name: *mut c_char, length: usize) -> i32;
    }
    // It must not become the terminal that controls the tests.
    const O_NOCTTY: i32 = 0o400;
    let open = |path: &Path| {
        let mut options = OpenOptions::new();
        options.read(true).write(true).custom_flags(O_NOCTTY).open(path).expect("a terminal")
    };
    let mut outer = open(Path::new("/dev/ptmx"));
    let mut name = [0; 64];
    let fd = outer.as_raw_fd();
    let named = unsafe { unlockpt(fd) == 0 && ptsname_r(fd, name.as_mut_ptr(), 64) == 0 };
    assert!(named, "a terminal has a name");
    let name = unsafe { CStr::from_ptr(name.as_ptr()) }.to_str().expect("text");
    let end = |terminal| if terminal { open(Path::new(name)).into() } else { Stdio::piped() };
    command.stdin(Stdio::null()).stdout(end(for_out)).stderr(end(for_err));
    let child = command.spawn().expect("it can be run");
    // The terminal ends with its last inner end, and the command has two.
    drop(command);
    thread::scope(|threads| {
        let shown = threads.spawn(move || {
            let (mut shown, mut part) = (vec![], [0; 4096]);
            while let Ok(length @ 1..) = outer.read(&mut part) {
                shown.extend_from_slice(&part[..length]);
            }
            shown
        });
        let output = child.wait_with_output().expect("it ends");
        let text = |bytes| String::from_utf8(bytes).expect("text");
        Seen {
            terminal: text(shown.join().expect("read")),
            out: text(output.stdout),
            err: text(output.stderr),
            status: output.status.code(),
        }
    })
}

fn with_term(folder: &Folder, words: &str, term: &str) -> Command {
    let mut command = command();
    command.args(words.split(' ')).current_dir(folder.path()).env("TERM", term);
    command
}

#[test]
fn no_escape_where_there_is_no_terminal() {
    let folder = for_every_verb();
    for words in EVERY_VERB.into_iter().chain(["show missing", "frobnicate"]) {
        for more in [&[][..], &["--json"]] {
            let mut command = with_term(&folder, words, "xterm-256color");
            let output = command.args(more).output().expect("run");
            let escape = output.stdout.iter().chain(&output.stderr).any(|&byte| byte == 0x1B);
            assert!(!escape, "{words} {more:?}");
        }
    }
}

/// On a terminal words are coloured, and nothing else changes.
#[test]
fn colour_on_a_terminal_alone() {
    let folder = for_every_verb();
    let (good, bad, end) = ("\x1b[32m", "\x1b[31m", "\x1b[0m");
    for (words, coloured) in [
        ("match conj disj", format!("{good}match{end}: ")),
        ("match conj odd", format!("{bad}no match{end}: ")),
        ("match conj disj odd", format!("disj: {good}match{end}: ")),
        ("check conj disj m", format!("{good}accepted{end}: ")),
        ("check conj odd m", format!("{bad}refused{end}: ")),
        ("explain conj disj m", format!("{good}accepted{end}: ")),
        ("show empty", format!("{bad}refused{end}: ")),
        ("show bad.pla", format!("{bad}refused{end}: ")),
    ] {
        let plain = Ran::of(&mut with_term(&folder, words, "xterm"), b"");
        let both = on_terminal(with_term(&folder, words, "xterm"), [true, true]);
        assert!(both.terminal.starts_with(&coloured), "{words}: {:?}", both.terminal);
        let text = both.terminal.replace(good, "").replace(bad, "").replace(end, "");
        // A byte that is missing is a coloured blank, at the end of its line.
        let lines: Vec<&str> = text.lines().map(str::trim_end).collect();
        assert_eq!(lines, plain.out.lines().collect::<Vec<_>>(), "{words}");
        assert_eq!(both.status, Some(plain.status), "{words}");

        let mut no_colour = with_term(&folder, words, "xterm");
        no_colour.env("NO_COLOR", "1");
        for command in [no_colour, with_term(&folder, words, "dumb")] {
            let seen = on_terminal(command, [true, true]);
            assert_eq!(seen.terminal.replace("\r\n", "\n"), plain.out, "{words}");
        }
        // NO_COLOR counts only where it is not empty (no-color.org).
        let mut empty = with_term(&folder, words, "xterm");
        empty.env("NO_COLOR", "");
        assert!(on_terminal(empty, [true, true]).terminal.starts_with(&coloured), "{words}");
    }
}

/// The words of `-o -` go to standard error: what that is decides, each for itself.
#[test]
fn colour_beside_a_claim() {
    let folder = for_every_verb();
    let claim = String::from_utf8(CONJ_DISJ_CLAIM.to_vec()).expect("small bytes");
    let words = "match conj disj -o -";
    let seen = on_terminal(with_term(&folder, words, "xterm"), [false, true]);
    assert_eq!(seen.out, claim);
    assert!(seen.terminal.starts_with("\x1b[32mmatch\x1b[0m: "), "{:?}", seen.terminal);
    let seen = on_terminal(with_term(&folder, words, "xterm"), [true, false]);
    assert_eq!(seen.terminal, claim);
    assert!(seen.err.starts_with("match: ") && !seen.err.contains('\x1b'), "{:?}", seen.err);
}

/// Each time the line is written over.
const OVER: &str = "\r\x1b[K";

#[test]
fn progress_of_the_longest_search() {
    let folder = Folder::new();
    let [f, g] = longest_pair(8);
    folder.write("f", f);
    folder.write("g", g);
    let start = Instant::now();
    let seen = on_terminal(with_term(&folder, "match f g", "xterm"), [true, true]);
    let took = start.elapsed();
    let mut lines: Vec<&str> = seen.terminal.split(OVER).collect();
    let last = lines.pop().expect("some text");
    assert!(last.starts_with("\x1b[31mno match\x1b[0m: "), "{:?}", seen.terminal);
    if took > Duration::from_millis(1_500) {
        // The line is cleared before the answer comes.
        assert!(lines.len() > 1 && lines[0].is_empty(), "{:?}", seen.terminal);
    }
    let is_progress = |line: &&str| line.starts_with("searching, ") && *line != "searching, 0 s";
    assert!(lines.iter().skip(1).all(is_progress), "{lines:?}");
}

/// Runs `match conj disj pipe`; the pipe gives Disj after more than a second.
fn slow_match(term: &str, terminals: [bool; 2]) -> Seen {
    let folder = functions();
    let pipe = make_pipe(&folder, "pipe");
    let command = with_term(&folder, "match conj disj pipe", term);
    thread::scope(|threads| {
        threads.spawn(move || {
            let mut pipe = OpenOptions::new().write(true).open(pipe).expect("its reader opens it");
            thread::sleep(Duration::from_millis(1_600));
            pipe.write_all(DISJ).expect("its reader waits");
        });
        on_terminal(command, terminals)
    })
}

/// The first wiring is that of FORMATS.md.
const SERVED: &str = "x0 to x0 inverted, x1 to x1 inverted, output inverted";

#[test]
fn progress_of_several() {
    let (both, piped) = thread::scope(|threads| {
        let both = threads.spawn(|| slow_match("xterm", [true, true]));
        let piped = threads.spawn(|| slow_match("xterm", [true, false]));
        (both.join().expect("it ends"), piped.join().expect("it ends"))
    });
    let line = |name: &str| format!("{name}: \x1b[32mmatch\x1b[0m: {SERVED}\r\n");
    let parts: Vec<&str> = both.terminal.split(OVER).collect();
    let (first, last) = (parts[0], parts[parts.len() - 1]);
    assert!(parts.len() > 2, "{:?}", both.terminal);
    assert_eq!(first, line("disj"));
    assert!(last.starts_with(&line("pipe")), "{:?}", both.terminal);
    let between = &parts[1..parts.len() - 1];
    let is_progress =
        |part: &&str| part.starts_with("matching, 1 of 2, ") && !part.ends_with(" 0 s");
    assert!(between.iter().all(is_progress), "{between:?}");

    let text = [line("disj"), line("pipe")].concat();
    assert!(piped.terminal.starts_with(&text), "{:?}", piped.terminal);
    assert_eq!((piped.err.as_str(), piped.status), ("", Some(0)));
}

/// A terminal that says it is dumb would show an escape as letters.
#[test]
fn no_escape_on_a_dumb_terminal() {
    let seen = slow_match("dumb", [true, true]);
    assert!(seen.terminal.contains(&format!("pipe: match: {SERVED}\r\n")), "{:?}", seen.terminal);
    assert!(!seen.terminal.contains('\x1b'), "{:?}", seen.terminal);
}
