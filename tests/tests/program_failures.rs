//! The two programs where reading or writing fails.
//!
//! They are those in ../target/bin, or in the folder named by ZAP_PROGRAMS; a relative
//! path counts from this package.

use std::env;
use std::fs::{File, OpenOptions};
use std::io::{self, PipeReader, PipeWriter, Read, Write};
use std::os::fd::AsRawFd;
use std::path::{Path, PathBuf};
use std::process::{Command, Stdio};
use std::thread;
use std::time::{Duration, Instant};

use zap_tests::cases::{CONJ, DISJ};

const PROGRAMS: [&str; 2] = ["match_pair", "check_claim"];

fn program(name: &str) -> PathBuf {
    let folder = env::var_os("ZAP_PROGRAMS").unwrap_or("../target/bin".into());
    let file = Path::new(env!("CARGO_MANIFEST_DIR")).join(folder).join(name);
    assert!(file.exists(), "{} is missing: tools/programs", file.display());
    file
}

/// What it prints, what it complains about, and its exit status. One that does not end is ended: a
/// program that waits for an input which never comes has missed the failure.
fn run(name: &str, input: Stdio, output: Stdio) -> (String, String, Option<i32>) {
    let mut command = Command::new(program(name));
    command.stdin(input).stdout(output).stderr(Stdio::piped());
    let mut child = command.spawn().expect("it can be run");
    // A pipe ends only if nobody here holds an end of it.
    drop(command);
    let start = Instant::now();
    let status = loop {
        if let Some(status) = child.try_wait().expect("a child") {
            break status.code();
        }
        if start.elapsed() > Duration::from_secs(20) {
            child.kill().expect("it runs");
            child.wait().expect("it ends");
            panic!("{name} does not end");
        }
        thread::sleep(Duration::from_millis(1));
    };
    let (mut out, mut err) = (String::new(), String::new());
    if let Some(mut pipe) = child.stdout.take() {
        pipe.read_to_string(&mut out).expect("text");
    }
    child.stderr.take().expect("piped").read_to_string(&mut err).expect("text");
    (out, err, status)
}

/// It prints nothing, complains in one line about this, with the system's reason, and ends with 1.
fn expect_complaint(name: &str, input: Stdio, output: Stdio, about: &str, reason: &str) {
    let printed = run(name, input, output);
    assert_eq!(printed, (String::new(), format!("{name}: {about}: {reason}\n"), Some(1)));
}

fn both_functions() -> Vec<u8> {
    [CONJ, DISJ].concat()
}

/// A pipe with some bytes in it.
fn pipe_with(bytes: &[u8]) -> (PipeReader, PipeWriter) {
    let (reader, mut writer) = io::pipe().expect("a new pipe");
    writer.write_all(bytes).expect("a pipe holds as much");
    (reader, writer)
}

/// Conj, and Disj's first five bytes: its counts ask for eleven.
const HALF: usize = 16;

#[test]
fn standard_input_is_a_folder() {
    for name in PROGRAMS {
        let folder = File::open(env::temp_dir()).expect("a folder opens");
        let reason = "Is a directory";
        expect_complaint(name, folder.into(), Stdio::piped(), "standard input", reason);
    }
}

#[test]
fn standard_input_cannot_be_read_from() {
    for name in PROGRAMS {
        let closed = OpenOptions::new().write(true).open("/dev/null").expect("there");
        let reason = "Bad file descriptor";
        expect_complaint(name, closed.into(), Stdio::piped(), "standard input", reason);
    }
}

fn without_waiting(pipe: &PipeReader) {
    extern "C" {
        fn fcntl(fd: i32, command: i32, ...) -> i32;
    }
    const F_SETFL: i32 = 4;
    const O_NONBLOCK: i32 = 0o4000;
    assert_eq!(unsafe { fcntl(pipe.as_raw_fd(), F_SETFL, O_NONBLOCK) }, 0);
}

/// Half of the input, or none, or all of it has come, and the writer may write more: the
/// next read neither waits nor is it the input's end.
#[test]
fn a_pipe_that_does_not_wait() {
    let input = both_functions();
    for name in PROGRAMS {
        for length in [0, 1, HALF, input.len()] {
            let (reader, writer) = pipe_with(&input[..length]);
            without_waiting(&reader);
            let reason = "Resource temporarily unavailable";
            expect_complaint(name, reader.into(), Stdio::piped(), "standard input", reason);
            drop(writer);
        }
    }
}

/// One that ends is no failure, though it does not wait either.
#[test]
fn a_pipe_that_ends_after_half() {
    for name in PROGRAMS {
        for waits in [true, false] {
            let (reader, writer) = pipe_with(&both_functions()[..HALF]);
            if !waits {
                without_waiting(&reader);
            }
            drop(writer);
            let printed = run(name, reader.into(), Stdio::piped());
            assert_eq!(printed, ("1 0 2 5 0\n".to_string(), String::new(), Some(0)), "{name}");
        }
    }
}

#[test]
fn standard_output_is_full() {
    let full = || OpenOptions::new().write(true).open("/dev/full").expect("there on every Linux");
    for name in PROGRAMS {
        for length in [0, HALF, both_functions().len()] {
            let (reader, writer) = pipe_with(&both_functions()[..length]);
            drop(writer);
            let reason = "No space left on device";
            expect_complaint(name, reader.into(), full().into(), "standard output", reason);
        }
    }
}

/// The failed read is told, and nothing is written after it.
#[test]
fn neither_can_be_used() {
    let full = OpenOptions::new().write(true).open("/dev/full").expect("there on every Linux");
    for name in PROGRAMS {
        let folder = File::open(env::temp_dir()).expect("a folder opens");
        let full = full.try_clone().expect("another handle");
        let reason = "Is a directory";
        expect_complaint(name, folder.into(), full.into(), "standard input", reason);
    }
}
