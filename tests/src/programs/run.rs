//! A program, run as a person would run it: bytes come to its standard input, and
//! what it prints is collected.

use std::io::{self, ErrorKind, Read, Write};
use std::process::{Child, ChildStdin, Command, ExitStatus, Stdio};
use std::thread;
use std::time::{Duration, Instant};

/// How an input is handed over.
#[derive(Clone, Debug)]
pub struct Portions {
    /// All but the last one, which is what is left.
    pub lengths: Vec<usize>,
    /// The time before each of them, the first too: the program has to get started.
    pub pause: Duration,
}

impl Portions {
    /// All of it in one piece.
    pub const ONE: Portions = Portions { lengths: vec![], pause: Duration::ZERO };

    /// One after the other, as fast as the pipe takes them.
    pub fn of(lengths: Vec<usize>) -> Portions {
        Portions { lengths, pause: Duration::ZERO }
    }

    /// With pauses, so that the program reads each of them before the next one is there.
    pub fn apart(lengths: Vec<usize>) -> Portions {
        Portions { lengths, pause: Duration::from_millis(5) }
    }

    /// The portions of an input; there are fewer where it is too short.
    pub fn cut<'a>(&self, input: &'a [u8]) -> Vec<&'a [u8]> {
        let mut rest = input;
        let mut portions = vec![];
        for &length in &self.lengths {
            let (portion, after) = rest.split_at(length.min(rest.len()));
            portions.push(portion);
            rest = after;
        }
        portions.push(rest);
        portions.retain(|portion| !portion.is_empty());
        portions
    }
}

/// So long a program may take; what is right takes far less than a second.
const LIMIT: Duration = Duration::from_secs(60);

/// Far more than a right program prints: one that goes on and on is cut off.
const MOST_PRINTED: u64 = 1 << 20;

/// What the program prints, or what is wrong with its run: it must end by itself,
/// with success and without a complaint.
pub fn run(program: Command, input: &[u8], portions: &Portions) -> Result<String, String> {
    run_within(LIMIT, program, input, portions)
}

fn run_within(
    limit: Duration,
    mut program: Command,
    input: &[u8],
    portions: &Portions,
) -> Result<String, String> {
    program.stdin(Stdio::piped()).stdout(Stdio::piped()).stderr(Stdio::piped());
    let mut child = program.spawn().map_err(|why| format!("{program:?} does not start: {why}"))?;
    let stdin = child.stdin.take().expect("piped");
    let stdout = child.stdout.take().expect("piped");
    let stderr = child.stderr.take().expect("piped");
    // A program may print before all is handed over, or leave off reading.
    thread::scope(|threads| {
        threads.spawn(move || hand_over(stdin, input, portions));
        let printed = threads.spawn(move || collected(stdout));
        let complaint = threads.spawn(move || collected(stderr));
        let status = end_of(&mut child, limit)?;
        let [printed, complaint] = [printed, complaint].map(|text| text.join().expect("read"));
        if !status.success() || !complaint.is_empty() {
            return Err(format!("{status}, printed {printed:?}, complained {complaint:?}"));
        }
        Ok(printed)
    })
}

/// Writes the portions. That the program reads no more of them is no fault.
fn hand_over(mut stdin: ChildStdin, input: &[u8], portions: &Portions) {
    for portion in portions.cut(input) {
        thread::sleep(portions.pause);
        match stdin.write_all(portion) {
            Err(why) if why.kind() == ErrorKind::BrokenPipe => return,
            written => written.expect("a pipe takes bytes"),
        }
    }
}

/// All that comes out of a pipe. A byte that belongs to no text is shown as such.
fn collected(pipe: impl Read) -> String {
    let mut bytes = vec![];
    pipe.take(MOST_PRINTED).read_to_end(&mut bytes).expect("a pipe gives bytes");
    String::from_utf8_lossy(&bytes).into_owned()
}

/// How the program ends. If it does not, it is ended.
fn end_of(child: &mut Child, limit: Duration) -> Result<ExitStatus, String> {
    let start = Instant::now();
    let of_the_system = |why: io::Error| format!("{why}");
    while start.elapsed() < limit {
        if let Some(status) = child.try_wait().map_err(of_the_system)? {
            return Ok(status);
        }
        thread::sleep(Duration::from_micros(200));
    }
    child.kill().and_then(|()| child.wait()).map_err(of_the_system)?;
    Err(format!("no end after {limit:?}"))
}

#[cfg(test)]
mod tests {
    use super::*;

    fn shell(words: &str) -> Command {
        let mut command = Command::new("sh");
        command.args(["-c", words]);
        command
    }

    #[test]
    fn an_input_is_cut_into_its_portions() {
        let cut = |lengths: &[usize]| Portions::of(lengths.to_vec()).cut(b"abcde").concat();
        for lengths in [&[][..], &[2], &[1, 0, 3], &[5], &[9, 9]] {
            assert_eq!(cut(lengths), b"abcde", "{lengths:?}");
        }
        assert_eq!(Portions::of(vec![2, 1]).cut(b"abcde"), [&b"ab"[..], b"c", b"de"]);
        assert_eq!(Portions::of(vec![1; 9]).cut(b"ab"), [b"a", b"b"]);
        assert_eq!(Portions::ONE.cut(b"ab"), [b"ab"]);
    }

    #[test]
    fn what_is_handed_over_arrives() {
        let input = "0123456789".repeat(10_000);
        for portions in [Portions::ONE, Portions::of(vec![7; 1_000]), Portions::apart(vec![9; 9])] {
            assert_eq!(run(shell("cat"), input.as_bytes(), &portions), Ok(input.clone()));
        }
    }

    /// One read gets the first portion alone, if not every time: it may come late.
    #[test]
    fn portions_come_apart() {
        let read_once = || shell("dd bs=100 count=1 2>/dev/null");
        let pause = Duration::from_millis(100);
        let portions = Portions { lengths: vec![3], pause };
        let alone = || run(read_once(), b"abcde", &portions) == Ok("abc".to_string());
        assert!((0..50).any(|_| alone()));
    }

    #[test]
    fn a_program_may_leave_off_reading() {
        let input = vec![b'a'; 1 << 20];
        assert_eq!(run(shell("head -c 3"), &input, &Portions::ONE), Ok("aaa".to_string()));
        assert_eq!(run(shell("echo b"), &input, &Portions::ONE), Ok("b\n".to_string()));
    }

    #[test]
    fn what_is_wrong_with_a_run_is_told() {
        let wrong = [
            shell("cat; exit 3"),
            shell("cat; echo oh >&2"),
            shell("kill -9 $$"),
            // It ends by the broken pipe.
            shell("yes"),
            Command::new("./no-such-program"),
        ];
        for program in wrong {
            let shown = format!("{program:?}");
            assert!(run(program, b"abc", &Portions::ONE).is_err(), "{shown}");
        }
        let mut endless = Command::new("sleep");
        endless.arg("1000");
        let limit = Duration::from_millis(50);
        assert!(run_within(limit, endless, b"abc", &Portions::ONE).is_err());
    }
}
