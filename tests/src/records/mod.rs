//! The calls on function records, held against the reference.
//!
//! A `Trial` has the calls under test. Each of its methods makes one call and
//! compares every number returned and every element of a lent slice with what
//! the reference says. `sweeps` has the inputs.

pub mod sweeps;

use crate::calls::RecordCalls;
use crate::lent::{byte, inside, lent, word};
use crate::patterns::others_of_clash;
use crate::reference::answer::Answer;
use crate::reference::fault::{self, Owner};
use crate::reference::pattern::{Clash, Function};
use crate::reference::record;
use crate::reference::summary;
use crate::reference::writer;
use crate::show::{self, hex, hex_near};
use crate::tally::Tally;

/// The names of the calls in the tally. The bytes at fault have three lines, by
/// whose they are.
pub const READ: &str = "read";
pub const SUMMARY: &str = "summary";
pub const WRITE: &str = "write";
pub const FAULT_OF_F: &str = "fault, part of f";
pub const FAULT_OF_G: &str = "fault, part of g";
pub const FAULT_EMPTY: &str = "fault, empty";
/// The patterns that 7 carries;
pub const PATTERNS: [&str; 3] =
    ["read, 7 by pattern", "summary, 7 by pattern", "write, 7 by pattern"];
/// where it was 7, how often each wrong pattern is another, by its index in `OF_CLASH`.
pub const OTHER_PATTERN: &str = "7, a wrong pattern is another, by mistake";

/// What differed, if anything did.
pub type Outcome = Result<(), String>;

pub struct Trial {
    pub calls: RecordCalls,
    pub tally: Tally,
}

impl Trial {
    pub fn new(calls: RecordCalls) -> Trial {
        Trial { calls, tally: Tally::default() }
    }

    /// Reads a record, with a slice of three numbers.
    pub fn read(&mut self, record: &[u8]) -> Outcome {
        self.read_into(record, 3)
    }

    /// Reads a record, with a slice of so many numbers.
    pub fn read_into(&mut self, record: &[u8], slots: usize) -> Outcome {
        let want = record::read(record, 1);
        let numbers = [want.n, want.a, want.b];
        compare_numbers(READ, self.calls.read, record, slots, want.answer, numbers)?;
        self.count(READ, PATTERNS[0], want.answer);
        Ok(())
    }

    /// Summarises a record, with a slice of three numbers.
    pub fn summary(&mut self, record: &[u8]) -> Outcome {
        self.summary_into(record, 3)
    }

    /// Summarises a record, with a slice of so many numbers.
    pub fn summary_into(&mut self, record: &[u8], slots: usize) -> Outcome {
        let want = summary::summary(record);
        let numbers = [want.on, want.off, want.in_use];
        compare_numbers(SUMMARY, self.calls.summary, record, slots, want.answer, numbers)?;
        self.count(SUMMARY, PATTERNS[1], want.answer);
        Ok(())
    }

    /// Writes a record into a buffer of so many bytes.
    pub fn write(&mut self, n: u8, on: &[u8], off: &[u8], room: usize) -> Outcome {
        let (want, written) = writer::write(n, on, off, room);
        let expected = lent(room, byte, written.as_deref().unwrap_or(&[]));
        let mut buffer = lent(room, byte, &[]);
        let got = (self.calls.write)(n, on, off, inside(&mut buffer));
        if got != want.packed() || buffer != expected {
            return Err(format!(
                "write, n {n}, room {room}\n  on   {}\n  off  {}\n  want {}\n  got  {}\n  \
                 buffer wanted {}\n  buffer found  {}",
                hex_near(on, 0),
                hex_near(off, 0),
                show::answer(want),
                show::answer(Answer::unpacked(got)),
                hex(&expected),
                hex(&buffer),
            ));
        }
        self.count(WRITE, PATTERNS[2], want);
        Ok(())
    }

    /// A function whose lists meet: all calls, in a buffer that is long enough or not.
    pub fn clash(&mut self, f: &Function, clash: Clash) -> Outcome {
        let bytes = record::record(f);
        self.read(&bytes)?;
        self.summary(&bytes)?;
        for room in [0, bytes.len()] {
            self.write(f.n as u8, &record::bytes(&f.on), &record::bytes(&f.off), room)?;
        }
        others_of_clash(f, clash).for_each(|mistake| self.tally.add(OTHER_PATTERN, mistake));
        Ok(())
    }

    fn count(&mut self, call: &'static str, patterns: &'static str, want: Answer) {
        self.tally.add(call, want.code);
        if want.code == 7 {
            self.tally.add(patterns, want.pattern);
        }
    }

    /// The bytes at fault, with a buffer of so many bytes.
    pub fn fault(&mut self, f: &[u8], g: &[u8], room: usize) -> Outcome {
        let refusal = fault::refusal(f, g);
        let part = fault::part(refusal);
        let want = part.of(f, g);
        let expected = lent(room, byte, if want.len() <= room { want } else { &[] });
        let mut buffer = lent(room, byte, &[]);
        let got = (self.calls.fault)(f, g, inside(&mut buffer));
        if got != want.len() as u64 || buffer != expected {
            return Err(format!(
                "fault, room {room}\n  f    {}\n  g    {}\n  reading {}\n  want {}, {part:?}\n  \
                 got  {got} bytes\n  buffer wanted {}\n  buffer found  {}",
                hex(f),
                hex(g),
                show::answer(refusal),
                hex(want),
                hex(&expected),
                hex(&buffer),
            ));
        }
        let line = match (part.len, part.owner) {
            (0, _) => FAULT_EMPTY,
            (_, Owner::F) => FAULT_OF_F,
            (_, Owner::G) => FAULT_OF_G,
        };
        self.tally.add(line, refusal.code);
        Ok(())
    }
}

/// Makes a call that puts three numbers into a slice if it has three or more.
fn compare_numbers(
    name: &str,
    call: fn(&[u8], &mut [u64]) -> u64,
    record: &[u8],
    slots: usize,
    want: Answer,
    numbers: [u64; 3],
) -> Outcome {
    let expected = lent(slots, word, if slots >= 3 { &numbers } else { &[] });
    let mut slice = lent(slots, word, &[]);
    let got = call(record, inside(&mut slice));
    if got == want.packed() && slice == expected {
        return Ok(());
    }
    Err(format!(
        "{name}, {slots} numbers lent\n  record {}\n  want {}, numbers {numbers:?}\n  got  {}\n  \
         slice wanted {expected:X?}\n  slice found  {slice:X?}",
        hex(record),
        show::answer(want),
        show::answer(Answer::unpacked(got)),
    ))
}
