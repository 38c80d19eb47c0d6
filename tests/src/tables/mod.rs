//! The calls on espresso tables, held against the reference.
//!
//! A `Trial` has the calls under test. Each of its methods makes calls and compares
//! every number returned and every byte of the lent buffer, those around it too, with
//! what the reference says. `sweeps` has the inputs, `order` those for the order of the
//! codes, `texts` makes tables, `cases` are those that the readings of the request name.

pub mod cases;
pub mod order;
pub mod sweeps;
pub mod texts;

use crate::calls::TableCalls;
use crate::lent::{byte, inside, lent, other_byte};
use crate::patterns::others_of_clash;
use crate::records::Outcome;
use crate::reference::answer::Answer;
use crate::reference::pattern::{Clash, Function};
use crate::reference::record::record;
use crate::reference::table::{reading, write_table};
use crate::show::{self, hex_near};
use crate::tally::Tally;

/// The lines of the tally: all answers by code;
pub const READ: &str = "read_table";
pub const WRITE: &str = "write_table";
/// the place of a code 4, which tells the list, and of a code 7, which tells the cube;
pub const TOO_MANY: &str = "read_table, a list too long, by place";
pub const CLASH: &str = "read_table, a clash, by on cube";
/// the patterns of 7;
pub const PATTERNS: [&str; 2] = ["read_table, 7 by pattern", "write_table, 7 by pattern"];
/// where it was 7, how often each wrong pattern is another, by its index in `OF_CLASH`;
pub const OTHER_PATTERN: &str = "read_table, 7, a wrong pattern is another, by mistake";
/// buffers, by code;
pub const EMPTY: [&str; 2] = ["read_table, buffer empty", "write_table, buffer empty"];
pub const ONE_SHORT: [&str; 2] = ["read_table, one byte short", "write_table, one byte short"];
pub const EXACT: [&str; 2] = ["read_table, just long enough", "write_table, just long enough"];
pub const LONGER: [&str; 2] = ["read_table, buffer longer", "write_table, buffer longer"];
/// what was told where the text deserved another code as well, by that other;
pub const OVER: [(u64, &str); 6] = [
    (20, "read_table, 20 told, and there was"),
    (21, "read_table, 21 told, and there was"),
    (3, "read_table, 3 told, and there was"),
    (22, "read_table, 22 told, and there was"),
    (4, "read_table, 4 told, and there was"),
    (7, "read_table, 7 told, and there was"),
];
/// the same where a later line is at fault, by what that line alone gives;
pub const BEFORE: [(u64, &str); 3] = [
    (20, "read_table, 20 at an earlier line than"),
    (21, "read_table, 21 at an earlier line than"),
    (3, "read_table, 3 at an earlier line than"),
];
/// texts that differ in one thing, by the rule that decides: each has two sides;
pub const RULE: [&str; 2] = ["order of codes, first side, by rule", "order of codes, other side"];
/// and records written, read again, by n.
pub const BACK: &str = "written and read again, by n";

/// No record is longer, and no table that is written.
pub const LONGEST_RECORD: usize = 261;
pub const LONGEST_TABLE: usize = 1_437;

pub struct Trial {
    pub calls: TableCalls,
    pub tally: Tally,
}

/// How a lent buffer is filled beforehand.
type Fill = fn(usize) -> u8;

/// A call, the name of it, and what it is given.
struct Made<'a> {
    name: &'static str,
    call: fn(&[u8], &mut [u8]) -> u64,
    given: &'a [u8],
}

impl Made<'_> {
    /// Compares what it answers and leaves with what is wanted.
    fn compare(&self, room: usize, fill: Fill, want: Answer, written: Option<&[u8]>) -> Outcome {
        let expected = lent(room, fill, written.unwrap_or(&[]));
        let mut buffer = lent(room, fill, &[]);
        let got = (self.call)(self.given, inside(&mut buffer));
        if got == want.packed() && buffer == expected {
            return Ok(());
        }
        Err(format!(
            "{}, room {room}\n  given {}\n  as text {:?}\n  want {}\n  got  {}\n  buffer wanted {}\n  \
             buffer found  {}",
            self.name,
            hex_near(self.given, self.given.len()),
            String::from_utf8_lossy(self.given),
            show::answer(want),
            show::answer(Answer::unpacked(got)),
            hex_near(&expected, 0),
            hex_near(&buffer, 0),
        ))
    }
}

impl Trial {
    pub fn new(calls: TableCalls) -> Trial {
        Trial { calls, tally: Tally::default() }
    }

    /// Reads a text into a buffer that holds every record: the answer.
    pub fn read(&mut self, text: &[u8]) -> Result<Answer, String> {
        self.read_into(text, LONGEST_RECORD)
    }

    /// Reads a text into a buffer of so many bytes.
    pub fn read_into(&mut self, text: &[u8], room: usize) -> Result<Answer, String> {
        let (want, written) = reading(text).answer(room);
        self.reads(text).compare(room, byte, want, written.as_deref())?;
        self.tally.add(READ, want.code);
        match want.code {
            4 => self.tally.add(TOO_MANY, want.place),
            7 => {
                self.tally.add(CLASH, (want.place - 5) / 2);
                self.tally.add(PATTERNS[0], want.pattern);
            }
            _ => {}
        }
        Ok(want)
    }

    /// The same, and counts which other codes the text deserved.
    pub fn read_with_others(&mut self, text: &[u8], room: usize) -> Result<Answer, String> {
        let answer = self.read_into(text, room)?;
        let deserved = reading(text).deserved(room);
        if let Some((told, others)) = deserved.split_first() {
            let line = OVER.iter().find(|(code, _)| code == told);
            for other in others {
                line.iter().for_each(|(_, line)| self.tally.add(line, *other));
            }
        }
        Ok(answer)
    }

    fn reads<'a>(&self, given: &'a [u8]) -> Made<'a> {
        Made { name: READ, call: self.calls.read, given }
    }

    fn writes<'a>(&self, given: &'a [u8]) -> Made<'a> {
        Made { name: WRITE, call: self.calls.write, given }
    }

    /// Reads a text into buffers from empty to longer than is needed.
    pub fn read_into_all(&mut self, text: &[u8]) -> Outcome {
        let reading = reading(text);
        let length = reading.answer(usize::MAX).1.map_or(0, |record| record.len());
        let rooms = rooms(length);
        for (line, room, fill) in rooms.map(|(lines, room, fill)| (lines[0], room, fill)) {
            let (want, written) = reading.answer(room);
            self.reads(text).compare(room, fill, want, written.as_deref())?;
            self.tally.add(READ, want.code);
            self.tally.add(line, want.code);
        }
        Ok(())
    }

    /// Writes a record into a buffer that holds every table.
    pub fn write(&mut self, record: &[u8]) -> Outcome {
        self.write_into(record, LONGEST_TABLE)
    }

    /// Writes a record into a buffer of so many bytes.
    pub fn write_into(&mut self, record: &[u8], room: usize) -> Outcome {
        let (want, written) = write_table(record, room);
        self.writes(record).compare(room, byte, want, written.as_deref())?;
        self.tally.add(WRITE, want.code);
        if want.code == 7 {
            self.tally.add(PATTERNS[1], want.pattern);
        }
        Ok(())
    }

    /// A function whose lists meet: its table is read, and its record written.
    pub fn clash(&mut self, text: &[u8], f: &Function, clash: Clash) -> Outcome {
        for room in [0, LONGEST_RECORD] {
            self.read_into(text, room)?;
        }
        self.write(&record(f))?;
        others_of_clash(f, clash).for_each(|mistake| self.tally.add(OTHER_PATTERN, mistake));
        Ok(())
    }

    /// Writes a record into buffers from empty to longer than is needed.
    pub fn write_into_all(&mut self, record: &[u8]) -> Outcome {
        let length = write_table(record, usize::MAX).1.map_or(0, |text| text.len());
        let rooms = rooms(length);
        for (line, room, fill) in rooms.map(|(lines, room, fill)| (lines[1], room, fill)) {
            let (want, written) = write_table(record, room);
            self.writes(record).compare(room, fill, want, written.as_deref())?;
            self.tally.add(WRITE, want.code);
            self.tally.add(line, want.code);
        }
        Ok(())
    }

    /// Writing an accepted record and reading what was written gives its bytes, by the
    /// calls alone: the reference has no say.
    pub fn there_and_back(&mut self, record: &[u8]) -> Outcome {
        let mut text = vec![0xA5; LONGEST_TABLE];
        let answer = Answer::unpacked((self.calls.write)(record, &mut text));
        let mut back = vec![0xA5; LONGEST_RECORD];
        let length = (answer.place as usize).min(text.len());
        let read = Answer::unpacked((self.calls.read)(&text[..length], &mut back));
        if read != Answer::accepted(3, record.len()) || !back.starts_with(record) {
            return Err(format!(
                "there and back: {}\n  written {}\n  as {:?}\n  read {}\n  as {}",
                show::hex(record),
                show::answer(answer),
                String::from_utf8_lossy(&text[..length]),
                show::answer(read),
                show::hex(&back),
            ));
        }
        self.tally.add(BACK, record[2] as u64);
        Ok(())
    }
}

/// The lines of the tally, the length and the filling of buffers for so many bytes.
fn rooms(length: usize) -> [([&'static str; 2], usize, Fill); 6] {
    [
        (EMPTY, 0, byte),
        (ONE_SHORT, length.saturating_sub(1), other_byte),
        (EXACT, length, byte),
        (EXACT, length, other_byte),
        (LONGER, length + 1, byte),
        (LONGER, length + 300, other_byte),
    ]
}
