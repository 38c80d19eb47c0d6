//! Espresso tables: a text read into a record, and a record written as a text.

use std::mem;

use super::answer::{room, Answer, Refusal, F, OTHER};
use super::function::{self, Cube, Cubes, Function, CUBES, LONGEST_LIST};

/// The record is written at the start of `out`, if it has the room.
pub fn read(text: &[u8], out: &mut [u8]) -> Answer {
    let mut table = Table::new();
    answer(table.read(text).and_then(|()| table.put(out)))
}

/// The text is written at the start of `out`, if it has the room.
pub fn write(record: &[u8], out: &mut [u8]) -> Answer {
    answer(function::read(record, F).and_then(|f| put(&f, out)))
}

/// From the length of what is written.
fn answer(written: Result<usize, Refusal>) -> Answer {
    match written {
        Ok(place) => Answer::Accepted { kind: OTHER, place },
        Err(refusal) => Answer::Refused(refusal),
    }
}

// ---- Reading ----

/// The text from some place on.
struct Text<'a> {
    rest: &'a [u8],
}

impl Text<'_> {
    /// Goes over blanks: the byte after them.
    fn first(&mut self) -> Option<u8> {
        while let [b' ' | b'\t' | b'\r', rest @ ..] = self.rest {
            self.rest = rest;
        }
        self.rest.first().copied()
    }

    /// Goes over blanks: whether the line has nothing else left, but for a comment.
    fn ended(&mut self) -> bool {
        matches!(self.first(), None | Some(b'#' | b'\n'))
    }

    /// Goes over a word, if it comes next.
    fn takes(&mut self, word: &[u8]) -> bool {
        match self.rest.strip_prefix(word) {
            Some(rest @ ([] | [b' ' | b'\t' | b'\r' | b'#' | b'\n', ..])) => {
                self.rest = rest;
                true
            }
            _ => false,
        }
    }

    /// The line must end with a word.
    fn last(&mut self, word: &[u8]) -> Result<(), u8> {
        self.first();
        if self.takes(word) && self.ended() {
            Ok(())
        } else {
            Err(20)
        }
    }

    /// The line must end with a number.
    fn number(&mut self) -> Result<u64, u8> {
        let Some(b'0'..=b'9') = self.first() else { return Err(20) };
        let mut number: u64 = 0;
        while let [digit @ b'0'..=b'9', rest @ ..] = self.rest {
            // One too large stays too large for any use.
            number = number.saturating_mul(10).saturating_add(u64::from(digit - b'0'));
            self.rest = rest;
        }
        if self.ended() {
            Ok(number)
        } else {
            Err(20)
        }
    }

    /// On to the next line.
    fn skip(&mut self) {
        // Most lines that are not comments are at their end.
        if let [b'\n', rest @ ..] = self.rest {
            self.rest = rest;
            return;
        }
        // Eight bytes at once: LF becomes zero, and where 1 is taken from every byte, the
        // first zero is the first whose top bit is then set and was not before.
        const ONES: u64 = 0x0101_0101_0101_0101;
        while let Some((eight, rest)) = self.rest.split_first_chunk() {
            let bytes = u64::from_le_bytes(*eight) ^ (ONES * u64::from(b'\n'));
            let zeros = bytes.wrapping_sub(ONES) & !bytes & (ONES << 7);
            if zeros != 0 {
                self.rest = &self.rest[zeros.trailing_zeros() as usize / 8 + 1..];
                return;
            }
            self.rest = rest;
        }
        let end = self.rest.iter().position(|&byte| byte == b'\n');
        self.rest = end.map_or(&[], |end| &self.rest[end + 1..]);
    }
}

/// What the lines so far say.
struct Table {
    n: Option<u8>,
    output: bool,
    fr: bool,
    /// What `.p` says.
    said: Option<u64>,
    terms: u64,
    /// Off, then on: by the output.
    lists: [List; 2],
}

/// Cubes as they stand in a record; those beyond the longest list are only counted.
struct List {
    length: usize,
    cubes: [[u8; 2]; LONGEST_LIST],
}

impl List {
    fn new() -> List {
        List { length: 0, cubes: [[0; 2]; LONGEST_LIST] }
    }

    fn push(&mut self, cube: Cube) {
        if let Some(next) = self.cubes.get_mut(self.length) {
            *next = [cube.p, cube.n];
        }
        self.length += 1;
    }

    /// All of them, if they are not too many; else the place of their number is told.
    fn cubes(&self, place: usize) -> Result<Cubes<'_>, Refusal> {
        let cubes = self.cubes.get(..self.length).ok_or(Refusal::new(4, F, place))?;
        Ok(Cubes(cubes))
    }
}

/// The literal that a character stands for, on input 0. One look-up takes the place of
/// branches: what the next character is cannot be foreseen.
static LITERALS: [Option<Cube>; 256] = {
    let mut literals = [None; 256];
    literals[b'0' as usize] = Some(Cube { p: 0, n: 1 });
    literals[b'1' as usize] = Some(Cube { p: 1, n: 0 });
    literals[b'-' as usize] = Some(Cube { p: 0, n: 0 });
    literals
};

impl Table {
    fn new() -> Table {
        let lists = [List::new(), List::new()];
        Table { n: None, output: false, fr: false, said: None, terms: 0, lists }
    }

    /// Reads the lines up to `.e`.
    fn read(&mut self, text: &[u8]) -> Result<(), Refusal> {
        let mut text = Text { rest: text };
        let mut line = 1;
        while !text.rest.is_empty() {
            let ended = match text.first() {
                None | Some(b'#' | b'\n') => Ok(false),
                Some(b'.') => self.keyword(&mut text),
                Some(_) => self.term(&mut text).map(|()| false),
            };
            match ended {
                Ok(true) => return Ok(()),
                Ok(false) => text.skip(),
                Err(code) => return Err(Refusal::new(code, F, line)),
            }
            line += 1;
        }
        Err(Refusal::new(21, F, line))
    }

    /// n, if the keywords are complete.
    fn inputs(&self) -> Result<u8, u8> {
        self.n.filter(|_| self.output && self.fr).ok_or(21)
    }

    /// A line with a keyword: whether that is `.e`.
    fn keyword(&mut self, text: &mut Text) -> Result<bool, u8> {
        let repeated = if text.takes(b".i") {
            let n = text.number()?;
            if self.n.is_none() && !(1..=8).contains(&n) {
                return Err(3);
            }
            self.n.replace(n as u8).is_some()
        } else if text.takes(b".o") {
            text.last(b"1")?;
            mem::replace(&mut self.output, true)
        } else if text.takes(b".type") {
            text.last(b"fr")?;
            mem::replace(&mut self.fr, true)
        } else if text.takes(b".p") {
            let said = text.number()?;
            self.said.replace(said).is_some()
        } else if text.takes(b".e") {
            self.inputs()?;
            if self.said.is_some_and(|said| said != self.terms) {
                return Err(22);
            }
            return Ok(true);
        } else {
            return Err(21);
        };
        if repeated {
            Err(20)
        } else {
            Ok(false)
        }
    }

    fn term(&mut self, text: &mut Text) -> Result<(), u8> {
        let n = self.inputs()?;
        let (inputs, rest) = text.rest.split_at_checked(n.into()).ok_or(20)?;
        let [b' ' | b'\t' | b'\r', rest @ ..] = rest else { return Err(20) };
        let mut cube = Cube { p: 0, n: 0 };
        for &input in inputs.iter().rev() {
            let literal = LITERALS[usize::from(input)].ok_or(20)?;
            cube = Cube { p: cube.p << 1 | literal.p, n: cube.n << 1 | literal.n };
        }
        text.rest = rest;
        let output = text.first().ok_or(20)?;
        text.rest = &text.rest[1..];
        if !text.ended() {
            return Err(20);
        }
        match output {
            b'0' | b'1' => self.lists[usize::from(output & 1)].push(cube),
            b'-' | b'~' => {}
            _ => return Err(20),
        }
        self.terms += 1;
        Ok(())
    }

    /// Writes the record: its length.
    fn put(&self, out: &mut [u8]) -> Result<usize, Refusal> {
        let [off, on] = &self.lists;
        let (on, off) = (on.cubes(3)?, off.cubes(4)?);
        if let Some((index, pattern)) = on.first_shared(off) {
            return Err(Refusal { pattern, ..Refusal::new(7, F, CUBES + 2 * index) });
        }
        let n = self.n.unwrap_or_default();
        let head = [0x46, 0x4E, n, on.len() as u8, off.len() as u8];
        let [on, off] = [on, off].map(Cubes::bytes);
        let length = CUBES + on.len() + off.len();
        let (start, rest) = room(out, length)?.split_at_mut(CUBES);
        start.copy_from_slice(&head);
        let (first, second) = rest.split_at_mut(on.len());
        first.copy_from_slice(on);
        second.copy_from_slice(off);
        Ok(length)
    }
}

// ---- Writing ----

/// Writes the text: its length.
fn put(f: &Function, out: &mut [u8]) -> Result<usize, Refusal> {
    let mut head = *b".i 0\n.o 1\n.type fr\n.p ";
    head[3] += f.n;
    let end = *b".e\n";
    let terms = f.on.len() + f.off.len();
    let digits = 1 + usize::from(terms >= 10) + usize::from(terms >= 100);
    let length = head.len() + digits + 1 + terms * (usize::from(f.n) + 3) + end.len();

    let mut out = Out { rest: room(out, length)? };
    out.put(head);
    for unit in [100, 10].into_iter().filter(|&unit| terms >= unit) {
        out.put([b'0' + (terms / unit % 10) as u8]);
    }
    out.put([b'0' + (terms % 10) as u8, b'\n']);
    out.terms(f.n, f.on, b'1');
    out.terms(f.n, f.off, b'0');
    out.put(end);
    Ok(length)
}

/// What is left to be written.
struct Out<'a> {
    rest: &'a mut [u8],
}

impl Out<'_> {
    fn put<const LENGTH: usize>(&mut self, bytes: [u8; LENGTH]) {
        let (start, rest) = mem::take(&mut self.rest).split_at_mut(LENGTH);
        start.copy_from_slice(&bytes);
        self.rest = rest;
    }

    fn terms(&mut self, inputs: u8, cubes: Cubes, output: u8) {
        for Cube { mut p, mut n } in cubes.iter() {
            let (start, rest) = mem::take(&mut self.rest).split_at_mut(inputs.into());
            for input in start {
                *input = b"-10-"[usize::from(p & 1 | (n & 1) << 1)];
                (p, n) = (p >> 1, n >> 1);
            }
            self.rest = rest;
            self.put([b' ', output, b'\n']);
        }
    }
}
