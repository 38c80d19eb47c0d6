//! Espresso tables: a text read into a record, and a record written as a text.
//!
//! Written from request W-201 and the readings of it, by splitting the text into lines
//! and a line into words. Each fault of a line has a test of its own, and the order of
//! the codes chooses among those that it has, so that a sweep can see which faults met.

use super::answer::{Answer, ALL_ELSE, OF_BUFFER, OF_F};
use super::pattern::{names, Clash, Cube, Function, INPUTS};
use super::record::{function, record, CUBES, MOST_CUBES};

/// Which of a line's faults is told.
const ORDER: [u64; 4] = [20, 21, 3, 22];
const ORDER_AT_THE_FIRST_TERM: [u64; 4] = [21, 20, 3, 22];

// ---- Lines and words ----

/// The lines of a text. LF alone ends one, and a final LF opens none.
pub fn lines(text: &[u8]) -> Vec<&[u8]> {
    let mut lines: Vec<&[u8]> = text.split(|&c| c == b'\n').collect();
    if lines.last().is_some_and(|last| last.is_empty()) {
        lines.pop();
    }
    lines
}

/// The words of a line without its comment: what stands between blanks.
pub fn words(line: &[u8]) -> Vec<&[u8]> {
    let is_blank = |c: &u8| [b' ', b'\t', b'\r'].contains(c);
    let kept = line.split(|&c| c == b'#').next().expect("its start");
    kept.split(is_blank).filter(|word| !word.is_empty()).collect()
}

#[derive(Clone, Copy, Debug, PartialEq, Eq)]
enum Keyword {
    I,
    O,
    Type,
    P,
    E,
}

/// Those that must stand before the first term, and before `.e`.
const NEEDED: [Keyword; 3] = [Keyword::I, Keyword::O, Keyword::Type];

enum Line<'a> {
    Empty,
    /// With the words after it.
    Known(Keyword, Vec<&'a [u8]>),
    Unknown,
    /// Everything else, garbage too.
    Term(Vec<&'a [u8]>),
}

impl Line<'_> {
    fn of(line: &[u8]) -> Line<'_> {
        let words = words(line);
        let Some(first) = words.first() else { return Line::Empty };
        if !first.starts_with(b".") {
            return Line::Term(words);
        }
        let rest = words[1..].to_vec();
        match *first {
            b".i" => Line::Known(Keyword::I, rest),
            b".o" => Line::Known(Keyword::O, rest),
            b".type" => Line::Known(Keyword::Type, rest),
            b".p" => Line::Known(Keyword::P, rest),
            b".e" => Line::Known(Keyword::E, rest),
            _ => Line::Unknown,
        }
    }
}

/// A number without its leading zeros: however long, it is compared as text.
fn digits(word: &[u8]) -> Option<String> {
    let text = std::str::from_utf8(word).ok()?;
    if text.is_empty() || !text.chars().all(|c| c.is_ascii_digit()) {
        return None;
    }
    let short = text.trim_start_matches('0');
    Some(if short.is_empty() { "0".to_string() } else { short.to_string() })
}

/// The n of an `.i`, if it is from 1 to 8.
fn inputs(digits: &str) -> Option<usize> {
    (1..=8).find(|n| n.to_string() == digits)
}

/// Where a term goes. `-` and `~` add nothing.
#[derive(Clone, Copy, Debug, PartialEq, Eq)]
enum Goes {
    On,
    Off,
    Nowhere,
}

/// A term of n inputs: their characters, input 0 first, and one for the output.
fn term(words: &[&[u8]], n: usize) -> Option<(Cube, Goes)> {
    let [inputs, output] = words else { return None };
    if inputs.len() != n {
        return None;
    }
    let mut cube = Cube::ALL;
    for (i, c) in inputs.iter().enumerate() {
        match c {
            b'1' => cube.p += 1 << i,
            b'0' => cube.n += 1 << i,
            b'-' => {}
            _ => return None,
        }
    }
    let goes = match *output {
        b"1" => Goes::On,
        b"0" => Goes::Off,
        b"-" | b"~" => Goes::Nowhere,
        _ => return None,
    };
    Some((cube, goes))
}

// ---- Reading ----

/// What the lines before have said.
#[derive(Clone, Debug, Default)]
struct Before {
    stood: Vec<Keyword>,
    n: Option<usize>,
    /// What `.p` says.
    said: Option<String>,
    terms: usize,
    on: Vec<Cube>,
    off: Vec<Cube>,
}

impl Before {
    fn missing(&self) -> bool {
        NEEDED.iter().any(|keyword| !self.stood.contains(keyword))
    }

    // The four tests of a line, each by itself.

    /// 20: it is malformed, or its keyword has stood before.
    fn malformed(&self, line: &Line) -> bool {
        match line {
            Line::Empty | Line::Unknown | Line::Known(Keyword::E, _) => false,
            Line::Known(keyword, values) => {
                let right = match (keyword, &values[..]) {
                    (Keyword::I | Keyword::P, [value]) => digits(value).is_some(),
                    (Keyword::O, [value]) => *value == b"1",
                    (Keyword::Type, [value]) => *value == b"fr",
                    _ => false,
                };
                !right || self.stood.contains(keyword)
            }
            // Before there is an n, what is a term for no n.
            Line::Term(words) => match self.n {
                Some(n) => term(words, n).is_none(),
                None => (1..=INPUTS).all(|n| term(words, n).is_none()),
            },
        }
    }

    /// 21: an unknown keyword, or one that is missing at a term or at `.e`.
    fn unknown_or_missing(&self, line: &Line) -> bool {
        match line {
            Line::Unknown => true,
            Line::Term(_) | Line::Known(Keyword::E, _) => self.missing(),
            _ => false,
        }
    }

    /// 3: an `.i` outside 1 to 8.
    fn outside(&self, line: &Line) -> bool {
        let Line::Known(Keyword::I, values) = line else { return false };
        let [value] = values[..] else { return false };
        digits(value).is_some_and(|digits| inputs(&digits).is_none())
    }

    /// 22: at `.e`, the number of terms is not what `.p` says.
    fn miscounted(&self, line: &Line) -> bool {
        let at_end = matches!(line, Line::Known(Keyword::E, _));
        at_end && self.said.as_ref().is_some_and(|said| *said != self.terms.to_string())
    }

    /// All codes that a line deserves, in the order in which they are told.
    fn faults(&self, line: &Line) -> Vec<u64> {
        let first_term = matches!(line, Line::Term(_)) && self.terms == 0;
        let order = if first_term { ORDER_AT_THE_FIRST_TERM } else { ORDER };
        let deserves = |code: &u64| match code {
            20 => self.malformed(line),
            21 => self.unknown_or_missing(line),
            3 => self.outside(line),
            _ => self.miscounted(line),
        };
        order.into_iter().filter(deserves).collect()
    }

    /// Takes in a line without a fault.
    fn take(&mut self, line: &Line) {
        match line {
            Line::Empty | Line::Unknown => {}
            Line::Known(keyword, values) => {
                self.stood.push(*keyword);
                let number = values.first().and_then(|value| digits(value));
                match keyword {
                    Keyword::I => self.n = number.and_then(|digits| inputs(&digits)),
                    Keyword::P => self.said = number,
                    _ => {}
                }
            }
            Line::Term(words) => {
                self.terms += 1;
                let n = self.n.expect("it stood before the first term");
                match term(words, n).expect("without a fault") {
                    (cube, Goes::On) => self.on.push(cube),
                    (cube, Goes::Off) => self.off.push(cube),
                    (_, Goes::Nowhere) => {}
                }
            }
        }
    }
}

/// A text read as far as it has no fault.
#[derive(Clone, Debug)]
pub struct Reading {
    before: Before,
    /// The line at fault, from 1, and the codes that it deserves, the one told first.
    fault: Option<(usize, Vec<u64>)>,
}

/// Goes through the lines up to the first that has a fault, or to `.e`.
pub fn reading(text: &[u8]) -> Reading {
    let mut before = Before::default();
    let lines = lines(text);
    for (at, line) in lines.iter().enumerate() {
        let line = Line::of(line);
        let faults = before.faults(&line);
        if !faults.is_empty() {
            return Reading { before, fault: Some((at + 1, faults)) };
        }
        before.take(&line);
        if matches!(line, Line::Known(Keyword::E, _)) {
            return Reading { before, fault: None };
        }
    }
    Reading { before, fault: Some((lines.len() + 1, vec![21])) }
}

impl Reading {
    /// The function of the terms so far.
    pub fn function(&self) -> Function {
        let Before { n, on, off, .. } = self.before.clone();
        Function { n: n.unwrap_or(0), on, off }
    }

    // What follows the lines, each by itself again: a code, its record and its place.

    /// 4: a list of more than 64 cubes, the on list at 3, the off list at 4.
    fn too_many(&self) -> Vec<Answer> {
        let lists = [(3, &self.before.on), (4, &self.before.off)];
        let long = lists.iter().filter(|(_, list)| list.len() > MOST_CUBES);
        long.map(|(place, _)| Answer::refused(4, OF_F, *place)).collect()
    }

    /// 7: an on cube and an off cube share a pattern, at the first such on cube.
    fn clash(&self) -> Option<Answer> {
        let Clash { at, pattern } = self.function().first_clash()?;
        Some(Answer::refused(7, OF_F, CUBES + 2 * at).naming(pattern))
    }

    /// 18: the record is longer than the buffer.
    fn too_long(&self, room: usize) -> Option<Answer> {
        let length = CUBES + 2 * (self.before.on.len() + self.before.off.len());
        (length > room).then_some(Answer::refused(18, OF_BUFFER, length))
    }

    /// The answer, and the record if it is written. `room` is the buffer's length.
    pub fn answer(&self, room: usize) -> (Answer, Option<Vec<u8>>) {
        if let Some((line, codes)) = &self.fault {
            return (Answer::refused(codes[0], OF_F, *line), None);
        }
        let later = self.too_many().into_iter().next();
        let later = later.or_else(|| self.clash()).or_else(|| self.too_long(room));
        if let Some(answer) = later {
            return (answer, None);
        }
        let bytes = record(&self.function());
        (Answer::accepted(ALL_ELSE, bytes.len()), Some(bytes))
    }

    /// All codes that the text deserves, the one told first: those of its first faulty
    /// line, and those that the terms before it would give.
    pub fn deserved(&self, room: usize) -> Vec<u64> {
        let of_line = self.fault.iter().flat_map(|(_, codes)| codes.clone());
        let later = self.too_many().into_iter().chain(self.clash()).chain(self.too_long(room));
        of_line.chain(later.map(|answer| answer.code)).collect()
    }
}

/// Reads a table: the answer, and the record if it is written.
pub fn read_table(text: &[u8], room: usize) -> (Answer, Option<Vec<u8>>) {
    reading(text).answer(room)
}

// ---- Writing ----

/// Writes a record as a table: the answer, and the text if it is written.
pub fn write_table(bytes: &[u8], room: usize) -> (Answer, Option<Vec<u8>>) {
    let f = match function(bytes, OF_F) {
        Ok(f) => f,
        Err(answer) => return (answer, None),
    };
    let text = table(&f).into_bytes();
    if text.len() > room {
        return (Answer::refused(18, OF_BUFFER, text.len()), None);
    }
    (Answer::accepted(ALL_ELSE, text.len()), Some(text))
}

/// The table of a function.
pub fn table(f: &Function) -> String {
    let header = [
        format!(".i {}", f.n),
        ".o 1".to_string(),
        ".type fr".to_string(),
        format!(".p {}", f.on.len() + f.off.len()),
    ];
    let on = f.on.iter().map(|&cube| format!("{} 1", inputs_of(cube, f.n)));
    let off = f.off.iter().map(|&cube| format!("{} 0", inputs_of(cube, f.n)));
    let lines = header.into_iter().chain(on).chain(off).chain([".e".to_string()]);
    lines.map(|line| line + "\n").collect()
}

/// A cube's inputs as a term has them, input 0 first.
pub fn inputs_of(cube: Cube, n: usize) -> String {
    let sign = |input| match (names(cube.p, input), names(cube.n, input)) {
        (true, _) => '1',
        (_, true) => '0',
        _ => '-',
    };
    (0..n).map(sign).collect()
}

#[cfg(test)]
mod tests {
    use super::*;
    use crate::cases::NAMED;
    use crate::random::{any_function, Random};
    use crate::tables::cases::{TABLES, TABLES_OF_NAMED};

    #[test]
    fn the_tables_that_the_readings_name() {
        for case in TABLES {
            let (answer, written) = read_table(&case.text(), 261);
            assert_eq!(answer, case.answer(), "{}", case.name);
            assert_eq!(written.as_deref(), case.record, "{}", case.name);
        }
    }

    #[test]
    fn the_named_functions_as_tables() {
        for (record, text) in NAMED.iter().zip(TABLES_OF_NAMED) {
            let accepted = Answer::accepted(3, text.len());
            assert_eq!(write_table(record, 100), (accepted, Some(text.as_bytes().to_vec())));
            assert_eq!(read_table(text.as_bytes(), 261).1.as_deref(), Some(*record));
        }
    }

    #[test]
    fn a_table_is_read_back_as_its_record() {
        let mut random = Random::new(8);
        for _ in 0..300 {
            let bytes = record(&any_function(&mut random));
            let (_, text) = write_table(&bytes, 2_000);
            let (answer, read) = read_table(&text.expect("written"), 261);
            assert_eq!((answer.code, read), (0, Some(bytes)));
        }
    }

    #[test]
    fn lines_and_words() {
        let count = |text: &[u8]| lines(text).len();
        assert_eq!(
            [b"" as &[u8], b"\n", b"a", b"a\n", b"a\n\n", b"\r"].map(count),
            [0, 1, 1, 1, 2, 1]
        );
        let none: [&[u8]; 0] = [];
        assert_eq!(words(b" \t\r# a"), none);
        assert_eq!(words(b"\t.i#2"), [b".i"]);
        assert_eq!(words(b"0 1\r 1\t"), [b"0", b"1", b"1"]);
        assert_eq!(words(b"\x0B\x0C"), [b"\x0B\x0C"]);
    }

    #[test]
    fn numbers_of_any_length() {
        assert_eq!(digits(b"000").as_deref(), Some("0"));
        assert_eq!(digits(b"0010").as_deref(), Some("10"));
        let zeros = [&[b'0'; 1_000][..], b"8"].concat();
        assert_eq!(digits(&zeros).and_then(|digits| inputs(&digits)), Some(8));
        assert_eq!(digits(&[b'9'; 1_000]).and_then(|digits| inputs(&digits)), None);
        for word in [&b"+1"[..], b"-1", b"1.", b"0x1", b"", b"\xD9\xA1"] {
            assert_eq!(digits(word), None, "{word:?}");
        }
    }

    #[test]
    fn faults_that_meet() {
        let deserved = |text: &str| reading(text.as_bytes()).deserved(261);
        assert_eq!(deserved(".i 2\n.i 9"), [20, 3]);
        assert_eq!(deserved(".p 1\n.e"), [21, 22]);
        assert_eq!(deserved("x"), [21, 20]);
        assert_eq!(deserved("01 1"), [21]);
        assert_eq!(deserved(".i 3\n01 1"), [21, 20]);
        let full = format!(".i 1\n.o 1\n.type fr\n.p 2\n{}- 0\n.e", "- 1\n".repeat(65));
        assert_eq!(deserved(&full), [22, 4, 7]);
    }
}
