//! A refused table in words: what is wrong at the line that the archive names.
//!
//! Code and place are the archive's. Here the lines are looked at again for their words
//! alone; where nothing is found to say, the words are those of the code.

use std::ops::Range;

use zap_calls::{Answer, LONGEST_RECORD};

use crate::function::{self, Cube};
use crate::output::{Colour, Out};
use crate::words::{self, count, nearest, number};

/// A table that the archive has refused.
#[derive(Debug)]
pub struct Refused {
    pub answer: Answer,
    text: Vec<u8>,
    /// Why it is no hex either, where it does not begin as a table does.
    pub no_hex: Option<String>,
}

/// The record of a table, or its refusal.
pub fn read(text: Vec<u8>, no_hex: Option<String>) -> Result<Vec<u8>, Refused> {
    let mut record = vec![0; LONGEST_RECORD];
    let answer = Answer::of(zap_calls::read_table(&text, &mut record));
    if answer.code != 0 {
        return Err(Refused { answer, text, no_hex });
    }
    record.truncate(answer.place as usize);
    Ok(record)
}

/// Whether a text begins as a table does: after empty lines, with a dot and a letter.
pub fn begins(text: &[u8]) -> bool {
    let first = text.split(|&c| c == b'\n').find_map(|line| words_of(line).next());
    let is_keyword =
        |word: Word| matches!(word.text, [b'.', letter, ..] if letter.is_ascii_alphabetic());
    first.is_some_and(is_keyword)
}

impl Refused {
    /// What is wrong, in words, and the lines that show it.
    pub fn fault(&self) -> Fault {
        let lines: Vec<Line> = lines(&self.text);
        let place = self.answer.place as usize;
        match self.answer.code {
            20 | 21 | 3 | 22 => of_line(&lines, self.answer),
            4 => too_many(&lines, place),
            7 => clash(&lines, self.answer),
            code => Fault { words: words::of_code(code).to_string(), shown: vec![] },
        }
    }

    /// 7: the numbers of the two cubes in the record that it would give.
    pub fn clash(&self) -> Option<[usize; 2]> {
        Before::of(&lines(&self.text)).clash(self.answer)
    }

    /// `3 inputs expected, 2 found (code 20), at line 7`.
    pub fn sentence(&self) -> String {
        let Answer { code, place, .. } = self.answer;
        let at = match code {
            // Their places are in the record, of which there is none.
            4 | 7 => String::new(),
            _ => format!(", at line {}", number(place as usize)),
        };
        let no_hex = match &self.no_hex {
            Some(why) => format!("; it is no hex either: {why}"),
            None => String::new(),
        };
        format!("{} (code {code}){at}{no_hex}", self.fault().words)
    }

    /// The lines, with marks below what is at fault.
    pub fn show(&self, out: &mut Out) {
        let lines = lines(&self.text);
        for Shown { number, mark } in self.fault().shown {
            if let Some(line) = lines.get(number - 1) {
                show_line(out, line, mark);
            }
        }
    }
}

#[derive(Debug, PartialEq)]
pub struct Fault {
    pub words: String,
    pub shown: Vec<Shown>,
}

/// A line by its number from 1, and the bytes of it that are marked.
#[derive(Debug, PartialEq)]
pub struct Shown {
    pub number: usize,
    mark: Option<Range<usize>>,
}

impl Fault {
    fn at(number: usize, words: impl Into<String>, mark: Option<Range<usize>>) -> Fault {
        Fault { words: words.into(), shown: vec![Shown { number, mark }] }
    }
}

// ---- Lines and words ----

#[derive(Clone, Copy)]
struct Line<'a> {
    number: usize,
    bytes: &'a [u8],
}

impl<'a> Line<'a> {
    /// Its first words: more are never asked for, and a text that is no table may have
    /// millions.
    fn words(&self) -> Vec<Word<'a>> {
        words_of(self.bytes).take(12).collect()
    }
}

/// A word of a line, and where it starts.
#[derive(Clone, Copy)]
struct Word<'a> {
    start: usize,
    text: &'a [u8],
}

impl Word<'_> {
    fn range(self) -> Range<usize> {
        self.start..self.start + self.text.len()
    }

    fn shown(self) -> String {
        format!("`{}`", cut(self.text))
    }
}

fn lines(text: &[u8]) -> Vec<Line<'_>> {
    let mut parts: Vec<&[u8]> = text.split(|&c| c == b'\n').collect();
    // A final LF opens no line.
    if parts.last().is_some_and(|last| last.is_empty()) {
        parts.pop();
    }
    let line = |(at, bytes)| Line { number: at + 1, bytes };
    parts.into_iter().enumerate().map(line).collect()
}

/// What stands between blanks, before a comment.
fn words_of(line: &[u8]) -> impl Iterator<Item = Word<'_>> {
    let end = line.iter().position(|&c| c == b'#').unwrap_or(line.len());
    let mut next = 0;
    let parts = line[..end].split(|c| matches!(c, b' ' | b'\t' | b'\r')).map(move |text| {
        let start = next;
        next += text.len() + 1;
        Word { start, text }
    });
    parts.filter(|word| !word.text.is_empty())
}

/// Those that a table must have come first.
const KEYWORDS: [&str; 5] = [".i", ".o", ".type", ".p", ".e"];
const NEEDED: usize = 3;

fn keyword(word: &[u8]) -> Option<&'static str> {
    KEYWORDS.into_iter().find(|known| known.as_bytes() == word)
}

/// What the lines before one have said.
#[derive(Default)]
struct Before<'a> {
    /// The keywords, and their lines.
    stood: Vec<(&'static str, usize)>,
    n: usize,
    /// What `.p` says.
    said: &'a [u8],
    terms: Vec<Term>,
}

struct Term {
    number: usize,
    cube: Cube,
    output: u8,
}

impl<'a> Before<'a> {
    /// Lines that the archive found no fault with; `.e` ends them.
    fn of(lines: &[Line<'a>]) -> Before<'a> {
        let mut before = Before::default();
        for line in lines {
            let mut words = words_of(line.bytes);
            let Some(first) = words.next() else { continue };
            let value = words.next().map_or(&b""[..], |word| word.text);
            match keyword(first.text) {
                Some(".e") => break,
                Some(known) => before.keyword(known, line.number, value),
                None => {
                    let output = value.first().copied().unwrap_or(b'-');
                    let cube = cube(first.text);
                    before.terms.push(Term { number: line.number, cube, output });
                }
            }
        }
        before
    }

    fn keyword(&mut self, known: &'static str, line: usize, value: &'a [u8]) {
        self.stood.push((known, line));
        match known {
            ".i" => {
                let digits = String::from_utf8_lossy(value);
                self.n = digits.trim_start_matches('0').parse().unwrap_or(0);
            }
            ".p" => self.said = value,
            _ => {}
        }
    }

    fn line_of(&self, keyword: &str) -> Option<usize> {
        self.stood.iter().find(|(known, _)| *known == keyword).map(|(_, line)| *line)
    }

    /// `.i` and `.type` missing: what a table must have and this one has not.
    fn missing(&self) -> String {
        let missing = KEYWORDS[..NEEDED].iter().filter(|known| self.line_of(known).is_none());
        let missing: Vec<String> = missing.map(|known| format!("`{known}`")).collect();
        match &missing[..] {
            [] => "a keyword missing".to_string(),
            [one] => format!("{one} missing"),
            [all @ .., last] => format!("{} and {last} missing", all.join(", ")),
        }
    }

    fn with_output(&self, output: u8) -> impl Iterator<Item = &Term> {
        self.terms.iter().filter(move |term| term.output == output)
    }

    fn clash(&self, answer: Answer) -> Option<[usize; 2]> {
        let cubes = |output| self.with_output(output).map(|term| term.cube).collect::<Vec<Cube>>();
        function::clash(answer, &cubes(b'1'), &cubes(b'0'))
    }
}

/// A term's inputs as a cube, input 0 first.
fn cube(inputs: &[u8]) -> Cube {
    let mask = |sign: u8| {
        let signs = inputs.iter().take(8).enumerate();
        signs.filter(|(_, c)| **c == sign).map(|(i, _)| 1 << i).sum()
    };
    Cube { pos: mask(b'1'), neg: mask(b'0') }
}

// ---- What is wrong ----

/// 20, 21, 3 and 22: the place is a line's number.
fn of_line(lines: &[Line], answer: Answer) -> Fault {
    let place = answer.place as usize;
    let at = place.saturating_sub(1).min(lines.len());
    let before = Before::of(&lines[..at]);
    let Some(line) = lines.get(at) else { return no_end(lines.len()) };
    let words = line.words();
    let fault = |what: String, mark: Option<Range<usize>>| Fault::at(place, what, mark);
    let known = words.first().and_then(|first| keyword(first.text));
    match (answer.code, known, &words[..]) {
        (20, Some(known), [first, values @ ..]) => {
            let (what, mark) = keyword_fault(known, *first, values, &before);
            fault(what, Some(mark))
        }
        (20, None, [_, ..]) => {
            let (what, mark) = malformed(line, before.n);
            fault(what, Some(mark))
        }
        (21, Some(_), [first, ..]) => {
            fault(format!("{} before `.e`", before.missing()), Some(first.range()))
        }
        (21, None, [first, ..]) if first.text.starts_with(b".") => {
            fault(unknown(*first), Some(first.range()))
        }
        (21, None, [first, ..]) => {
            let what = format!("{} before the first term", before.missing());
            fault(what, Some(first.range()))
        }
        (3, _, [_, value, ..]) => {
            fault(format!("`.i {}` is not 1 to 8", cut(value.text)), Some(value.range()))
        }
        (22, _, _) => {
            let found = count(before.terms.len(), "term");
            let words = format!("`.p` says {}, {found} found", cut(before.said));
            let of_p = before.line_of(".p").map(unmarked);
            Fault { words, shown: of_p.into_iter().chain([unmarked(place)]).collect() }
        }
        _ => fault(words::of_code(answer.code).to_string(), None),
    }
}

/// 21 at the line after the last.
fn no_end(last: usize) -> Fault {
    match last {
        0 => Fault { words: "`.e` missing: the text has no line".to_string(), shown: vec![] },
        last => {
            let words = format!("`.e` missing: the text ends after line {}", number(last));
            Fault { words, shown: vec![unmarked(last)] }
        }
    }
}

fn unmarked(number: usize) -> Shown {
    Shown { number, mark: None }
}

/// What is wrong with a known keyword or its value, and where.
fn keyword_fault(
    known: &str,
    first: Word,
    values: &[Word],
    before: &Before,
) -> (String, Range<usize>) {
    if let Some(line) = before.line_of(known) {
        return (format!("`{known}` is repeated: it stands at line {line} already"), first.range());
    }
    let wants = match known {
        ".o" => "must be 1",
        ".type" => "must be fr",
        _ => "needs a number",
    };
    match values {
        [] => (format!("`{known}` {wants}; there is nothing after it"), first.range()),
        [value] => (format!("`{known}` {wants}, and not {}", value.shown()), value.range()),
        [_, more, ..] => {
            (format!("`{known}` takes one value, and {} is one more", more.shown()), more.range())
        }
    }
}

/// What is wrong with a term of n inputs, and where.
fn malformed(line: &Line, n: usize) -> (String, Range<usize>) {
    let words = line.words();
    let first = words[0];
    let is_input = |c: &u8| matches!(c, b'0' | b'1' | b'-');
    let is_output = |word: &Word| matches!(word.text, b"0" | b"1" | b"-" | b"~");
    // Signs that would do, but for a blank too few or too many.
    let joined = first.text.len() == n + 1 && first.text[..n].iter().all(is_input);
    if words.len() == 1 && joined && is_output(&Word { start: 0, text: &first.text[n..] }) {
        let end = first.start + n;
        return ("no blank between the inputs and the output".to_string(), end..end + 1);
    }
    if let [inputs @ .., output] = &words[..] {
        let all: Vec<u8> = inputs.iter().flat_map(|word| word.text).copied().collect();
        if inputs.len() > 1 && all.len() == n && all.iter().all(is_input) && is_output(output) {
            let end = first.range().end;
            return ("a blank inside the inputs".to_string(), end..end + 1);
        }
    }
    if let Some(at) = first.text.iter().position(|c| !is_input(c)) {
        let at = first.start + at;
        let column = 1 + characters(&line.bytes[..at]);
        let sign = cells(&line.bytes[at..(at + 4).min(line.bytes.len())], at).remove(0);
        let what =
            format!("'{}' among the inputs, at column {column}, is not 0, 1 or -", sign.text);
        return (what, sign.range);
    }
    if first.text.len() != n {
        let found = number(first.text.len());
        return (format!("{} expected, {found} found", count(n, "input")), first.range());
    }
    match &words[1..] {
        [] => {
            let end = first.range().end;
            ("the output is missing".to_string(), end + 1..end + 2)
        }
        [output, more, ..] if is_output(output) => {
            (format!("more after the output: {}", more.shown()), more.range())
        }
        [output, ..] => {
            (format!("the output {} is not one of 0, 1, - and ~", output.shown()), output.range())
        }
    }
}

/// An unknown keyword, and what may have been meant.
fn unknown(word: Word) -> String {
    let text = String::from_utf8_lossy(word.text);
    // `.i2`: the blank is missing.
    let joined = KEYWORDS.iter().find_map(|known| {
        let value = text.strip_prefix(known)?;
        let fits = match *known {
            ".i" | ".p" => !value.is_empty() && value.bytes().all(|c| c.is_ascii_digit()),
            ".o" => value == "1",
            ".type" => value == "fr",
            _ => false,
        };
        fits.then(|| format!("{known} {}", cut(value.as_bytes())))
    });
    // One letter is near to any other: only capitals tell which was meant.
    let near = || match text.to_ascii_lowercase().as_str() {
        ".end" => Some(".e".to_string()),
        small => match keyword(small.as_bytes()) {
            Some(known) => Some(known.to_string()),
            None => nearest(small, [".type"].into_iter()).map(str::to_string),
        },
    };
    let hint = match joined.or_else(near) {
        Some(meant) => format!("did you mean `{meant}`?"),
        None => "those known are .i, .o, .type, .p and .e".to_string(),
    };
    format!("unknown keyword {}; {hint}", word.shown())
}

/// 4: by its place, the list that is too long.
fn too_many(lines: &[Line], place: usize) -> Fault {
    let output = if place == 3 { '1' } else { '0' };
    let before = Before::of(lines);
    let numbers: Vec<usize> = before.with_output(output as u8).map(|term| term.number).collect();
    let words = format!(
        "more than 64 terms with output {output}: {} found (a record has room for 64)",
        number(numbers.len())
    );
    Fault { words, shown: numbers.get(64).map(|&number| unmarked(number)).into_iter().collect() }
}

/// 7: the lines of the two cubes, and the pattern that they share.
fn clash(lines: &[Line], answer: Answer) -> Fault {
    let before = Before::of(lines);
    let line = |output, at| before.with_output(output).nth(at).map(|term| term.number);
    let lines = before.clash(answer).and_then(|[u, v]| Some([line(b'1', u)?, line(b'0', v)?]));
    let Some(mut shown) = lines else {
        return Fault { words: words::of_code(7).to_string(), shown: vec![] };
    };
    let [on, off] = shown.map(number);
    let share = function::share(answer, before.n);
    let words = format!("the terms at line {on} (on) and line {off} (off) {share}");
    shown.sort();
    Fault { words, shown: shown.map(unmarked).into() }
}

// ---- Shown ----

/// What is shown for one character of a line, and the bytes that it stands for.
struct Cell {
    text: String,
    range: Range<usize>,
}

/// The characters of a part of a line that starts at a place. What no terminal should
/// be sent is escaped.
fn cells(part: &[u8], start: usize) -> Vec<Cell> {
    let mut cells: Vec<Cell> = vec![];
    let mut at = start;
    let mut add = |text: String, length: usize| {
        cells.push(Cell { text, range: at..at + length });
        at += length;
    };
    for chunk in part.utf8_chunks() {
        for c in chunk.valid().chars() {
            let text = match c {
                '\t' => " ".to_string(),
                c if c.is_ascii_control() => format!("\\x{:02X}", c as u32),
                c if c.is_control() => format!("\\u{{{:X}}}", c as u32),
                c => c.to_string(),
            };
            add(text, c.len_utf8());
        }
        chunk.invalid().iter().for_each(|byte| add(format!("\\x{byte:02X}"), 1));
    }
    cells
}

/// How many cells they would be.
fn characters(part: &[u8]) -> usize {
    part.utf8_chunks().map(|chunk| chunk.valid().chars().count() + chunk.invalid().len()).sum()
}

/// A word that is named, and need not be whole.
fn cut(word: &[u8]) -> String {
    const MOST: usize = 24;
    let cells = cells(&word[..word.len().min(4 * MOST + 4)], 0);
    let more = if cells.len() > MOST { ".." } else { "" };
    cells.into_iter().take(MOST).map(|cell| cell.text).chain([more.to_string()]).collect()
}

/// A line is shown up to so many characters, and with so many before what is marked.
const MOST: usize = 120;
const NEAR: usize = 60;

/// `7 | 01 1`, and marks below. A long line is cut, but not at what is marked.
fn show_line(out: &mut Out, line: &Line, mark: Option<Range<usize>>) {
    // Blanks at the end, and the CR of another system, say nothing.
    let bytes = line.bytes.trim_ascii_end();
    let marked = mark.unwrap_or(0..0);
    let start = match marked.start {
        at if at < MOST => 0,
        // A character is not cut in two.
        at => (at.min(bytes.len()).saturating_sub(NEAR)..)
            .find(|&at| !is_inside(bytes, at))
            .unwrap_or(0),
    };
    let cells = cells(&bytes[start..bytes.len().min(start + 5 * MOST)], start);
    let mut wide = 0;
    let fits = |cell: &&Cell| {
        wide += cell.text.chars().count();
        wide <= MOST
    };
    let end = cells.iter().take_while(fits).count();
    let cut_off = cells[..end].last().is_some_and(|cell| cell.range.end < bytes.len());
    let after = if cut_off { ".." } else { "" };
    let before = if start > 0 { ".." } else { "" };
    let (mut text, mut marks) = (before.to_string(), " ".repeat(before.len()));
    for Cell { text: sign, range } in &cells[..end] {
        let at_fault = range.start < marked.end && marked.start < range.end;
        text += &if at_fault { out.paint(Colour::Bad, sign) } else { sign.clone() };
        marks += &(if at_fault { "^" } else { " " }).repeat(sign.chars().count());
    }
    // What is missing is marked where it would stand.
    if marked.start >= bytes.len() && !marked.is_empty() {
        marks += " ^";
    }
    let label = format!("{:>7} | ", line.number);
    out.line(format!("{label}{text}{after}").trim_end());
    if !marks.trim_end().is_empty() {
        out.line(&format!("{}{}", " ".repeat(label.len()), marks.trim_end()));
    }
}

/// Whether a byte continues a character.
fn is_inside(bytes: &[u8], at: usize) -> bool {
    bytes.get(at).is_some_and(|byte| byte & 0xC0 == 0x80)
}

#[cfg(test)]
mod tests {
    use super::*;

    /// The archive's code and place, and what is said of it.
    fn told(text: &str) -> (u64, u64, String) {
        let refused = read(text.into(), None).expect_err(text);
        (refused.answer.code, refused.answer.place, refused.fault().words)
    }

    fn expect(text: &str, code: u64, place: u64, words: &str) {
        assert_eq!(told(text), (code, place, words.to_string()), "{text:?}");
    }

    const THREE: &str = ".i 3\n.o 1\n.type fr\n";

    #[test]
    fn terms() {
        for (line, words) in [
            ("01 1", "3 inputs expected, 2 found"),
            ("0101 1", "3 inputs expected, 4 found"),
            ("010", "the output is missing"),
            ("010 # 1", "the output is missing"),
            ("0101", "no blank between the inputs and the output"),
            ("01 0 1", "a blank inside the inputs"),
            ("0x1 1", "'x' among the inputs, at column 2, is not 0, 1 or -"),
            ("\t\u{e4}11 1", "'\u{e4}' among the inputs, at column 2, is not 0, 1 or -"),
            ("01\u{1b} 1", "'\\x1B' among the inputs, at column 3, is not 0, 1 or -"),
            ("01~ 1", "'~' among the inputs, at column 3, is not 0, 1 or -"),
            ("010 2", "the output `2` is not one of 0, 1, - and ~"),
            ("010 11", "the output `11` is not one of 0, 1, - and ~"),
            ("010 1 1", "more after the output: `1`"),
            ("i 3", "'i' among the inputs, at column 1, is not 0, 1 or -"),
        ] {
            expect(&format!("{THREE}{line}\n.e"), 20, 4, words);
        }
        expect(".i 1\n.o 1\n.type fr\n-- 1", 20, 4, "1 input expected, 2 found");
    }

    #[test]
    fn keywords() {
        for (line, words) in [
            (".i 3", "`.i` is repeated: it stands at line 1 already"),
            (".type fr", "`.type` is repeated: it stands at line 3 already"),
            (".p", "`.p` needs a number; there is nothing after it"),
            (".p x", "`.p` needs a number, and not `x`"),
            (".p 1 2", "`.p` takes one value, and `2` is one more"),
        ] {
            expect(&format!("{THREE}{line}\n.e"), 20, 4, words);
        }
        expect(".i -1", 20, 1, "`.i` needs a number, and not `-1`");
        expect(".o 2", 20, 1, "`.o` must be 1, and not `2`");
        expect("\n.type", 20, 2, "`.type` must be fr; there is nothing after it");
        expect(".type fd", 20, 1, "`.type` must be fr, and not `fd`");
    }

    #[test]
    fn unknown_and_missing() {
        expect(".i2", 21, 1, "unknown keyword `.i2`; did you mean `.i 2`?");
        expect(".typefr", 21, 1, "unknown keyword `.typefr`; did you mean `.type fr`?");
        expect(".I 2", 21, 1, "unknown keyword `.I`; did you mean `.i`?");
        expect(".end", 21, 1, "unknown keyword `.end`; did you mean `.e`?");
        expect(".typ fr", 21, 1, "unknown keyword `.typ`; did you mean `.type`?");
        let known = "those known are .i, .o, .type, .p and .e";
        for word in [".symbolic", ".ilb", ".x", "."] {
            expect(&format!("{word} a"), 21, 1, &format!("unknown keyword `{word}`; {known}"));
        }
        expect("x", 21, 1, "`.i`, `.o` and `.type` missing before the first term");
        expect(".type fr\n01 1", 21, 2, "`.i` and `.o` missing before the first term");
        expect(".i 2\n.type fr\n.e", 21, 3, "`.o` missing before `.e`");
        expect(".i 2", 21, 2, "`.e` missing: the text ends after line 1");
        expect("", 21, 1, "`.e` missing: the text has no line");
    }

    #[test]
    fn numbers() {
        expect(".i 9", 3, 1, "`.i 9` is not 1 to 8");
        let long = "9".repeat(100);
        let named = format!("`.i {}..` is not 1 to 8", "9".repeat(24));
        expect(&format!("\n.i {long} # inputs"), 3, 2, &named);
        expect(&format!("{THREE}.p 4\n010 1\n.e"), 22, 6, "`.p` says 4, 1 term found");
        let many = format!("{THREE}{}{}.e", "1-- 0\n".repeat(3), "0-- 1\n".repeat(70));
        let words = "more than 64 terms with output 1: 70 found (a record has room for 64)";
        expect(&many, 4, 3, words);
        let words =
            "the terms at line 6 (on) and line 4 (off) share pattern 3: x0 = 1, x1 = 1, x2 = 0";
        expect(&format!("{THREE}1-0 0\n0-- 1\n-1- 1\n.e"), 7, 7, words);
    }

    /// On cube 0, x1, shares pattern 3 with off cube 0, x0·x1, and the smaller pattern 2 with
    /// off cube 1, x1·x2'. So the answer names 2, and off cube 1 is the one to be told.
    #[test]
    fn the_off_term_that_holds_the_pattern() {
        let answer = Answer { code: 7, kind: 0, record: 1, place: 5, pattern: 2 };
        let text = format!("{THREE}11- 0\n-1- 1\n-10 0\n.e").into_bytes();
        let refused = Refused { answer, text, no_hex: None };
        let words =
            "the terms at line 5 (on) and line 6 (off) share pattern 2: x0 = 0, x1 = 1, x2 = 0";
        let shown = vec![unmarked(5), unmarked(6)];
        assert_eq!(refused.fault(), Fault { words: words.to_string(), shown });
        assert_eq!(refused.clash(), Some([0, 1]));
    }

    #[test]
    fn lines_shown() {
        let numbers = |text: &str| {
            let fault = read(text.into(), None).expect_err(text).fault();
            fault.shown.iter().map(|shown| shown.number).collect::<Vec<_>>()
        };
        assert_eq!(numbers(&format!("{THREE}.p 4\n010 1\n.e")), [4, 6]);
        assert_eq!(numbers(&format!("{THREE}1-0 0\n0-- 1\n-1- 1\n.e")), [4, 6]);
        assert_eq!(numbers(&format!("{THREE}{}.e", "1-- 0\n".repeat(65))), [68]);
        assert_eq!(numbers(".i 2\n\n"), [2]);
        assert_eq!(numbers("").len(), 0);
    }

    #[test]
    fn beginnings() {
        for text in [".i 2", "\n\t.x", "# a\r\n  .e", "#\n.type"] {
            assert!(begins(text.as_bytes()), "{text:?}");
        }
        for text in ["", "46 4E", "# .i 2", "x\n.i 2", "./zap", "..", ".", "\x0C.i 2"] {
            assert!(!begins(text.as_bytes()), "{text:?}");
        }
    }

    #[test]
    fn words_are_cut_and_escaped() {
        assert_eq!(cut(b".x\x1B[31m\xFF"), ".x\\x1B[31m\\xFF");
        assert_eq!(cut("\u{9b}".as_bytes()), "\\u{9B}");
        assert_eq!(cut(&[b'a'; 30]), format!("{}..", "a".repeat(24)));
    }
}
