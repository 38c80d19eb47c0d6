//! A file as bytes: binary, hex text, or a function's table.
//!
//! A file that begins with a mark is binary. No hex text does: each mark has a letter
//! that is no hex digit. A file that begins with a keyword, a dot and a letter, is a
//! table; no hex text does that either. Other text is hex, or else a table too, and a
//! fault in it is told by its line. Bytes that are no text are binary. What is wrong
//! with a table or with bytes, the archive says.

use std::borrow::Cow;
use std::ffi::{OsStr, OsString};
use std::fs;
use std::io::{self, Read};
use std::path::Path;

use crate::output::{reason, trouble, Trouble};
use crate::table::{self, Refused};

#[derive(Clone, Copy, Debug, PartialEq, Eq)]
pub enum Form {
    Empty,
    Binary,
    Hex,
    Table,
}

impl Form {
    pub fn name(self) -> &'static str {
        match self {
            Form::Empty => "empty",
            Form::Binary => "binary",
            Form::Hex => "hex",
            Form::Table => "table",
        }
    }
}

/// What was read, and what it was taken for.
#[derive(Debug)]
pub struct Taken {
    pub name: String,
    pub form: Form,
    /// Of a table, its record; none if it is refused.
    pub bytes: Vec<u8>,
    /// A table that the archive has refused.
    pub refused: Option<Refused>,
}

impl Taken {
    /// With what it was taken for: said wherever it is refused.
    pub fn described(&self) -> String {
        match self.form {
            Form::Empty => format!("{}, which is empty", self.name),
            Form::Table => format!("{}, taken for a table", self.name),
            form => format!("{}, taken for {}", self.name, form.name()),
        }
    }

    fn of(name: String, form: Form, bytes: Vec<u8>) -> Taken {
        Taken { name, form, bytes, refused: None }
    }

    fn table(name: String, text: Vec<u8>, no_hex: Option<String>) -> Taken {
        let (bytes, refused) = match table::read(text, no_hex) {
            Ok(record) => (record, None),
            Err(refused) => (vec![], Some(refused)),
        };
        Taken { name, form: Form::Table, bytes, refused }
    }
}

pub fn name_of(path: &OsStr) -> String {
    if path == "-" {
        "standard input".to_string()
    } else {
        path.to_string_lossy().into_owned()
    }
}

/// A function's file; `-` is standard input. Text that is neither hex nor begins as a
/// table does is a table all the same, unless its name says hex.
pub fn take_function(path: &OsStr) -> Result<Taken, Trouble> {
    let name = name_of(path);
    match Content::of(read(path)?) {
        Content::Bytes(form, bytes) => Ok(Taken::of(name, form, bytes)),
        Content::Table(text) => Ok(Taken::table(name, text, None)),
        Content::NoHex(text, fault) => match Named::of(path) {
            Named::Function => no_hex(&name, &fault),
            Named::Table => Ok(Taken::table(name, text, None)),
            Named::Anything => Ok(Taken::table(name, text, Some(fault.words()))),
        },
    }
}

/// A claim's file, which is no table.
pub fn take_claim(path: &OsStr) -> Result<Taken, Trouble> {
    let name = name_of(path);
    match Content::of(read(path)?) {
        Content::Bytes(form, bytes) => Ok(Taken::of(name, form, bytes)),
        Content::Table(_) => {
            trouble(format!("{name} begins as a table does, and a claim is wanted here"))
        }
        Content::NoHex(_, fault) => no_hex(&name, &fault),
    }
}

fn no_hex<T>(name: &str, fault: &Fault) -> Result<T, Trouble> {
    let why = "taken for hex, as it is text without a mark at its start";
    trouble(format!("{name}: {why}; {}", fault.words()))
}

/// What a file's name says that it is.
#[derive(Clone, Copy, Debug, PartialEq, Eq)]
enum Named {
    /// By its bytes, or by their hex.
    Function,
    Table,
    Anything,
}

impl Named {
    fn of(path: &OsStr) -> Named {
        let end = Path::new(path).extension().unwrap_or_default().to_ascii_lowercase();
        match end.to_str() {
            Some("hex" | "fn") => Named::Function,
            Some("pla" | "tbl") => Named::Table,
            _ => Named::Anything,
        }
    }
}

fn read(path: &OsStr) -> Result<Vec<u8>, Trouble> {
    let read = if path == "-" {
        let mut bytes = vec![];
        io::stdin().lock().read_to_end(&mut bytes).map(|_| bytes)
    } else if Path::new(path).is_dir() {
        return trouble(format!("{} is a folder, and one file is wanted here", name_of(path)));
    } else {
        fs::read(path)
    };
    read.map_err(|why| unread(path, &why))
}

fn unread(path: &OsStr, why: &io::Error) -> Trouble {
    Trouble(format!("{} cannot be read: {}", name_of(path), reason(why)))
}

/// What is in a file.
#[derive(Debug)]
enum Content {
    Bytes(Form, Vec<u8>),
    /// Text that begins as a table does.
    Table(Vec<u8>),
    /// Other text, and where it is no hex.
    NoHex(Vec<u8>, Fault),
}

impl Content {
    fn of(bytes: Vec<u8>) -> Content {
        if bytes.is_empty() {
            return Content::Bytes(Form::Empty, bytes);
        }
        if marked_as(&bytes).is_some() {
            return Content::Bytes(Form::Binary, bytes);
        }
        let Some(text) = decoded(&bytes) else { return Content::Bytes(Form::Binary, bytes) };
        // Comments, and what follows .e, may hold anything.
        if table::begins(&text) {
            return Content::Table(text.into_owned());
        }
        if is_text(&text) {
            match from_hex(&text) {
                Ok(bytes) => return Content::Bytes(Form::Hex, bytes),
                Err(fault) if std::str::from_utf8(&text).is_ok() => {
                    return Content::NoHex(text.into_owned(), fault);
                }
                // A comment may be written in any way, the rest of a text not.
                Err(_) => {}
            }
        }
        drop(text);
        Content::Bytes(Form::Binary, bytes)
    }
}

/// The marks, and what begins with them.
const MARKS: [(&[u8], &str); 3] =
    [(b"FN", FUNCTION), (b"MT", "a match claim"), (b"RF", "a refusal claim")];
const FUNCTION: &str = "a function";

/// What bytes are by their mark.
pub fn marked_as(bytes: &[u8]) -> Option<&'static str> {
    MARKS.iter().find(|(mark, _)| bytes.starts_with(mark)).map(|(_, what)| *what)
}

/// Bytes without their byte order mark, and UTF-16 that has one as UTF-8.
fn decoded(bytes: &[u8]) -> Option<Cow<'_, [u8]>> {
    let wide = |of: fn([u8; 2]) -> u16| {
        if bytes.len() % 2 == 1 {
            return None;
        }
        let units = bytes[2..].chunks_exact(2).map(|pair| of([pair[0], pair[1]]));
        let text: Result<String, _> = char::decode_utf16(units).collect();
        text.ok().map(|text| Cow::Owned(text.into_bytes()))
    };
    match bytes {
        [0xEF, 0xBB, 0xBF, rest @ ..] => Some(Cow::Borrowed(rest)),
        [0xFF, 0xFE, ..] => wide(u16::from_le_bytes),
        [0xFE, 0xFF, ..] => wide(u16::from_be_bytes),
        _ => Some(Cow::Borrowed(bytes)),
    }
}

/// No control character but white space.
fn is_text(text: &[u8]) -> bool {
    !text.iter().any(|&c| c.is_ascii_control() && !white(c))
}

fn white(c: u8) -> bool {
    c.is_ascii_whitespace() || c == 0x0B
}

/// Where hex text is at fault, from 1.
#[derive(Debug, PartialEq)]
pub struct Fault {
    pub line: usize,
    pub column: usize,
    pub what: String,
}

impl Fault {
    fn words(&self) -> String {
        format!("line {}, column {}: {}", self.line, self.column, self.what)
    }
}

/// Groups of hex digits, apart by white space or commas, each with or without `0x`;
/// `#` starts a comment. A lone digit is a byte only after `0x`: bare, it is more
/// likely a byte that has lost a digit.
fn from_hex(text: &[u8]) -> Result<Vec<u8>, Fault> {
    let mut bytes = Vec::with_capacity(text.len() / 3 + 1);
    let mut at = 0;
    while at < text.len() {
        match text[at] {
            b'#' => at = end_of(text, at, |c| c == b'\n'),
            c if apart(c) => at += 1,
            _ => at = group(text, at, &mut bytes)?,
        }
    }
    Ok(bytes)
}

fn apart(c: u8) -> bool {
    white(c) || c == b','
}

/// The place from `at` on of the first byte that passes, or the end.
fn end_of(text: &[u8], at: usize, passes: impl Fn(u8) -> bool) -> usize {
    text[at..].iter().position(|&c| passes(c)).map_or(text.len(), |found| at + found)
}

/// One group's bytes; the place after it.
fn group(text: &[u8], start: usize, bytes: &mut Vec<u8>) -> Result<usize, Fault> {
    let prefixed = matches!(text[start..], [b'0', b'x' | b'X', ..]);
    let first = if prefixed { start + 2 } else { start };
    let mut at = first;
    while let [high, low, ..] = text[at..] {
        let (Some(high), Some(low)) = (digit(high), digit(low)) else { break };
        bytes.push(16 * high + low);
        at += 2;
    }
    let odd = at < text.len() && digit(text[at]).is_some();
    let end = if odd { at + 1 } else { at };
    if let Some(&c) = text.get(end) {
        if !apart(c) && c != b'#' {
            return Err(fault(text, end, format!("{} is no hex digit", shown(&text[end..]))));
        }
    }
    if first == end {
        return Err(fault(text, start, "0x without a digit".to_string()));
    }
    if odd {
        if !(prefixed && at == first) {
            let digits = String::from_utf8_lossy(&text[start..end]).into_owned();
            let what = match end - first {
                1 => format!("{digits} is a lone digit; a byte has two"),
                _ => format!("{} has an odd number of hex digits", cut(&digits)),
            };
            return Err(fault(text, start, what));
        }
        bytes.push(digit(text[at]).expect("tested"));
    }
    Ok(end)
}

fn digit(c: u8) -> Option<u8> {
    match c {
        b'0'..=b'9' => Some(c - b'0'),
        b'a'..=b'f' => Some(c - b'a' + 10),
        b'A'..=b'F' => Some(c - b'A' + 10),
        _ => None,
    }
}

fn fault(text: &[u8], at: usize, what: String) -> Fault {
    let line_start = text[..at].iter().rposition(|&c| c == b'\n').map_or(0, |found| found + 1);
    let line = 1 + text[..at].iter().filter(|&&c| c == b'\n').count();
    let column = 1 + String::from_utf8_lossy(&text[line_start..at]).chars().count();
    Fault { line, column, what }
}

/// The character that a text begins with.
fn shown(text: &[u8]) -> String {
    let start = &text[..text.len().min(4)];
    match String::from_utf8_lossy(start).chars().next() {
        Some(char::REPLACEMENT_CHARACTER) | None => format!("byte {:02X}", text[0]),
        Some(c) if c.is_control() => format!("byte {:02X}", text[0]),
        Some(c) => format!("'{c}'"),
    }
}

fn cut(digits: &str) -> String {
    match digits.len() {
        0..=24 => digits.to_string(),
        _ => format!("{}..", &digits[..24]),
    }
}

// ---- Several files ----

/// A file to be taken for a function.
pub struct Source {
    pub path: OsString,
    /// It was not named, but lies in a folder that was.
    pub of_folder: bool,
}

/// Files as named, and each folder's files by name, in its place. Of a folder, hidden
/// files and what is no plain file are left out: to read a pipe could take for ever.
pub fn spread(paths: &[OsString]) -> Result<Vec<Source>, Trouble> {
    let mut sources = vec![];
    for path in paths {
        if path == "-" || !Path::new(path).is_dir() {
            sources.push(Source { path: path.clone(), of_folder: false });
            continue;
        }
        let inside = inside(path).map_err(|why| unread(path, &why))?;
        if inside.is_empty() {
            return trouble(format!("there is no file in the folder {}", name_of(path)));
        }
        sources.extend(inside.into_iter().map(|path| Source { path, of_folder: true }));
    }
    Ok(sources)
}

fn inside(folder: &OsStr) -> io::Result<Vec<OsString>> {
    let mut files = vec![];
    for entry in fs::read_dir(folder)? {
        let entry = entry?;
        let hidden = entry.file_name().as_encoded_bytes().starts_with(b".");
        let plain = fs::metadata(entry.path()).map_or(true, |found| found.is_file());
        if !hidden && plain {
            files.push(entry.path().into_os_string());
        }
    }
    files.sort();
    Ok(files)
}

/// What came of a source.
pub enum Came {
    Function(Taken),
    Unread(Trouble),
    /// It lies in a folder and is no function, for this reason: a claim, or text that is
    /// neither hex nor begins as a table does, unless its name says that it is one.
    PassedOver(&'static str),
}

impl Source {
    pub fn take(&self) -> Came {
        if !self.of_folder {
            return take_function(&self.path).map_or_else(Came::Unread, Came::Function);
        }
        let name = name_of(&self.path);
        let content = match read(&self.path) {
            Ok(bytes) => Content::of(bytes),
            Err(why) => return Came::Unread(why),
        };
        match (content, Named::of(&self.path)) {
            (Content::Bytes(form, bytes), _) => match marked_as(&bytes) {
                Some(what) if what != FUNCTION => Came::PassedOver(what),
                _ => Came::Function(Taken::of(name, form, bytes)),
            },
            (Content::Table(text), _) | (Content::NoHex(text, _), Named::Table) => {
                Came::Function(Taken::table(name, text, None))
            }
            (Content::NoHex(_, fault), Named::Function) => {
                no_hex(&name, &fault).map_or_else(Came::Unread, Came::Function)
            }
            (Content::NoHex(..), Named::Anything) => Came::PassedOver("other text"),
        }
    }
}

#[cfg(test)]
mod tests {
    use super::*;

    fn hex(text: &str) -> Result<Vec<u8>, (usize, usize)> {
        let text = decoded(text.as_bytes()).expect("text");
        from_hex(&text).map_err(|fault| (fault.line, fault.column))
    }

    #[test]
    fn ways_to_write_bytes() {
        let bytes = Ok(vec![0x46, 0x4E, 0x02, 0xAB]);
        for text in [
            "464E02AB",
            "46 4e 02 ab",
            "0x46, 0x4E, 0x2, 0xAB",
            "0X464E 02,ab",
            "\u{feff}46 4E\r\n02 AB\r\n",
            "# Conj\n46 4E # the mark\n02AB# no blank",
            "\t46,4E,,02\x0bAB",
        ] {
            assert_eq!(hex(text), bytes, "{text:?}");
        }
        let wide = |text: &str, of: fn(u16) -> [u8; 2]| -> Vec<u8> {
            text.encode_utf16().flat_map(of).collect()
        };
        let text = "\u{feff}46 4E 02 AB";
        for of in [u16::to_le_bytes, u16::to_be_bytes] {
            let text = wide(text, of);
            assert_eq!(from_hex(&decoded(&text).expect("text")).ok(), bytes.clone().ok());
        }
        assert_eq!(hex(""), Ok(vec![]));
        assert_eq!(hex("# nothing"), Ok(vec![]));
    }

    #[test]
    fn faults_of_hex() {
        assert_eq!(hex("46 4G"), Err((1, 5)));
        assert_eq!(hex("46\n 4E 2 01"), Err((2, 5)));
        assert_eq!(hex("46 4E021"), Err((1, 4)));
        assert_eq!(hex("46 0x"), Err((1, 4)));
        assert_eq!(hex("46 0x4E1"), Err((1, 4)));
        assert_eq!(hex("46;4E"), Err((1, 3)));
        assert_eq!(hex("# ä\nä"), Err((2, 1)));
    }

    #[test]
    fn what_bytes_are_taken_for() {
        let form = |bytes: &[u8]| match Content::of(bytes.to_vec()) {
            Content::Bytes(form, _) => Some(form),
            Content::Table(_) => Some(Form::Table),
            Content::NoHex(..) => None,
        };
        assert_eq!(form(b""), Some(Form::Empty));
        assert_eq!(form(b"FN\x02"), Some(Form::Binary));
        assert_eq!(form(b"46 4E # Gr\xF6\xDFe"), Some(Form::Hex));
        assert_eq!(form(b"46 4E # \x02"), Some(Form::Binary));
        assert_eq!(form(b"\xFF\xA0"), Some(Form::Binary));
        assert_eq!(form(b"\xFF\xFE4\x006\x00"), Some(Form::Hex));
        assert_eq!(form(b"\xFF\xFE\x00\xD8"), Some(Form::Binary));
        assert_eq!(form("46 4G ä".as_bytes()), None);
        assert_eq!(form(b"46 4G \xE4"), Some(Form::Binary));
        assert_eq!(form(b"# Gr\xF6\xDFe\n\t.i 2 # \x02"), Some(Form::Table));
        assert_eq!(form(b"\xEF\xBB\xBF.i 2"), Some(Form::Table));
        assert_eq!(form(b"\xFE\xFF\x00.\x00i"), Some(Form::Table));
        assert_eq!(form(b".i 2\n.e\x1A"), Some(Form::Table));
        assert_eq!(form(b"01 1"), None);
    }

    #[test]
    fn what_names_say() {
        let named = |name: &str| Named::of(OsStr::new(name));
        assert_eq!(named("a/mux.hex"), Named::Function);
        assert_eq!(named("mux.fn"), Named::Function);
        assert_eq!([named("mux.pla"), named("MUX.PLA"), named("a.b/x.tbl")], [Named::Table; 3]);
        for name in ["mux", "-", "mux.txt", "pla", ".pla", "mux.pla/x", "mux.pla.bak"] {
            assert_eq!(named(name), Named::Anything, "{name}");
        }
    }
}
