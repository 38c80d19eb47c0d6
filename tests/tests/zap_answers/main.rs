//! The answers of the command `zap`, held against the reference.
//!
//! What is expected comes from the reference, from the comments of include/zap.h, or
//! was worked out by hand from docs/FORMATS.md. Of a text the figures are read; how it
//! is laid out is for the golden texts.

mod explained;
mod matched;
mod refused;
mod several;
mod shown;
mod tables;
mod usage;

use std::ffi::OsStr;
use std::fs;
use std::path::{Path, PathBuf};

use zap_tests::command::{repository, zap, Ran};
use zap_tests::json::Json;
use zap_tests::reference::answer::{Answer, OF_F};
use zap_tests::reference::pair::asks;
use zap_tests::reference::pattern::{patterns, value, Cube, Function};
use zap_tests::reference::programs::hex;
use zap_tests::reference::record::function;
use zap_tests::reference::table::read_table;
use zap_tests::reference::wiring::Choice;

// ---- Runs, and what they printed ----

/// Runs the command on words, of which some are paths.
fn run(words: &[&dyn AsRef<OsStr>]) -> Ran {
    zap(words.iter().map(|word| -> &OsStr { (*word).as_ref() }))
}

/// The run gave an answer: this status, and no complaint.
fn answered(ran: &Ran, status: i32) {
    assert_eq!((ran.status, &ran.err[..]), (status, ""), "{}", ran.out);
}

/// The objects that were printed, one a line.
fn objects(ran: &Ran) -> Vec<Json> {
    let read = |line| Json::read(line).unwrap_or_else(|why| panic!("{why}: {line}"));
    ran.out.lines().map(read).collect()
}

/// The only one.
fn object(ran: &Ran) -> Json {
    let mut all = objects(ran);
    assert_eq!(all.len(), 1, "{}", ran.out);
    all.remove(0)
}

/// The five numbers of an object.
fn answer_of(object: &Json) -> Answer {
    let [code, kind, record, place, pattern] =
        ["code", "kind", "record", "place", "pattern"].map(|name| object.number(name));
    Answer { code, kind, record, place, pattern }
}

/// The same as a line of text.
fn numbers(Answer { code, kind, record, place, pattern }: Answer) -> String {
    format!("code {code}, kind {kind}, record {record}, place {place}, pattern {pattern}")
}

/// 75323621 as 75,323,621.
fn thousands(number: usize) -> String {
    match number {
        0..=999 => number.to_string(),
        _ => format!("{},{:03}", thousands(number / 1_000), number % 1_000),
    }
}

/// `1 input`, `2 inputs`.
fn counted(number: usize, one: &str) -> String {
    format!("{} {one}{}", thousands(number), if number == 1 { "" } else { "s" })
}

/// The forms in which bytes can be given: without a mark at their start, they might be
/// text, and be taken for hex.
fn forms(bytes: &[u8]) -> &'static [&'static str] {
    match bytes {
        [b'F', b'N', ..] | [b'M', b'T', ..] | [b'R', b'F', ..] => &["hex", "binary"],
        _ => &["hex"],
    }
}

fn in_form(bytes: &[u8], form: &str) -> Vec<u8> {
    match form {
        "hex" => hex(bytes).into_bytes(),
        _ => bytes.to_vec(),
    }
}

fn name_of(path: &Path) -> String {
    path.to_str().expect("text").to_string()
}

// ---- Functions in signs ----

/// The value at a pattern: 1 on, 0 off, - open.
fn sign(f: &Function, pattern: usize) -> char {
    match (f.is_on(pattern), f.is_off(pattern)) {
        (true, false) => '1',
        (false, true) => '0',
        (false, false) => '-',
        (true, true) => panic!("on and off at {pattern}"),
    }
}

fn signs(f: &Function) -> String {
    patterns(f.n).map(|pattern| sign(f, pattern)).collect()
}

/// The inputs at a pattern: `x0 = 1, x1 = 0`.
fn inputs_at(pattern: usize, n: usize) -> String {
    let input = |i| format!("x{i} = {}", value(pattern, i) as u8);
    (0..n).map(input).collect::<Vec<String>>().join(", ")
}

/// `x0·x2'`, or 1 for the cube without literals.
fn product(cube: Cube) -> String {
    let literal = |i| asks(cube, i).map(|side| format!("x{i}{}", if side { "" } else { "'" }));
    let literals: Vec<String> = (0..8).filter_map(literal).collect();
    match &literals[..] {
        [] => "1".to_string(),
        _ => literals.join("·"),
    }
}

fn products(list: &[Cube]) -> Vec<String> {
    list.iter().map(|&cube| product(cube)).collect()
}

/// `x1 inverted`.
fn choice_words(choice: &Choice) -> String {
    format!("x{}{}", choice.j, if choice.inverted { " inverted" } else { "" })
}

// ---- The examples ----

struct Example {
    file: PathBuf,
    record: Vec<u8>,
    f: Function,
}

/// The functions of examples/, by name.
fn examples() -> Vec<Example> {
    let entries = fs::read_dir(repository().join("examples")).expect("the examples");
    let mut files: Vec<PathBuf> = entries.map(|entry| entry.expect("read").path()).collect();
    files.sort();
    files.retain(|file| {
        let name = name_of(file);
        let is_function = [".fn", ".hex", ".pla"].iter().any(|end| name.ends_with(end));
        is_function && !name.ends_with(".claim.hex")
    });
    assert!(files.len() >= 13, "{files:?}");
    let example = |file: PathBuf| {
        let content = fs::read(&file).expect("it can be read");
        let record = match file.extension().and_then(OsStr::to_str) {
            Some("hex") => from_hex(&content),
            Some("pla") => read_table(&content, 261).1.expect("a table"),
            _ => content,
        };
        let f = function(&record, OF_F).expect("a function");
        Example { file, record, f }
    };
    files.into_iter().map(example).collect()
}

/// Bytes in hex, apart by white space, with comments.
fn from_hex(text: &[u8]) -> Vec<u8> {
    let text = std::str::from_utf8(text).expect("text");
    let lines = text.lines().map(|line| line.split('#').next().expect("its start"));
    let byte = |word| u8::from_str_radix(word, 16).expect("a byte");
    lines.flat_map(str::split_whitespace).map(byte).collect()
}
