//! Texts of tables and records, for the calls that make one of the other.

use super::{function, record, Function, Random};
use crate::plain;
use crate::plain::function::Cube;

/// Several texts or records, for one of the two calls.
pub struct Tables {
    pub name: String,
    pub call: Call,
    pub inputs: Vec<Input>,
    /// How often they are run for one time taken.
    pub times: u32,
}

#[derive(Clone, Copy)]
pub enum Call {
    Read,
    Write,
}

#[derive(Clone)]
pub struct Input {
    pub bytes: Vec<u8>,
    /// How many bytes are lent.
    pub room: usize,
}

/// What is timed.
pub fn large_tables() -> Vec<Tables> {
    let full = function(&mut Random(1), 8, 64, 4);
    let written = made(Call::Write, &record(&full));
    let commented = |length| vec![long_text(&mut Random(1), &full, length)];
    let small = |make: fn(&mut Random) -> Vec<u8>| -> Vec<Vec<u8>> {
        (1..=10_000).map(|seed| make(&mut Random(seed))).collect()
    };
    let row = |name: &str, call, inputs: Vec<Vec<u8>>, times| {
        // Each is lent as much as is made of it.
        let input = |bytes: Vec<u8>| Input { room: made(call, &bytes).len(), bytes };
        let inputs = inputs.into_iter().map(input).collect();
        Tables { name: name.to_string(), call, inputs, times }
    };
    vec![
        row("1 MB, 64 + 64 terms, n 8, comments", Call::Read, commented(1_000_000), 1),
        row("4 MB, 64 + 64 terms, n 8, comments", Call::Read, commented(4_000_000), 1),
        row("10,000 tables, 2 to 8 terms, n 2 to 4", Call::Read, small(small_text), 1),
        row("64 + 64 terms, n 8, as written", Call::Read, vec![written], 100),
        row("10,000 records, 2 to 6 cubes, n 2 to 4", Call::Write, small(small_record), 1),
    ]
}

/// Small ones of every sort, whole and damaged, each by itself.
pub fn small_tables() -> Vec<Tables> {
    let mut tables = vec![];
    let mut add = |what: String, call, bytes: Vec<u8>| {
        // Enough for what is made of it, just enough, and too little.
        let room = made(call, &bytes).len();
        for room in [room + 8, room, room.saturating_sub(1)] {
            let inputs = vec![Input { bytes: bytes.clone(), room }];
            let name = format!("{what}, {room} bytes lent");
            tables.push(Tables { name, call, inputs, times: 1 });
        }
    };
    for seed in 1..=2_000 {
        let mut random = Random(seed);
        let (text, record) = (small_text(&mut random), small_record(&mut random));
        for time in 1..=4 {
            let what = format!("{seed}, damage {time}");
            let damaged = damage(&mut random, &text, b"\n\r\t #.-~0123ieoptyr");
            add(format!("text {what}"), Call::Read, damaged);
            let damaged = damage(&mut random, &record, &[0, 1, 2, 3, 8, 9, 64, 65, 0xFF]);
            add(format!("record {what}"), Call::Write, damaged);
        }
        add(format!("text {seed}"), Call::Read, text);
        add(format!("record {seed}"), Call::Write, record);
        add(format!("lines {seed}"), Call::Read, jumble(&mut random));
    }
    for (on, off) in [(64, 64), (64, 65), (65, 64), (65, 65), (300, 1), (1, 300)] {
        add(format!("{on} + {off} terms"), Call::Read, many(on, off));
    }
    tables
}

/// What the call makes of it, nothing if it refuses.
fn made(call: Call, bytes: &[u8]) -> Vec<u8> {
    let run = match call {
        Call::Read => plain::read_table,
        Call::Write => plain::write_table,
    };
    // Told where the buffer is too short.
    let packed = run(bytes, &mut []);
    let length = if packed & 255 == 18 { packed >> 24 } else { 0 };
    let mut made = vec![0; length as usize];
    run(bytes, &mut made);
    made
}

// ---- Texts ----

/// A text under way, and what ends its lines.
struct Text {
    bytes: Vec<u8>,
    end: &'static str,
}

impl Text {
    fn line(&mut self, line: &str) {
        self.bytes.extend([line, self.end].concat().bytes());
    }

    fn comment(&mut self, random: &mut Random) {
        let letters = (0..20 + random.below(81)).map(|_| (b' ' + random.below(95) as u8) as char);
        self.line(&['#'].into_iter().chain(letters).collect::<String>());
    }

    fn blanks(&mut self, random: &mut Random) {
        let blanks = (0..random.below(9)).map(|_| [' ', '\t', '\r'][random.below(3)]);
        self.line(&blanks.collect::<String>());
    }

    fn head(&mut self, n: u8) {
        self.line(&format!(".i {n}"));
        self.line(".o 1");
        self.line(".type fr");
    }
}

/// A line for each cube, on and off mixed.
fn terms(random: &mut Random, f: &Function) -> Vec<String> {
    let term = |cube: &Cube, output: char| {
        let input = |i: u8| match (cube.p >> i & 1, cube.n >> i & 1) {
            (1, _) => '1',
            (_, 1) => '0',
            _ => '-',
        };
        (0..f.n).map(input).chain([' ', output]).collect()
    };
    let on = f.on.iter().map(|cube| term(cube, '1'));
    let off = f.off.iter().map(|cube| term(cube, '0'));
    let mut terms: Vec<String> = on.chain(off).collect();
    for last in (1..terms.len()).rev() {
        terms.swap(last, random.below(last + 1));
    }
    terms
}

/// The terms of f, far apart: between them are comments and, about every fourth line,
/// blanks.
fn long_text(random: &mut Random, f: &Function, length: usize) -> Vec<u8> {
    let mut text = Text { bytes: vec![], end: "\n" };
    text.head(f.n);
    let terms = terms(random, f);
    for (index, term) in terms.iter().enumerate() {
        while text.bytes.len() < length / terms.len() * (index + 1) {
            if random.below(4) == 0 {
                text.blanks(random);
            } else {
                text.comment(random);
            }
        }
        text.line(term);
    }
    text.line(".e");
    text.bytes
}

/// Now and then a comment or a blank line, a term that adds nothing, `.p`, or CR LF.
fn small_text(random: &mut Random) -> Vec<u8> {
    let f = small_function(random);
    let mut terms = terms(random, &f);
    for output in ["-", "~"] {
        if random.below(3) == 0 {
            let inputs: String = (0..f.n).map(|_| ['0', '1', '-'][random.below(3)]).collect();
            terms.insert(random.below(terms.len() + 1), format!("{inputs} {output}"));
        }
    }
    let mut text = Text { bytes: vec![], end: ["\n", "\r\n"][random.below(2)] };
    if random.below(4) == 0 {
        text.comment(random);
    }
    text.head(f.n);
    if random.below(2) == 0 {
        text.line(&format!(".p {}", terms.len()));
    }
    for term in &terms {
        match random.below(16) {
            0 => text.comment(random),
            1 => text.blanks(random),
            _ => {}
        }
        if random.below(16) == 0 {
            text.line(&format!(" {term}\t# a term"));
        } else {
            text.line(term);
        }
    }
    text.line(".e");
    text.bytes
}

fn small_record(random: &mut Random) -> Vec<u8> {
    record(&small_function(random))
}

fn small_function(random: &mut Random) -> Function {
    let (n, cubes) = (2 + random.below(3), 1 + random.below(3));
    let literals = 1 + random.below(n);
    function(random, n as u8, cubes, literals as u8)
}

/// So many terms of either list, of one input.
fn many(on: usize, off: usize) -> Vec<u8> {
    let mut text = Text { bytes: vec![], end: "\n" };
    text.head(1);
    (0..on).for_each(|_| text.line("1 1"));
    (0..off).for_each(|_| text.line("0 0"));
    text.line(".e");
    text.bytes
}

// ---- Damage ----

/// A byte put in, taken out or changed, or all from some byte on cut off or doubled.
fn damage(random: &mut Random, bytes: &[u8], put: &[u8]) -> Vec<u8> {
    let (start, rest) = bytes.split_at(random.below(bytes.len()));
    let put = &[put[random.below(put.len())]];
    match random.below(5) {
        0 => [start, put, rest].concat(),
        1 => [start, &rest[1..]].concat(),
        2 => [start, put, &rest[1..]].concat(),
        3 => start.to_vec(),
        _ => [start, rest, rest].concat(),
    }
}

/// Lines that a table may have or almost have, mostly after the right first ones.
fn jumble(random: &mut Random) -> Vec<u8> {
    const LINES: &str = ".i 2|.i 02|.i 0|.i 9|.i +2|.i|.i 2 2|.i2|.I 2|.i 2#2|\
        .i 99999999999999999999|.o 1|.o 01|.o 2|.o|.o 1 1|.type fr|.type f|.type fr fr|.type|\
        .p 0|.p 1|.p 2|.p 003|.p x|.p|.p 18446744073709551617|.e| .e end|.e#|.end|.|.ilb a b|\
        11 1|1- 0|-0\t\t~| -- -\r|00 1 # on|111|11|1 1 1|11 1 1|11 2|12 1|11#1|1|| \t\r|# .i 2|\
        \x0B11 1|\0";
    let lines: Vec<&str> = LINES.split('|').collect();
    let end = match random.below(8) {
        0 => "\r",
        1..=3 => "\r\n",
        _ => "\n",
    };
    let mut text = Text { bytes: vec![], end };
    let mut head = [".i 2", ".o 1", ".type fr"];
    head.swap(0, random.below(3));
    for line in head.into_iter().filter(|_| random.below(16) != 0) {
        text.line(line);
    }
    for _ in 0..random.below(7) {
        text.line(lines[random.below(lines.len())]);
    }
    if random.below(4) != 0 {
        text.line(".e");
    }
    if random.below(4) == 0 {
        text.bytes.pop();
    }
    text.bytes
}
