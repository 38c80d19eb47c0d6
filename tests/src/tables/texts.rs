//! Tables as customers write them, and their faults, made at random.

use crate::random::{any_cube, function_of, with, without, Random};
use crate::reference::pattern::{Cube, Function};
use crate::reference::table::inputs_of;

// ---- Lines into text ----

/// The text of some lines, with blanks, comments and empty lines around them, and the
/// number of each line in it. No word is changed.
pub fn set(random: &mut Random, lines: &[String]) -> (Vec<u8>, Vec<usize>) {
    let fillers = random.below(3);
    let crlf = random.below(4) == 0;
    let mut all = vec![];
    let mut numbers = vec![];
    for line in lines {
        (0..random.below(fillers + 1)).for_each(|_| all.push(filler(random)));
        all.push(spaced(random, line));
        numbers.push(all.len());
    }
    let end = if crlf { "\r\n" } else { "\n" };
    let mut text = all.join(end);
    if random.flip() {
        text += end;
    }
    (text.into_bytes(), numbers)
}

/// A line that is skipped.
pub fn filler(random: &mut Random) -> String {
    let any =
        ["", "", " ", "\t", " \t \r", "#", "# c", "  # .i 9", "#.e", "\t#x 1", "# \u{e4}\u{f6}"];
    random.pick(&any).to_string()
}

/// A line with other blanks, and a comment or none.
fn spaced(random: &mut Random, line: &str) -> String {
    // Mostly as a person would write it.
    if random.flip() {
        return line.to_string();
    }
    let mut text = random.pick(&["", "", " ", "\t", " \t\r"]).to_string();
    for (at, word) in line.split(' ').enumerate() {
        if at > 0 {
            text += random.pick(&[" ", " ", "\t", "   ", " \t ", "\r"]);
        }
        text += word;
    }
    text += random.pick(&["", "", " ", "\t \r"]);
    text + random.pick(&["", "", "", "#", " # c", "# 01 1", "#.i 9"])
}

// ---- Good lines ----

/// `.i n`, `.o 1` and `.type fr` in some order.
pub fn keywords(random: &mut Random, n: usize) -> Vec<String> {
    let zeros = "0".repeat(random.pick(&[0, 0, 0, 1, 20]));
    let mut lines = vec![format!(".i {zeros}{n}"), ".o 1".to_string(), ".type fr".to_string()];
    random.shuffle(&mut lines);
    lines
}

/// The line of a term.
pub fn term(cube: Cube, n: usize, output: char) -> String {
    format!("{} {output}", inputs_of(cube, n))
}

/// A function's terms: each list in its order, both in turns, and terms between them
/// that add nothing.
pub fn terms(random: &mut Random, f: &Function, idle: usize) -> Vec<String> {
    let mut turns = [vec!['1'; f.on.len()], vec!['0'; f.off.len()], vec!['-'; idle]].concat();
    random.shuffle(&mut turns);
    let (mut on, mut off) = (f.on.iter(), f.off.iter());
    let line = |output| match output {
        '1' => term(*on.next().expect("as many"), f.n, '1'),
        '0' => term(*off.next().expect("as many"), f.n, '0'),
        _ => term(any_cube(random, f.n), f.n, random.pick(&['-', '~'])),
    };
    turns.into_iter().map(line).collect()
}

/// A good table's lines: keywords, terms, now and then `.p` among them, and `.e`.
pub fn good(random: &mut Random, f: &Function) -> Vec<String> {
    let idle = random.pick(&[0, 0, 0, 1, 2, 5]);
    let terms = terms(random, f, idle);
    let counted = format!(".p {}", terms.len());
    let mut lines = keywords(random, f.n);
    lines.extend(terms);
    if random.flip() {
        let at = random.below(lines.len() + 1);
        lines.insert(at, counted);
    }
    lines.push(random.pick(&[".e", ".e", ".e", ".e the end"]).to_string());
    lines.extend((0..random.below(3)).map(|_| random.pick(&["", ".i 9", "x", ".e"]).to_string()));
    lines
}

/// A good table of a valid function, as text.
pub fn good_text(random: &mut Random, n: usize, size: fn(&mut Random) -> usize) -> Vec<u8> {
    let f = function_of(random, n, size);
    let lines = good(random, &f);
    set(random, &lines).0
}

/// Lists of any size that input 0 keeps apart; with a clash, an off cube holds all, or an
/// on cube does, often the last.
pub fn apart(random: &mut Random, n: usize, sizes: [usize; 2], clash: bool) -> Function {
    let mut list = |size, side| -> Vec<Cube> {
        (0..size).map(|_| with(without(any_cube(random, n), 0), 0, side)).collect()
    };
    let (mut on, mut off) = (list(sizes[0], true), list(sizes[1], false));
    if clash && !on.is_empty() && !off.is_empty() {
        let (list, last) = match random.below(3) {
            0 => (&mut off, false),
            at => (&mut on, at == 1),
        };
        let at = if last { list.len() - 1 } else { random.below(list.len()) };
        list[at] = Cube::ALL;
    }
    Function { n, on, off }
}

// ---- Faulty lines ----

/// An unknown keyword: 21.
pub fn unknown(random: &mut Random) -> String {
    let any = [
        ".",
        ".x",
        ".I 2",
        ".i2",
        ".end",
        ".E",
        ".types fr",
        ".ilb a b",
        "..e",
        ".e.",
        ".p1",
        ".O 1",
        ".typ fr",
        ".i: 2",
        ".\u{e4}",
        "./",
    ];
    random.pick(&any).to_string()
}

/// No term of n inputs: 20, once the keywords are complete.
pub fn malformed(random: &mut Random, n: usize) -> String {
    let inputs = |random: &mut Random, n| inputs_of(any_cube(random, n), n);
    let right = inputs(random, n);
    let shorter = inputs(random, n - 1);
    let output = random.pick(&["0", "1", "-", "~"]);
    match random.below(10) {
        0 => right,
        1 => format!("{right}{output}"),
        2 => format!("{right} {}", random.pick(&["2", "x", "11", "1-", "~~", ".e", "\u{e4}"])),
        3 => format!("{right} {output} {output}"),
        4 => format!("{right}{} {output}", random.pick(&["0", "1", "-"])),
        5 if n > 1 => format!("{shorter} {output}"),
        6 if n > 1 => format!("{} {} {output}", &right[..1], &right[1..]),
        7 => format!("{shorter}{} {output}", random.pick(&["2", "x", "~", ",", "\u{7F}"])),
        8 => format!("{output} {right}9"),
        _ => {
            random.pick(&["x", "i 2", "=", "01 1 1 1", "\u{feff}", "\0", "e", "-", "~"]).to_string()
        }
    }
}

/// A keyword with a value that it cannot have: 20.
pub fn bad_value(random: &mut Random) -> String {
    let any = [
        ".i",
        ".i x",
        ".i +2",
        ".i -1",
        ".i 2 2",
        ".i 9 9",
        ".i 2.0",
        ".i 0x2",
        ".o",
        ".o 2",
        ".o 01",
        ".o 1 1",
        ".o x",
        ".o 0",
        ".type",
        ".type f",
        ".type fd",
        ".type FR",
        ".type fr f",
        ".type frr",
        ".p",
        ".p x",
        ".p -1",
        ".p 1 1",
        ".p 1,000",
    ];
    random.pick(&any).to_string()
}

/// An `.i` outside 1 to 8: 3, if it is the first.
pub fn outside(random: &mut Random) -> String {
    let any =
        ["0", "9", "00", "09", "10", "16", "256", "257", "4294967297", "18446744073709551617"];
    match random.below(12) {
        0 => format!(".i {}{}", 1 + random.below(9), "0".repeat(1 + random.below(400))),
        _ => format!(".i {}", random.pick(&any)),
    }
}

/// A number of terms other than this one.
pub fn miscount(random: &mut Random, terms: usize) -> String {
    let huge = [1 << 8, 1 << 16, 1 << 32].map(|more: usize| (terms + more).to_string());
    match random.below(6) {
        0 => huge[random.below(3)].clone(),
        1 => format!("{}", terms as u128 + (1 << 64)),
        2 => "9".repeat(20 + random.below(300)),
        3 if terms > 0 => (terms - 1).to_string(),
        4 if terms > 0 => "0".to_string(),
        _ => format!("0{}", terms + 1),
    }
}
