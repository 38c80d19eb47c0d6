//! The inputs of the comparison, sweep by sweep.

use super::order::{first_lines, rules_of_order};
use super::texts::{
    apart, bad_value, good, good_text, keywords, malformed, miscount, outside, set, term, terms,
    unknown,
};
use super::{Trial, LONGEST_RECORD, LONGEST_TABLE};
use crate::cases::NAMED;
use crate::patterns::{clash_at, clashing};
use crate::random::{
    any_cube, any_function, any_size, few, full_function, function_of, spoiled, Random,
};
use crate::records::sweeps::every_string;
use crate::records::Outcome;
use crate::reference::pattern::{every_cube, patterns, Cube, Function, INPUTS};
use crate::reference::record::{record, CUBES, MARK};

/// A sweep makes its inputs and lets the trial compare them.
pub type Sweep = fn(&mut Trial) -> Outcome;

/// All sweeps, the longest first.
pub const ALL: [Sweep; 15] = [
    short_texts,
    short_lines,
    damaged_tables,
    damaged_full_tables,
    all_bytes,
    rules_of_order,
    first_lines,
    long_lists,
    late_clashes,
    clashes,
    several_faults,
    buffers,
    damaged_records,
    small_records,
    there_and_back,
];

// ---- All short texts ----

/// Keywords of n = 2, complete but for one, and complete.
const STARTS: [&str; 5] = [
    "",
    ".i 2\n.o 1\n.type fr\n",
    ".type fr\n.i 2\n",
    ".o 1\n.type fr\n.p 1\n",
    ".i 1\n.o 1\n.type fr\n01 1\n",
];

/// Telling lines: each keyword, well and badly; terms of one input and of two; lines
/// that are skipped.
const LINES: [&str; 25] = [
    ".i 2\n",
    ".i 9\n",
    ".i 1\r\n",
    ".i 2 2\n",
    ".o 1\n",
    ".o 2\n",
    ".type fr\n",
    ".type f\n",
    ".p 1\n",
    ".p 02\n",
    ".p 18446744073709551617\n",
    ".e\n",
    ".e x\n",
    ".end\n",
    ".\n",
    "01 1\n",
    "-- ~\n",
    "1- 0\n",
    "1 1\n",
    "0 1 1\n",
    "11 11\n",
    "11\n",
    "x\n",
    " \t\r\n",
    "# c\n",
];

/// All texts of up to four telling lines after each start.
pub fn short_lines(trial: &mut Trial) -> Outcome {
    for start in STARTS {
        every_text(&LINES, &mut start.into(), 4, &mut |text| {
            trial.read_with_others(text, LONGEST_RECORD).map(drop)
        })?;
    }
    Ok(())
}

/// Telling pieces of lines: what is joined and what is apart makes the difference.
const PIECES: [&str; 19] = [
    ".i", ".o", ".type", ".p", ".e", ".", "fr", "1", "0", "2", "01", "-", "~", "#", " ", "\t",
    "\r", "\n", "x",
];

/// All texts of up to four telling pieces, from nothing and after the keywords, and all
/// of five with the keywords' letters left out that are read like others.
pub fn short_texts(trial: &mut Trial) -> Outcome {
    for start in ["", ".i 2\n.o 1\n.type fr\n", ".i 1\n.o 1\n.type fr\n1 1\n.p"] {
        every_text(&PIECES, &mut start.into(), 4, &mut |text| trial.read(text).map(drop))?;
    }
    let fewer: Vec<&str> =
        PIECES.into_iter().filter(|piece| ![".o", ".type", "fr", "~"].contains(piece)).collect();
    every_text(&fewer, &mut vec![], 5, &mut |text| trial.read(text).map(drop))
}

/// Calls `visit` with `start` and every continuation of up to `more` pieces.
fn every_text(
    pieces: &[&str],
    start: &mut Vec<u8>,
    more: usize,
    visit: &mut dyn FnMut(&[u8]) -> Outcome,
) -> Outcome {
    visit(start)?;
    if more > 0 {
        let length = start.len();
        for piece in pieces {
            start.extend(piece.as_bytes());
            every_text(pieces, start, more - 1, visit)?;
            start.truncate(length);
        }
    }
    Ok(())
}

/// All 256 bytes, alone and doubled, at telling places of a small table.
pub fn all_bytes(trial: &mut Trial) -> Outcome {
    let whole = "\n.i 2\n.o 1 \n.type fr\n.p 2#\n 10 1\n-1\t0\n.e \nx\n";
    for at in 0..=whole.len() {
        for byte in 0..=255 {
            for times in 1..=2 {
                let put = vec![byte; times];
                let (before, after) = whole.as_bytes().split_at(at);
                trial.read(&[before, &put, after].concat())?;
                let rest = after.get(1..).unwrap_or(&[]);
                trial.read(&[before, &put, rest].concat())?;
            }
        }
    }
    Ok(())
}

// ---- Good tables and their damage ----

/// What one byte is replaced by: each sign of a table, and some that have no place in it.
const SIGNS: [u8; 17] = *b"01-~.# \t\r\niepx9\0\xFF";

/// Random good tables of all n, whole, cut and damaged everywhere.
pub fn damaged_tables(trial: &mut Trial) -> Outcome {
    let mut random = Random::new(601);
    for round in 0..96 {
        let n = 1 + round % 8;
        let text = good_text(&mut random, n, few);
        // The more inputs, the slower the reference: a part of the damage has to do.
        let signs = if n <= 5 { SIGNS.len() } else { 3 };
        damaged(trial, &mut random, &text, signs)?;
    }
    Ok(())
}

/// Tables of full lists, likewise.
pub fn damaged_full_tables(trial: &mut Trial) -> Outcome {
    let mut random = Random::new(602);
    for n in 1..=8 {
        let f = full_function(&mut random, n);
        let lines = good(&mut random, &f);
        let (text, _) = set(&mut random, &lines);
        damaged(trial, &mut random, &text, 2)?;
    }
    Ok(())
}

/// A text as it is, cut at each length, and with each byte replaced by so many signs,
/// taken out and doubled.
fn damaged(trial: &mut Trial, random: &mut Random, text: &[u8], signs: usize) -> Outcome {
    trial.read(text)?;
    for at in 0..text.len() {
        // The rest of the text still follows the cut one in memory.
        trial.read(&text[..at])?;
        let first = random.below(SIGNS.len());
        for sign in SIGNS.iter().cycle().skip(first).take(signs) {
            let mut other = text.to_vec();
            other[at] = *sign;
            trial.read(&other)?;
        }
        trial.read(&[&text[..at], &text[at + 1..]].concat())?;
        trial.read(&[&text[..=at], &text[at..]].concat())?;
    }
    Ok(())
}

// ---- Long lists ----

/// Lists around 64, 128 and 256 terms and far longer, with a clash or without one,
/// counted well or badly, in a buffer that is long enough or not.
pub fn long_lists(trial: &mut Trial) -> Outcome {
    let mut random = Random::new(603);
    let sizes = [0, 1, 63, 64, 65, 66, 127, 128, 129, 192, 255, 256, 257, 300, 512, 1_000];
    for on in sizes {
        for off in sizes {
            for round in 0..8 {
                let n = 1 + round % 4;
                let f = apart(&mut random, n, [on, off], round % 2 == 1);
                let mut lines = keywords(&mut random, n);
                let terms = terms(&mut random, &f, round / 4);
                match round % 4 {
                    0 => lines.push(format!(".p {}", terms.len())),
                    1 => lines.push(format!(".p {}", miscount(&mut random, terms.len()))),
                    _ => {}
                }
                lines.extend(terms);
                lines.push(".e".to_string());
                let (text, _) = set(&mut random, &lines);
                let length = CUBES + 2 * (on + off);
                for room in [0, length - 1, length, LONGEST_RECORD] {
                    trial.read_with_others(&text, room)?;
                }
            }
        }
    }
    Ok(())
}

/// Full on lists in which each cube in turn is the first that clashes.
pub fn late_clashes(trial: &mut Trial) -> Outcome {
    let mut random = Random::new(610);
    for u in 0..64 {
        for round in 0..24 {
            let n = 1 + round % 6;
            let off = random.pick(&[1, 2, 63, 64]);
            let mut f = apart(&mut random, n, [64, off], false);
            f.on[u] = f.off[random.below(off)];
            let lines = good(&mut random, &f);
            let (text, _) = set(&mut random, &lines);
            trial.read(&text)?;
        }
    }
    Ok(())
}

/// Functions whose lists meet, in many ways and at every pattern.
pub fn clashes(trial: &mut Trial) -> Outcome {
    let mut random = Random::new(611);
    for n in 1..=INPUTS {
        for pattern in patterns(n) {
            let any = clashing(&mut random, n);
            let first = any.first_clash().expect("made so");
            for (f, clash) in [(any, first), clash_at(&mut random, n, pattern)] {
                let lines = good(&mut random, &f);
                let (text, _) = set(&mut random, &lines);
                trial.clash(&text, &f, clash)?;
            }
        }
    }
    Ok(())
}

// ---- Several faults ----

/// Texts with several faults of all sorts, in buffers of all sorts.
pub fn several_faults(trial: &mut Trial) -> Outcome {
    let mut random = Random::new(606);
    for _ in 0..20_000 {
        let n = 1 + random.below(8);
        let f = function_of(&mut random, n, few);
        let mut lines = good(&mut random, &f);
        for _ in 0..random.below(4) {
            let at = random.below(lines.len());
            let line = match random.below(6) {
                0 => outside(&mut random),
                1 => unknown(&mut random),
                2 => bad_value(&mut random),
                3 => term(any_cube(&mut random, n), n, random.pick(&['0', '1'])),
                4 => lines[random.below(lines.len())].clone(),
                _ => malformed(&mut random, n),
            };
            match random.below(3) {
                0 => lines[at] = line,
                1 => lines.insert(at, line),
                _ => drop(lines.remove(at)),
            }
            if lines.is_empty() {
                break;
            }
        }
        let (text, _) = set(&mut random, &lines);
        let room = random.pick(&[0, 5, 8, 11, 261]);
        trial.read_with_others(&text, room)?;
    }
    Ok(())
}

// ---- Buffers ----

/// Buffers from empty to longer than is needed, for texts and records of all sorts.
pub fn buffers(trial: &mut Trial) -> Outcome {
    let mut random = Random::new(607);
    for round in 0..1_200 {
        let n = 1 + round % 8;
        let f = if round < 8 {
            full_function(&mut random, n)
        } else {
            function_of(&mut random, n, few)
        };
        let lines = good(&mut random, &f);
        let (text, _) = set(&mut random, &lines);
        trial.read_into_all(&text)?;
        let mut damaged = text.clone();
        damaged[random.below(text.len())] = random.pick(&SIGNS);
        trial.read_into_all(&damaged)?;
        trial.write_into_all(&record(&f))?;
        trial.write_into_all(&spoiled(&mut random, f))?;
    }
    Ok(())
}

// ---- Records ----

/// The mark and all tails of up to 5 telling bytes; all strings of up to 4.
pub fn small_records(trial: &mut Trial) -> Outcome {
    const TELLING: [u8; 12] =
        [0x46, 0x4E, 0x50, 0x00, 0x01, 0x02, 0x03, 0x08, 0x09, 0x40, 0x41, 0xFF];
    every_string(&TELLING, &mut vec![], 4, &mut |record| trial.write(record))?;
    every_string(&TELLING, &mut MARK.to_vec(), 5, &mut |record| trial.write(record))?;
    // The mark of a record with barred inputs.
    every_string(&TELLING, &mut vec![0x46, 0x50], 4, &mut |record| trial.write(record))?;
    // All records of n = 1 with up to 4 cubes, bad ones among them.
    for count in 0..=4 {
        for a in 0..=count {
            let header = [MARK[0], MARK[1], 1, a, count - a];
            let cubes = 2 * count as usize;
            every_string(
                &[0, 1, 2],
                &mut header.to_vec(),
                cubes,
                &mut |record| match record.len() == CUBES + cubes {
                    true => trial.write(record),
                    false => Ok(()),
                },
            )?;
        }
    }
    Ok(())
}

/// Random records, whole, changed at each byte, cut at each length and extended; and
/// records with faults put in on purpose.
pub fn damaged_records(trial: &mut Trial) -> Outcome {
    let mut random = Random::new(608);
    for round in 0..200 {
        let f = match round {
            0..=7 => full_function(&mut random, 1 + round),
            _ => any_function(&mut random),
        };
        let valid = record(&f);
        trial.write(&valid)?;
        for at in 0..valid.len() {
            trial.write(&valid[..at])?;
            for byte in [0, valid[at] ^ 1 << random.below(8), random.byte()] {
                let mut other = valid.clone();
                other[at] = byte;
                trial.write_into(&other, random.pick(&[0, 100, LONGEST_TABLE]))?;
            }
        }
        for more in [1, 2, 255] {
            trial.write(&[&valid[..], &vec![random.byte(); more]].concat())?;
        }
    }
    for _ in 0..4_000 {
        let f = any_function(&mut random);
        trial.write(&spoiled(&mut random, f))?;
    }
    Ok(())
}

/// Accepted records, written and read again: all of n = 1 with up to 5 cubes, all of
/// n = 2 with up to 2, and many at random.
pub fn there_and_back(trial: &mut Trial) -> Outcome {
    for (n, most) in [(1, 5), (2, 2)] {
        let cubes = every_cube(n);
        every_function(n, &cubes, &mut vec![], most, &mut |f| both_ways(trial, &record(f)))?;
    }
    for named in NAMED {
        both_ways(trial, named)?;
    }
    let mut random = Random::new(609);
    for n in 1..=8 {
        both_ways(trial, &record(&full_function(&mut random, n)))?;
        for _ in 0..500 {
            both_ways(trial, &record(&function_of(&mut random, n, any_size)))?;
        }
    }
    Ok(())
}

fn both_ways(trial: &mut Trial, record: &[u8]) -> Outcome {
    trial.write(record)?;
    trial.there_and_back(record)
}

/// Calls `visit` with every valid function of up to so many of these cubes, cut into
/// the two lists at each place.
fn every_function(
    n: usize,
    cubes: &[Cube],
    list: &mut Vec<Cube>,
    more: usize,
    visit: &mut dyn FnMut(&Function) -> Outcome,
) -> Outcome {
    for a in 0..=list.len() {
        let f = Function { n, on: list[..a].to_vec(), off: list[a..].to_vec() };
        if f.first_clash().is_none() {
            visit(&f)?;
        }
    }
    if more > 0 {
        for &cube in cubes {
            list.push(cube);
            every_function(n, cubes, list, more - 1, visit)?;
            list.pop();
        }
    }
    Ok(())
}
