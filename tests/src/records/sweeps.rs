//! The inputs of the comparison, sweep by sweep.

use super::{Outcome, Trial};
use crate::cases::NAMED;
use crate::patterns::{clash_at, clashing};
use crate::random::{any_function, full_function, spoiled, Random};
use crate::reference::pattern::{every_cube, patterns, Cube, Function, INPUTS};
use crate::reference::record::{bytes, record, CUBES, MARK};
use crate::show::hex;

/// A sweep makes its inputs and lets the trial compare them.
pub type Sweep = fn(&mut Trial) -> Outcome;

/// All sweeps, the longest first.
pub const ALL: [Sweep; 12] = [
    damaged_full_records,
    damaged_records,
    short_records,
    marked_records,
    small_functions,
    spoiled_records,
    clashes,
    small_clashes,
    pairs_and_slices,
    small_lists,
    lists_of_records,
    long_lists,
];

// ---- All short inputs ----

/// The mark, the edges of n and of the counts, small masks and a full one.
const TELLING: [u8; 11] = [0x46, 0x4E, 0x00, 0x01, 0x02, 0x03, 0x08, 0x09, 0x40, 0x41, 0xFF];

/// All records of up to 6 telling bytes.
pub fn short_records(trial: &mut Trial) -> Outcome {
    every_string(&TELLING, &mut vec![], 6, &mut |record| {
        trial.read(record)?;
        trial.summary(record)
    })
}

/// The mark and all tails of up to 6 telling bytes: few of the short records
/// have the mark, and these come as far as the first cube and a byte after it.
pub fn marked_records(trial: &mut Trial) -> Outcome {
    every_string(&TELLING, &mut MARK.to_vec(), 6, &mut |record| {
        trial.read(record)?;
        trial.summary(record)?;
        trial.fault(record, NAMED[0], 2)?;
        trial.fault(NAMED[1], record, 2)
    })
}

/// All functions of 1 to 3 inputs with few cubes, bad cubes among them.
pub fn small_functions(trial: &mut Trial) -> Outcome {
    for (n, most_cubes) in [(1, 4), (2, 3), (3, 2)] {
        // Masks over the inputs, and the first that names input n.
        let masks: Vec<u8> = (0..=1 << n).collect();
        for count in 0..=most_cubes {
            for a in 0..=count {
                let header = [MARK[0], MARK[1], n, a, count - a];
                let length = CUBES + 2 * count as usize;
                every_string(&masks, &mut header.to_vec(), 2 * count as usize, &mut |record| {
                    if record.len() < length {
                        return Ok(());
                    }
                    trial.read(record)?;
                    trial.summary(record)?;
                    trial.fault(record, record, 2)?;
                    trial.fault(NAMED[2], record, 3)
                })?;
            }
        }
    }
    Ok(())
}

/// Calls `visit` with `start` and every continuation of up to `more` bytes.
pub fn every_string(
    alphabet: &[u8],
    start: &mut Vec<u8>,
    more: usize,
    visit: &mut dyn FnMut(&[u8]) -> Outcome,
) -> Outcome {
    visit(start)?;
    if more > 0 {
        for &byte in alphabet {
            start.push(byte);
            every_string(alphabet, start, more - 1, visit)?;
            start.pop();
        }
    }
    Ok(())
}

// ---- Valid records and their damage ----

/// Random valid records of all sorts, whole and damaged everywhere.
pub fn damaged_records(trial: &mut Trial) -> Outcome {
    let mut random = Random::new(101);
    for _ in 0..400 {
        let f = any_function(&mut random);
        let other = record(&any_function(&mut random));
        whole_and_damaged(trial, &mut random, &record(&f), &other)?;
    }
    Ok(())
}

/// Records of 64 + 64 cubes, whole and damaged everywhere.
pub fn damaged_full_records(trial: &mut Trial) -> Outcome {
    let mut random = Random::new(102);
    for n in 1..=8 {
        for _ in 0..2 {
            let f = full_function(&mut random, n);
            let other = record(&any_function(&mut random));
            whole_and_damaged(trial, &mut random, &record(&f), &other)?;
        }
    }
    Ok(())
}

/// One valid record as it is, changed at each byte, cut at each length and
/// extended. `other` is a valid record to go with it.
fn whole_and_damaged(
    trial: &mut Trial,
    random: &mut Random,
    valid: &[u8],
    other: &[u8],
) -> Outcome {
    every_call(trial, valid, other, other)?;

    // The one before is damaged as well, but at another place or by another value.
    let mut before = valid.to_vec();
    for at in 0..valid.len() {
        for byte in replacements(random, valid, at) {
            let mut damaged = valid.to_vec();
            damaged[at] = byte;
            every_call(trial, &damaged, other, &before)?;
            before = damaged;
        }
    }
    for length in 0..valid.len() {
        // The rest of the record still follows the cut one in memory.
        every_call(trial, &valid[..length], other, &before)?;
    }
    for more in [1, 2, 3, 4, 128, 255, 70_000] {
        let mut extended = valid.to_vec();
        extended.extend((0..more).map(|_| random.byte()));
        every_call(trial, &extended, other, &before)?;
    }
    Ok(())
}

/// A record by itself and in the pairs that matter to the bytes at fault: with a
/// valid one, and with a bad one, in either place.
fn every_call(trial: &mut Trial, record: &[u8], valid: &[u8], bad: &[u8]) -> Outcome {
    trial.read(record)?;
    trial.summary(record)?;
    trial.fault(record, valid, 2)?;
    trial.fault(valid, record, 2)?;
    trial.fault(bad, record, 5)
}

/// Other values for one byte of a valid record.
fn replacements(random: &mut Random, valid: &[u8], at: usize) -> Vec<u8> {
    let mut values: Vec<u8> = if at < CUBES {
        // A header byte is cheap to try in full.
        (0..=255).collect()
    } else {
        let n = valid[2] as usize;
        // The cube's other mask: the record has it beside this byte.
        let beside = valid[if (at - CUBES) % 2 == 1 { at - 1 } else { at + 1 }];
        vec![
            // One input more or less, which may make a clash;
            valid[at] ^ 1 << random.below(n),
            // fewer literals, which makes one more often;
            0,
            // an input in both masks, if the cube has any;
            beside,
            // input n, if a mask can name it, and input 7;
            (1 << n) as u8,
            valid[at] | 0x80,
            random.byte(),
        ]
    };
    values.sort();
    values.dedup();
    values.retain(|&value| value != valid[at]);
    values
}

/// Records with one or two faults that are put in on purpose, often late.
pub fn spoiled_records(trial: &mut Trial) -> Outcome {
    let mut random = Random::new(103);
    let mut before = spoiled_record(&mut random);
    for _ in 0..6_000 {
        let bad = spoiled_record(&mut random);
        let valid = record(&any_function(&mut random));
        every_call(trial, &bad, &valid, &before)?;
        before = bad;
    }
    Ok(())
}

fn spoiled_record(random: &mut Random) -> Vec<u8> {
    let f = any_function(random);
    spoiled(random, f)
}

// ---- Lists that meet ----

/// Functions whose lists meet, in many ways and at every pattern.
pub fn clashes(trial: &mut Trial) -> Outcome {
    let mut random = Random::new(106);
    for n in 1..=INPUTS {
        for _ in 0..300 {
            let f = clashing(&mut random, n);
            let clash = f.first_clash().expect("made so");
            trial.clash(&f, clash)?;
        }
        for pattern in patterns(n) {
            for _ in 0..4 {
                let (f, clash) = clash_at(&mut random, n, pattern);
                trial.clash(&f, clash)?;
            }
        }
    }
    Ok(())
}

/// All lists of up to 4 right cubes of 1 input and up to 3 of 2 inputs that meet.
pub fn small_clashes(trial: &mut Trial) -> Outcome {
    for (n, most) in [(1, 4), (2, 3)] {
        let mut lists: Vec<Vec<Cube>> = vec![vec![]];
        for _ in 0..most {
            let longer = |list: &Vec<Cube>| {
                let list = list.clone();
                every_cube(n).into_iter().map(move |cube| [&list[..], &[cube]].concat())
            };
            lists = lists.iter().flat_map(longer).collect();
            for list in &lists {
                for a in 0..=list.len() {
                    let f = Function { n, on: list[..a].to_vec(), off: list[a..].to_vec() };
                    if let Some(clash) = f.first_clash() {
                        trial.clash(&f, clash)?;
                    }
                }
            }
        }
    }
    Ok(())
}

// ---- Pairs, and lent slices of every length ----

/// A few records of every sort: all pairs of them for the bytes at fault, and
/// slices too short, just right and longer than needed for each call.
pub fn pairs_and_slices(trial: &mut Trial) -> Outcome {
    let mut random = Random::new(104);
    let mut records: Vec<Vec<u8>> = NAMED.iter().map(|named| named.to_vec()).collect();
    records.push(vec![]);
    for _ in 0..100 {
        records.push(record(&any_function(&mut random)));
        records.push(spoiled_record(&mut random));
    }
    for (index, f) in records.iter().enumerate() {
        for slots in 0..=8 {
            trial.read_into(f, slots)?;
            trial.summary_into(f, slots)?;
        }
        for (other, g) in records.iter().enumerate() {
            trial.fault(f, g, (index + other) % 4)?;
        }
    }
    Ok(())
}

// ---- The writer ----

/// All pairs of lists of up to 3 bytes, odd lengths and bad cubes among them.
pub fn small_lists(trial: &mut Trial) -> Outcome {
    let mut lists: Vec<Vec<u8>> = vec![];
    every_string(&[0, 1, 2, 3, 4], &mut vec![], 3, &mut |list| {
        lists.push(list.to_vec());
        Ok(())
    })?;
    for on in &lists {
        for off in &lists {
            for n in [0, 1, 2, 3, 9] {
                // One cube in each list needs 9 bytes.
                for room in [0, 4, 5, 6, 7, 8, 9, 10] {
                    trial.write(n, on, off, room)?;
                }
            }
        }
    }
    Ok(())
}

/// The lists of valid records, as they are and damaged in every way.
pub fn lists_of_records(trial: &mut Trial) -> Outcome {
    let mut random = Random::new(105);
    for round in 0..200 {
        let f = if round < 8 {
            full_function(&mut random, 1 + round)
        } else {
            any_function(&mut random)
        };
        round_trip(trial, &f)?;
        other_lengths(trial, &mut random, &f)?;
        damaged_lists(trial, &mut random, &f)?;
    }
    for _ in 0..3_000 {
        // A spoiled record's lists, with the counts as they happen to be.
        let f = any_function(&mut random);
        let bad = spoiled(&mut random, f);
        let lists = bad.get(CUBES..).unwrap_or(&[]);
        let (on, off) = lists.split_at(random.below(lists.len() + 1) / 2 * 2);
        let n = bad.get(2).copied().unwrap_or(0);
        trial.write(n, on, off, random.below(300))?;
    }
    for n in 0..=255 {
        trial.write(n, &[0x01, 0x02], &[0x02, 0x01], 9)?;
        trial.write(n, &[0x80, 0x00], &[], 6)?;
        trial.write(n, &[0xFF], &[0xFF, 0xFF, 0xFF], 0)?;
    }
    Ok(())
}

/// Lists whose length is about as large as the answer's place can tell. They are never
/// read, so that the system gives no memory for them.
pub fn long_lists(trial: &mut Trial) -> Outcome {
    let longer = vec![0; (1 << 32) + 1];
    for length in [(1 << 32) - 3, (1 << 32) - 1, 1 << 32, (1 << 32) + 1] {
        trial.write(1, &longer[..length], &[], 9)?;
        trial.write(1, &[1, 0], &longer[..length], 9)?;
    }
    Ok(())
}

/// Writing an accepted record's n and lists gives the record, and reading what
/// was written gives n and the counts.
fn round_trip(trial: &mut Trial, f: &Function) -> Outcome {
    let (n, on, off) = (f.n as u8, bytes(&f.on), bytes(&f.off));
    let whole = record(f);
    for room in [0, whole.len() - 1, whole.len(), whole.len() + 1, whole.len() + 300] {
        trial.write(n, &on, &off, room)?;
    }
    // Said once more without the reference: only the calls and the record.
    let mut written = vec![0xA5; whole.len()];
    (trial.calls.write)(n, &on, &off, &mut written);
    if written != whole {
        return Err(format!("round trip: {} written as {}", hex(&whole), hex(&written)));
    }
    let mut numbers = [9; 3];
    (trial.calls.read)(&written, &mut numbers);
    if numbers != [f.n as u64, f.on.len() as u64, f.off.len() as u64] {
        return Err(format!("round trip: {} read back with {numbers:?}", hex(&written)));
    }
    Ok(())
}

/// Lists cut at every length, and lists longer than 64 cubes.
fn other_lengths(trial: &mut Trial, random: &mut Random, f: &Function) -> Outcome {
    let (n, on, off) = (f.n as u8, bytes(&f.on), bytes(&f.off));
    let room = record(f).len();
    for length in 0..on.len() {
        trial.write(n, &on[..length], &off, room)?;
    }
    for length in 0..off.len() {
        trial.write(n, &on, &off[..length], room)?;
        let both = on.len().min(length);
        trial.write(n, &on[..both], &off[..length], room)?;
    }
    for length in [127, 128, 129, 130, 131, 132, 255, 256, 257, 1_000, 70_000] {
        // More of the same cubes, so that the length alone is at fault; where a
        // list is empty, any bytes do.
        let long_on = repeated(random, &on, length);
        let long_off = repeated(random, &off, length);
        trial.write(n, &long_on, &off, 300)?;
        trial.write(n, &on, &long_off, 300)?;
        trial.write(n, &long_on, &long_off, 300)?;
    }
    Ok(())
}

fn repeated(random: &mut Random, list: &[u8], length: usize) -> Vec<u8> {
    if list.is_empty() {
        (0..length).map(|_| random.byte()).collect()
    } else {
        list.iter().copied().cycle().take(length).collect()
    }
}

/// Either list changed at each byte, in a buffer that is long enough or not.
fn damaged_lists(trial: &mut Trial, random: &mut Random, f: &Function) -> Outcome {
    let whole = record(f);
    let n = f.n as u8;
    let middle = CUBES + 2 * f.on.len();
    for at in CUBES..whole.len() {
        for byte in replacements(random, &whole, at) {
            let mut damaged = whole.clone();
            damaged[at] = byte;
            let (on, off) = (&damaged[CUBES..middle], &damaged[middle..]);
            let room = random.pick(&[0, whole.len() - 1, whole.len(), whole.len() + 7]);
            trial.write(n, on, off, room)?;
        }
    }
    Ok(())
}
