//! Both sides run in turn, and what is printed of it.

use std::hint::black_box;
use std::time::{Duration, Instant};

/// One side's work on an input that it holds: the packed answer, and what it
/// writes into the slice lent to it.
pub type Side = Box<dyn Fn(&mut [u8]) -> u64>;

pub struct Row {
    pub name: String,
    /// How much the work goes through, in the table's unit.
    pub amount: usize,
    /// How many bytes are lent.
    pub room: usize,
    /// How often the work is done for one time taken: a short one is done often.
    pub times: u32,
    pub ours: Side,
    pub plain: Side,
}

pub struct Table {
    /// What the work goes through.
    pub unit: &'static str,
    pub rows: Vec<Row>,
}

/// So many times are taken of each side, in turn, and the best is kept.
const REPEATS: usize = 9;

/// Prints the table; whether both sides answered and wrote the same.
pub fn timed(Table { unit, rows }: &Table) -> bool {
    println!(
        "{:<50} {unit:>10} {:>10} {:>10} {:>10} {:>10} {:>6}",
        "input", "ours ms", "plain ms", "ours M/s", "plain M/s", "ratio"
    );
    let mut same = true;
    for row in rows {
        same &= agree(row);
        let mut out = vec![0; row.room];
        let mut best = [Duration::MAX; 2];
        for _ in 0..REPEATS {
            for (side, best) in [&row.ours, &row.plain].into_iter().zip(&mut best) {
                *best = time(side, row.times, &mut out).min(*best);
            }
        }
        let [ours, plain] = best.map(|best| best.as_secs_f64() * 1e3 / row.times as f64);
        // So many in a millisecond are a thousand times as many in a second.
        let [ours_rate, plain_rate] = [ours, plain].map(|time| row.amount as f64 / time / 1e3);
        println!(
            "{:<50} {:>10} {ours:>10.4} {plain:>10.4} {ours_rate:>10.2} {plain_rate:>10.2} {:>6.2}",
            row.name,
            row.amount,
            ours / plain
        );
    }
    println!();
    same
}

fn time(side: &Side, times: u32, out: &mut [u8]) -> Duration {
    let start = Instant::now();
    for _ in 0..times {
        black_box(side(black_box(out)));
    }
    start.elapsed()
}

/// Runs each row once; whether both sides answered and wrote the same.
pub fn compared(Table { rows, .. }: &Table) -> bool {
    // All of them, even after one that differs.
    let differing = rows.iter().filter(|row| !agree(row)).count();
    println!("{} inputs, {differing} answered otherwise", rows.len());
    differing == 0
}

fn agree(row: &Row) -> bool {
    let [ours, plain] = [&row.ours, &row.plain].map(|side| {
        let mut out = vec![0; row.room];
        (side(&mut out), out)
    });
    if ours.0 != plain.0 {
        println!("{}: ours {:#X}, plain {:#X}", row.name, ours.0, plain.0);
    } else if let Some(at) = ours.1.iter().zip(&plain.1).position(|(one, other)| one != other) {
        println!("{}: ours {:#X} at {at}, plain {:#X}", row.name, ours.1[at], plain.1[at]);
    }
    ours == plain
}
