//! How long the calls take, beside the same work in plain Rust.
//!
//! Run by `cargo run --release --offline`; with `-- --smoke` it takes small inputs
//! once and only compares answers. The archives are looked for in
//! ../target/staticlib, or where ZAP_ARCHIVES says.
//!
//! - `zap_calls`: the functions under test, taken from the static archives;
//! - `plain`: the same in plain Rust, as one would write it without proofs;
//! - `inputs`: functions, claims and tables, made with fixed seeds;
//! - `table`: both sides run in turn, and the tables of the best times.
//!
//! The checker's rows are told in bytes of the claim, the matcher's in nodes of the
//! search: prefixes that it looks for a dead pair in. Nodes are counted apart from
//! the timed runs. A refusal goes through them twice, to measure and to write. The
//! tables' rows are told in bytes of their text, read or written.

mod inputs;
mod plain;
mod table;

use std::env;
use std::process::ExitCode;

use inputs::tables::{large_tables, small_tables, Call, Input, Tables};
use inputs::{Claim, Claims, Pair, Pairs};
use table::{Row, Side, Table};
use zap_calls as calls;

fn main() -> ExitCode {
    let words: Vec<String> = env::args().skip(1).collect();
    // Every table, even after one in which something differs.
    let all = |ran: [bool; 3]| ran == [true; 3];
    let same = match words.iter().map(String::as_str).collect::<Vec<&str>>()[..] {
        [] => all([
            checker(inputs::large_claims()),
            matcher(inputs::large_pairs()),
            tables(large_tables()),
        ]
        .map(|table| table::timed(&table))),
        ["--smoke"] => all([
            checker(inputs::small_claims()),
            matcher(inputs::small_pairs()),
            tables(small_tables()),
        ]
        .map(|table| table::compared(&table))),
        _ => {
            eprintln!("usage: zap-bench [--smoke]");
            false
        }
    };
    if same {
        ExitCode::SUCCESS
    } else {
        ExitCode::FAILURE
    }
}

/// The checker's rows: one for each claim, or for several that are alike.
fn checker(inputs: Vec<Claims>) -> Table {
    let row = |input: Claims| {
        let Claims { name, claims, times } = input;
        let side = |check: fn(&[u8], &[u8], &[u8]) -> u64| -> Side {
            let claims = claims.clone();
            let one = move |Claim { f, g, claim }: &Claim, _: &mut [u8]| check(f, g, claim);
            Box::new(move |out| each(&claims, |_| 0, one, out))
        };
        let (ours, plain) = (side(calls::check), side(plain::check));
        let amount = claims.iter().map(|claim| claim.claim.len()).sum();
        Row { name: format!("check, {name}"), amount, room: 0, times, ours, plain }
    };
    Table { unit: "bytes", rows: inputs.into_iter().map(row).collect() }
}

/// The matcher's rows: one for several pairs of functions.
fn matcher(inputs: Vec<Pairs>) -> Table {
    let row = |input: Pairs| {
        let Pairs { name, pairs } = input;
        let side = |find: fn(&[u8], &[u8], &mut [u8]) -> u64| -> Side {
            let pairs = pairs.clone();
            let one = move |Pair { f, g, .. }: &Pair, out: &mut [u8]| find(f, g, out);
            Box::new(move |out| each(&pairs, |pair| pair.room, one, out))
        };
        let (ours, plain) = (side(calls::find_match), side(plain::find_match));
        let amount = pairs.iter().map(|pair| plain::matcher::nodes(&pair.f, &pair.g)).sum();
        let room = pairs.iter().map(|pair| pair.room).sum();
        Row { name: format!("match, {name}"), amount, room, times: 1, ours, plain }
    };
    Table { unit: "nodes", rows: inputs.into_iter().map(row).collect() }
}

/// The tables' rows: one for several texts or records.
fn tables(inputs: Vec<Tables>) -> Table {
    let row = |input: Tables| {
        let Tables { name, call, inputs, times } = input;
        let side = |make: fn(&[u8], &mut [u8]) -> u64| -> Side {
            let inputs = inputs.clone();
            let one = move |input: &Input, out: &mut [u8]| make(&input.bytes, out);
            Box::new(move |out| each(&inputs, |input| input.room, one, out))
        };
        let room = inputs.iter().map(|input| input.room).sum();
        let (what, amount, ours, plain) = match call {
            Call::Read => {
                let amount = inputs.iter().map(|input| input.bytes.len()).sum();
                ("read", amount, side(calls::read_table), side(plain::read_table))
            }
            Call::Write => ("write", room, side(calls::write_table), side(plain::write_table)),
        };
        Row { name: format!("{what}, {name}"), amount, room, times, ours, plain }
    };
    Table { unit: "bytes", rows: inputs.into_iter().map(row).collect() }
}

/// One input after another, each with its own part of the slice: a number that all
/// answers have their share in.
fn each<T>(
    inputs: &[T],
    room: impl Fn(&T) -> usize,
    call: impl Fn(&T, &mut [u8]) -> u64,
    out: &mut [u8],
) -> u64 {
    let mut rest = out;
    let mut answers: u64 = 0;
    for input in inputs {
        let (part, more) = rest.split_at_mut(room(input));
        answers = answers.rotate_left(1) ^ call(input, part);
        rest = more;
    }
    answers
}
