//! Tests of the calls of document 01 against an implementation of its own.
//!
//! Run by `cargo test --release --offline`. The archives under test are looked for
//! in ../target/staticlib, or where ZAP_ARCHIVES says; the programs in ../target/bin,
//! or where ZAP_PROGRAMS says; the command `zap` in ../cli/target/release, or where
//! ZAP_BINARY says.
//!
//! - `reference`: 01 and the requests in plain Rust, from their text, by patterns and
//!   brute force;
//! - `calls`: the functions under test, taken from the static archives;
//! - `command`: the command `zap`, run as a person runs it;
//! - `json`: a reader for what it prints for scripts;
//! - `random`: a generator with fixed seeds, and the functions made by it;
//! - `records`: the calls on function records, held against the reference;
//! - `wirings`: the call for dead pairs under a partial wiring, likewise;
//! - `claims`: the checker, likewise;
//! - `matches`: the matcher, likewise;
//! - `tables`: the calls on espresso tables, likewise;
//! - `programs`: the programs, run and held against the reference;
//! - `patterns`: what gives codes 7 and 14 with many patterns, and wrong patterns;
//! - `cases`: the small functions and cases that 01 names, with its numbers;
//! - `lent`: slices lent to a call, with known elements in them and around them;
//! - `wrong`: what the tests of mistakes share;
//! - `tally`, `show`: what was compared, and how bytes and answers are printed.

pub mod calls;
pub mod cases;
pub mod claims;
pub mod command;
pub mod json;
pub mod lent;
pub mod matches;
pub mod patterns;
pub mod programs;
pub mod random;
pub mod records;
pub mod reference;
pub mod show;
pub mod tables;
pub mod tally;
pub mod wirings;
pub mod wrong;
