//! Document 01 in plain Rust, written from its text; `table` from request W-201.
//!
//! Wherever 01 speaks of patterns, the patterns are gone through one by one and
//! each input is looked at. This is slow on purpose: the calls under test work
//! with masks, and a reference that did the same could share their mistakes.

pub mod agreement;
pub mod answer;
pub mod checker;
pub mod claim;
pub mod dead;
pub mod fault;
pub mod matcher;
pub mod pair;
pub mod pattern;
pub mod programs;
pub mod record;
pub mod summary;
pub mod table;
pub mod two;
pub mod wiring;
pub mod writer;
