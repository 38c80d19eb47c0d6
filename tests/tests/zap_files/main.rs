//! The command `zap` and files: the ways in which bytes may be written, what cannot be
//! read, what is written, pipes, terminals and names.
//!
//! What is expected was worked out by hand, or comes from the reference. All of it
//! holds for root and for a plain user.

mod faults;
mod longest;
mod names;
mod pipes;
mod terminals;
mod ways;
mod written;
