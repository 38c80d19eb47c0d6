//! The command `zap`: what the proved calls answer, for people and for scripts.
//!
//! It decides nothing itself. Whether functions agree, a claim holds or bytes are
//! refused, and why, is what the archive of `host` says; here files are read, calls
//! made, and answers put into words, tables and maps.
//!
//! - `verbs`: the table of verbs, which is the help; a verb is one file;
//! - `args`: the words of a command line;
//! - `input`: files as bytes; `output`: text, colour, files written whole; `keep`: -o;
//! - `words`: codes and numbers in words; `json`: objects for scripts;
//! - `function`, `map`, `claim`: records and claims taken apart to be shown;
//! - `refusal`: a refusal in words, with the bytes at fault marked; `table`: that of a
//!   table, with its lines;
//! - `many`: work on all cores, with a progress line.

mod args;
mod claim;
mod function;
mod input;
mod json;
mod keep;
mod many;
mod map;
mod output;
mod refusal;
mod table;
mod verbs;
mod words;

use std::env;
use std::ffi::OsString;
use std::process::ExitCode;

use json::Object;
use output::{Out, Trouble};

/// As grep and cmp have it.
#[derive(Clone, Copy, Debug, PartialEq, Eq, PartialOrd, Ord)]
pub enum Status {
    /// A match, an accepted claim, a function shown.
    Yes = 0,
    /// No match, a refused claim.
    No = 1,
    /// A function that is refused, wrong use, a file that cannot be read or written.
    Trouble = 2,
}

fn main() -> ExitCode {
    let words: Vec<OsString> = env::args_os().skip(1).collect();
    ExitCode::from(run(&words) as u8)
}

fn run(words: &[OsString]) -> Status {
    let Some((name, rest)) = words.split_first() else {
        let mut out = Out::error();
        out.text(&verbs::overview());
        out.flush();
        return Status::Trouble;
    };
    let json = rest.iter().take_while(|word| *word != "--").any(|word| word == "--json");
    let mut out = Out::standard();
    let ended = verbs::run(&name.to_string_lossy(), rest, &mut out);
    let status = ended.unwrap_or_else(|Trouble(why)| {
        if json {
            let object = Object::new(&name.to_string_lossy()).text("result", "trouble");
            out.line(&object.text("error", &why).end());
        }
        out.flush();
        output::complain(&why);
        Status::Trouble
    });
    out.flush();
    status
}
