//! The programs, held against the reference.
//!
//! A `Trial` has the programs under test. Its methods run them on an input and
//! compare all that they print with what the reference says. `run` runs a program,
//! `sweeps` has the inputs.

pub mod run;
pub mod sweeps;

use std::env;
use std::path::{Path, PathBuf};
use std::process::Command;

use crate::records::Outcome;
use crate::reference::answer::{OF_F, OF_G};
use crate::reference::programs::{check_claim, match_pair, Reply};
use crate::show::hex_near;
use crate::tally::Tally;
use run::{run, Portions};

/// A program, or a wrong one in its place: what it prints for an input that comes in
/// portions, or what is wrong with its run.
pub type Program = Box<dyn Fn(&[u8], &Portions) -> Result<String, String>>;

pub struct Programs {
    pub match_pair: Program,
    pub check_claim: Program,
}

impl Programs {
    /// Those in ../target/bin, or in the folder named by ZAP_PROGRAMS. A relative path
    /// counts from this package.
    pub fn built() -> Programs {
        let package = Path::new(env!("CARGO_MANIFEST_DIR"));
        let folder = env::var_os("ZAP_PROGRAMS").unwrap_or("../target/bin".into());
        let program = |name| started(package.join(&folder).join(name));
        Programs { match_pair: program("match_pair"), check_claim: program("check_claim") }
    }
}

/// The program of a file.
fn started(file: PathBuf) -> Program {
    if !file.exists() {
        panic!("{} is missing: build it, or set ZAP_PROGRAMS to its folder", file.display());
    }
    Box::new(move |input, portions| run(Command::new(&file), input, portions))
}

/// The lines of the tally for a program: all answers by code, those that refuse a
/// record by code, the accepted ones by kind, and codes 7 and 14 by pattern.
pub struct Lines {
    pub program: &'static str,
    pub of_f: &'static str,
    pub of_g: &'static str,
    pub accepted: &'static str,
    pub clashes: &'static str,
    pub disagreements: &'static str,
}

pub const MATCH_PAIR: Lines = Lines {
    program: "match_pair",
    of_f: "match_pair, f refused",
    of_g: "match_pair, g refused",
    accepted: "match_pair, accepted, by kind",
    clashes: "match_pair, 7 by pattern",
    disagreements: "match_pair, 14 by pattern",
};

pub const CHECK_CLAIM: Lines = Lines {
    program: "check_claim",
    of_f: "check_claim, f refused",
    of_g: "check_claim, g refused",
    accepted: "check_claim, accepted, by kind",
    clashes: "check_claim, 7 by pattern",
    disagreements: "check_claim, 14 by pattern",
};

/// Claims that are too long have no code.
pub const TOO_LONG: &str = "check_claim, too long";
pub const NO_CODE: u64 = 0;

pub struct Trial {
    programs: Programs,
    pub tally: Tally,
}

impl Trial {
    pub fn new(programs: Programs) -> Trial {
        Trial { programs, tally: Tally::default() }
    }

    /// An input in one piece.
    pub fn input(&mut self, input: &[u8]) -> Outcome {
        self.portions(input, &Portions::ONE)
    }

    /// An input in portions. What is meant for one program, the other has to take too.
    pub fn portions(&mut self, input: &[u8], portions: &Portions) -> Outcome {
        let of_match = (self.programs.match_pair)(input, portions);
        self.compare(MATCH_PAIR, input, portions, match_pair(input), of_match)?;
        self.check(input, portions)
    }

    /// The check program alone: of many inputs the other one would search for long.
    pub fn check(&mut self, input: &[u8], portions: &Portions) -> Outcome {
        let of_check = (self.programs.check_claim)(input, portions);
        self.compare(CHECK_CLAIM, input, portions, check_claim(input), of_check)
    }

    fn compare(
        &mut self,
        lines: Lines,
        input: &[u8],
        portions: &Portions,
        want: Reply,
        got: Result<String, String>,
    ) -> Outcome {
        if got != Ok(want.text()) {
            return Err(format!(
                "{}, {} portions, pause {:?}\n  input {}\n  want {:?}\n  got  {got:?}",
                lines.program,
                portions.cut(input).len(),
                portions.pause,
                hex_near(input, 0),
                want.text(),
            ));
        }
        let Reply::Told(answer, _) = want else {
            self.tally.add(TOO_LONG, NO_CODE);
            return Ok(());
        };
        self.tally.add(lines.program, answer.code);
        match answer.code {
            7 => self.tally.add(lines.clashes, answer.pattern),
            14 => self.tally.add(lines.disagreements, answer.pattern),
            _ => {}
        }
        match answer.record {
            0 => self.tally.add(lines.accepted, answer.kind),
            OF_F => self.tally.add(lines.of_f, answer.code),
            OF_G => self.tally.add(lines.of_g, answer.code),
            _ => {}
        }
        Ok(())
    }
}
