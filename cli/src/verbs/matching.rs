//! `zap match`: the first wiring under which two functions agree, or the refusal; for one g or for many.

use std::ffi::OsString;

use zap_calls::{Answer, LONGEST_CLAIM};

use super::check::none_agrees;
use super::{counted, indented, Verb};
use crate::args::{Args, Opt};
use crate::claim::{measure, Choice, Wiring};
use crate::function::Function;
use crate::input::{self, Came, Source, Taken};
use crate::json::Object;
use crate::keep::{self, HEX};
use crate::output::{trouble, Colour, Out, Trouble};
use crate::words::{count, hex};
use crate::{many, refusal, Status};

const FILE: Opt =
    keep::output("writes the claim to FILE, whole or not at all; - is standard output");

pub const VERB: Verb = Verb {
    name: "match",
    usage: "F G.. [-o FILE [--hex]]",
    about: "finds the first wiring under which two functions agree, or shows that there is none",
    options: &[&FILE, &HEX],
    more: "\
With one g: the wiring, or the refusal, which is measured where it would not fit a screen. -o keeps the claim.

With several, or a folder, which stands for the functions in it: f against each, a line each, and a table at the end.
A g with another number of inputs is told as such; it counts as no match. Claims and other text in a folder are passed
over. Exit status 0 if some g matches, 1 if none does, 2 if some function was refused or could not be read.
",
    run,
};

fn run(args: &Args, out: &mut Out) -> Result<Status, Trouble> {
    let [f, others @ ..] = &args.files[..] else { return VERB.misused() };
    keep::wants_file(args, &FILE)?;
    let f = input::take_function(f)?;
    match others {
        [] => VERB.misused(),
        [g] if g == "-" || !std::path::Path::new(g).is_dir() => one(args, &f, g, out),
        _ if args.has(&FILE) => trouble("-o keeps one claim, so it wants one g"),
        _ => several(args, &f, others, out),
    }
}

/// The archive's answer, and the claim in the buffer's start. The buffer holds every
/// claim, so the answer is never that it is too short.
fn find(f: &[u8], g: &[u8], buffer: &mut [u8]) -> Answer {
    Answer::of(zap_calls::find_match(f, g, buffer))
}

/// Its pages come into being as they are written to.
fn buffer() -> Vec<u8> {
    vec![0; LONGEST_CLAIM]
}

// ---- One g ----

/// More bytes than this do not fit a screen.
const SCREEN: usize = 24 * 16;

fn one(args: &Args, f: &Taken, g: &OsString, out: &mut Out) -> Result<Status, Trouble> {
    let g = input::take_function(g)?;
    let mut found = refusal::of_tables(f, &g).map(|answer| (answer, vec![]));
    let searches: &[()] = if found.is_some() { &[] } else { &[()] };
    many::each(
        searches,
        "searching",
        buffer,
        |buffer, ()| {
            let answer = find(&f.bytes, &g.bytes, buffer);
            let length = if answer.code == 0 { answer.place as usize } else { 0 };
            (answer, buffer[..length].to_vec())
        },
        |(), result| found = Some(result),
    );
    let (answer, claim) = found.expect("one result");
    let kept = match claim[..] {
        [] => None,
        _ => keep::keep_bytes(args, &FILE, &claim)?,
    };
    let mut aside = Out::error();
    let out = keep::beside(&kept, out, &mut aside);
    let parts = [f, &g];
    if args.json() {
        let object = Object::new(VERB.name).text("f", &f.name).text("g", &g.name);
        let object = match answer.code {
            0 => claimed(object, answer, &claim),
            _ => refusal::object(object, answer, &parts),
        };
        let object = match &kept {
            Some(file) => object.text("claim", file),
            None => object,
        };
        out.line(&object.end());
    } else if answer.code != 0 {
        refusal::show(out, answer, &parts);
    } else {
        show(out, answer, &claim, kept.as_deref(), args);
    }
    out.flush();
    Ok(status(answer))
}

fn status(answer: Answer) -> Status {
    match (answer.code, answer.kind) {
        (0, 1) => Status::Yes,
        (0, _) => Status::No,
        _ => refusal::status(answer),
    }
}

fn show(out: &mut Out, answer: Answer, claim: &[u8], kept: Option<&str>, args: &Args) {
    if answer.kind == 1 {
        let word = out.paint(Colour::Good, "match");
        out.line(&format!("{word}: f and g agree under this wiring, the first in order"));
        out.line("");
        indented(out, &Wiring::of(claim).picture());
        out.line("");
        out.line(&format!("claim: {}", hex(claim)));
    } else {
        let word = out.paint(Colour::Bad, "no match");
        out.line(&format!("{word}: {}", none_agrees(claim[2] as usize)));
        out.line("");
        out.line(&format!("claim: a refusal of {}", measure(claim)));
        if claim.len() <= SCREEN {
            refusal::plain_dump(out, claim);
        } else if kept.is_none() {
            out.line("  too long to be shown here; -o FILE writes it");
        }
    }
    if let Some(file) = kept.filter(|file| *file != "-") {
        out.line(&format!("written to {file}, {}", keep::form(args)));
    }
    refusal::numbers(out, answer);
}

/// What was found, for a script; a claim's bytes only where they are few. Of a longer
/// one, its first bytes are enough here.
fn claimed(object: Object, answer: Answer, claim: &[u8]) -> Object {
    let result = if answer.kind == 1 { "match" } else { "no match" };
    let mut object = object.text("result", result).answer(answer).number("n", claim[2] as usize);
    if answer.kind == 1 {
        let wiring = Wiring::of(claim);
        let choice = |(i, choice): (usize, &Choice)| {
            let object = Object::inner().number("f", i).number("g", choice.j);
            object.truth("inverted", choice.inverted).end()
        };
        object = object.number("q", wiring.q as usize);
        object = object.list("wiring", wiring.choices.iter().enumerate().map(choice));
    }
    let length = answer.place as usize;
    if length <= SCREEN {
        object = object.text("bytes", &hex(claim));
    }
    object.number("length", length)
}

// ---- Several ----

/// How f stands to one g.
enum Outcome {
    /// A match or a refusal, and the claim's first bytes.
    Claimed(Answer, Vec<u8>),
    OtherN(Answer, usize),
    Refused(Answer, Taken),
    Unread(String),
    PassedOver(&'static str),
}

fn several(args: &Args, f: &Taken, others: &[OsString], out: &mut Out) -> Result<Status, Trouble> {
    let sources = input::spread(others)?;
    // f's own fault is told once, and not for each g.
    let (answer, function) = Function::of(f);
    if function.is_none() {
        let object = Object::new(VERB.name).text("f", &f.name);
        return Ok(refusal::told(out, args.json(), object, answer, f));
    }
    let mut table = Table::default();
    let work = |buffer: &mut Vec<u8>, source: &Source| outcome(f, source, buffer);
    many::each(&sources, "matching", buffer, work, |source, outcome| {
        let name = input::name_of(&source.path);
        table.add(&name, &outcome);
        if args.json() {
            out.line(&object(f, &name, outcome).end());
        } else if let Some(line) = line(out, &name, &outcome) {
            out.line(&line);
        }
        // Each line as it comes: the next may take minutes.
        out.flush();
    });
    if !args.json() {
        table.show(out);
    }
    Ok(table.status())
}

fn outcome(f: &Taken, source: &Source, buffer: &mut [u8]) -> Outcome {
    let g = match source.take() {
        Came::Function(g) => g,
        Came::Unread(Trouble(why)) => return Outcome::Unread(why),
        Came::PassedOver(why) => return Outcome::PassedOver(why),
    };
    let answer = match refusal::of_tables(f, &g) {
        Some(answer) => answer,
        None => find(&f.bytes, &g.bytes, buffer),
    };
    match answer.code {
        // Its first bytes are enough for a line.
        0 => Outcome::Claimed(answer, buffer[..(answer.place as usize).min(SCREEN)].to_vec()),
        9 => Outcome::OtherN(answer, g.bytes[2] as usize),
        _ => Outcome::Refused(answer, g),
    }
}

fn line(out: &Out, name: &str, outcome: &Outcome) -> Option<String> {
    Some(match outcome {
        Outcome::Claimed(answer, claim) if answer.kind == 1 => {
            format!("{name}: {}: {}", out.paint(Colour::Good, "match"), Wiring::of(claim).line())
        }
        Outcome::Claimed(answer, _) => {
            format!("{name}: no match, a refusal of {}", count(answer.place as usize, "byte"))
        }
        Outcome::OtherN(_, n) => format!("{name}: no match, it has {}", count(*n, "input")),
        Outcome::Refused(answer, g) => {
            let word = out.paint(Colour::Bad, "refused");
            format!("{}: {word}: {}", g.described(), refusal::fault(*answer, g))
        }
        Outcome::Unread(why) => why.clone(),
        Outcome::PassedOver(_) => return None,
    })
}

fn object(f: &Taken, name: &str, outcome: Outcome) -> Object {
    let object = Object::new(VERB.name).text("f", &f.name).text("g", name);
    match outcome {
        Outcome::Claimed(answer, claim) => claimed(object, answer, &claim),
        Outcome::OtherN(answer, n) => {
            object.text("result", "other n").answer(answer).number("n", n)
        }
        Outcome::Refused(answer, g) => refusal::object(object, answer, &[&g, &g]),
        Outcome::Unread(why) => object.text("result", "unread").text("error", &why),
        Outcome::PassedOver(why) => object.text("result", "passed over").text("error", why),
    }
}

/// What the lines come to.
#[derive(Default)]
struct Table {
    names: [Vec<String>; 6],
}

const ROWS: [&str; 6] = ["match", "no match", "other n", "refused", "unread", "passed over"];

impl Table {
    fn add(&mut self, name: &str, outcome: &Outcome) {
        let row = match outcome {
            Outcome::Claimed(answer, _) if answer.kind == 1 => 0,
            Outcome::Claimed(..) => 1,
            Outcome::OtherN(..) => 2,
            Outcome::Refused(..) => 3,
            Outcome::Unread(_) => 4,
            Outcome::PassedOver(_) => 5,
        };
        self.names[row].push(name.to_string());
    }

    fn show(&self, out: &mut Out) {
        out.line("");
        for (row, names) in ROWS.iter().zip(&self.names) {
            if !names.is_empty() {
                out.line(&counted(row, names));
            }
        }
    }

    fn status(&self) -> Status {
        let [matches, _, _, refused, unread, _] = &self.names;
        if !refused.is_empty() || !unread.is_empty() {
            Status::Trouble
        } else if matches.is_empty() {
            Status::No
        } else {
            Status::Yes
        }
    }
}
