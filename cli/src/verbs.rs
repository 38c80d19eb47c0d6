//! The table of verbs, which is the help. A verb is one file.

mod check;
mod explain;
mod help;
mod matching;
mod record;
mod show;
mod summary;
mod table;

use std::ffi::OsString;

use crate::args::{Args, Opt, JSON};
use crate::input::{self, Taken};
use crate::output::{trouble, Out, Trouble};
use crate::words::{nearest, number};
use crate::Status;

pub struct Verb {
    pub name: &'static str,
    /// What follows the name.
    pub usage: &'static str,
    pub about: &'static str,
    /// Besides --json, which every verb takes.
    pub options: &'static [&'static Opt],
    pub more: &'static str,
    pub run: fn(&Args, &mut Out) -> Result<Status, Trouble>,
}

const VERBS: [&Verb; 8] = [
    &matching::VERB,
    &check::VERB,
    &summary::VERB,
    &show::VERB,
    &explain::VERB,
    &table::VERB,
    &record::VERB,
    &help::VERB,
];

impl Verb {
    fn options(&self) -> Vec<&'static Opt> {
        self.options.iter().copied().chain([&JSON]).collect()
    }

    /// Its page of help.
    fn page(&self) -> String {
        let mut page = format!("zap {} {}\n\n{}\n", self.name, self.usage, self.more);
        for Opt { long, short, value, about } in self.options() {
            let short = short.map_or(String::new(), |short| format!("{short}, "));
            let value = value.map_or(String::new(), |value| format!(" {value}"));
            page += &format!("  {:20}  {about}\n", format!("{short}{long}{value}"));
        }
        page
    }

    /// Wrong use: how it is used, in a line.
    fn misused<T>(&self) -> Result<T, Trouble> {
        trouble(format!("usage: zap {} {}", self.name, self.usage))
    }
}

/// Runs the verb of this name on the words after it.
pub fn run(name: &str, words: &[OsString], out: &mut Out) -> Result<Status, Trouble> {
    let name = match name {
        "-h" | "--help" => "help",
        "--version" => {
            out.line(concat!("zap ", env!("CARGO_PKG_VERSION")));
            return Ok(Status::Yes);
        }
        name => name,
    };
    let verb = find(name)?;
    if words.iter().take_while(|word| *word != "--").any(|word| word == "--help" || word == "-h") {
        out.text(&verb.page());
        return Ok(Status::Yes);
    }
    let args = Args::of(verb.name, &verb.options(), words)?;
    (verb.run)(&args, out)
}

fn find(name: &str) -> Result<&'static Verb, Trouble> {
    if let Some(verb) = VERBS.iter().find(|verb| verb.name == name) {
        return Ok(verb);
    }
    match nearest(name, VERBS.iter().map(|verb| verb.name)) {
        Some(near) => trouble(format!("there is no verb {name}; did you mean {near}?")),
        None => trouble(format!("there is no verb {name}; zap help lists them")),
    }
}

/// All verbs in a few lines.
pub fn overview() -> String {
    let mut text = String::new();
    for Verb { name, usage, about, .. } in VERBS {
        text += &format!("zap {name} {usage}\n    {about}\n");
    }
    text + help::GROUNDS
}

/// Lines that stand apart from the words around them.
fn indented(out: &mut Out, lines: &[String]) {
    lines.iter().for_each(|line| out.line(&format!("  {line}")));
}

/// A row of a table at the end: how many came to this, and the first of them.
fn counted(what: &str, names: &[String]) -> String {
    const NAMED: usize = 5;
    let more = if names.len() > NAMED { ", .." } else { "" };
    let listed = names[..names.len().min(NAMED)].join(", ");
    format!("{what:12}{:>7}  {listed}{more}", number(names.len()))
}

/// f, g and a claim, in that order.
fn take_three(args: &Args, verb: &Verb) -> Result<[Taken; 3], Trouble> {
    let [f, g, claim] = &args.files[..] else { return verb.misused() };
    Ok([input::take_function(f)?, input::take_function(g)?, input::take_claim(claim)?])
}
