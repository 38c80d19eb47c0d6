//! `zap summary`: how many patterns are on, off and open, and how many inputs are in use.

use super::{counted, Verb};
use crate::args::Args;
use crate::function::Function;
use crate::input::{self, Came, Taken};
use crate::json::Object;
use crate::output::{complain, Out, Trouble};
use crate::words::count;
use crate::{refusal, Status};

pub const VERB: Verb = Verb {
    name: "summary",
    usage: "F..",
    about: "counts the on, off and open patterns of functions, and their inputs in use",
    options: &[],
    more: "A line for each function, a table for several. A folder stands for the functions in it; claims and other text there are\npassed over, and counted. A pattern in several cubes counts once; an input is in use if some cube names it.\n",
    run,
};

const HEADS: [&str; 6] = ["inputs", "on", "off", "open", "in use", "function"];

fn run(args: &Args, out: &mut Out) -> Result<Status, Trouble> {
    if args.files.is_empty() {
        return VERB.misused();
    }
    let sources = input::spread(&args.files)?;
    let table = (sources.len() > 1 || sources[0].of_folder) && !args.json();
    if table {
        out.line(&row(HEADS.map(str::to_string)));
    }
    let mut status = Status::Yes;
    let mut passed_over = vec![];
    for source in &sources {
        let name = input::name_of(&source.path);
        let object = Object::new(VERB.name).text("file", &name);
        let came = match source.take() {
            Came::Function(taken) => one(args.json(), table, object, taken, out),
            Came::Unread(Trouble(why)) => {
                if args.json() {
                    out.line(&object.text("result", "unread").text("error", &why).end());
                } else {
                    out.flush();
                    complain(&why);
                }
                Status::Trouble
            }
            Came::PassedOver(why) => {
                if args.json() {
                    out.line(&object.text("result", "passed over").text("error", why).end());
                }
                passed_over.push(name);
                Status::Yes
            }
        };
        status = status.max(came);
    }
    if table && !passed_over.is_empty() {
        out.line("");
        out.line(&counted("passed over", &passed_over));
    }
    Ok(status)
}

fn one(json: bool, table: bool, object: Object, taken: Taken, out: &mut Out) -> Status {
    let (answer, function) = Function::of(&taken);
    let Some(f) = function else {
        if json {
            out.line(&refusal::object(object, answer, &[&taken]).end());
        } else {
            let margin = if table { 34 } else { 0 };
            out.line(&format!(
                "{:margin$}{}: refused: {}",
                "",
                taken.described(),
                refusal::fault(answer, &taken)
            ));
        }
        return Status::Trouble;
    };
    let figures = [f.n, f.on_patterns, f.off_patterns, f.open_patterns(), f.in_use];
    if json {
        let names = ["n", "on", "off", "open", "in_use"];
        let object = object.text("result", "accepted").answer(answer);
        let object =
            names.iter().zip(figures).fold(object, |o, (name, figure)| o.number(name, figure));
        out.line(&object.end());
    } else if table {
        let [n, on, off, open, used] = figures.map(|figure| figure.to_string());
        out.line(&row([n, on, off, open, used, taken.name]));
    } else {
        out.line(&format!("{}: {}", taken.name, figures_in_words(&f)));
    }
    Status::Yes
}

fn row([n, on, off, open, used, name]: [String; 6]) -> String {
    format!("{n:>6}{on:>6}{off:>6}{open:>6}{used:>8}  {name}")
}

/// `2 inputs, 2 in use; 1 pattern on, 3 off, 0 open`.
pub fn figures_in_words(f: &Function) -> String {
    let (inputs, on) = (count(f.n, "input"), count(f.on_patterns, "pattern"));
    format!(
        "{inputs}, {} in use; {on} on, {} off, {} open",
        f.in_use,
        f.off_patterns,
        f.open_patterns()
    )
}
