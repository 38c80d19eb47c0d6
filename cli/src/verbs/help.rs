//! `zap help`: the table of verbs, a verb's page, the table of codes.

use super::{find, overview, Verb, VERBS};
use crate::args::Args;
use crate::json::Object;
use crate::output::{Out, Trouble};
use crate::words::{Code, CODES};
use crate::Status;

pub const VERB: Verb = Verb {
    name: "help",
    usage: "[VERB | codes]",
    about: "tells how a verb is used, or what each code of a refusal means",
    options: &[],
    more: "Without a word it lists the verbs. `zap help codes` has every code of a refusal, and what the place and the\npattern beside it tell.\n",
    run,
};

/// What holds for every verb.
pub const GROUNDS: &str = "
A function or a claim is a file of its bytes, or of the bytes in hex: white space, commas, 0x and # comments are
fine. A function may also be an espresso table with one output (.i, .o 1, .type fr, .p, terms, .e). `-` is standard
input. docs/FORMATS.md tells how functions, tables and claims are written.

Every verb takes --json: one object a line. There is colour on a terminal alone, and none if NO_COLOR is set.

Exit status: 0 a match, an accepted claim; 1 no match, a refused claim; 2 a function that is refused, wrong use, a
file that cannot be read or written.
";

fn run(args: &Args, out: &mut Out) -> Result<Status, Trouble> {
    match &args.files[..] {
        [] if args.json() => VERBS.iter().for_each(|verb| out.line(&object(verb).end())),
        [] => out.text(&overview()),
        [word] if word == "codes" => codes(args.json(), out),
        [word] => {
            let verb = find(&word.to_string_lossy())?;
            match args.json() {
                true => out.line(&object(verb).text("page", &verb.page()).end()),
                false => out.text(&verb.page()),
            }
        }
        _ => return VERB.misused(),
    }
    Ok(Status::Yes)
}

fn object(Verb { name, usage, about, .. }: &Verb) -> Object {
    let object = Object::new(VERB.name).text("result", "verb").text("name", name);
    object.text("usage", usage).text("about", about)
}

fn codes(json: bool, out: &mut Out) {
    if !json {
        out.line("code  given when, the place beside it, and the pattern if it is not always 0");
    }
    for Code { number, words, place, pattern } in CODES {
        if json {
            let object = Object::new(VERB.name).text("result", "code");
            let object = object.raw("code", &number.to_string());
            let object = object.text("words", words).text("place", place);
            let object = match pattern {
                Some(pattern) => object.text("pattern", pattern),
                None => object,
            };
            out.line(&object.end());
        } else {
            let pattern = pattern.map_or(String::new(), |pattern| format!("; pattern: {pattern}"));
            out.line(&format!("{number:>4}  {words}: {place}{pattern}"));
        }
    }
}
