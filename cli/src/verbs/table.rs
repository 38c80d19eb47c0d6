//! `zap table`: a function as an espresso table.

use zap_calls::{Answer, LONGEST_TABLE};

use super::Verb;
use crate::args::{Args, Opt};
use crate::input::{self, Taken};
use crate::json::Object;
use crate::keep;
use crate::output::{Out, Trouble};
use crate::words::count;
use crate::{refusal, Status};

const FILE: Opt =
    keep::output("writes the table to FILE, whole or not at all; - is standard output");

pub const VERB: Verb = Verb {
    name: "table",
    usage: "F [-o FILE]",
    about: "prints a function as an espresso table",
    options: &[&FILE],
    more: "\
On cubes come first, as terms with output 1, then off cubes, with output 0, each list in its order; reading the table
gives the same record again. A table is put into this form too: comments, and terms that add nothing, are left out.
",
    run,
};

fn run(args: &Args, out: &mut Out) -> Result<Status, Trouble> {
    let [file] = &args.files[..] else { return VERB.misused() };
    let taken = input::take_function(file)?;
    let object = Object::new(VERB.name).text("file", &taken.name);
    let (answer, text) = written(&taken);
    if answer.code != 0 {
        return Ok(refusal::told(out, args.json(), object, answer, &taken));
    }
    let kept = keep::keep(args, &FILE, |sink| sink.write_all(text.as_bytes()))?;
    let mut aside = Out::error();
    let out = keep::beside(&kept, out, &mut aside);
    // Of an accepted record.
    let [n, on, off] = [2, 3, 4].map(|at| taken.bytes[at] as usize);
    if args.json() {
        let object = object.text("result", "accepted").answer(answer).number("n", n);
        let object = object.number("terms", on + off).text("text", &text);
        out.line(&keep::written(object, &kept).end());
    } else if let Some(file) = &kept {
        let terms = count(on + off, "term");
        out.line(&format!("{}: {}, {terms}: {on} on, {off} off", taken.name, count(n, "input")));
        if file != "-" {
            out.line(&format!("written to {file}"));
        }
        refusal::numbers(out, answer);
    } else {
        out.text(&text);
    }
    out.flush();
    Ok(Status::Yes)
}

/// The archive's answer, and the text. The buffer holds every table.
fn written(taken: &Taken) -> (Answer, String) {
    if let Some(table) = &taken.refused {
        return (table.answer, String::new());
    }
    let mut text = vec![0; LONGEST_TABLE];
    let answer = Answer::of(zap_calls::write_table(&taken.bytes, &mut text));
    text.truncate(if answer.code == 0 { answer.place as usize } else { 0 });
    (answer, String::from_utf8_lossy(&text).into_owned())
}
