//! `zap record`: a function as its record, in bytes or in hex.

use super::Verb;
use crate::args::{Args, Opt};
use crate::function::Function;
use crate::input;
use crate::json::Object;
use crate::keep::{self, HEX};
use crate::output::{Out, Trouble};
use crate::words::{count, hex};
use crate::{refusal, Status};

const FILE: Opt =
    keep::output("writes the record to FILE, whole or not at all; - is standard output");

pub const VERB: Verb = Verb {
    name: "record",
    usage: "F [-o FILE [--hex]]",
    about: "prints a function's record in hex, or writes it to a file",
    options: &[&FILE, &HEX],
    more: "\
Of a table: its terms with output 1 as on cubes, those with output 0 as off cubes, each list in its order. -o writes
the bytes, and with --hex their hex.
",
    run,
};

fn run(args: &Args, out: &mut Out) -> Result<Status, Trouble> {
    let [file] = &args.files[..] else { return VERB.misused() };
    keep::wants_file(args, &FILE)?;
    let taken = input::take_function(file)?;
    let object = Object::new(VERB.name).text("file", &taken.name);
    let (answer, function) = Function::of(&taken);
    let Some(f) = function else {
        return Ok(refusal::told(out, args.json(), object, answer, &taken));
    };
    let record = &taken.bytes;
    let kept = keep::keep_bytes(args, &FILE, record)?;
    let mut aside = Out::error();
    let out = keep::beside(&kept, out, &mut aside);
    if args.json() {
        let object = object.text("result", "accepted").answer(answer).number("n", f.n);
        let object = object.text("bytes", &hex(record)).number("length", record.len());
        out.line(&keep::written(object, &kept).end());
    } else if let Some(file) = &kept {
        let (inputs, cubes) = (count(f.n, "input"), count(f.on.len() + f.off.len(), "cube"));
        out.line(&format!(
            "{}: {inputs}, {cubes}: {} on, {} off",
            taken.name,
            f.on.len(),
            f.off.len()
        ));
        if file != "-" {
            out.line(&format!("written to {file}, {}", keep::form(args)));
        }
        refusal::numbers(out, answer);
    } else {
        out.bytes(|sink| keep::write_hex(record, sink));
    }
    out.flush();
    Ok(Status::Yes)
}
