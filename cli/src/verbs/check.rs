//! `zap check`: a claim of any length, accepted or refused.

use zap_calls::Answer;

use super::{indented, take_three, Verb};
use crate::args::Args;
use crate::claim::{measure, Wiring};
use crate::input::Taken;
use crate::json::Object;
use crate::output::{Colour, Out, Trouble};
use crate::words::{number, wirings};
use crate::{refusal, Status};

pub const VERB: Verb = Verb {
    name: "check",
    usage: "F G CLAIM",
    about: "checks a claim about two functions: a match, or a refusal",
    options: &[],
    more: "A match is accepted exactly if the functions agree under its wiring, a refusal exactly if its trees prove that no\nwiring agrees. A refused claim is told by code and byte, a wiring that does not agree by the first pattern of g at\nwhich the functions disagree; `zap explain` shows more of it.\n",
    run,
};

fn run(args: &Args, out: &mut Out) -> Result<Status, Trouble> {
    let [f, g, claim] = take_three(args, &VERB)?;
    let (answer, status) = asked(&f, &g, &claim);
    let parts = [&f, &g, &claim];
    if args.json() {
        out.line(&object(VERB.name, answer, &parts).end());
    } else if answer.code != 0 {
        refusal::show(out, answer, &parts);
    } else {
        verdict(out, answer, &claim.bytes);
        out.line("");
        match answer.kind {
            1 => indented(out, &Wiring::of(&claim.bytes).picture()),
            _ => out.line(&format!("  {}", measure(&claim.bytes))),
        }
        out.line("");
        refusal::numbers(out, answer);
    }
    Ok(status)
}

/// What the archive says of the claim, and the exit status that goes with it.
pub fn asked(f: &Taken, g: &Taken, claim: &Taken) -> (Answer, Status) {
    let checked = || Answer::of(zap_calls::check(&f.bytes, &g.bytes, &claim.bytes));
    let answer = refusal::of_tables(f, g).unwrap_or_else(checked);
    (answer, if answer.code == 0 { Status::Yes } else { refusal::status(answer) })
}

/// The answer for a script.
pub fn object(verb: &str, answer: Answer, parts: &[&Taken; 3]) -> Object {
    let named = ["f", "g", "claim"].iter().zip(parts);
    let object =
        named.fold(Object::new(verb), |object, (name, part)| object.text(name, &part.name));
    let accepted = if answer.kind == 1 { "match accepted" } else { "refusal accepted" };
    match answer.code {
        0 => object.text("result", accepted).answer(answer),
        _ => refusal::object(object, answer, parts),
    }
}

/// What it means that the claim is accepted.
pub fn verdict(out: &mut Out, answer: Answer, claim: &[u8]) {
    let word = out.paint(Colour::Good, "accepted");
    out.line(&match answer.kind {
        1 => format!("{word}: the match holds, f and g agree under this wiring"),
        _ => format!("{word}: the refusal holds, {}", none_agrees(claim[2] as usize)),
    });
}

/// `none of the 16 wirings agrees`.
pub fn none_agrees(n: usize) -> String {
    format!("none of the {} wirings agrees", number(wirings(n)))
}
