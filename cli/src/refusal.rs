//! A refusal in words, with the bytes at fault marked in a dump, or the lines of a table.

use zap_calls::Answer;

use crate::claim::{Both, Wiring};
use crate::function::{clash, lists, share, Function};
use crate::input::{marked_as, Form, Taken};
use crate::json::Object;
use crate::output::{Colour, Out};
use crate::words::{self, number};
use crate::Status;

/// Bytes in a line of a dump.
const ROW: usize = 16;

/// More bytes than this are shown near the fault alone, with so many rows before it
/// and after it.
const WHOLE: usize = 272;
const NEAR: usize = 3;

/// Whose fault it is: f, g or the claim, by the answer's record.
pub fn at_fault<'a>(answer: Answer, parts: &[&'a Taken]) -> Option<&'a Taken> {
    parts.get((answer.record as usize).checked_sub(1)?).copied()
}

/// Where f or g is a refused table, there are no two records to make a call with: what
/// is told then. f's own fault comes before any of g. A table is read by itself, as
/// record 1; as g it is record 2.
pub fn of_tables(f: &Taken, g: &Taken) -> Option<Answer> {
    let table = f.refused.as_ref().or(g.refused.as_ref())?;
    let (of_f, function) = Function::of(f);
    Some(match function {
        None => of_f,
        Some(_) => Answer { record: 2, ..table.answer },
    })
}

/// In one line: `g (cell.hex, taken for hex): wrong mark (code 2), at byte 0`.
pub fn sentence(answer: Answer, parts: &[&Taken]) -> String {
    let who = match answer.record {
        1 if parts.len() == 1 => String::new(),
        1 => "f ".to_string(),
        2 => "g ".to_string(),
        3 => "the claim ".to_string(),
        _ => String::new(),
    };
    match at_fault(answer, parts) {
        Some(taken) if who.is_empty() => format!("{}: {}", taken.described(), fault(answer, taken)),
        Some(taken) => format!("{who}({}): {}", taken.described(), fault(answer, taken)),
        None => given(answer, ""),
    }
}

/// What is wrong with what was taken: `wrong mark (code 2), at byte 0`.
pub fn fault(answer: Answer, taken: &Taken) -> String {
    match &taken.refused {
        Some(table) => table.sentence(),
        None => {
            let record = if taken.form == Form::Table { " of its record" } else { "" };
            given(answer, record) + &hint(answer, taken).unwrap_or_default()
        }
    }
}

fn given(answer: Answer, of: &str) -> String {
    format!("{} (code {}){}", words::of_code(answer.code), answer.code, place(answer, of))
}

/// What more can be told of some faults.
fn hint(answer: Answer, taken: &Taken) -> Option<String> {
    match answer.code {
        // Files that were named in another order than they are asked for.
        2 => Some(format!("; these are the bytes of {}", marked_as(&taken.bytes)?)),
        7 => {
            let [u, v] = clash_of(answer, taken)?;
            let [on, off] = lists(&taken.bytes);
            let (on, off) = (on[u].product(), off[v].product());
            let share = share(answer, taken.bytes[2] as usize);
            Some(format!("; on cube {u}, {on}, and off cube {v}, {off}, {share}"))
        }
        _ => None,
    }
}

/// Of a function that is refused with code 7, the numbers of the on cube and the off cube.
fn clash_of(answer: Answer, taken: &Taken) -> Option<[usize; 2]> {
    if answer.code != 7 {
        return None;
    }
    match &taken.refused {
        Some(table) => table.clash(),
        None => {
            let [on, off] = lists(&taken.bytes);
            clash(answer, &on, &off)
        }
    }
}

/// Of a claim that is refused with code 14, the functions where they disagree.
fn disagreement(answer: Answer, parts: &[&Taken]) -> Option<Both> {
    let [f, g, claim] = parts else { return None };
    if answer.code != 14 {
        return None;
    }
    let (f, g) = (Function::of(f).1?, Function::of(g).1?);
    let both = Wiring::of(&claim.bytes).both(&f, &g, answer.pattern as usize);
    Some(both).filter(Both::disagree)
}

fn place(answer: Answer, of: &str) -> String {
    let at = number(answer.place as usize);
    match answer.code {
        1 => format!(", after {}", words::count(answer.place as usize, "byte")),
        14 => format!(", first at pattern {} of g", answer.pattern),
        _ => format!(", at byte {at}{of}"),
    }
}

/// The refusal for a person: the sentence, the dump or the lines, or where the functions
/// disagree, the numbers.
pub fn show(out: &mut Out, answer: Answer, parts: &[&Taken]) {
    let word = out.paint(Colour::Bad, "refused");
    out.line(&format!("{word}: {}", sentence(answer, parts)));
    if let Some(both) = disagreement(answer, parts) {
        out.line("");
        both.disagreement().iter().for_each(|line| out.line(&format!("  {line}")));
    }
    if let Some(taken) = at_fault(answer, parts).filter(|_| answer.code != 14) {
        out.line("");
        match &taken.refused {
            Some(table) => table.show(out),
            None => dump(out, &taken.bytes, answer.place as usize, marked(answer.code)),
        }
    }
    out.line("");
    numbers(out, answer);
}

/// How many bytes from the place on are at fault.
fn marked(code: u64) -> usize {
    match code {
        5..=7 => 2,
        17 => 3,
        _ => 1,
    }
}

/// The bytes with their places, and marks below those at fault. A byte that is
/// missing is marked where it would stand.
fn dump(out: &mut Out, bytes: &[u8], place: usize, length: usize) {
    let last = bytes.len().max(place + 1).div_ceil(ROW);
    let (first, last) = if bytes.len() <= WHOLE {
        (0, last)
    } else {
        ((place / ROW).saturating_sub(NEAR), (place / ROW + NEAR + 1).min(last))
    };
    if first > 0 {
        out.line("       ..");
    }
    for row in first..last {
        let places = row * ROW..(row + 1) * ROW;
        let cell = |at: usize| bytes.get(at).map_or("  ".to_string(), |byte| format!("{byte:02X}"));
        let at_fault = |at: usize| (place..place + length).contains(&at);
        let cells = places.clone().map(|at| {
            let cell = cell(at);
            if at_fault(at) {
                out.paint(Colour::Bad, &cell)
            } else {
                cell
            }
        });
        let line: Vec<String> = cells.collect();
        let line = format!("{:>7}  {}", row * ROW, line.join(" "));
        let marks: Vec<&str> = places.map(|at| if at_fault(at) { "^^" } else { "  " }).collect();
        let marks = format!("{:>7}  {}", "", marks.join(" "));
        out.line(line.trim_end());
        if !marks.trim_end().is_empty() {
            out.line(marks.trim_end());
        }
    }
    if last * ROW < bytes.len() {
        out.line("       ..");
    }
}

/// The answer's own numbers.
pub fn numbers(out: &mut Out, answer: Answer) {
    let Answer { code, kind, record, place, pattern } = answer;
    let line = format!("code {code}, kind {kind}, record {record}, place {place}");
    out.line(&format!("{line}, pattern {pattern}"));
}

/// A plain dump, as refusals that fit a screen are shown.
pub fn plain_dump(out: &mut Out, bytes: &[u8]) {
    for (row, part) in bytes.chunks(ROW).enumerate() {
        out.line(&format!("{:>7}  {}", row * ROW, words::hex(part)));
    }
}

/// The refusal for a script.
pub fn object(object: Object, answer: Answer, parts: &[&Taken]) -> Object {
    let object = object.text("result", "refused").answer(answer);
    let object = object.text("words", words::of_code(answer.code));
    let Some(taken) = at_fault(answer, parts) else { return object };
    let object = object.text("taken_for", taken.form.name());
    let object = match disagreement(answer, parts) {
        Some(both) => object.raw("disagreement", &both.object()),
        None => object,
    };
    let object = match clash_of(answer, taken) {
        Some([on, off]) => object.number("on_cube", on).number("off_cube", off),
        None => object,
    };
    let Some(table) = &taken.refused else { return object };
    let fault = table.fault();
    let numbers = fault.shown.iter().map(|line| line.number.to_string());
    let object = object.text("fault", &fault.words).list("lines", numbers);
    match &table.no_hex {
        Some(why) => object.text("no_hex", why),
        None => object,
    }
}

/// The refusal of a verb's one function, for a person or for a script.
pub fn told(out: &mut Out, json: bool, object: Object, answer: Answer, taken: &Taken) -> Status {
    if json {
        out.line(&self::object(object, answer, &[taken]).end());
    } else {
        show(out, answer, &[taken]);
    }
    Status::Trouble
}

/// A refused claim is a no; a refused function is no answer at all.
pub fn status(answer: Answer) -> Status {
    if answer.record == 3 {
        Status::No
    } else {
        Status::Trouble
    }
}
