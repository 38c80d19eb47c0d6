//! `zap show`: a function's cubes as products, its counts and its Karnaugh map.

use super::summary::figures_in_words;
use super::{indented, Verb};
use crate::args::Args;
use crate::function::{Cube, Function, Value};
use crate::json::{quoted, Object};
use crate::output::{trouble, Out, Trouble};
use crate::{input, map, refusal, Status};

pub const VERB: Verb = Verb {
    name: "show",
    usage: "F",
    about: "shows a function: its cubes as products, its counts, and its Karnaugh map",
    options: &[],
    more: "In the map 1 is on, 0 off and - open; a row's label and a column's, one after the other, are the pattern in binary.\nA function that is refused is shown as bytes, with those at fault marked, or by the table's line at fault.\n",
    run,
};

fn run(args: &Args, out: &mut Out) -> Result<Status, Trouble> {
    let [file] = &args.files[..] else { return VERB.misused() };
    let taken = input::take_function(file)?;
    let object = Object::new(VERB.name).text("file", &taken.name);
    let (answer, function) = Function::of(&taken);
    let Some(f) = function else {
        return Ok(refusal::told(out, args.json(), object, answer, &taken));
    };
    let values: Vec<Value> = (0..f.patterns()).map(|pattern| f.value(pattern)).collect();
    // The map is drawn here, the counts are the archive's.
    let drawn = |value| values.iter().filter(|found| **found == value).count();
    if (drawn(Value::On), drawn(Value::Off)) != (f.on_patterns, f.off_patterns) {
        return trouble(format!("{}: the map and the archive's counts differ", taken.name));
    }
    if args.json() {
        let products = |cubes: &[Cube]| -> Vec<String> {
            cubes.iter().map(|cube| quoted(&cube.product())).collect()
        };
        let object = object.text("result", "accepted").answer(answer).number("n", f.n);
        let object = object.list("on_cubes", products(&f.on)).list("off_cubes", products(&f.off));
        let object = object.number("on", f.on_patterns).number("off", f.off_patterns);
        let object = object.number("open", f.open_patterns()).number("in_use", f.in_use);
        let values: String = values.iter().map(|value| value.sign()).collect();
        out.line(&object.text("values", &values).end());
    } else {
        out.line(&format!("{}: {}", taken.name, figures_in_words(&f)));
        out.line("");
        cubes(out, "on", &f.on);
        cubes(out, "off", &f.off);
        out.line("");
        indented(out, &map::lines(&f));
    }
    Ok(Status::Yes)
}

fn cubes(out: &mut Out, name: &str, cubes: &[Cube]) {
    if cubes.is_empty() {
        out.line(&format!("  {name:3}  none"));
    }
    for (at, cube) in cubes.iter().enumerate() {
        let name = if at == 0 { name } else { "" };
        out.line(&format!("  {name:3}  {}", cube.product()));
    }
}
