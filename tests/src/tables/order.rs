//! The order of codes: for each rule of it, texts in which it decides.
//!
//! What a text is told is worked out with the text, line by line. The reference has to
//! say the same, and by its separate tests that the faults that the rule is about are
//! there; then the call is asked.

use super::texts::{
    apart, bad_value, filler, keywords, malformed, miscount, outside, set, term, terms, unknown,
};
use super::{Trial, BEFORE, LONGEST_RECORD, RULE};
use crate::random::{any_cube, few, function_of, with, Random};
use crate::records::Outcome;
use crate::reference::answer::Answer;
use crate::reference::pattern::{Cube, Function};
use crate::reference::record::CUBES;
use crate::reference::table::reading;

// ---- Rules, and their two sides ----

/// What a text is told: a code at one of its lines, or after the lines, or none.
enum Told {
    Line(u64, usize),
    After(u64, usize),
    Nothing,
}

/// A text to be, by its lines, and what it is told.
struct Side {
    lines: Vec<String>,
    room: usize,
    told: Told,
    /// What it deserves as well, told if the first thing were mended.
    also: Option<u64>,
}

impl Side {
    fn new(lines: Vec<String>, told: Told) -> Side {
        Side { lines, room: LONGEST_RECORD, told, also: None }
    }

    fn also(self, code: u64) -> Side {
        Side { also: Some(code), ..self }
    }

    fn room(self, room: usize) -> Side {
        Side { room, ..self }
    }
}

/// A rule, and a text for each of its sides. In the first two faults meet and the rule
/// decides; in the other one of them is missing.
type Rule = (&'static str, fn(&mut Random) -> [Side; 2]);

/// How many rules there are: the tally counts each by its number.
pub const RULES: usize = ALL.len();

const ALL: [Rule; 16] = [
    ("a repeated .i outside 1 to 8 is 20, a first one 3", repeated_outside),
    ("a repeated keyword is 20, with any value; a first one is read", repeated),
    ("at .e 21 comes before 22", missing_and_miscounted),
    ("at the first term 21 comes before 20", missing_and_malformed),
    ("a term before the keywords is 21, well formed too", missing_and_well_formed),
    ("a line's code comes before 4", line_before_4),
    ("a line's code comes before 7", line_before_7),
    ("a line's code comes before 18", line_before_18),
    ("no .e, at the line after the last, comes before 4, 7 and 18", no_end),
    ("4 comes before 7", four_before_seven),
    ("4 comes before 18", four_before_18),
    ("7 comes before 18", seven_before_18),
    ("4 for the on list comes before 4 for the off list", on_before_off),
    ("7 is at the first on cube that clashes", first_clash),
    ("what follows .e is ignored", after_the_end),
    (".p counts terms that add nothing", idle_terms),
];

/// Each rule's two sides in many surroundings. What is told was worked out with the
/// text; the reference has to say the same, and that the other fault is there too.
pub fn rules_of_order(trial: &mut Trial) -> Outcome {
    let mut random = Random::new(604);
    for (number, (name, rule)) in ALL.iter().enumerate() {
        for _ in 0..400 {
            for (line, side) in RULE.into_iter().zip(rule(&mut random)) {
                let (text, numbers) = set(&mut random, &side.lines);
                let (told, _) = reading(&text).answer(side.room);
                let deserved = reading(&text).deserved(side.room);
                let want = match side.told {
                    Told::Line(code, at) if at == numbers.len() => {
                        Answer::refused(code, 1, lines_of(&text) + 1)
                    }
                    Told::Line(code, at) => Answer::refused(code, 1, numbers[at]),
                    Told::After(18, place) => Answer::refused(18, 4, place),
                    // The pattern of 7 is no matter of order: the trial compares it.
                    Told::After(code, place) => {
                        Answer { pattern: told.pattern, ..Answer::refused(code, 1, place) }
                    }
                    Told::Nothing => Answer::accepted(3, told.place as usize),
                };
                let met = side.also.is_none_or(|code| deserved[1..].contains(&code));
                if told != want || !met {
                    let text = String::from_utf8_lossy(&text).into_owned();
                    return Err(format!(
                        "{name}\n  {text:?}\n  wanted {want:?}, and {:?} met\n  the reference has \
                         {told:?}, of {deserved:?}",
                        side.also
                    ));
                }
                trial.read_with_others(&text, side.room)?;
                trial.tally.add(line, number as u64);
            }
        }
    }
    Ok(())
}

/// How many LF a text has, and one more if something follows the last.
fn lines_of(text: &[u8]) -> usize {
    let ends = text.iter().filter(|&&c| c == b'\n').count();
    ends + usize::from(text.last().is_some_and(|&c| c != b'\n'))
}

fn any_n(random: &mut Random) -> usize {
    1 + random.below(8)
}

/// A few terms that keep apart.
fn some_terms(random: &mut Random, n: usize) -> Vec<String> {
    let f = function_of(random, n, few);
    let idle = random.below(3);
    terms(random, &f, idle)
}

/// The keywords but one of the three.
fn one_missing(random: &mut Random, n: usize) -> Vec<String> {
    let mut lines = keywords(random, n);
    lines.remove(random.below(3));
    lines
}

fn repeated_outside(random: &mut Random) -> [Side; 2] {
    let n = any_n(random);
    let lines = keywords(random, n);
    let first = lines.iter().position(|line| line.starts_with(".i")).expect("one of three");
    let bad = outside(random);
    let mut twice = lines.clone();
    twice.extend(some_terms(random, n));
    let at = first + 1 + random.below(twice.len() - first);
    twice.insert(at, bad.clone());
    let mut once = lines;
    once[first] = bad;
    [Side::new(twice, Told::Line(20, at)).also(3), Side::new(once, Told::Line(3, first))]
}

fn repeated(random: &mut Random) -> [Side; 2] {
    let n = any_n(random);
    let mut lines = keywords(random, n);
    lines.insert(random.below(4), ".p 0".to_string());
    let first = random.below(4);
    let mut again = lines[first].clone();
    if random.flip() {
        again = format!("{} {}", again.split(' ').next().expect("a keyword"), n);
    }
    let mut twice = lines.clone();
    let at = first + 1 + random.below(4 - first);
    twice.insert(at, again);
    lines.push(".e".to_string());
    [Side::new(twice, Told::Line(20, at)), Side::new(lines, Told::Nothing)]
}

fn missing_and_miscounted(random: &mut Random) -> [Side; 2] {
    let n = any_n(random);
    let [mut some, mut all] = [one_missing(random, n), keywords(random, n)];
    for lines in [&mut some, &mut all] {
        let wrong = format!(".p {}", miscount(random, 0));
        lines.insert(random.below(lines.len() + 1), wrong);
        lines.push(".e".to_string());
    }
    [Side::new(some, Told::Line(21, 3)).also(22), Side::new(all, Told::Line(22, 4))]
}

fn missing_and_malformed(random: &mut Random) -> [Side; 2] {
    let n = any_n(random);
    let [mut some, mut all] = [one_missing(random, n), keywords(random, n)];
    let sides = [(&mut some, 2), (&mut all, 3)];
    for (lines, _) in sides {
        // Without n, garbage alone is known to be malformed.
        lines.push(random.pick(&["x", "0", "2 1", "01 1 1 1", "--"]).to_string());
        lines.extend(some_terms(random, n));
        lines.push(".e".to_string());
    }
    [Side::new(some, Told::Line(21, 2)).also(20), Side::new(all, Told::Line(20, 3))]
}

fn missing_and_well_formed(random: &mut Random) -> [Side; 2] {
    let n = any_n(random);
    let [mut some, mut all] = [one_missing(random, n), keywords(random, n)];
    for lines in [&mut some, &mut all] {
        lines.push(term(any_cube(random, n), n, random.pick(&['0', '1', '-', '~'])));
        lines.push(".e".to_string());
    }
    [Side::new(some, Told::Line(21, 2)), Side::new(all, Told::Nothing)]
}

/// A line of its own fault, for a place after the keywords, and its code. Two of them
/// stand at `.e`, so that the terms have all been read.
fn faulty(random: &mut Random, n: usize, terms: usize) -> (u64, String) {
    match random.below(4) {
        0 => (20, malformed(random, n)),
        1 => (20, bad_value(random)),
        2 => (21, unknown(random)),
        _ => (22, format!(".p {}", miscount(random, terms))),
    }
}

/// Keywords and these terms, with a line at fault after them, and the same without it.
/// `told` is what the terms come to, with this code.
fn with_a_fault(
    random: &mut Random,
    n: usize,
    terms: Vec<String>,
    room: usize,
    (code, told): (u64, Told),
) -> [Side; 2] {
    let mut lines = keywords(random, n);
    let (fault, line) = faulty(random, n, terms.len());
    lines.extend(terms);
    let mut without = lines.clone();
    without.push(".e".to_string());
    lines.push(line);
    lines.push(".e".to_string());
    // A wrong count is told at .e, the last line.
    let at = if fault == 22 { lines.len() - 1 } else { lines.len() - 2 };
    [
        Side::new(lines, Told::Line(fault, at)).also(code).room(room),
        Side::new(without, told).room(room),
    ]
}

/// More than 64 terms in one list or in both, and the place of the 4.
fn too_many(random: &mut Random, n: usize, clash: bool) -> (Function, usize) {
    let long = random.pick(&[65, 66, 70, 128]);
    let (sizes, place) = match random.below(3) {
        0 => ([long, random.below(5)], 3),
        1 => ([random.below(65), long], 4),
        _ => ([long, 65], 3),
    };
    (apart(random, n, sizes, clash), place)
}

fn line_before_4(random: &mut Random) -> [Side; 2] {
    let n = 1 + random.below(4);
    let (f, place) = too_many(random, n, false);
    let terms = terms(random, &f, 0);
    with_a_fault(random, n, terms, LONGEST_RECORD, (4, Told::After(4, place)))
}

/// A function of few cubes whose on cube u is the first that clashes.
fn clashing(random: &mut Random, n: usize) -> (Function, usize) {
    let (before, after) = (random.below(4), random.below(3));
    let sizes = [before + 1 + after, 1 + random.below(3)];
    let mut f = apart(random, n, sizes, false);
    // With input 0 off it shares a pattern with any off cube that it does not oppose.
    f.on[before] = f.off[random.below(f.off.len())];
    (f, before)
}

fn line_before_7(random: &mut Random) -> [Side; 2] {
    let n = any_n(random);
    let (f, u) = clashing(random, n);
    let terms = terms(random, &f, 0);
    with_a_fault(random, n, terms, LONGEST_RECORD, (7, Told::After(7, CUBES + 2 * u)))
}

fn line_before_18(random: &mut Random) -> [Side; 2] {
    let n = any_n(random);
    let sizes = [random.below(9), random.below(9)];
    let f = apart(random, n, sizes, false);
    let length = CUBES + 2 * (sizes[0] + sizes[1]);
    let room = random.pick(&[0, 4, length - 1]);
    let terms = terms(random, &f, 1);
    with_a_fault(random, n, terms, room, (18, Told::After(18, length)))
}

fn no_end(random: &mut Random) -> [Side; 2] {
    let n = 1 + random.below(4);
    let ((f, told), room) = match random.below(3) {
        0 => {
            let (f, place) = too_many(random, n, false);
            ((f, Told::After(4, place)), LONGEST_RECORD)
        }
        1 => {
            let (f, u) = clashing(random, n);
            ((f, Told::After(7, CUBES + 2 * u)), LONGEST_RECORD)
        }
        _ => ((apart(random, n, [2, 1], false), Told::After(18, 11)), 10),
    };
    let code = match told {
        Told::After(code, _) => code,
        _ => unreachable!("all three come after the lines"),
    };
    let mut lines = keywords(random, n);
    lines.extend(terms(random, &f, 0));
    let mut whole = lines.clone();
    whole.push(".e".to_string());
    let at = lines.len();
    [Side::new(lines, Told::Line(21, at)).also(code).room(room), Side::new(whole, told).room(room)]
}

/// The text of a function alone.
fn alone(random: &mut Random, f: &Function) -> Vec<String> {
    let mut lines = keywords(random, f.n);
    lines.extend(terms(random, f, 0));
    lines.push(".e".to_string());
    lines
}

fn four_before_seven(random: &mut Random) -> [Side; 2] {
    let n = 1 + random.below(4);
    let (mut f, place) = too_many(random, n, false);
    // On cube 0 clashes with an off cube, of which there is at least one.
    f.off.push(with(Cube::ALL, 0, false));
    f.on.insert(0, Cube::ALL);
    let place = if f.on.len() > 64 { 3 } else { place };
    let first = Side::new(alone(random, &f), Told::After(4, place)).also(7);
    f.on.truncate(64);
    f.off.drain(..f.off.len().saturating_sub(64));
    [first, Side::new(alone(random, &f), Told::After(7, 5))]
}

fn four_before_18(random: &mut Random) -> [Side; 2] {
    let n = 1 + random.below(4);
    let (mut f, place) = too_many(random, n, false);
    let room = random.below(100);
    let first = Side::new(alone(random, &f), Told::After(4, place)).also(18).room(room);
    f.on.truncate(64);
    f.off.truncate(64);
    let length = CUBES + 2 * (f.on.len() + f.off.len());
    [first, Side::new(alone(random, &f), Told::After(18, length)).room(room)]
}

fn seven_before_18(random: &mut Random) -> [Side; 2] {
    let n = any_n(random);
    let (mut f, u) = clashing(random, n);
    let length = CUBES + 2 * (f.on.len() + f.off.len());
    let room = random.pick(&[0, length - 1]);
    let first = Side::new(alone(random, &f), Told::After(7, CUBES + 2 * u)).also(18).room(room);
    f.on[u] = with(Cube::ALL, 0, true);
    [first, Side::new(alone(random, &f), Told::After(18, length)).room(room)]
}

fn on_before_off(random: &mut Random) -> [Side; 2] {
    let n = 1 + random.below(4);
    let sizes = [65 + random.below(9), 65 + random.below(9)];
    let mut f = apart(random, n, sizes, false);
    let first = Side::new(alone(random, &f), Told::After(4, 3)).also(4);
    f.on.truncate(random.pick(&[0, 1, 63, 64]));
    [first, Side::new(alone(random, &f), Told::After(4, 4))]
}

fn first_clash(random: &mut Random) -> [Side; 2] {
    let n = any_n(random);
    let (mut f, u) = clashing(random, n);
    let last = f.on.len();
    f.on.push(Cube::ALL);
    let first = Side::new(alone(random, &f), Told::After(7, CUBES + 2 * u));
    f.on[u] = with(Cube::ALL, 0, true);
    [first, Side::new(alone(random, &f), Told::After(7, CUBES + 2 * last))]
}

fn after_the_end(random: &mut Random) -> [Side; 2] {
    let n = any_n(random);
    let terms = some_terms(random, n);
    let count = terms.len();
    let mut lines = keywords(random, n);
    lines.extend(terms);
    let (code, fault) = match random.below(3) {
        0 => (20, malformed(random, n)),
        1 => (20, bad_value(random)),
        _ => (21, unknown(random)),
    };
    let mut after = lines.clone();
    after.extend([random.pick(&[".e", ".e x"]).to_string(), fault.clone()]);
    after.push(format!(".p {}", miscount(random, count)));
    let at = lines.len();
    lines.extend([fault, ".e".to_string()]);
    [Side::new(lines, Told::Line(code, at)), Side::new(after, Told::Nothing)]
}

fn idle_terms(random: &mut Random) -> [Side; 2] {
    let n = any_n(random);
    let f = function_of(random, n, few);
    let idle = 1 + random.below(4);
    let side = |random: &mut Random, count: usize| {
        let mut lines = keywords(random, n);
        lines.push(format!(".p {count}"));
        lines.extend(terms(random, &f, idle));
        lines.push(".e".to_string());
        lines
    };
    let named = f.on.len() + f.off.len();
    let wrong = side(random, named);
    let right = side(random, named + idle);
    let end = wrong.len() - 1;
    [Side::new(wrong, Told::Line(22, end)), Side::new(right, Told::Nothing)]
}

// ---- Two lines at fault ----

/// Two lines at fault: the earlier one is told, whichever its code. What each is told
/// alone is what the reference says of the text with the other line skipped.
pub fn first_lines(trial: &mut Trial) -> Outcome {
    let mut random = Random::new(605);
    for _ in 0..24_000 {
        let n = any_n(&mut random);
        let mut lines = keywords(&mut random, n);
        let terms = some_terms(&mut random, n);
        lines.push(format!(".p {}", terms.len()));
        random.shuffle(&mut lines);
        lines.extend(terms);
        lines.push(".e".to_string());
        // Skipped lines, whose places the faults take.
        for _ in 0..4 {
            let at = random.below(lines.len());
            lines.insert(at, filler(&mut random));
        }
        let [one, other] = [spoiled_line(&mut random, &lines), spoiled_line(&mut random, &lines)];
        if one.0 >= other.0 {
            continue;
        }
        let text = |spoiled: &[&(usize, String)]| {
            let mut lines = lines.clone();
            spoiled.iter().for_each(|(at, line)| lines[*at] = line.clone());
            lines.join("\n").into_bytes()
        };
        let [first, second, both] = [text(&[&one]), text(&[&other]), text(&[&one, &other])];
        let [first, second] = [first, second].map(|text| reading(&text).answer(261).0);
        let told = trial.read(&both)?;
        // Each is at fault by itself, at its own line or at one that it spoils.
        let is_line = |answer: Answer| [20, 21, 3, 22].contains(&answer.code);
        if !is_line(first) || !is_line(second) || first.place != one.0 as u64 + 1 {
            continue;
        }
        if told != first {
            return Err(format!("told {told:?} and not {first:?}: {both:?}"));
        }
        if let Some((_, line)) = BEFORE.iter().find(|(code, _)| *code == first.code) {
            trial.tally.add(line, second.code);
        }
    }
    Ok(())
}

/// A line of a good table, and what it becomes.
fn spoiled_line(random: &mut Random, lines: &[String]) -> (usize, String) {
    let starting = |start: &str| lines.iter().position(|line| line.starts_with(start));
    let skipped = |random: &mut Random| {
        let free: Vec<usize> = (0..lines.len())
            .filter(|&at| lines[at].trim().is_empty() || lines[at].trim().starts_with('#'))
            .collect();
        random.pick(&free)
    };
    let end = starting(".e").expect("the last keyword");
    match random.below(6) {
        0 => (starting(".i").expect("a keyword"), outside(random)),
        1 => (starting(".p").expect("a keyword"), format!(".p {}", miscount(random, end))),
        2 => (skipped(random), unknown(random)),
        3 => (skipped(random), bad_value(random)),
        4 => (random.below(end), unknown(random)),
        _ => {
            let n = any_n(random);
            (random.below(end), malformed(random, n))
        }
    }
}
