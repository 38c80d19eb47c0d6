//! That the comparison of tables can fail.
//!
//! Each mistake below is the reference with one thing wrong, put in the place of one
//! call. The sweep named beside it has to notice; the reference itself passes.

use zap_tests::calls::TableCalls;
use zap_tests::patterns::OF_CLASH;
use zap_tests::reference::answer::Answer;
use zap_tests::reference::pattern::{Cube, Function};
use zap_tests::reference::record::{function, record, CUBES};
use zap_tests::reference::table::{lines, read_table, reading, table, words, write_table};
use zap_tests::tables::order::{first_lines, rules_of_order};
use zap_tests::tables::sweeps::{self, Sweep};
use zap_tests::tables::Trial;
use zap_tests::wrong::{all_noticed, lists, misnamed};

type Call = fn(&[u8], &mut [u8]) -> u64;
type Mistake = (&'static str, TableCalls, Sweep);

/// The reference in the form of the calls.
const RIGHT: TableCalls = TableCalls {
    read: |text, out| put(read_table(text, out.len()), out),
    write: |record, out| put(write_table(record, out.len()), out),
};

fn put((answer, written): (Answer, Option<Vec<u8>>), out: &mut [u8]) -> u64 {
    let written = written.unwrap_or_default();
    out[..written.len()].copy_from_slice(&written);
    answer.packed()
}

#[test]
fn the_reference_passes() {
    let sweeps: [Sweep; 5] =
        [rules_of_order, first_lines, sweeps::buffers, sweeps::all_bytes, sweeps::clashes];
    for sweep in sweeps {
        assert_eq!(sweep(&mut Trial::new(RIGHT)), Ok(()));
    }
}

#[test]
fn every_mistake_is_noticed() {
    let reader = |(name, read, sweep)| (name, TableCalls { read, ..RIGHT }, sweep);
    let writer = |(name, write, sweep)| (name, TableCalls { write, ..RIGHT }, sweep);
    let texts = other_texts().into_iter().chain(other_answers()).chain(other_functions());
    let (of_reader, of_writer) = other_patterns();
    let mistakes: Vec<Mistake> = texts
        .chain(of_reader)
        .map(reader)
        .chain(writer_mistakes().into_iter().chain(of_writer).map(writer))
        .collect();
    assert!(mistakes.len() > 60, "{}", mistakes.len());
    all_noticed(mistakes, Trial::new);
}

/// What is wrong, the wrong call, and the sweep that has to notice.
type Wrong = (&'static str, Call, Sweep);

// ---- Readers that take a text for another ----

fn read(text: &[u8], out: &mut [u8]) -> u64 {
    put(read_table(text, out.len()), out)
}

/// With a byte in the place of another.
fn swapped(text: &[u8], from: u8, to: u8) -> Vec<u8> {
    text.iter().map(|&c| if c == from { to } else { c }).collect()
}

/// With some lines changed; they stay as many.
fn changed(text: &[u8], change: impl Fn(&[&[u8]]) -> Option<Vec<u8>>) -> Vec<u8> {
    let changed = |line: &&[u8]| change(&words(line)).unwrap_or(line.to_vec());
    let mut text = lines(text).iter().map(changed).collect::<Vec<_>>().join(&b'\n');
    text.push(b'\n');
    text
}

fn is_term(words: &[&[u8]]) -> bool {
    words.first().is_some_and(|first| !first.starts_with(b"."))
}

/// The last digits of a number, as a machine keeps them.
fn wrapped(digits: &[u8], bits: u32) -> Option<Vec<u8>> {
    let text = std::str::from_utf8(digits).ok()?;
    let mut value: u128 = 0;
    for c in text.chars() {
        value = (10 * value + c.to_digit(10)? as u128) % (1 << bits);
    }
    Some(value.to_string().into_bytes())
}

fn other_texts() -> Vec<Wrong> {
    vec![
        ("CR is no blank", |t, out| read(&swapped(t, b'\r', b'x'), out), sweeps::short_lines),
        ("CR ends a line", |t, out| read(&swapped(t, b'\r', b'\n'), out), sweeps::short_texts),
        ("a tab is no blank", |t, out| read(&swapped(t, b'\t', b'x'), out), sweeps::short_texts),
        ("a form feed is one", |t, out| read(&swapped(t, 0x0C, b' '), out), sweeps::all_bytes),
        ("a vertical tab is one", |t, out| read(&swapped(t, 0x0B, b' '), out), sweeps::all_bytes),
        ("NUL is one", |t, out| read(&swapped(t, 0, b' '), out), sweeps::all_bytes),
        ("# starts no comment", |t, out| read(&swapped(t, b'#', b'x'), out), sweeps::short_texts),
        ("; starts one", |t, out| read(&swapped(t, b';', b'#'), out), sweeps::all_bytes),
        ("capitals do not matter", |t, out| read(&t.to_ascii_lowercase(), out), sweeps::all_bytes),
        (
            "the top bit does not matter",
            |t, out| read(&t.iter().map(|c| c & 0x7F).collect::<Vec<_>>(), out),
            sweeps::all_bytes,
        ),
        ("~ is no output", |t, out| read(&swapped(t, b'~', b'x'), out), sweeps::short_lines),
        (
            "2 is one, as - is",
            |t, out| {
                read(
                    &changed(t, |words| match words {
                        [inputs, b"2"] if is_term(words) => Some([inputs, &b" -"[..]].concat()),
                        _ => None,
                    }),
                    out,
                )
            },
            sweeps::short_texts,
        ),
        ("no .e is needed", |t, out| read(&[t, b"\n.e"].concat(), out), sweeps::short_lines),
        (
            ".e may be .end",
            |t, out| read(&changed(t, |words| (words == [b".end"]).then(|| b".e".to_vec())), out),
            sweeps::short_lines,
        ),
        (
            "words after .e are read",
            |t, out| {
                read(
                    &changed(t, |words| match words {
                        [b".e", _, ..] => Some(b".ex".to_vec()),
                        _ => None,
                    }),
                    out,
                )
            },
            sweeps::short_lines,
        ),
        (
            "the inputs may be apart",
            |t, out| {
                read(
                    &changed(t, |words| match words {
                        [first, second, output] if is_term(words) => {
                            Some([first, second, &b" "[..], output].concat())
                        }
                        _ => None,
                    }),
                    out,
                )
            },
            sweeps::short_lines,
        ),
        (
            "the output may be joined",
            |t, out| {
                read(
                    &changed(t, |words| match words {
                        [all] if is_term(words) && all.len() == 3 => {
                            Some([&all[..2], b" ", &all[2..]].concat())
                        }
                        _ => None,
                    }),
                    out,
                )
            },
            sweeps::short_texts,
        ),
        (
            "more than one output",
            |t, out| {
                read(
                    &changed(t, |words| match words {
                        [inputs, output, ..] if is_term(words) => {
                            Some([inputs, &b" "[..], &output[..1]].concat())
                        }
                        _ => None,
                    }),
                    out,
                )
            },
            sweeps::short_lines,
        ),
        (
            ".o takes any digits of 1",
            |t, out| {
                read(
                    &changed(t, |words| (words == [b".o", &b"01"[..]]).then(|| b".o 1".to_vec())),
                    out,
                )
            },
            sweeps::short_texts,
        ),
        (
            ".type takes more than fr",
            |t, out| {
                read(
                    &changed(t, |words| match words {
                        [b".type", b"fr", _] => Some(b".type fr".to_vec()),
                        _ => None,
                    }),
                    out,
                )
            },
            sweeps::short_texts,
        ),
        (
            "a second value of .i is ignored",
            |t, out| {
                read(
                    &changed(t, |words| match words {
                        [b".i", value, _] => Some([b".i ", *value].concat()),
                        _ => None,
                    }),
                    out,
                )
            },
            sweeps::short_lines,
        ),
        (
            "an .i in 8 bits",
            |t, out| {
                read(
                    &changed(t, |words| match words {
                        [b".i", value] => Some([b".i ", &wrapped(value, 8)?[..]].concat()),
                        _ => None,
                    }),
                    out,
                )
            },
            rules_of_order,
        ),
        (
            "an .i in 64 bits",
            |t, out| {
                read(
                    &changed(t, |words| match words {
                        [b".i", value] => Some([b".i ", &wrapped(value, 64)?[..]].concat()),
                        _ => None,
                    }),
                    out,
                )
            },
            rules_of_order,
        ),
        (
            "a .p in 8 bits",
            |t, out| {
                read(
                    &changed(t, |words| match words {
                        [b".p", value] => Some([b".p ", &wrapped(value, 8)?[..]].concat()),
                        _ => None,
                    }),
                    out,
                )
            },
            sweeps::long_lists,
        ),
        (
            "a .p in 64 bits",
            |t, out| {
                read(
                    &changed(t, |words| match words {
                        [b".p", value] => Some([b".p ", &wrapped(value, 64)?[..]].concat()),
                        _ => None,
                    }),
                    out,
                )
            },
            sweeps::short_lines,
        ),
        (
            "leading zeros refused in .p",
            |t, out| {
                read(
                    &changed(t, |words| match words {
                        [b".p", value] if value.len() > 1 && value[0] == b'0' => {
                            Some(b".p x".to_vec())
                        }
                        _ => None,
                    }),
                    out,
                )
            },
            sweeps::short_lines,
        ),
        (
            "twenty digits refused in .i",
            |t, out| {
                read(
                    &changed(t, |words| match words {
                        [b".i", value] if value.len() >= 20 => Some(b".i x".to_vec()),
                        _ => None,
                    }),
                    out,
                )
            },
            sweeps::damaged_tables,
        ),
        (
            "a plus taken in .i",
            |t, out| {
                read(
                    &changed(t, |words| match words {
                        [b".i", value] => Some([b".i ", value.strip_prefix(b"+")?].concat()),
                        _ => None,
                    }),
                    out,
                )
            },
            rules_of_order_and_faults,
        ),
        (
            "terms that add nothing are not counted",
            |t, out| {
                read(
                    &changed(t, |words| match words {
                        [_, b"-" | b"~"] if is_term(words) => Some(vec![]),
                        _ => None,
                    }),
                    out,
                )
            },
            sweeps::short_lines,
        ),
        (
            "a byte order mark passed over",
            |t, out| read(t.strip_prefix(b"\xEF\xBB\xBF").unwrap_or(t), out),
            rules_of_order_and_faults,
        ),
    ]
}

/// Good tables with one of a few more faults.
fn rules_of_order_and_faults(trial: &mut Trial) -> Result<(), String> {
    trial.read(b"\xEF\xBB\xBF.i 1\n.o 1\n.type fr\n.e")?;
    sweeps::several_faults(trial)
}

// ---- Readers that tell something else ----

/// What is told where the text deserves these codes, the right one first.
fn told_first(text: &[u8], out: &mut [u8], wrong: u64, right: u64) -> u64 {
    let reading = reading(text);
    let (answer, written) = reading.answer(out.len());
    let deserved = reading.deserved(out.len());
    if answer.code == right && deserved.contains(&wrong) {
        return Answer { code: wrong, ..answer }.packed();
    }
    put((answer, written), out)
}

/// Tells another answer than the right one.
fn tell(text: &[u8], out: &mut [u8], other: impl Fn(Answer) -> Answer) -> u64 {
    let (answer, written) = read_table(text, out.len());
    put((answer, written), out);
    other(answer).packed()
}

fn of_line(answer: Answer) -> bool {
    [20, 21, 3, 22].contains(&answer.code)
}

fn other_answers() -> Vec<Wrong> {
    vec![
        ("20 before 21 at the first term", |t, out| told_first(t, out, 20, 21), rules_of_order),
        ("3 before 20", |t, out| told_first(t, out, 3, 20), rules_of_order),
        ("22 before 21", |t, out| told_first(t, out, 22, 21), rules_of_order),
        ("4 before a line's 20", |t, out| told_first(t, out, 4, 20), rules_of_order),
        ("4 before a line's 21", |t, out| told_first(t, out, 4, 21), rules_of_order),
        ("4 before 22", |t, out| told_first(t, out, 4, 22), rules_of_order),
        ("7 before a line's 20", |t, out| told_first(t, out, 7, 20), rules_of_order),
        ("7 before a line's 21", |t, out| told_first(t, out, 7, 21), rules_of_order),
        ("7 before 22", |t, out| told_first(t, out, 7, 22), rules_of_order),
        ("7 before 4", |t, out| told_first(t, out, 7, 4), rules_of_order),
        ("18 before 22", |t, out| told_first(t, out, 18, 22), rules_of_order),
        ("18 before 4", |t, out| told_first(t, out, 18, 4), rules_of_order),
        ("18 before 7", |t, out| told_first(t, out, 18, 7), rules_of_order),
        (
            "lines from 0",
            |t, out| {
                tell(t, out, |right| match of_line(right) {
                    true => Answer { place: right.place - 1, ..right },
                    false => right,
                })
            },
            sweeps::short_lines,
        ),
        (
            "no .e told at the last line",
            |t, out| {
                let last = lines(t).len() as u64;
                tell(t, out, |right| match right.code {
                    21 if right.place > last => Answer { place: last, ..right },
                    _ => right,
                })
            },
            sweeps::short_lines,
        ),
        (
            "a final LF opens a line",
            |t, out| {
                let last = lines(t).len() as u64;
                tell(t, out, |right| match right.code {
                    21 if right.place > last && t.ends_with(b"\n") => {
                        Answer { place: last + 2, ..right }
                    }
                    _ => right,
                })
            },
            sweeps::short_lines,
        ),
        (
            "a line's codes without a record",
            |t, out| {
                tell(t, out, |right| match of_line(right) {
                    true => Answer { record: 0, ..right },
                    false => right,
                })
            },
            sweeps::short_lines,
        ),
        (
            "an unknown keyword is 20",
            |t, out| {
                tell(t, out, |right| {
                    let line = lines(t).get((right.place as usize).wrapping_sub(1)).copied();
                    let first = line.and_then(|line| words(line).first().copied());
                    let known =
                        |word: &[u8]| [&b".e"[..]].contains(&word) || !word.starts_with(b".");
                    match right.code {
                        21 if first.is_some_and(|word| !known(word)) => {
                            Answer { code: 20, ..right }
                        }
                        _ => right,
                    }
                })
            },
            sweeps::short_lines,
        ),
        (
            "4 at 5",
            |t, out| {
                tell(t, out, |right| match right.code {
                    4 => Answer { place: 5, ..right },
                    _ => right,
                })
            },
            rules_of_order,
        ),
        (
            "4 for the off list first",
            |t, out| {
                let both = reading(t).deserved(0).iter().filter(|&&code| code == 4).count() == 2;
                tell(t, out, |right| match right.code {
                    4 if both => Answer { place: 4, ..right },
                    _ => right,
                })
            },
            rules_of_order,
        ),
        (
            "7 at the cube's number",
            |t, out| {
                tell(t, out, |right| match right.code {
                    7 => Answer { place: (right.place - 5) / 2, ..right },
                    _ => right,
                })
            },
            rules_of_order,
        ),
        (
            "18 with record 1",
            |t, out| {
                tell(t, out, |right| match right.code {
                    18 => Answer { record: 1, ..right },
                    _ => right,
                })
            },
            sweeps::buffers,
        ),
        (
            "18 with the room there is",
            |t, out| {
                let room = out.len() as u64;
                tell(t, out, |right| match right.code {
                    18 => Answer { place: room, ..right },
                    _ => right,
                })
            },
            sweeps::buffers,
        ),
        (
            "kind 1",
            |t, out| {
                tell(t, out, |right| match right.code {
                    0 => Answer { kind: 1, ..right },
                    _ => right,
                })
            },
            sweeps::short_lines,
        ),
        (
            "the text's length told",
            |t, out| {
                tell(t, out, |right| match right.code {
                    0 => Answer { place: t.len() as u64, ..right },
                    _ => right,
                })
            },
            sweeps::short_lines,
        ),
        (
            "an exact buffer refused",
            |t, out| {
                let room = out.len();
                match read_table(t, room) {
                    (answer, Some(written)) if written.len() == room => {
                        Answer::refused(18, 4, answer.place as usize).packed()
                    }
                    right => put(right, out),
                }
            },
            sweeps::buffers,
        ),
        (
            "a refusal spoils the buffer",
            |t, out| {
                let right = read_table(t, out.len());
                if right.0.code != 0 && out.len() >= 2 {
                    out[0] = 0x46;
                }
                put(right, out)
            },
            sweeps::buffers,
        ),
        (
            "a short buffer is filled",
            |t, out| {
                let (answer, written) = read_table(t, usize::MAX);
                match written {
                    Some(written) if written.len() > out.len() => {
                        out.copy_from_slice(&written[..out.len()]);
                        Answer::refused(18, 4, answer.place as usize).packed()
                    }
                    _ => put(read_table(t, out.len()), out),
                }
            },
            sweeps::buffers,
        ),
        (
            "the rest of the buffer is cleared",
            |t, out| {
                let right = read_table(t, out.len());
                if let (_, Some(written)) = &right {
                    out[written.len()..].fill(0);
                }
                put(right, out)
            },
            sweeps::buffers,
        ),
    ]
}

// ---- Another pattern ----

/// The reader and the writer with the wrong pattern of this number.
fn misnaming<const MISTAKE: usize>() -> [Call; 2] {
    let read: Call = |text, out| {
        let (_, wrong) = OF_CLASH[MISTAKE];
        tell(text, out, |right| misnamed(wrong, || reading(text).function(), CUBES, right))
    };
    let write: Call = |record, out| {
        let (_, wrong) = OF_CLASH[MISTAKE];
        let (answer, text) = write_table(record, out.len());
        put((misnamed(wrong, || lists(record), CUBES, answer), text), out)
    };
    [read, write]
}

/// Those of the reader, and those of the writer.
fn other_patterns() -> (Vec<Wrong>, Vec<Wrong>) {
    let misnaming = [
        misnaming::<0>(),
        misnaming::<1>(),
        misnaming::<2>(),
        misnaming::<3>(),
        misnaming::<4>(),
        misnaming::<5>(),
        misnaming::<6>(),
    ];
    assert_eq!(misnaming.len(), OF_CLASH.len());
    let (mut of_reader, mut of_writer): (Vec<Wrong>, Vec<Wrong>) = (vec![], vec![]);
    for ((name, _), [read, write]) in OF_CLASH.into_iter().zip(misnaming) {
        of_reader.push((name, read, sweeps::clashes));
        of_writer.push((name, write, sweeps::clashes));
    }
    of_reader.push((
        "a pattern left in an accepted answer",
        |t, out| {
            tell(t, out, |right| match right.code {
                0 => right.naming(1),
                _ => right,
            })
        },
        sweeps::short_lines,
    ));
    of_writer.push((
        "a pattern left in an accepted answer",
        |r, out| {
            let (answer, text) = write_table(r, out.len());
            let pattern = if answer.code == 0 { 1 } else { answer.pattern };
            put((Answer { pattern, ..answer }, text), out)
        },
        sweeps::there_and_back,
    ));
    (of_reader, of_writer)
}

// ---- Readers that make another function of it ----

/// Writes what becomes of an accepted table's function.
fn made(text: &[u8], out: &mut [u8], other: impl Fn(Function) -> Function) -> u64 {
    match read_table(text, out.len()) {
        (answer, Some(written)) => {
            let f = function(&written, 1).expect("accepted");
            let bytes = record(&other(f));
            out[..bytes.len()].copy_from_slice(&bytes);
            answer.packed()
        }
        (answer, None) => answer.packed(),
    }
}

/// A mask with its inputs in the other order.
fn turned(mask: u8, n: usize) -> u8 {
    mask.reverse_bits() >> (8 - n)
}

fn other_functions() -> Vec<Wrong> {
    vec![
        (
            "input 0 last",
            |t, out| {
                made(t, out, |f| {
                    let turn =
                        |cube: &Cube| Cube { p: turned(cube.p, f.n), n: turned(cube.n, f.n) };
                    Function {
                        n: f.n,
                        on: f.on.iter().map(turn).collect(),
                        off: f.off.iter().map(turn).collect(),
                    }
                })
            },
            sweeps::damaged_tables,
        ),
        (
            "the lists the other way round",
            |t, out| made(t, out, |Function { n, on, off }| Function { n, on: off, off: on }),
            sweeps::damaged_tables,
        ),
        (
            "the masks the other way round",
            |t, out| {
                made(t, out, |mut f| {
                    let lists = [&mut f.on, &mut f.off];
                    lists
                        .into_iter()
                        .flatten()
                        .for_each(|cube| (cube.p, cube.n) = (cube.n, cube.p));
                    f
                })
            },
            sweeps::damaged_tables,
        ),
        (
            "the last term first",
            |t, out| {
                made(t, out, |mut f| {
                    f.on.reverse();
                    f
                })
            },
            sweeps::damaged_tables,
        ),
        (
            "a term twice is one",
            |t, out| {
                let (answer, written) = read_table(t, out.len());
                let Some(written) = written else { return answer.packed() };
                let mut f = function(&written, 1).expect("accepted");
                f.on.dedup();
                let bytes = record(&f);
                put((Answer { place: bytes.len() as u64, ..answer }, Some(bytes)), out)
            },
            sweeps::damaged_full_tables,
        ),
        (
            "a term that adds nothing is off",
            |t, out| {
                let off = changed(t, |words| match words {
                    [inputs, b"-" | b"~"] if is_term(words) => Some([inputs, &b" 0"[..]].concat()),
                    _ => None,
                });
                read(&off, out)
            },
            sweeps::short_lines,
        ),
        (
            "65 terms are taken",
            |t, out| {
                let (answer, written) = read_table(t, out.len());
                let ones = |words: &[&[u8]]| is_term(words) && words[1..] == [b"1"];
                let on = lines(t).iter().filter(|line| ones(&words(line))).count();
                match (answer.code, answer.place, on) {
                    (4, 3, 65) => Answer::accepted(3, CUBES + 130).packed(),
                    _ => put((answer, written), out),
                }
            },
            sweeps::long_lists,
        ),
        (
            "64 terms are refused",
            |t, out| match read_table(t, out.len()) {
                (_, Some(written)) if written[3] == 64 => Answer::refused(4, 1, 3).packed(),
                right => put(right, out),
            },
            sweeps::long_lists,
        ),
    ]
}

// ---- Writers ----

/// Writes another text than the right one, of the function.
fn written(record: &[u8], out: &mut [u8], other: impl Fn(&Function) -> String) -> u64 {
    let right = write_table(record, out.len());
    let Ok(f) = function(record, 1) else { return right.0.packed() };
    let text = other(&f).into_bytes();
    if text.len() > out.len() {
        return Answer::refused(18, 4, text.len()).packed();
    }
    put((Answer::accepted(3, text.len()), Some(text)), out)
}

fn writer_mistakes() -> Vec<Wrong> {
    vec![
        (
            "no LF at the end",
            |r, out| written(r, out, |f| table(f).trim_end().to_string()),
            sweeps::there_and_back,
        ),
        (
            "CR LF",
            |r, out| written(r, out, |f| table(f).replace('\n', "\r\n")),
            sweeps::there_and_back,
        ),
        (
            "two blanks",
            |r, out| written(r, out, |f| table(f).replace(" 1\n", "  1\n")),
            sweeps::there_and_back,
        ),
        (
            "no .p if there are no terms",
            |r, out| written(r, out, |f| table(f).replace(".p 0\n", "")),
            sweeps::there_and_back,
        ),
        (
            ".p first",
            |r, out| {
                written(r, out, |f| {
                    let count = format!(".p {}\n", f.on.len() + f.off.len());
                    count.clone() + &table(f).replace(&count, "")
                })
            },
            sweeps::there_and_back,
        ),
        (
            ".p counts the on terms",
            |r, out| {
                written(r, out, |f| {
                    let all = format!(".p {}\n", f.on.len() + f.off.len());
                    table(f).replace(&all, &format!(".p {}\n", f.on.len()))
                })
            },
            sweeps::there_and_back,
        ),
        (
            "off terms first",
            |r, out| {
                written(r, out, |f| {
                    let text = table(f);
                    let (on, rest): (Vec<&str>, Vec<&str>) = text
                        .lines()
                        .partition(|line| !line.starts_with('.') && line.ends_with('1'));
                    let at = rest.len() - 1;
                    let lines = [&rest[..at], &on, &rest[at..]].concat();
                    lines.iter().map(|line| format!("{line}\n")).collect()
                })
            },
            sweeps::there_and_back,
        ),
        (
            "~ for off",
            |r, out| written(r, out, |f| table(f).replace(" 0\n", " ~\n")),
            sweeps::there_and_back,
        ),
        (
            "eight inputs always",
            |r, out| written(r, out, |f| table(&Function { n: 8, ..f.clone() })),
            sweeps::there_and_back,
        ),
        (
            "a comment before all",
            |r, out| written(r, out, |f| format!("# table\n{}", table(f))),
            sweeps::there_and_back,
        ),
        (
            "the record's refusals as record 4",
            |r, out| {
                let (answer, text) = write_table(r, out.len());
                match answer.record {
                    1 => Answer { record: 4, ..answer }.packed(),
                    _ => put((answer, text), out),
                }
            },
            sweeps::small_records,
        ),
        (
            "18 before the record's refusals",
            |r, out| match write_table(r, out.len()) {
                (answer, None) if answer.code != 18 && out.is_empty() => {
                    Answer::refused(18, 4, 22).packed()
                }
                right => put(right, out),
            },
            sweeps::buffers,
        ),
        (
            "18 with the record's length",
            |r, out| match write_table(r, out.len()) {
                (Answer { code: 18, .. }, _) => Answer::refused(18, 4, r.len()).packed(),
                right => put(right, out),
            },
            sweeps::buffers,
        ),
        (
            "an exact buffer refused",
            |r, out| match write_table(r, out.len()) {
                (_, Some(text)) if text.len() == out.len() => {
                    Answer::refused(18, 4, text.len()).packed()
                }
                right => put(right, out),
            },
            sweeps::buffers,
        ),
        (
            "the record's length told",
            |r, out| {
                let (answer, text) = write_table(r, out.len());
                let place = if answer.code == 0 { r.len() as u64 } else { answer.place };
                put((Answer { place, ..answer }, text), out)
            },
            sweeps::there_and_back,
        ),
        (
            "a refusal spoils the buffer",
            |r, out| {
                let right = write_table(r, out.len());
                if right.0.code != 0 && out.len() >= 3 {
                    out[..3].copy_from_slice(b".i ");
                }
                put(right, out)
            },
            sweeps::damaged_records,
        ),
        (
            "a shared pattern is written",
            |r, out| {
                let (answer, text) = write_table(r, out.len());
                match answer.code {
                    7 => Answer::accepted(3, 30).packed(),
                    _ => put((answer, text), out),
                }
            },
            sweeps::damaged_records,
        ),
        (
            "the mark 46 50 is taken",
            |r, out| {
                let (answer, text) = write_table(r, out.len());
                match r {
                    [0x46, 0x50, n @ 1..=8, ..] => Answer::accepted(3, *n as usize).packed(),
                    _ => put((answer, text), out),
                }
            },
            sweeps::small_records,
        ),
    ]
}
