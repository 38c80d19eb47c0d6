//! That the comparison of what the programs print can fail.
//!
//! Each mistake is a pair of programs with another rule in one slot, as functions
//! from an input to a text. The sweep named beside it has to notice; with the right
//! rule in every slot they pass.

use zap_tests::programs::run::Portions;
use zap_tests::programs::sweeps::{self, Sweep};
use zap_tests::programs::{Programs, Trial};
use zap_tests::reference::answer::Answer;
use zap_tests::reference::checker::check;
use zap_tests::reference::claim::WIRING;
use zap_tests::reference::matcher::find;
use zap_tests::reference::programs::{end, hex, numbers, Parts, Reply};
use zap_tests::reference::two::two;
use zap_tests::wrong::all_noticed;

/// What the programs go by.
#[derive(Clone, Copy)]
struct Rules {
    /// The bytes that are read.
    read: fn(&[u8], &Portions) -> Vec<u8>,
    cut: fn(&[u8]) -> Parts,
    find: fn(&Parts) -> Reply,
    check: fn(&Parts) -> Reply,
    text: fn(&Reply) -> String,
}

const RIGHT: Rules = Rules {
    read: |input, _| input.to_vec(),
    cut: |input| cut_at(input, &end, &end),
    find: |parts| lending(parts, 4_096),
    check: |parts| up_to(parts, 49_152),
    text: Reply::text,
};

fn by(rules: Rules) -> Programs {
    let Rules { read, cut, find, check, text } = rules;
    Programs {
        match_pair: Box::new(move |input, at| Ok(text(&find(&cut(&read(input, at)))))),
        check_claim: Box::new(move |input, at| Ok(text(&check(&cut(&read(input, at)))))),
    }
}

/// f and g end where these say, or where the bytes end.
fn cut_at<'a>(
    input: &'a [u8],
    end_of_f: &dyn Fn(&[u8]) -> usize,
    end_of_g: &dyn Fn(&[u8]) -> usize,
) -> Parts<'a> {
    let (f, after) = input.split_at(end_of_f(input).min(input.len()));
    let (g, rest) = after.split_at(end_of_g(after).min(after.len()));
    Parts { f, g, rest }
}

fn lending(parts: &Parts, room: usize) -> Reply {
    let (answer, claim) = find(parts.f, parts.g, room);
    Reply::Told(answer, claim)
}

fn checked(parts: &Parts) -> Reply {
    Reply::Told(check(parts.f, parts.g, parts.rest).answer, None)
}

fn up_to(parts: &Parts, longest: usize) -> Reply {
    if parts.rest.len() > longest {
        return Reply::TooLong;
    }
    checked(parts)
}

#[test]
fn the_right_rules_pass() {
    for sweep in sweeps::ALL {
        assert_eq!(sweep(&mut Trial::new(by(RIGHT))), Ok(()));
    }
}

#[test]
fn every_mistake_is_noticed() {
    let groups = [reads(), cuts(), buffers(), claims(), lines(), numbers_and_bytes()];
    all_noticed(groups.into_iter().flatten(), |rules| Trial::new(by(rules)));
}

/// What is wrong, the rules, and the sweep that has to notice.
type Mistake = (&'static str, Rules, Sweep);

// ---- What is read ----

fn reading(read: fn(&[u8], &Portions) -> Vec<u8>) -> Rules {
    Rules { read, ..RIGHT }
}

/// So many portions of the input.
fn first(count: usize, input: &[u8], portions: &Portions) -> Vec<u8> {
    portions.cut(input).into_iter().take(count).flatten().copied().collect()
}

/// What stands before the first byte of this value.
fn before(bytes: &[u8], last: u8) -> Vec<u8> {
    bytes.iter().copied().take_while(|&byte| byte != last).collect()
}

/// So many bytes at most.
fn at_most(bytes: &[u8], length: usize) -> Vec<u8> {
    bytes[..length.min(bytes.len())].to_vec()
}

fn reads() -> Vec<Mistake> {
    vec![
        (
            "the first portion alone",
            reading(|input, portions| first(1, input, portions)),
            sweeps::portions,
        ),
        (
            "the first two portions alone",
            reading(|input, portions| first(2, input, portions)),
            sweeps::portions,
        ),
        (
            "the last portion twice",
            reading(|input, portions| match portions.cut(input)[..] {
                [_, .., last] => [input, last].concat(),
                _ => input.to_vec(),
            }),
            sweeps::portions,
        ),
        ("a line", reading(|input, _| before(input, b'\n')), sweeps::following_bytes),
        ("up to a 0", reading(|input, _| before(input, 0)), sweeps::named_functions),
        ("up to a 1A", reading(|input, _| before(input, 0x1A)), sweeps::following_bytes),
        ("up to an FF", reading(|input, _| before(input, 0xFF)), sweeps::named_functions),
        (
            "without the line's end at the end",
            reading(|input, _| input.strip_suffix(b"\n").unwrap_or(input).to_vec()),
            sweeps::following_bytes,
        ),
        (
            "without carriage returns",
            reading(|input, _| String::from_utf8_lossy(input).replace("\r\n", "\n").into()),
            sweeps::following_bytes,
        ),
        ("4,096 bytes", reading(|input, _| at_most(input, 4_096)), sweeps::long_claims),
        ("49,152 bytes in all", reading(|input, _| at_most(input, 49_152)), sweeps::long_claims),
        // Two records of 1,025 bytes and a claim that is one byte too long.
        ("51,202 bytes", reading(|input, _| at_most(input, 51_202)), sweeps::rests),
    ]
}

// ---- Where the records end ----

fn cutting(cut: fn(&[u8]) -> Parts) -> Rules {
    Rules { cut, ..RIGHT }
}

/// Both end where this says, by n and the counts.
fn both(input: &[u8], at: fn(usize, usize, usize) -> usize) -> Parts<'_> {
    let end = |bytes: &[u8]| match bytes {
        [_, _, n, a, b, ..] => at(*n as usize, *a as usize, *b as usize),
        _ => bytes.len(),
    };
    cut_at(input, &end, &end)
}

fn cuts() -> Vec<Mistake> {
    vec![
        ("5 + 2n", cutting(|input| both(input, |n, _, _| 5 + 2 * n)), sweeps::named_functions),
        ("5 + a + b", cutting(|input| both(input, |_, a, b| 5 + a + b)), sweeps::named_functions),
        (
            "4 + 2(a + b)",
            cutting(|input| both(input, |_, a, b| 4 + 2 * (a + b))),
            sweeps::named_functions,
        ),
        ("5 + 2a", cutting(|input| both(input, |_, a, _| 5 + 2 * a)), sweeps::named_functions),
        ("5 + 2b", cutting(|input| both(input, |_, _, b| 5 + 2 * b)), sweeps::named_functions),
        (
            "the length as one byte",
            cutting(|input| both(input, |_, a, b| (5 + 2 * (a + b)) % 256)),
            sweeps::cut_inputs,
        ),
        (
            "the sum of the counts as one byte",
            cutting(|input| both(input, |_, a, b| 5 + 2 * ((a + b) % 256))),
            sweeps::rests,
        ),
        (
            "counts of 64 at most",
            cutting(|input| both(input, |_, a, b| 5 + 2 * (a.min(64) + b.min(64)))),
            sweeps::rests,
        ),
        (
            "a record of too many cubes has none",
            cutting(|input| both(input, |_, a, b| if a.max(b) > 64 { 5 } else { 5 + 2 * (a + b) })),
            sweeps::rests,
        ),
        (
            "a record of a wrong n goes on to the end",
            cutting(|input| {
                both(input, |n, a, b| match n {
                    1..=8 => 5 + 2 * (a + b),
                    _ => usize::MAX,
                })
            }),
            sweeps::rests,
        ),
        (
            "a record of a wrong mark goes on to the end",
            cutting(|input| {
                let marked = |bytes: &[u8]| match bytes {
                    [0x46, 0x4E, ..] => end(bytes),
                    _ => bytes.len(),
                };
                cut_at(input, &marked, &marked)
            }),
            sweeps::noise,
        ),
        (
            "fewer than five bytes are no record",
            cutting(|input| {
                let whole = |bytes: &[u8]| if bytes.len() < 5 { 0 } else { end(bytes) };
                cut_at(input, &whole, &whole)
            }),
            sweeps::short_inputs,
        ),
        (
            "a record that is not all there is none",
            cutting(|input| {
                // One byte more would be its own.
                let whole = |bytes: &[u8]| match end(&[bytes, &[0]].concat()) {
                    more if more > bytes.len() => 0,
                    right => right,
                };
                cut_at(input, &whole, &whole)
            }),
            sweeps::cut_inputs,
        ),
        (
            "g cut at the first's length",
            cutting(|input| cut_at(input, &end, &|_| end(input))),
            sweeps::named_functions,
        ),
        (
            "g is all that follows f",
            cutting(|input| cut_at(input, &end, &|after| after.len())),
            sweeps::following_bytes,
        ),
        (
            "g before f",
            cutting(|input| {
                let Parts { f, g, rest } = Parts::of(input);
                Parts { f: g, g: f, rest }
            }),
            sweeps::named_functions,
        ),
    ]
}

// ---- The match program ----

fn finding(find: fn(&Parts) -> Reply) -> Rules {
    Rules { find, ..RIGHT }
}

/// What is found, and another claim or none.
fn showing(parts: &Parts, other: fn(Vec<u8>) -> Option<Vec<u8>>) -> Reply {
    let (answer, claim) = find(parts.f, parts.g, 4_096);
    Reply::Told(answer, claim.and_then(other))
}

/// A claim has never 4,096 bytes: whether 4,095 or 4,096 are lent, nobody can tell.
fn buffers() -> Vec<Mistake> {
    vec![
        ("4,094 bytes lent", finding(|parts| lending(parts, 4_094)), sweeps::rooms),
        ("4,097 bytes lent", finding(|parts| lending(parts, 4_097)), sweeps::rooms),
        ("room for a match lent", finding(|parts| lending(parts, 12)), sweeps::named_functions),
        ("as much lent as is needed", finding(|parts| lending(parts, usize::MAX)), sweeps::rooms),
        (
            "the claim although it is too long",
            finding(|parts| {
                let (answer, _) = find(parts.f, parts.g, 4_096);
                Reply::Told(answer, find(parts.f, parts.g, usize::MAX).1)
            }),
            sweeps::rooms,
        ),
        ("no claim shown", finding(|parts| showing(parts, |_| None)), sweeps::named_functions),
        (
            "the claim with what is left of the buffer",
            finding(|parts| {
                showing(parts, |mut claim| {
                    claim.resize(4_096, 0);
                    Some(claim)
                })
            }),
            sweeps::named_functions,
        ),
        (
            "the claim up to a 0",
            finding(|parts| showing(parts, |claim| Some(before(&claim, 0)))),
            sweeps::named_functions,
        ),
        (
            "too long for the match program too",
            finding(|parts| match up_to(parts, 49_152) {
                Reply::TooLong => Reply::TooLong,
                _ => lending(parts, 4_096),
            }),
            sweeps::noise,
        ),
        (
            "bytes after g refused",
            finding(|parts| match two(parts.f, parts.g) {
                Ok(_) if !parts.rest.is_empty() => {
                    Reply::Told(Answer::refused(8, 2, parts.g.len()), None)
                }
                _ => lending(parts, 4_096),
            }),
            sweeps::following_bytes,
        ),
    ]
}

// ---- The check program ----

fn checking(check: fn(&Parts) -> Reply) -> Rules {
    Rules { check, ..RIGHT }
}

fn claims() -> Vec<Mistake> {
    vec![
        ("49,152 taken for too long", checking(|parts| up_to(parts, 49_151)), sweeps::long_claims),
        ("49,153 not too long", checking(|parts| up_to(parts, 49_153)), sweeps::long_claims),
        ("nothing is too long", checking(checked), sweeps::noise),
        (
            "the whole input may not be longer",
            checking(|parts| up_to(parts, 49_152 - parts.f.len() - parts.g.len())),
            sweeps::long_claims,
        ),
        (
            "too long after the faults of f and g",
            checking(|parts| match two(parts.f, parts.g) {
                Err(answer) => Reply::Told(answer, None),
                Ok(_) => up_to(parts, 49_152),
            }),
            sweeps::rests,
        ),
        (
            "a longer claim cut",
            checking(|parts| {
                let rest = &parts.rest[..parts.rest.len().min(49_152)];
                checked(&Parts { rest, ..*parts })
            }),
            sweeps::long_claims,
        ),
        (
            "a match claim cut at its length",
            checking(|parts| match parts.rest {
                [0x4D, 0x54, n, ..] => {
                    let rest = &parts.rest[..parts.rest.len().min(WIRING + *n as usize)];
                    up_to(&Parts { rest, ..*parts }, 49_152)
                }
                _ => up_to(parts, 49_152),
            }),
            sweeps::following_bytes,
        ),
        (
            "the claim shown",
            checking(|parts| match up_to(parts, 49_152) {
                Reply::Told(answer, _) if answer.is_accepted() => {
                    Reply::Told(answer, Some(parts.rest.to_vec()))
                }
                right => right,
            }),
            sweeps::named_functions,
        ),
    ]
}

// ---- The text ----

fn printing(text: fn(&Reply) -> String) -> Rules {
    Rules { text, ..RIGHT }
}

/// The four numbers in another way, and then the claim as it should be.
fn told(reply: &Reply, line: fn(Answer) -> String) -> String {
    match reply {
        Reply::Told(answer, _) => reply.text().replacen(&numbers(*answer), &line(*answer), 1),
        Reply::TooLong => reply.text(),
    }
}

/// The claim in another way, after the numbers as they should be.
fn shown(reply: &Reply, line: fn(&[u8]) -> String) -> String {
    match reply {
        Reply::Told(answer, Some(claim)) => format!("{}\n{}\n", numbers(*answer), line(claim)),
        _ => reply.text(),
    }
}

/// The bytes of the claim, each in another way.
fn words(claim: &[u8], word: fn(&u8) -> String) -> String {
    claim.iter().map(word).collect::<Vec<String>>().join(" ")
}

fn lines() -> Vec<Mistake> {
    vec![
        ("two blanks", printing(|reply| reply.text().replace(' ', "  ")), sweeps::named_functions),
        (
            "a blank at the end of a line",
            printing(|reply| reply.text().replace('\n', " \n")),
            sweeps::named_functions,
        ),
        (
            "a blank at the end of the claim",
            printing(|reply| shown(reply, |claim| hex(claim) + " ")),
            sweeps::named_functions,
        ),
        (
            "no line's end at the end",
            printing(|reply| reply.text().trim_end().to_string()),
            sweeps::named_functions,
        ),
        (
            "no line's end after the claim",
            printing(|reply| match reply {
                Reply::Told(_, Some(_)) => reply.text().trim_end().to_string(),
                _ => reply.text(),
            }),
            sweeps::named_functions,
        ),
        (
            "no line's end after too long",
            printing(|reply| match reply {
                Reply::TooLong => "too long".to_string(),
                _ => reply.text(),
            }),
            sweeps::noise,
        ),
        (
            "carriage returns",
            printing(|reply| reply.text().replace('\n', "\r\n")),
            sweeps::named_functions,
        ),
        (
            "an empty line at the end",
            printing(|reply| reply.text() + "\n"),
            sweeps::named_functions,
        ),
        (
            "a claim line although refused",
            printing(|reply| match reply {
                Reply::Told(answer, None) if !answer.is_accepted() => reply.text() + "\n",
                _ => reply.text(),
            }),
            sweeps::named_functions,
        ),
        (
            "both in one line",
            printing(|reply| reply.text().trim_end().replace('\n', " ") + "\n"),
            sweeps::named_functions,
        ),
        (
            "the claim in lines of 16 bytes",
            printing(|reply| {
                shown(reply, |claim| claim.chunks(16).map(hex).collect::<Vec<_>>().join("\n"))
            }),
            sweeps::named_functions,
        ),
        (
            "the claim first",
            printing(|reply| match reply {
                Reply::Told(answer, Some(claim)) => {
                    format!("{}\n{}\n", hex(claim), numbers(*answer))
                }
                _ => reply.text(),
            }),
            sweeps::named_functions,
        ),
        ("Too long", printing(|reply| reply.text().replace("too", "Too")), sweeps::noise),
        ("too long 0", printing(|reply| reply.text().replace("long", "long 0")), sweeps::noise),
    ]
}

fn numbers_and_bytes() -> Vec<Mistake> {
    vec![
        (
            "one number",
            printing(|reply| told(reply, |answer| answer.packed().to_string())),
            sweeps::named_functions,
        ),
        (
            "the numbers in hex",
            printing(|reply| {
                told(reply, |Answer { code, kind, record, place, pattern }| {
                    format!("{code:X} {kind:X} {record:X} {place:X} {pattern:X}")
                })
            }),
            sweeps::named_functions,
        ),
        (
            "the numbers of two digits",
            printing(|reply| {
                told(reply, |Answer { code, kind, record, place, pattern }| {
                    format!("{code:02} {kind:02} {record:02} {place:02} {pattern:02}")
                })
            }),
            sweeps::named_functions,
        ),
        (
            "kind and record changed places",
            printing(|reply| {
                told(reply, |Answer { code, kind, record, place, pattern }| {
                    format!("{code} {record} {kind} {place} {pattern}")
                })
            }),
            sweeps::named_functions,
        ),
        (
            "four numbers",
            printing(|reply| {
                told(reply, |Answer { code, kind, record, place, .. }| {
                    format!("{code} {kind} {record} {place}")
                })
            }),
            sweeps::named_functions,
        ),
        (
            "the pattern only where it is not 0",
            printing(|reply| {
                told(reply, |answer| match answer.pattern {
                    0 => numbers(answer).trim_end_matches(" 0").to_string(),
                    _ => numbers(answer),
                })
            }),
            sweeps::named_functions,
        ),
        (
            "the pattern only where there is one",
            printing(|reply| {
                told(reply, |answer| match answer.code {
                    7 | 14 => numbers(answer),
                    _ => numbers(answer).rsplit_once(' ').expect("five numbers").0.to_string(),
                })
            }),
            sweeps::named_functions,
        ),
        (
            "the pattern before the place",
            printing(|reply| {
                told(reply, |Answer { code, kind, record, place, pattern }| {
                    format!("{code} {kind} {record} {pattern} {place}")
                })
            }),
            sweeps::named_functions,
        ),
        (
            "the pattern always 0",
            printing(|reply| told(reply, |answer| numbers(answer.naming(0)))),
            sweeps::named_functions,
        ),
        (
            "the pattern of 14 always 0",
            printing(|reply| {
                told(reply, |answer| match answer.code {
                    14 => numbers(answer.naming(0)),
                    _ => numbers(answer),
                })
            }),
            sweeps::patterns,
        ),
        (
            "the pattern as a signed byte",
            printing(|reply| {
                told(reply, |answer| {
                    let numbers = numbers(answer.naming(0));
                    format!("{} {}", &numbers[..numbers.len() - 2], answer.pattern as i8)
                })
            }),
            sweeps::patterns,
        ),
        (
            "the code alone where it is not 0",
            printing(|reply| {
                told(reply, |answer| match answer.code {
                    0 => numbers(answer),
                    code => code.to_string(),
                })
            }),
            sweeps::named_functions,
        ),
        (
            "places of one byte",
            printing(|reply| {
                told(reply, |answer| numbers(Answer { place: answer.place % (1 << 8), ..answer }))
            }),
            sweeps::rooms,
        ),
        (
            "places of two bytes",
            printing(|reply| {
                told(reply, |answer| numbers(Answer { place: answer.place % (1 << 16), ..answer }))
            }),
            sweeps::rooms,
        ),
        (
            "small hex",
            printing(|reply| shown(reply, |claim| hex(claim).to_lowercase())),
            sweeps::named_functions,
        ),
        (
            "hex of one digit where one will do",
            printing(|reply| shown(reply, |claim| words(claim, |byte| format!("{byte:X}")))),
            sweeps::named_functions,
        ),
        (
            "hex without blanks",
            printing(|reply| shown(reply, |claim| hex(claim).replace(' ', ""))),
            sweeps::named_functions,
        ),
        (
            "the digits of a byte changed places",
            printing(|reply| {
                shown(reply, |claim| words(claim, |byte| format!("{:02X}", byte.rotate_left(4))))
            }),
            sweeps::named_functions,
        ),
        (
            "the claim in decimal",
            printing(|reply| shown(reply, |claim| words(claim, |byte| byte.to_string()))),
            sweeps::named_functions,
        ),
        (
            "the claim as it is",
            printing(|reply| shown(reply, |claim| String::from_utf8_lossy(claim).into_owned())),
            sweeps::named_functions,
        ),
    ]
}
