//! `zap match` of one function to one.

use std::collections::BTreeMap;
use std::fs;

use zap_tests::claims::trees::split_everywhere;
use zap_tests::command::Folder;
use zap_tests::json::Json;
use zap_tests::matches::wiring_of;
use zap_tests::reference::answer::{Answer, MATCH, NO_MATCH};
use zap_tests::reference::matcher::Found;
use zap_tests::reference::programs::hex;
use zap_tests::reference::two::Two;
use zap_tests::reference::wiring::Wiring;

use crate::{answer_of, answered, choice_words, examples, from_hex, name_of, numbers, object, run};

/// What the reference finds: the kind and the claim.
pub fn found(two: &Two) -> (u64, Vec<u8>) {
    let found = Found::of(two);
    (found.kind(), found.claim(two.n()))
}

/// A match's wiring as a sentence: `x0 to x1 inverted, x1 to x0, output inverted`.
pub fn sentence(Wiring { q, inputs }: &Wiring) -> String {
    let served = inputs.placed.iter().enumerate();
    let mut words: Vec<String> =
        served.map(|(i, choice)| format!("x{i} to {}", choice_words(choice))).collect();
    if *q {
        words.push("output inverted".to_string());
    }
    words.join(", ")
}

/// An object has what was found.
pub fn expect_found(object: &Json, kind: u64, claim: &[u8]) {
    assert_eq!(answer_of(object), Answer::accepted(kind, claim.len()));
    assert_eq!(object.text("result"), if kind == MATCH { "match" } else { "no match" });
    assert_eq!(object.number("n"), claim[2] as u64);
    assert_eq!(object.number("length"), claim.len() as u64);
    // A refusal of more than 24 lines of 16 is only measured.
    match claim.len() {
        0..=384 => assert_eq!(object.text("bytes"), hex(claim)),
        _ => assert_eq!(object.get("bytes"), None),
    }
    if kind == MATCH {
        let Wiring { q, inputs } = wiring_of(claim);
        assert_eq!(object.number("q"), q as u64);
        let listed = object.list("wiring").iter();
        let listed: Vec<(u64, u64, bool)> =
            listed.map(|one| (one.number("f"), one.number("g"), one.truth("inverted"))).collect();
        let served = inputs.placed.iter().enumerate();
        assert!(served.map(|(i, c)| (i as u64, c.j as u64, c.inverted)).eq(listed));
    }
}

/// The wires of a picture, the output last: from, to, and whether it is inverted.
pub fn read_picture(text: &str) -> Vec<(String, String, bool)> {
    let wires = text.lines().filter(|line| line.contains('─'));
    let wire = |line: &str| match line.split_whitespace().collect::<Vec<_>>()[..] {
        [from, "─────", to] => (from.to_string(), to.to_string(), false),
        [from, "──o──", to, "inverted"] => (from.to_string(), to.to_string(), true),
        _ => panic!("no wire: {line}"),
    };
    wires.map(wire).collect()
}

pub fn picture(Wiring { q, inputs }: &Wiring) -> Vec<(String, String, bool)> {
    let served = inputs.placed.iter().enumerate();
    let wires =
        served.map(|(i, choice)| (format!("x{i}"), format!("x{}", choice.j), choice.inverted));
    wires.chain([("output".to_string(), "output".to_string(), *q)]).collect()
}

#[test]
fn every_pair_of_examples_is_matched() {
    let folder = Folder::new();
    let [kept, kept_hex] = ["claim", "claim.hex"].map(|name| folder.path().join(name));
    let examples = examples();
    let mut kinds = BTreeMap::new();
    for f in &examples {
        for g in examples.iter().filter(|g| g.f.n == f.f.n) {
            let two = Two { f: f.f.clone(), g: g.f.clone() };
            let (kind, claim) = found(&two);
            *kinds.entry(kind).or_insert(0) += 1;
            let status = if kind == MATCH { 0 } else { 1 };

            let json = run(&[&"match", &f.file, &g.file, &"--json"]);
            answered(&json, status);
            let read = object(&json);
            assert_eq!([read.text("f"), read.text("g")], [name_of(&f.file), name_of(&g.file)]);
            expect_found(&read, kind, &claim);

            let text = run(&[&"match", &f.file, &g.file, &"-o", &kept]);
            answered(&text, status);
            let last = numbers(Answer::accepted(kind, claim.len()));
            assert_eq!(text.out.lines().last(), Some(&last[..]));
            match kind {
                MATCH => assert_eq!(read_picture(&text.out), picture(&wiring_of(&claim))),
                _ => assert!(text.out.starts_with("no match: "), "{}", text.out),
            }
            answered(&run(&[&"match", &f.file, &g.file, &"--hex", &"-o", &kept_hex]), status);
            assert_eq!(fs::read(&kept).expect("written"), claim);
            assert_eq!(from_hex(&fs::read(&kept_hex).expect("written")), claim);
            for kept in [&kept, &kept_hex] {
                answered(&run(&[&"check", &f.file, &g.file, kept]), 0);
                answered(&run(&[&"explain", &f.file, &g.file, kept]), 0);
            }
        }
    }
    assert!(kinds[&MATCH] >= 10 && kinds[&NO_MATCH] >= 10, "{kinds:?}");
}

/// Code 18 never comes, for the examples above no more than for the longest refusal of
/// all. f is its last input; g is on at the last pattern and at the first, which are its
/// on cubes 0 and 1. Nothing is dead before x7 is placed, at depth 8: each cube of f names
/// x7 alone, and each cube of g every input. With q = 0, x7' and the on cubes of g are to
/// be kept apart: x7 plain, cube 1 stays with it, and cube 0 if it is inverted. With
/// q = 1 it is x7, and cube 0 and cube 1. All bytes but the mark, n and the 3 of each
/// closing are splits.
#[test]
fn the_longest_refusal_of_all_is_found() {
    let mut claim = vec![0x52, 0x46, 8];
    split_everywhere(8, [[1, 0, 1], [1, 0, 0]], &mut claim);
    split_everywhere(8, [[0, 0, 0], [0, 0, 1]], &mut claim);
    assert_eq!(claim.len(), 75_323_621);

    let folder = Folder::new();
    folder.write("f.hex", "46 4E 08 01 01 80 00 00 80");
    folder.write("g.hex", "46 4E 08 02 00 FF 00 00 FF");
    let ran = folder.zap("match f.hex g.hex -o claim");
    answered(&ran, 1);
    assert!(fs::read(folder.path().join("claim")).expect("written") == claim, "another claim");
    for part in [
        "no match: none of the 20,643,840 wirings agrees",
        "75,323,621 bytes, 20,643,840 closings and 13,392,098 splits",
        "code 0, kind 2, record 0, place 75323621, pattern 0",
    ] {
        assert!(ran.out.contains(part), "no {part:?} in {}", ran.out);
    }
}
