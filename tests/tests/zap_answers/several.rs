//! `zap match` of one function to many.

use std::collections::BTreeMap;
use std::os::unix::fs::symlink;

use zap_tests::cases::{CONJ, DISJ, ODD, WIRE};
use zap_tests::command::Folder;
use zap_tests::matches::pairs::several;
use zap_tests::matches::wiring_of;
use zap_tests::random::{few, function_of, spoiled, Random};
use zap_tests::reference::answer::{Answer, MATCH};
use zap_tests::reference::pattern::Function;
use zap_tests::reference::programs::hex;
use zap_tests::reference::record::record;
use zap_tests::reference::two::two;
use zap_tests::wirings::pairs::{any_wiring, copied};

use crate::matched::{expect_found, found, sentence};
use crate::refused::{header_codes, shared_in_words};
use crate::{answer_of, answered, counted, in_form, objects};

/// How f stands to one g: the row of the table, its line, and what its object has.
struct Stands {
    name: String,
    row: &'static str,
    line: Option<String>,
    answer: Option<Answer>,
    claim: Vec<u8>,
}

impl Stands {
    /// By the reference, of a file that holds g's bytes in this form.
    fn of(name: String, form: &str, f: &[u8], g: &[u8]) -> Stands {
        let two = match two(f, g) {
            Err(answer) if answer.code == 9 => {
                let line = format!("{name}: no match, it has {}", counted(g[2] as usize, "input"));
                return Stands { answer: Some(answer), ..Stands::told(name, "other n", line) };
            }
            Err(answer) => {
                let (words, _) = &header_codes()[&answer.code];
                let place = match answer.code {
                    1 => format!("after {}", counted(answer.place as usize, "byte")),
                    7 => format!("at byte {}; {}", answer.place, shared_in_words(g, answer)),
                    _ => format!("at byte {}", answer.place),
                };
                let why = format!("{words} (code {}), {place}", answer.code);
                let line = format!("{name}, taken for {form}: refused: {why}");
                return Stands { answer: Some(answer), ..Stands::told(name, "refused", line) };
            }
            Ok(two) => two,
        };
        let (kind, claim) = found(&two);
        let answer = Some(Answer::accepted(kind, claim.len()));
        let (row, says) = match kind {
            MATCH => ("match", format!("match: {}", sentence(&wiring_of(&claim)))),
            _ => ("no match", format!("no match, a refusal of {}", counted(claim.len(), "byte"))),
        };
        let line = format!("{name}: {says}");
        Stands { answer, claim, ..Stands::told(name, row, line) }
    }

    fn told(name: String, row: &'static str, line: String) -> Stands {
        Stands { name, row, line: Some(line), answer: None, claim: vec![] }
    }

    /// A file that is no function, in a folder.
    fn passed_over(name: String) -> Stands {
        Stands { name, row: "passed over", line: None, answer: None, claim: vec![] }
    }
}

/// 0 if some match, 1 if none; 2 if something was refused or could not be read.
fn status_of(all: &[Stands]) -> i32 {
    let some = |row| all.iter().any(|one| one.row == row);
    match (some("refused") || some("unread"), some("match")) {
        (true, _) => 2,
        (false, true) => 0,
        (false, false) => 1,
    }
}

/// Runs `match` of several: twice for a person, twice for a script, with no difference.
fn expect_several(folder: &Folder, words: &str, all: &[Stands]) {
    let [text, again] = [(); 2].map(|()| folder.zap(words));
    assert_eq!(text, again, "{words}");
    answered(&text, status_of(all));
    let (lines, table) = text.out.rsplit_once("\n\n").expect("lines, and a table");
    let expected: Vec<&str> = all.iter().filter_map(|one| one.line.as_deref()).collect();
    assert_eq!(lines.lines().collect::<Vec<_>>(), expected, "{words}");

    // The table's rows: a number, and the first five names.
    let mut rows = vec![];
    for row in ["match", "no match", "other n", "refused", "unread", "passed over"] {
        let of_row = all.iter().filter(|one| one.row == row).map(|one| &one.name[..]);
        let names: Vec<&str> = of_row.collect();
        if !names.is_empty() {
            let more = if names.len() > 5 { ", .." } else { "" };
            let listed = names[..names.len().min(5)].join(", ") + more;
            rows.push((row.to_string(), names.len(), listed));
        }
    }
    let read: Vec<(String, usize, String)> = table
        .lines()
        .map(|line| {
            let (row, rest) =
                line.split_at(line.find(|c: char| c.is_ascii_digit()).expect("a number"));
            let (number, names) = rest.split_once("  ").expect("names");
            (row.trim_end().to_string(), number.parse().expect("a number"), names.to_string())
        })
        .collect();
    assert_eq!(read, rows, "{words}");

    let [json, again] = [(); 2].map(|()| folder.zap(&format!("{words} --json")));
    assert_eq!(json, again, "{words}");
    answered(&json, status_of(all));
    let listed = objects(&json);
    assert_eq!(listed.len(), all.len(), "{}", json.out);
    for (object, one) in listed.iter().zip(all) {
        assert_eq!([object.text("verb"), object.text("g")], ["match", &one.name]);
        assert_eq!(object.text("result"), one.row, "{}", one.name);
        match one.answer {
            Some(answer) if answer.code == 0 => expect_found(object, answer.kind, &one.claim),
            Some(answer) => assert_eq!(answer_of(object), answer, "{}", one.name),
            None => assert!(!object.text("error").is_empty(), "{}", one.name),
        }
    }
}

/// The files of one folder, as they come, and what is expected of each.
#[test]
fn several_functions_are_told_one_by_one() {
    let folder = Folder::new();
    for (name, bytes) in [("conj", CONJ), ("disj", DISJ), ("odd", ODD), ("wire", WIRE)] {
        folder.write(name, bytes);
        folder.write(&format!("cells/{name}.hex"), hex(bytes));
    }
    let cut = &CONJ[..10];
    folder.write("cut", cut);
    let plain = |name: &str, g: &[u8]| Stands::of(name.to_string(), "binary", CONJ, g);
    let [disj, odd, wire, bad] = [("disj", DISJ), ("odd", ODD), ("wire", WIRE), ("cut", cut)];
    // In the order of the words, and a file that is named twice is told twice.
    for (named, status) in [
        (&[odd, disj][..], 0),
        (&[disj, odd], 0),
        (&[disj, wire, disj], 0),
        (&[odd, wire], 1),
        (&[wire, wire], 1),
        (&[odd, bad, disj], 2),
        (&[bad, bad], 2),
    ] {
        let names: Vec<&str> = named.iter().map(|(name, _)| *name).collect();
        let all: Vec<Stands> = named.iter().map(|(name, g)| plain(name, g)).collect();
        assert_eq!(status_of(&all), status, "{names:?}");
        expect_several(&folder, &format!("match conj {}", names.join(" ")), &all);
    }

    // A folder stands for its functions, by name, where it is named.
    let of_folder = |name: &str, g: &[u8]| Stands::of(format!("cells/{name}"), "hex", CONJ, g);
    let cells = || {
        [("conj", CONJ), ("disj", DISJ), ("odd", ODD), ("wire", WIRE)]
            .map(|(name, g)| of_folder(&format!("{name}.hex"), g))
    };
    expect_several(&folder, "match conj cells", &cells());
    let mut all = vec![plain("odd", ODD)];
    all.extend(cells());
    all.push(plain("disj", DISJ));
    expect_several(&folder, "match conj odd cells disj", &all);

    // Claims and other text in it are passed over and counted; what is hidden or a
    // folder is not even that. A number of inputs apart, all is well.
    folder.write("cells/a.claim", [0x4D, 0x54, 2, 1, 0x10, 0x11]);
    folder.write("cells/b.claim.hex", "52 46 01 00 00 00 00 00 00");
    folder.write("cells/notes.txt", "not a cell");
    folder.write("cells/.hidden", "not a cell");
    folder.write("cells/more/conj.hex", hex(CONJ));
    let [conj, disj, odd, wire] = cells();
    let passed = |name: &str| Stands::passed_over(format!("cells/{name}"));
    let all =
        [passed("a.claim"), passed("b.claim.hex"), conj, disj, passed("notes.txt"), odd, wire];
    assert_eq!(status_of(&all), 0);
    expect_several(&folder, "match conj cells", &all);

    // What is named as a function has to be one, and what is named has to be there.
    folder.write("cells/z.hex", "not a cell");
    let ran = folder.zap("match conj cells missing");
    answered(&ran, 2);
    let told = |start: &str| ran.out.lines().filter(|line| line.starts_with(start)).count();
    assert_eq!([told("cells/z.hex"), told("missing"), told("unread")], [1, 1, 1], "{}", ran.out);
    let json = folder.zap("match conj cells missing --json");
    answered(&json, 2);
    let results: Vec<String> =
        objects(&json).iter().map(|object| object.text("result").to_string()).collect();
    assert_eq!(results[results.len() - 2..], ["unread", "unread"]);
    // A claim that is named is no function.
    let ran = folder.zap("match conj disj cells/a.claim");
    answered(&ran, 2);
    assert!(ran.out.contains("cells/a.claim, taken for binary: refused: wrong mark (code 2)"));
}

/// What cannot be read may be a function: it is told, and not passed over. The file is
/// there, but its first byte is at no address.
#[test]
fn an_unreadable_file_of_a_folder_is_told() {
    let folder = Folder::new();
    folder.write("cells/conj", CONJ);
    symlink("/proc/self/mem", folder.path().join("cells/mem")).expect("a link");
    let ran = folder.zap("match cells/conj cells");
    answered(&ran, 2);
    assert!(ran.out.contains("\ncells/mem cannot be read: "), "{}", ran.out);
    let ran = folder.zap("summary cells");
    assert_eq!(ran.status, 2, "{}", ran.out);
    assert!(ran.err.contains("cells/mem cannot be read: "), "{}", ran.err);
}

/// Functions of 1 to 4 inputs, some of them spoiled, in one folder; one of each n is
/// held against all.
#[test]
fn three_hundred_functions_in_a_folder() {
    let folder = Folder::new();
    let mut random = Random::new(502);
    let fs: Vec<Function> = (1..=4).map(|n| function_of(&mut random, n, several)).collect();
    let mut cells = vec![];
    for at in 0..300 {
        let f = &fs[random.below(4)];
        let g = match at % 6 {
            0 | 1 => {
                let wiring = any_wiring(&mut random, f.n);
                record(&copied(&mut random, f, &wiring, at % 3))
            }
            2 => record(&function_of(&mut random, f.n, few)),
            5 if at % 4 == 1 => spoiled(&mut random, f.clone()),
            _ => record(&function_of(&mut random, f.n, several)),
        };
        // Spoiled, the bytes may have lost their mark, and be text.
        let form = if at % 2 == 0 && g.starts_with(b"FN") { "binary" } else { "hex" };
        cells.push((format!("cells/cell {:03}.fn", at * 7 % 300), form, g));
    }
    random.shuffle(&mut cells);
    for (name, form, g) in &cells {
        folder.write(name, in_form(g, form));
    }
    cells.sort();
    let mut rows = BTreeMap::new();
    for f in &fs {
        let f = record(f);
        folder.write("f", &f);
        let stands =
            |(name, form, g): &(String, &str, Vec<u8>)| Stands::of(name.clone(), form, &f, g);
        let all: Vec<Stands> = cells.iter().map(stands).collect();
        all.iter().for_each(|one| *rows.entry(one.row).or_insert(0) += 1);
        expect_several(&folder, "match f cells", &all);
    }
    assert!(rows["match"] > 50 && rows["no match"] > 50 && rows["refused"] > 20, "{rows:?}");
}
