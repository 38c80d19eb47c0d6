//! Tables: taken wherever a function is, told by their lines where they are refused, and
//! written.

use std::collections::BTreeMap;
use std::fs;

use zap_tests::cases::{CONJ, DISJ, WIRE};
use zap_tests::command::{command, example, Folder, Ran};
use zap_tests::json::Json;
use zap_tests::matches::pairs::several;
use zap_tests::random::{any_cube, any_size, few, full_function, function_of, Random};
use zap_tests::reference::answer::{Answer, OF_F, OF_G};
use zap_tests::reference::pattern::Function;
use zap_tests::reference::programs::hex;
use zap_tests::reference::record::record;
use zap_tests::reference::table::{lines, read_table, reading, table, words};
use zap_tests::reference::two::Two;
use zap_tests::tables::cases::{TABLES, TABLES_OF_NAMED};
use zap_tests::tables::texts::{bad_value, good, malformed, miscount, outside, set, term, unknown};
use zap_tests::wirings::pairs::{any_wiring, copied};

use crate::matched::found;
use crate::refused::{expect_shared, header_codes, shared};
use crate::{
    answer_of, answered, examples, inputs_at, name_of, numbers, object, run, thousands, Example,
};

// ---- Accepted tables ----

/// A function's table in some random layout.
fn laid_out(random: &mut Random, f: &Function) -> Vec<u8> {
    let lines = good(random, f);
    set(random, &lines).0
}

/// The same text in another encoding, now and then.
fn encoded(random: &mut Random, text: Vec<u8>) -> Vec<u8> {
    let wide = |text: &[u8], unit: fn(u16) -> [u8; 2]| -> Vec<u8> {
        let text = format!("\u{feff}{}", std::str::from_utf8(text).expect("text"));
        text.encode_utf16().flat_map(unit).collect()
    };
    match random.below(6) {
        0 => wide(&text, u16::to_le_bytes),
        1 => wide(&text, u16::to_be_bytes),
        2 => [&b"\xEF\xBB\xBF"[..], &text].concat(),
        _ => text,
    }
}

/// In two folders the same names: here tables, there hex. Whatever is asked, the answers
/// are the same, byte for byte.
#[test]
fn a_table_is_taken_wherever_a_function_is() {
    let [tables, records] = [(); 2].map(|()| Folder::new());
    let mut random = Random::new(701);
    for round in 0..24 {
        let n = 1 + round % 4;
        let f = function_of(&mut random, n, several);
        let g = match round % 3 {
            0 => function_of(&mut random, n, several),
            _ => {
                let wiring = any_wiring(&mut random, n);
                copied(&mut random, &f, &wiring, round % 2)
            }
        };
        for (name, function) in [("f", &f), ("g", &g), ("cells/a.pla", &f), ("cells/b", &g)] {
            let text = laid_out(&mut random, function);
            tables.write(name, encoded(&mut random, text));
            records.write(name, hex(&record(function)));
        }
        let (_, claim) = found(&Two { f, g });
        for words in [
            "show f",
            "summary f",
            "summary f g cells",
            "match f g",
            "match g f",
            "match f g f",
            "match f cells",
            "check f g claim",
            "explain f g claim",
            "explain g f claim",
            "table f",
            "record g",
        ] {
            for folder in [&tables, &records] {
                folder.write("claim", &claim);
            }
            for more in ["", " --json"] {
                let words = format!("{words}{more}");
                assert_eq!(tables.zap(&words), records.zap(&words), "{words}");
            }
        }
    }
}

/// Standard input may be a table too; comments and what follows .e may hold any bytes.
#[test]
fn a_table_from_standard_input() {
    let mut plain = TABLES_OF_NAMED[0].as_bytes().to_vec();
    for (before, after) in [
        (&b""[..], &b""[..]),
        (b"# Gr\xF6\xDFe, \x1B[1m\x00\n", b""),
        (b"\n\t\n", b"\x1A"),
        (b"\xEF\xBB\xBF#\r\n", b"FN\x00\xFF"),
    ] {
        let text = [before, &plain, after].concat();
        let ran = Ran::of(command().args(["record", "-"]), &text);
        let out = format!("{}\n", hex(CONJ));
        assert_eq!(ran, Ran { out, err: String::new(), status: 0 }, "{text:?}");
    }
    // Without its last LF it is still whole.
    plain.pop();
    let ran = Ran::of(command().args(["summary", "-"]), &plain);
    let out = "standard input: 2 inputs, 2 in use; 1 pattern on, 3 off, 0 open\n".to_string();
    assert_eq!(ran, Ran { out, err: String::new(), status: 0 });
}

// ---- Written tables and records ----

/// Hex as it is printed: 32 bytes a line.
fn rows(record: &[u8]) -> String {
    record.chunks(32).map(|row| format!("{}\n", hex(row))).collect()
}

/// What `table` and `record` print of a function that is in this file.
fn expect_written(folder: &Folder, file: &str, f: &Function) {
    let (text, bytes) = (table(f), record(f));
    let terms = f.on.len() + f.off.len();
    for (verb, printed) in [("table", &text), ("record", &rows(&bytes))] {
        let ran = folder.zap(&format!("{verb} {file}"));
        assert_eq!(ran, Ran { out: printed.clone(), err: String::new(), status: 0 });
        let json = folder.zap(&format!("{verb} {file} --json"));
        answered(&json, 0);
        let object = object(&json);
        assert_eq!([object.text("verb"), object.text("file")], [verb, file]);
        assert_eq!(object.text("result"), "accepted");
        assert_eq!(object.number("n"), f.n as u64);
        assert_eq!(object.get("written"), None);
        match verb {
            "table" => {
                assert_eq!(answer_of(&object), Answer::accepted(3, text.len()));
                assert_eq!(object.number("terms"), terms as u64);
                assert_eq!(object.text("text"), text);
            }
            _ => {
                assert_eq!(answer_of(&object), Answer::accepted(3, bytes.len()));
                assert_eq!(object.number("length"), bytes.len() as u64);
                assert_eq!(object.text("bytes"), hex(&bytes));
            }
        }
    }
}

#[test]
fn functions_are_written_as_tables_and_as_records() {
    let folder = Folder::new();
    let mut random = Random::new(702);
    for round in 0..40 {
        let n = 1 + round % 8;
        let f = match round {
            0..=7 => full_function(&mut random, n),
            _ => function_of(&mut random, n, if round % 2 == 0 { few } else { any_size }),
        };
        folder.write("f.hex", hex(&record(&f)));
        folder.write("f.fn", record(&f));
        folder.write("f.pla", laid_out(&mut random, &f));
        for file in ["f.hex", "f.fn", "f.pla"] {
            expect_written(&folder, file, &f);
        }
        // What is written is the function again.
        for words in ["table f.pla -o t", "record f.pla -o r", "record f.pla --hex -o h"] {
            answered(&folder.zap(words), 0);
        }
        for file in ["t", "r", "h"] {
            expect_written(&folder, file, &f);
        }
    }
}

/// Written to a file or to standard output, with words beside it.
#[test]
fn tables_and_records_are_kept() {
    let folder = Folder::new();
    folder.write("conj.hex", hex(CONJ));
    let text = TABLES_OF_NAMED[0];
    let whole = format!("{}\n", hex(CONJ));
    let told = |answer: usize| numbers(Answer::accepted(3, answer));
    let [of_table, of_record] =
        ["3 terms", "3 cubes"].map(|count| format!("conj.hex: 2 inputs, {count}: 1 on, 2 off\n"));
    for (words, content, first, form, place) in [
        ("table conj.hex", text.as_bytes(), &of_table, "", text.len()),
        ("record conj.hex", CONJ, &of_record, ", binary", CONJ.len()),
        ("record conj.hex --hex", whole.as_bytes(), &of_record, ", hex", CONJ.len()),
    ] {
        let ran = folder.zap(&format!("{words} -o new"));
        let out = format!("{first}written to new{form}\n{}\n", told(place));
        assert_eq!(ran, Ran { out, err: String::new(), status: 0 });
        assert_eq!(fs::read(folder.path().join("new")).expect("written"), content);
        fs::remove_file(folder.path().join("new")).expect("written");

        let json = folder.zap(&format!("{words} --output=new --json"));
        answered(&json, 0);
        let read = object(&json);
        assert_eq!((answer_of(&read), read.text("written")), (Answer::accepted(3, place), "new"));
        assert_eq!(fs::read(folder.path().join("new")).expect("written"), content);

        // On standard output it stands alone.
        for more in ["", " --json"] {
            let mut command = command();
            let words = format!("{words} -o -{more}");
            let output = command.current_dir(folder.path()).args(words.split(' ')).output();
            let output = output.expect("run");
            assert_eq!(output.stdout, content, "{words}");
            let beside = String::from_utf8(output.stderr).expect("text");
            match more {
                "" => assert_eq!(beside, format!("{first}{}\n", told(place))),
                _ => {
                    let read = Json::read(beside.trim_end()).expect("an object");
                    assert_eq!(read.text("written"), "-");
                }
            }
        }
    }
    // A refused function is not written, and leaves what was there.
    folder.write("kept", "old");
    folder.write("bad.pla", ".i 2\n.o 1\n.type fr\n1 1\n.e");
    folder.write("bad.hex", "46 4E 09");
    for words in ["table bad.pla", "record bad.pla", "table bad.hex", "record bad.hex"] {
        for file in ["kept", "-"] {
            let ran = folder.zap(&format!("{words} -o {file}"));
            answered(&ran, 2);
            assert!(ran.out.starts_with("refused: bad."), "{words}: {}", ran.out);
        }
    }
    assert_eq!(fs::read(folder.path().join("kept")).expect("kept"), b"old");
}

/// What the examples are there to show is still in them: an editor may mend it.
#[test]
fn the_examples_are_as_customers_write_them() {
    let text = |name: &str| fs::read_to_string(example(name)).expect("an example");
    let [mux, carry, digit] = ["mux.pla", "carry.pla", "round-up.pla"].map(text);
    assert!(mux.contains("\t#") && mux.contains("  ") && !mux.contains("\n.p"), "{mux:?}");
    assert!(carry.split('\n').all(|line| line.is_empty() || line.ends_with('\r')), "{carry:?}");
    let (terms, after) = digit.split_once(".e\n").expect("an end");
    assert!(terms.contains(" ~") && terms.contains(" - ") && !after.is_empty(), "{digit:?}");
}

/// Each example's table, and the record that it gives.
#[test]
fn every_example_is_written() {
    let folder = Folder::new();
    for Example { file, f, .. } in examples() {
        let name = name_of(&file);
        let text = run(&[&"table", &file]);
        answered(&text, 0);
        assert_eq!(text.out, table(&f), "{name}");
        folder.write("t", text.out);
        expect_written(&folder, "t", &f);
    }
}

// ---- Refused tables ----

/// A refused table, by the reference: in every place where a function is asked for it is
/// told with the archive's numbers, its line, and the header's words for the code.
fn expect_refused(folder: &Folder, text: &[u8], answer: Answer) {
    let Answer { code, place, .. } = answer;
    folder.write("bad.pla", text);
    let (given_for, _) = &header_codes()[&code];
    let of_line = [20, 21, 3, 22].contains(&code);
    let last = lines(text).len();
    for (words, record) in [
        ("show bad.pla", OF_F),
        ("table bad.pla", OF_F),
        ("match bad.pla conj", OF_F),
        ("match conj bad.pla", OF_G),
        ("check conj bad.pla claim", OF_G),
        ("explain bad.pla bad.pla claim", OF_F),
    ] {
        let answer = Answer { record, ..answer };
        let ran = folder.zap(words);
        answered(&ran, 2);
        let first = ran.out.lines().next().expect("a line");
        let end = match of_line {
            true => format!("(code {code}), at line {}", thousands(place as usize)),
            false => format!("(code {code})"),
        };
        let told = first.contains("bad.pla, taken for a table") && first.ends_with(&end);
        assert!(told, "{words}: {first}");
        assert_eq!(ran.out.lines().last(), Some(&numbers(answer)[..]), "{words}");
        // The line at fault is shown; where there is none, the last.
        let shown: Vec<usize> = shown_lines(&ran.out);
        if of_line && last > 0 {
            assert_eq!(shown.last(), Some(&last.min(place as usize)), "{words}: {}", ran.out);
        }
        let json = folder.zap(&format!("{words} --json"));
        answered(&json, 2);
        let object = object(&json);
        assert_eq!(answer_of(&object), answer, "{words}");
        assert_eq!(object.text("result"), "refused");
        assert_eq!([object.text("words"), object.text("taken_for")], [given_for, "table"]);
        let listed: Vec<usize> = object.list("lines").iter().map(whole).collect();
        assert_eq!(listed, shown, "{words}");
        assert!(first.contains(object.text("fault")), "{words}: {first}");
        expect_shared(&object, code, || shared(&reading(text).function(), answer));
        if code == 7 {
            let (fault, lines) = shared_terms(text, answer);
            assert_eq!((object.text("fault"), listed), (&fault[..], lines), "{words}");
        }
    }
    let ran = folder.zap("summary bad.pla");
    answered(&ran, 2);
    let told = ran.out.starts_with("bad.pla, taken for a table: refused: ");
    assert!(told && ran.out.contains(&format!("(code {code})")), "{}", ran.out);
}

/// Code 7 of a table in words, and the two lines that show it. Up to `.e` every line that
/// begins with no dot is a term.
fn shared_terms(text: &[u8], answer: Answer) -> (String, Vec<usize>) {
    let f = reading(text).function();
    let [on, off] = shared(&f, answer);
    let rows: Vec<Vec<&[u8]>> = lines(text).into_iter().map(words).collect();
    let line = |output: &[u8], at| {
        let rows = rows.iter().enumerate().take_while(|(_, row)| row.first() != Some(&&b".e"[..]));
        let terms = rows.filter(|(_, row)| row.first().is_some_and(|word| !word.starts_with(b".")));
        let mut terms = terms.filter(|(_, row)| row[1] == output);
        terms.nth(at).expect("a term for each cube").0 + 1
    };
    let (on, off) = (line(b"1", on), line(b"0", off));
    let terms =
        format!("the terms at line {} (on) and line {} (off)", thousands(on), thousands(off));
    let pattern = answer.pattern as usize;
    let fault = format!("{terms} share pattern {pattern}: {}", inputs_at(pattern, f.n));
    (fault, vec![on.min(off), on.max(off)])
}

fn whole(number: &Json) -> usize {
    match number {
        Json::Number(number) => *number as usize,
        other => panic!("no number: {other:?}"),
    }
}

/// The numbers of the lines that a refusal shows.
fn shown_lines(text: &str) -> Vec<usize> {
    let number =
        |line: &str| line.split_once(" |").and_then(|(number, _)| number.trim().parse().ok());
    text.lines().filter(|line| line.starts_with(' ')).filter_map(number).collect()
}

fn for_refusals() -> Folder {
    let folder = Folder::new();
    folder.write("conj", CONJ);
    folder.write("claim", [0x4D, 0x54, 2, 0, 0, 1]);
    folder
}

/// Whether a text has a word: without one it is hex of no bytes.
fn has_words(text: &[u8]) -> bool {
    lines(text).iter().any(|line| !words(line).is_empty())
}

/// The cases that the readings name.
#[test]
fn the_tables_of_the_readings_are_told() {
    let folder = for_refusals();
    let mut codes = BTreeMap::new();
    for case in TABLES.iter().filter(|case| case.code != 0 && has_words(&case.text())) {
        *codes.entry(case.code).or_insert(0) += 1;
        expect_refused(&folder, &case.text(), case.answer());
    }
    assert_eq!(codes.keys().copied().collect::<Vec<_>>(), [3, 4, 7, 20, 21, 22]);
}

/// Faults of all sorts in tables of all sorts.
#[test]
fn faults_of_all_sorts_are_told() {
    let folder = for_refusals();
    let mut random = Random::new(703);
    let mut codes = BTreeMap::new();
    for _ in 0..150 {
        let n = 1 + random.below(8);
        let f = function_of(&mut random, n, few);
        let mut lines = good(&mut random, &f);
        let at = random.below(lines.len());
        match random.below(8) {
            0 => lines[at] = malformed(&mut random, n),
            1 => lines[at] = unknown(&mut random),
            2 => lines[at] = bad_value(&mut random),
            3 => {
                let first = lines.iter().position(|line| line.starts_with(".i "));
                lines[first.expect("a keyword")] = outside(&mut random);
            }
            4 => lines.insert(at, format!(".p {}", miscount(&mut random, 3))),
            5 => lines.truncate(at),
            6 => drop(lines.remove(at)),
            _ => {
                let cube = any_cube(&mut random, n);
                lines.insert(3.min(lines.len()), term(cube, n, '1'));
                lines.insert(3.min(lines.len()), term(cube, n, '0'));
            }
        }
        let (text, _) = set(&mut random, &lines);
        let (answer, _) = read_table(&text, 261);
        if answer.code != 0 && has_words(&text) {
            *codes.entry(answer.code).or_insert(0) += 1;
            expect_refused(&folder, &text, answer);
        }
    }
    for code in [3, 7, 20, 21, 22] {
        assert!(codes.get(&code).is_some_and(|&seen| seen > 2), "{codes:?}");
    }
}

/// f's own fault comes before any of g's, whatever form the two have; both before the
/// claim's.
#[test]
fn f_is_told_before_g() {
    let folder = for_refusals();
    folder.write("table", ".i 9\n");
    folder.write("other", ".i 2\n.x\n");
    folder.write("hex", "46 4E 00");
    folder.write("wire", WIRE);
    folder.write("good", TABLES_OF_NAMED[1]);
    for (f, g, answer) in [
        ("table", "other", Answer::refused(3, OF_F, 1)),
        ("table", "hex", Answer::refused(3, OF_F, 1)),
        ("hex", "table", Answer::refused(3, OF_F, 2)),
        ("hex", "good", Answer::refused(3, OF_F, 2)),
        ("good", "hex", Answer::refused(3, OF_G, 2)),
        ("good", "other", Answer::refused(21, OF_G, 2)),
        ("wire", "other", Answer::refused(21, OF_G, 2)),
        ("wire", "good", Answer::refused(9, OF_G, 2)),
    ] {
        for words in
            [format!("match {f} {g}"), format!("check {f} {g} hex"), format!("explain {f} {g} hex")]
        {
            let json = folder.zap(&format!("{words} --json"));
            answered(&json, 2);
            assert_eq!(answer_of(&object(&json)), answer, "{words}");
            let ran = folder.zap(&words);
            answered(&ran, 2);
            assert_eq!(ran.out.lines().last(), Some(&numbers(answer)[..]), "{words}");
        }
    }
    // n differs: the byte is one of the record that the table stands for.
    let ran = folder.zap("match wire good");
    let told = "refused: g (good, taken for a table): f and g differ in n (code 9), at byte 2 of its record";
    assert_eq!(ran.out.lines().next(), Some(told));
    assert!(ran.out.contains(&format!("      0  {}\n", hex(DISJ))), "{}", ran.out);
}

// ---- Folders ----

/// In a folder a table is what begins with a keyword, or what its name says is one; other
/// text is passed over, unless its name says that it is a function.
#[test]
fn tables_of_a_folder() {
    let folder = Folder::new();
    folder.write("conj", CONJ);
    let good = TABLES_OF_NAMED[1];
    for (name, content) in [
        ("cells/a", good),
        ("cells/b.pla", good),
        ("cells/c.txt", &format!("# a table\n\n \t{good}")),
        ("cells/d.hex", good),
        ("cells/e.PLA", "not a table\n"),
        ("cells/f.tbl", "01 1\n"),
        ("cells/g", ".model mux\n"),
        ("cells/h", "01 1\n.i 2\n"),
        ("cells/i.md", "# Cells\n\n    ./zap show a\n"),
        ("cells/j", "..\n"),
        ("cells/k.hex", "01 1\n"),
    ] {
        folder.write(name, content);
    }
    let expected = [
        ("a", "match"),
        ("b.pla", "match"),
        ("c.txt", "match"),
        ("d.hex", "match"),
        ("e.PLA", "refused"),
        ("f.tbl", "refused"),
        ("g", "refused"),
        ("h", "passed over"),
        ("i.md", "passed over"),
        ("j", "passed over"),
        ("k.hex", "unread"),
    ];
    let results = |words: &str, key: &str| -> Vec<(String, String)> {
        let ran = folder.zap(&format!("{words} --json"));
        assert_eq!(ran.status, 2, "{words}: {ran:?}");
        let objects = crate::objects(&ran);
        let result =
            |object: &Json| (object.text(key).to_string(), object.text("result").to_string());
        objects.iter().map(result).collect()
    };
    let told = |accepted: &str| -> Vec<(String, String)> {
        let result = |result: &str| if result == "match" { accepted } else { result }.to_string();
        expected.map(|(name, row)| (format!("cells/{name}"), result(row))).into()
    };
    assert_eq!(results("match conj cells", "g"), told("match"));
    assert_eq!(results("summary cells", "file"), told("accepted"));

    // What is named itself is always taken: as hex where its name says so, else as a
    // table.
    for (name, _) in expected.iter().filter(|(_, row)| *row == "passed over") {
        let json = folder.zap(&format!("summary cells/{name} --json"));
        answered(&json, 2);
        let object = object(&json);
        assert_eq!([object.text("result"), object.text("taken_for")], ["refused", "table"]);
        assert_eq!(object.number("code"), 21, "{name}");
    }
}
