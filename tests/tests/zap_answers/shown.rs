//! `zap show` and `zap summary`, held against the reference.

use std::fs;

use zap_tests::cases::CONJ;
use zap_tests::command::{repository, Folder, Ran};
use zap_tests::json::Json;
use zap_tests::random::{any_size, few, function_of, Random};
use zap_tests::reference::answer::OF_F;
use zap_tests::reference::programs::hex;
use zap_tests::reference::record::{function, record};
use zap_tests::reference::summary::summary;

use crate::{
    answer_of, answered, counted, examples, in_form, name_of, object, objects, products, run,
    signs, Example,
};

/// `2 inputs, 2 in use; 1 pattern on, 3 off, 0 open`.
fn figures(record: &[u8]) -> String {
    let [n, in_use, on, off, open] = counts(record).map(|(_, count)| count);
    let (inputs, on) = (counted(n, "input"), counted(on, "pattern"));
    format!("{inputs}, {in_use} in use; {on} on, {off} off, {open} open")
}

/// The reference's figures, by their names in an object.
pub fn counts(record: &[u8]) -> [(&'static str, usize); 5] {
    let n = record[2] as usize;
    let counted = summary(record);
    let [on, off, in_use] = [counted.on, counted.off, counted.in_use].map(|count| count as usize);
    [("n", n), ("in_use", in_use), ("on", on), ("off", off), ("open", (1 << n) - on - off)]
}

/// An object says of a function what the reference does.
fn expect_figures(object: &Json, verb: &str, name: &str, record: &[u8]) {
    assert_eq!([object.text("verb"), object.text("file")], [verb, name]);
    assert_eq!(object.text("result"), "accepted");
    assert_eq!(answer_of(object), summary(record).answer);
    for (figure, count) in counts(record) {
        assert_eq!(object.number(figure), count as u64, "{figure} of {name}: {}", hex(record));
    }
}

/// What `show` says of a function, as text and as an object.
fn expect_shown(name: &str, record: &[u8], text: &Ran, json: &Ran) {
    let f = function(record, OF_F).expect("a function");
    answered(text, 0);
    let [first, cubes, map] = text.out.split("\n\n").collect::<Vec<_>>()[..] else {
        panic!("three parts: {}", text.out)
    };
    assert_eq!(first, format!("{name}: {}", figures(record)));
    let none_or = |list: Vec<String>| if list.is_empty() { vec!["none".to_string()] } else { list };
    assert_eq!(read_cubes(cubes), [&f.on, &f.off].map(|list| none_or(products(list))));
    assert_eq!(read_map(map, f.n), signs(&f), "{}", text.out);

    answered(json, 0);
    let object = object(json);
    expect_figures(&object, "show", name, record);
    assert_eq!(object.texts("on_cubes"), products(&f.on));
    assert_eq!(object.texts("off_cubes"), products(&f.off));
    assert_eq!(object.text("values"), signs(&f));
}

/// The on products and the off products: a list's name stands before its first one.
fn read_cubes(part: &str) -> [Vec<String>; 2] {
    let mut lists = [vec![], vec![]];
    let mut at = 0;
    for line in part.lines() {
        let product = match line.split_whitespace().collect::<Vec<_>>()[..] {
            ["on", product] => product,
            ["off", product] => {
                at = 1;
                product
            }
            [product] => product,
            _ => panic!("no product: {line}"),
        };
        lists[at].push(product.to_string());
    }
    lists
}

/// A map's values by pattern. Each cell has to stand below the label of its column.
fn read_map(part: &str, n: usize) -> String {
    let mut lines = part.lines();
    let mut words = || ends_and_words(lines.next().expect("two lines above the map"));
    let (columns, mut labels) = (words(), words());
    let across = columns[0].1.matches('x').count();
    let down = n - across;
    let names = |inputs: std::ops::Range<usize>| -> String {
        inputs.rev().map(|i| format!("x{i}")).collect()
    };
    assert_eq!((columns.len(), columns[0].1), (1, &names(0..across)[..]));
    if down > 0 {
        assert_eq!(labels.remove(0).1, names(across..n));
    }
    let labels: Vec<(usize, &str)> = labels;
    assert!(labels.iter().map(|(_, label)| label).eq(&gray(across)), "{part}");

    let mut values = vec![None; 1 << n];
    for row in gray(down) {
        let line = lines.next().expect("a line for each row");
        let mut cells = ends_and_words(line);
        if down > 0 {
            assert_eq!(cells.remove(0).1, row, "{part}");
        }
        assert!(cells.iter().map(|cell| cell.0).eq(labels.iter().map(|label| label.0)), "{part}");
        for ((_, column), (_, cell)) in labels.iter().zip(cells) {
            let pattern = usize::from_str_radix(&format!("{row}{column}"), 2).expect("binary");
            values[pattern] = Some(cell);
        }
    }
    assert_eq!(lines.next(), None, "{part}");
    values.into_iter().map(|value| value.expect("a cell for each pattern")).collect()
}

/// The words of a line, each with the column after its end.
pub fn ends_and_words(line: &str) -> Vec<(usize, &str)> {
    let mut end = 0;
    let words = line.split(' ').map(|word| {
        end += word.chars().count() + 1;
        (end - 1, word)
    });
    words.filter(|(_, word)| !word.is_empty()).collect()
}

/// The labels of so many bits in Gray order: those of one bit less, and again from
/// the last to the first.
fn gray(bits: usize) -> Vec<String> {
    if bits == 0 {
        return vec![String::new()];
    }
    let fewer = gray(bits - 1);
    let with = |bit: char| move |label: &String| format!("{bit}{label}");
    fewer.iter().map(with('0')).chain(fewer.iter().rev().map(with('1'))).collect()
}

#[test]
fn every_example_is_shown_and_summed_up() {
    let mut table = vec![];
    for Example { file, record, .. } in examples() {
        let name = name_of(&file);
        expect_shown(&name, &record, &run(&[&"show", &file]), &run(&[&"show", &file, &"--json"]));
        let text = run(&[&"summary", &file]);
        answered(&text, 0);
        assert_eq!(text.out, format!("{name}: {}\n", figures(&record)));
        let json = run(&[&"summary", &"--json", &file]);
        answered(&json, 0);
        expect_figures(&object(&json), "summary", &name, &record);
        table.push((name, record));
    }

    // The folder: a row for each function, and at the end what is none, by its names.
    let folder = repository().join("examples");
    let entries = fs::read_dir(&folder).expect("a folder");
    let files = entries.map(|entry| entry.expect("read").path()).filter(|path| path.is_file());
    let mut others: Vec<String> = files.map(|path| name_of(&path)).collect();
    others.retain(|name| table.iter().all(|(function, _)| function != name));
    others.sort();
    assert!(others.len() > 5, "more than are listed: {others:?}");
    let text = run(&[&"summary", &folder]);
    answered(&text, 0);
    let (rows, end) = text.out.split_once("\n\n").expect("a table, and what follows");
    let passed_over = format!("passed over {} {}, ..", others.len(), others[..5].join(", "));
    assert_eq!(end.split_whitespace().collect::<Vec<_>>().join(" "), passed_over);
    let rows: Vec<&str> = rows.lines().skip(1).collect();
    assert_eq!(rows.len(), table.len(), "{}", text.out);
    let json = run(&[&"summary", &folder, &"--json"]);
    answered(&json, 0);
    let (told, listed): (Vec<Json>, Vec<Json>) =
        objects(&json).into_iter().partition(|object| object.text("result") == "passed over");
    assert_eq!(told.iter().map(|object| object.text("file")).collect::<Vec<_>>(), others);
    assert_eq!(listed.len(), table.len(), "{}", json.out);
    for (((name, record), row), object) in table.iter().zip(rows).zip(&listed) {
        let [n, in_use, on, off, open] = counts(record).map(|(_, count)| count.to_string());
        let numbers = row.strip_suffix(&name[..]).unwrap_or_else(|| panic!("{row} for {name}"));
        let numbers: Vec<&str> = numbers.split_whitespace().collect();
        assert_eq!(numbers, [n, on, off, open, in_use], "{row}");
        expect_figures(object, "summary", name, record);
    }
}

#[test]
fn maps_say_what_the_reference_says_of_each_pattern() {
    let folder = Folder::new();
    let mut random = Random::new(501);
    for round in 0..320 {
        let n = 1 + round % 8;
        // Lists of few cubes leave more open.
        let size = if round % 3 == 0 { any_size } else { few };
        let f = record(&function_of(&mut random, n, size));
        folder.write("f", in_form(&f, ["hex", "binary"][round % 2]));
        expect_shown("f", &f, &folder.zap("show f"), &folder.zap("show f --json"));
    }
}

#[test]
fn a_name_of_any_signs_comes_back() {
    let folder = Folder::new();
    let file = folder.write("a \"b\" \\n\n\t\u{1}\u{7F} é·😀", CONJ);
    for verb in ["show", "summary"] {
        expect_figures(&object(&run(&[&verb, &file, &"--json"])), verb, &name_of(&file), CONJ);
    }
}
