//! Refusals: the words of each code, and the marks under the bytes at fault.

use std::collections::BTreeMap;
use std::fs;

use zap_tests::cases::{CONJ, CONST, DISJ, ODD, WIRE};
use zap_tests::claims::trees::split_everywhere;
use zap_tests::command::{repository, zap, Folder};
use zap_tests::json::Json;
use zap_tests::matches::pairs::{both_ends, last_input};
use zap_tests::reference::answer::{Answer, OF_CLAIM, OF_F, OF_G};
use zap_tests::reference::pattern::Function;
use zap_tests::reference::programs::hex;
use zap_tests::reference::record::{cubes, record};

use crate::shown::ends_and_words;
use crate::{
    answer_of, answered, counted, forms, in_form, inputs_at, numbers, object, objects, product,
    thousands,
};

/// The codes of include/zap.h but 0: what each is given for, and what its place is, and
/// of some the pattern, as the comment beside it says.
pub fn header_codes() -> BTreeMap<u64, (String, String)> {
    let header = fs::read_to_string(repository().join("include/zap.h")).expect("the header");
    let (_, after) = header.split_once("enum zap_codes {").expect("the codes");
    let (codes, _) = after.split_once("};").expect("their end");
    let mut found = BTreeMap::new();
    for one in codes.split("ZAP_").skip(1) {
        let (_, value) = one.split_once('=').expect("a number");
        let digits =
            value.trim_start().split(|c: char| !c.is_ascii_digit()).next().expect("a start");
        let number = digits.parse().expect("a number");
        if number == 0 {
            continue;
        }
        let (_, comment) = value.split_once("/*").expect("a comment");
        let (comment, _) = comment.split_once("*/").expect("its end");
        let comment = comment.split_whitespace().collect::<Vec<_>>().join(" ");
        let (words, place) = comment.split_once(": ").expect("what, and the place");
        let before = found.insert(number, (words.to_string(), place.to_string()));
        assert_eq!(before, None, "{number} twice");
    }
    assert_eq!(found.len(), 22, "{found:?}");
    found
}

#[test]
fn the_table_of_codes_is_the_headers() {
    let codes = header_codes();
    let text = zap(["help", "codes"]);
    answered(&text, 0);
    let rows: Vec<String> = codes
        .iter()
        .map(|(number, (words, place))| format!("{number}  {words}: {place}"))
        .collect();
    assert_eq!(text.out.lines().skip(1).map(str::trim_start).collect::<Vec<_>>(), rows);
    let json = zap(["help", "codes", "--json"]);
    answered(&json, 0);
    let listed = objects(&json);
    assert_eq!(listed.len(), codes.len());
    for (row, (number, (words, place))) in listed.iter().zip(&codes) {
        assert_eq!(row.number("code"), *number);
        let (place, pattern) = match place.split_once("; pattern: ") {
            Some((place, pattern)) => (place, Some(Json::Text(pattern.to_string()))),
            None => (&place[..], None),
        };
        assert_eq!([row.text("words"), row.text("place")], [words, place], "{number}");
        assert_eq!(row.get("pattern"), pattern.as_ref(), "{number}");
        assert_eq!(pattern.is_some(), [7, 14].contains(number), "{number}");
    }
}

/// Something that is refused, by hand from the tables of FORMATS.md, section 8: the
/// code, the bytes at fault, the place, the places that are marked, and the pattern.
struct Fault {
    code: u64,
    bytes: &'static [u8],
    place: usize,
    marked: &'static [usize],
    pattern: usize,
}

const fn fault(code: u64, bytes: &'static [u8], place: usize, marked: &'static [usize]) -> Fault {
    Fault { code, bytes, place, marked, pattern: 0 }
}

impl Fault {
    const fn naming(self, pattern: usize) -> Fault {
        Fault { pattern, ..self }
    }

    fn answer(&self, record: u64) -> Answer {
        Answer::refused(self.code, record, self.place).naming(self.pattern)
    }
}

/// Functions, refused wherever they stand.
const FUNCTIONS: &[Fault] = &[
    fault(1, &[0x46, 0x4E], 2, &[2]),
    // Six cubes take 17 bytes. The missing one would begin the second line of the dump.
    fault(1, &[0x46, 0x4E, 2, 6, 0, 1, 0, 1, 0, 1, 0, 1, 0, 1, 0, 1], 16, &[16]),
    fault(2, &[0x46, 0x4D], 1, &[1]),
    fault(2, &[0x47], 0, &[0]),
    fault(3, &[0x46, 0x4E, 0], 2, &[2]),
    fault(3, &[0x46, 0x4E, 9, 0, 0], 2, &[2]),
    fault(4, &[0x46, 0x4E, 8, 0x41], 3, &[3]),
    fault(4, &[0x46, 0x4E, 8, 0x40, 0x41], 4, &[4]),
    fault(5, &[0x46, 0x4E, 2, 1, 0, 4, 0], 5, &[5, 6]),
    // Cube 5 of six: its bytes stand in two lines.
    fault(5, &[0x46, 0x4E, 2, 6, 0, 1, 0, 1, 0, 1, 0, 1, 0, 1, 0, 4, 0], 15, &[15, 16]),
    fault(6, &[0x46, 0x4E, 2, 1, 0, 1, 1], 5, &[5, 6]),
    fault(6, &[0x46, 0x4E, 2, 1, 1, 1, 0, 2, 2], 7, &[7, 8]),
    fault(7, &[0x46, 0x4E, 2, 2, 1, 1, 2, 2, 0, 3, 0], 7, &[7, 8]).naming(3),
    // x0·x1 is the first, and holds 3 alone; x0' shares 0 with the cube without literals.
    fault(7, &[0x46, 0x4E, 2, 2, 1, 3, 0, 0, 1, 0, 0], 5, &[5, 6]).naming(3),
    // x0 shares 3 with x0·x1, and 1 with x0·x1'.
    fault(7, &[0x46, 0x4E, 2, 1, 2, 1, 0, 3, 0, 1, 2], 5, &[5, 6]).naming(1),
    fault(8, &[0x46, 0x4E, 1, 0, 0, 0], 5, &[5]),
];

/// Claims about two functions.
const CLAIMS: &[([&[u8]; 2], Fault)] = &[
    ([CONST, WIRE], fault(1, &[0x52, 0x46, 1, 0xFF], 4, &[4])),
    ([CONJ, DISJ], fault(1, &[0x4D, 0x54, 2, 5, 0x10], 5, &[5])),
    ([CONST, WIRE], fault(2, &[0x52, 0x54], 1, &[1])),
    ([CONST, WIRE], fault(8, &[0x52, 0x46, 1, 0, 0, 0, 0, 0, 0, 0], 9, &[9])),
    ([CONJ, DISJ], fault(10, &[0x4D, 0x54, 3], 2, &[2])),
    ([CONJ, DISJ], fault(11, &[0x4D, 0x54, 2, 2, 0x10, 0x11], 3, &[3])),
    ([CONJ, DISJ], fault(12, &[0x4D, 0x54, 2, 1, 0x10, 0x12], 5, &[5])),
    ([CONJ, DISJ], fault(13, &[0x4D, 0x54, 2, 1, 0x10, 0x00], 5, &[5])),
    // No byte is at fault, but all of them together.
    ([WIRE, WIRE], fault(14, &[0x4D, 0x54, 1, 0, 0x10], 0, &[])),
    // x0 is y1, x1 is y0 inverted. At 0 x is 2, and both are off; at 1 it is 0, f is off
    // and g is on.
    ([CONJ, DISJ], fault(14, &[0x4D, 0x54, 2, 0, 1, 0x10], 0, &[]).naming(1)),
    // x0 is y1 inverted, x1 is y0 inverted. At 0 f is read at 3 and is on, at 1 and 2 it
    // is off, and g the other; at 3 both are off.
    ([CONJ, ODD], fault(14, &[0x4D, 0x54, 2, 1, 0x11, 0x10], 0, &[]).naming(3)),
    ([CONST, WIRE], fault(15, &[0x52, 0x46, 1, 0, 0, 1], 5, &[5])),
    ([CONST, WIRE], fault(15, &[0x52, 0x46, 1, 2], 3, &[3])),
    ([CONST, WIRE], fault(16, &[0x52, 0x46, 1, 0xFF, 0xFF], 4, &[4])),
    ([CONJ, ODD], fault(17, &[0x52, 0x46, 2, 0, 0, 0], 3, &[3, 4, 5])),
    // Input 0 is y0, and split once more; y0 inverted; then y1, where x0' becomes y1'
    // and is kept apart from on cube 1, y1·y0'.
    (
        [CONJ, ODD],
        fault(
            17,
            &[0x52, 0x46, 2, 0xFF, 0xFF, 1, 0, 1, 1, 0, 1, 1, 0, 0, 1, 0, 1],
            14,
            &[14, 15, 16],
        ),
    ),
];

/// A file that is refused: what it is called, what it was taken for, and its bytes.
struct Refused<'a> {
    name: &'a str,
    form: &'a str,
    bytes: &'a [u8],
    answer: Answer,
    marked: &'a [usize],
}

impl Refused<'_> {
    fn status(&self) -> i32 {
        if self.answer.record == OF_CLAIM {
            1
        } else {
            2
        }
    }

    /// Runs these words in the folder, for a person and for a script.
    fn expect(&self, folder: &Folder, words: &str) {
        let Answer { code, record, place, pattern, .. } = self.answer;
        let (given_for, _) = &header_codes()[&code];
        let ran = folder.zap(words);
        answered(&ran, self.status());
        let told = ran.out.lines().next().and_then(|line| line.strip_prefix("refused: "));
        let told = told.unwrap_or_else(|| panic!("{words}: {}", ran.out));
        let whose = match record {
            _ if words.starts_with("show") => format!("{}, ", self.name),
            OF_F => format!("f ({}, ", self.name),
            OF_G => format!("g ({}, ", self.name),
            _ => format!("the claim ({}, ", self.name),
        };
        let end = match code {
            1 => format!("(code 1), after {}", counted(place as usize, "byte")),
            7 => format!("(code 7), at byte {place}; {}", shared_in_words(self.bytes, self.answer)),
            14 => format!("(code 14), first at pattern {pattern} of g"),
            _ => format!("(code {code}), at byte {}", thousands(place as usize)),
        };
        assert!(told.ends_with(&end), "{words}: no {end:?} in {told}");
        let taken_for = match self.form {
            "empty" => "which is empty".to_string(),
            form => format!("taken for {form}"),
        };
        for part in [&whose, &taken_for, given_for] {
            assert!(told.contains(&part[..]), "{words}: no {part:?} in {told}");
        }
        let dump = match code {
            14 => Dump::default(),
            _ => read_dump(&ran.out),
        };
        assert_eq!(dump.marked, self.marked, "{words}\n{}", ran.out);
        let right = |(&at, &byte): (&usize, &u8)| self.bytes.get(at) == Some(&byte);
        assert!(dump.bytes.iter().all(right), "{words}\n{}", ran.out);
        // What fits a screen is shown whole; of the rest, three lines on either side.
        let shown = match self.marked {
            [] => 0..0,
            _ if self.bytes.len() <= 272 => 0..self.bytes.len(),
            marked => {
                let line = marked[0] / 16;
                16 * line.saturating_sub(3)..self.bytes.len().min(16 * (line + 4))
            }
        };
        assert!(dump.bytes.keys().copied().eq(shown), "{words}\n{}", ran.out);
        let told = ran.out.lines().any(|line| line == numbers(self.answer));
        assert!(told, "{words}\n{}", ran.out);

        let json = folder.zap(&format!("{words} --json"));
        answered(&json, self.status());
        let object = object(&json);
        assert_eq!(answer_of(&object), self.answer, "{words}");
        assert_eq!(object.text("result"), "refused");
        assert_eq!([object.text("words"), object.text("taken_for")], [given_for, self.form]);
        expect_shared(&object, code, || shared(&lists(self.bytes), self.answer));
    }
}

/// The lists of a record that is refused with code 7 or not at all.
fn lists(record: &[u8]) -> Function {
    let cubes = cubes(&record[5..]);
    let (on, off) = cubes.split_at(record[3] as usize);
    Function { n: record[2] as usize, on: on.to_vec(), off: off.to_vec() }
}

/// The two cubes that code 7 is told with: the on cube at the place, and the first off
/// cube that holds the pattern.
pub fn shared(f: &Function, answer: Answer) -> [usize; 2] {
    let pattern = answer.pattern as usize;
    let on = (answer.place as usize - 5) / 2;
    assert!(f.on[on].holds(pattern), "{f:?}: {answer:?}");
    [on, f.off.iter().position(|cube| cube.holds(pattern)).expect("an off cube holds it")]
}

/// `on cube 1, x1, and off cube 0, x0·x1, share pattern 3: x0 = 1, x1 = 1`.
pub fn shared_in_words(record: &[u8], answer: Answer) -> String {
    let f = lists(record);
    let [on, off] = shared(&f, answer);
    let (of_on, of_off) = (product(f.on[on]), product(f.off[off]));
    let at = inputs_at(answer.pattern as usize, f.n);
    let share = format!("share pattern {}: {at}", answer.pattern);
    format!("on cube {on}, {of_on}, and off cube {off}, {of_off}, {share}")
}

/// An object has the numbers of the two cubes, with code 7 alone.
pub fn expect_shared(object: &Json, code: u64, cubes: impl FnOnce() -> [usize; 2]) {
    let names = ["on_cube", "off_cube"];
    match code {
        7 => assert_eq!(names.map(|name| object.number(name) as usize), cubes()),
        _ => assert_eq!(names.map(|name| object.get(name)), [None; 2]),
    }
}

#[derive(Default)]
struct Dump {
    bytes: BTreeMap<usize, u8>,
    marked: Vec<usize>,
}

/// The dump in a refusal, the second of its parts: lines of a place and up to 16 bytes, each with a line of marks below it or without one. A mark counts
/// for the place that it stands under.
fn read_dump(text: &str) -> Dump {
    let mut dump = Dump::default();
    let part = text.split("\n\n").nth(1).expect("a second part");
    // The first byte of a line begins here, and each takes three columns.
    const START: usize = 9;
    let column = |end: usize| {
        assert_eq!((end - START) % 3, 2, "{text}");
        (end - START) / 3
    };
    let mut start = 0;
    for line in part.lines().filter(|line| line.trim() != "..") {
        let words = ends_and_words(line);
        if words.iter().all(|(_, word)| *word == "^^") {
            dump.marked.extend(words.iter().map(|(end, _)| start + column(*end)));
            continue;
        }
        assert!(words[0].0 < START, "{text}");
        start = words[0].1.parse().expect("a place");
        for (end, word) in &words[1..] {
            let byte = u8::from_str_radix(word, 16).expect("a byte");
            dump.bytes.insert(start + column(*end), byte);
        }
    }
    dump
}

#[test]
fn each_code_is_told_in_the_headers_words_with_its_bytes_marked() {
    let folder = Folder::new();
    folder.write("conj", CONJ);
    folder.write("claim", [0x4D, 0x54, 2, 0, 0, 1]);
    let mut codes = vec![];
    for fault in FUNCTIONS {
        let Fault { code, bytes, marked, .. } = fault;
        codes.push(*code);
        for form in forms(bytes) {
            folder.write("bad", in_form(bytes, form));
            let of = |record| {
                let answer = fault.answer(record);
                Refused { name: "bad", form, bytes, answer, marked }
            };
            of(OF_F).expect(&folder, "show bad");
            of(OF_F).expect(&folder, "match bad conj");
            of(OF_G).expect(&folder, "match conj bad");
            of(OF_F).expect(&folder, "check bad conj claim");
            of(OF_G).expect(&folder, "explain conj bad claim");
        }
    }
    for ([f, g], fault) in CLAIMS {
        let Fault { code, bytes, marked, .. } = fault;
        codes.push(*code);
        folder.write("f", f);
        folder.write("g", hex(g));
        for form in forms(bytes) {
            folder.write("claim", in_form(bytes, form));
            let answer = fault.answer(OF_CLAIM);
            let of = Refused { name: "claim", form, bytes, answer, marked };
            of.expect(&folder, "check f g claim");
            of.expect(&folder, "explain f g claim");
        }
    }
    // "Wire to Conj": g's n is at fault.
    codes.push(9);
    folder.write("wire", WIRE);
    let answer = Answer::refused(9, OF_G, 2);
    let of = Refused { name: "conj", form: "binary", bytes: CONJ, answer, marked: &[2] };
    for words in ["match wire conj", "check wire conj claim", "explain wire conj claim"] {
        of.expect(&folder, words);
    }
    codes.sort();
    codes.dedup();
    assert_eq!(codes, (1..=17).collect::<Vec<_>>());
}

#[test]
fn nothing_at_all_is_called_empty() {
    let folder = Folder::new();
    folder.write("conj", CONJ);
    folder.write("none", "");
    let of = |record| Refused {
        name: "none",
        form: "empty",
        bytes: &[],
        answer: Answer::refused(1, record, 0),
        marked: &[0],
    };
    of(OF_F).expect(&folder, "show none");
    of(OF_F).expect(&folder, "match none conj");
    of(OF_G).expect(&folder, "match conj none");
    of(OF_CLAIM).expect(&folder, "check conj conj none");
    of(OF_CLAIM).expect(&folder, "explain conj conj none");
}

/// Section 3: without a mark, bytes that are no text are binary, even if they begin as
/// hex or as a comment does.
#[test]
fn bytes_that_are_no_text_are_binary() {
    let folder = Folder::new();
    for (bytes, place) in [
        (&[0x46, 0x00][..], 1),
        (&[0x00], 0),
        (&[0xFF, 0x4E], 0),
        (b"46 4E 01 00 00\0", 0),
        (b"#\0", 0),
    ] {
        folder.write("bad", bytes);
        let answer = Answer::refused(2, OF_F, place);
        let marked = &[place][..];
        Refused { name: "bad", form: "binary", bytes, answer, marked }.expect(&folder, "show bad");
    }
}

/// With a wrong mark that is the mark of something else, it is said of what.
#[test]
fn files_in_another_order_are_told() {
    let folder = Folder::new();
    folder.write("conj", CONJ);
    folder.write("match", hex(&[0x4D, 0x54, 2, 1, 0x10, 0x11]));
    folder.write("refusal", [0x52, 0x46, 2]);
    for (words, what) in [
        ("show match", "a match claim"),
        ("check match conj conj", "a match claim"),
        ("match conj refusal", "a refusal claim"),
        ("explain conj conj conj", "a function"),
    ] {
        let ran = folder.zap(words);
        let told = ran.out.lines().next().expect("a line");
        assert!(told.contains("(code 2)") && told.ends_with(what), "{words}: {told}");
    }
}

/// Records and claims of many lines.
#[test]
fn far_bytes_are_marked_too() {
    let folder = Folder::new();
    // 64 and 64 cubes, x7 and x7'; but on cube 63, without literals, is off as well, at
    // pattern 0 first. It begins at 5 + 2·63.
    let mut full =
        [&[0x46, 0x4E, 8, 64, 64][..], &[0x80, 0].repeat(64), &[0, 0x80].repeat(64)].concat();
    full[131] = 0;
    folder.write("full", &full);
    let answer = Answer::refused(7, OF_F, 131);
    let of = Refused { name: "full", form: "binary", bytes: &full, answer, marked: &[131, 132] };
    of.expect(&folder, "show full");

    // The longest refusal of 4 inputs: each tree has 1,401 bytes, the second from 1,404
    // on. There four splits come first, and then the closing of x3 plain, which on cube
    // 1 of g does not keep apart; cube 0 does.
    let [f, g] = [last_input(4), both_ends(4, true)];
    let mut claim = vec![0x52, 0x46, 4];
    split_everywhere(4, [[1, 0, 0], [1, 0, 1]], &mut claim);
    split_everywhere(4, [[0, 0, 1], [0, 0, 0]], &mut claim);
    assert_eq!(claim[1_408..1_411], [0, 0, 1]);
    claim[1_410] = 0;
    folder.write("f", record(&f));
    folder.write("g", record(&g));
    folder.write("claim", hex(&claim));
    let answer = Answer::refused(17, OF_CLAIM, 1_408);
    let marked = &[1_408, 1_409, 1_410];
    let of = Refused { name: "claim", form: "hex", bytes: &claim, answer, marked };
    of.expect(&folder, "check f g claim");
    of.expect(&folder, "explain f g claim");

    // Mended, and cut: the missing byte is the sixth of its line.
    claim[1_410] = 1;
    claim.truncate(2_789);
    folder.write("claim", &claim);
    let answer = Answer::refused(1, OF_CLAIM, 2_789);
    let of = Refused { name: "claim", form: "binary", bytes: &claim, answer, marked: &[2_789] };
    of.expect(&folder, "check f g claim");
}
