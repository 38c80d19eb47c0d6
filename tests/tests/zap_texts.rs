//! What `zap show` and `zap explain` print, byte for byte, and the runs that the
//! documents show.
//!
//! The texts in golden/ were written by hand from docs/FORMATS.md, in the command's
//! layout. Beside each is said how its figures were worked out.

use std::fs;
use std::os::unix::fs::symlink;
use std::path::Path;
use std::process::Command;

use zap_tests::command::{binary, repository, Folder, Ran};

// ---- Golden texts ----

const CONJ: &str = "46 4E 02 01 02 03 00 00 01 00 02";
const DISJ: &str = "46 4E 02 02 01 01 00 02 00 00 03";
const ODD: &str = "46 4E 02 02 02 01 02 02 01 03 00 00 03";
const WIRE: &str = "46 4E 01 01 01 01 00 00 01";
const MUX: &str = "46 4E 03 02 02 01 04 06 00 00 05 04 02";
const CONJ_ODD: &str = "52 46 02 FF 01 00 01 01 00 00 01 00 00 01 00 01 \
                        FF 01 00 01 01 00 00 01 00 01 01 00 00";

/// Runs the command on these files, and compares what it prints with a golden text.
fn expect<C: AsRef<[u8]>>(golden: &str, files: &[(&str, C)], words: &str, status: i32) {
    let folder = Folder::new();
    for (name, content) in files {
        folder.write(name, content);
    }
    let out = self::golden(golden);
    assert_eq!(folder.zap(words), Ran { out, err: String::new(), status }, "{golden}: {words}");
}

fn golden(name: &str) -> String {
    let file = Path::new(env!("CARGO_MANIFEST_DIR")).join("golden").join(name);
    fs::read_to_string(file).expect("a golden text")
}

/// Two functions and a claim in files of these names, explained.
fn expect_explained(golden: &str, files: [[&str; 2]; 3], more: &str, status: i32) {
    expect_of_three(golden, "explain", files, more, status);
}

fn expect_of_three(golden: &str, verb: &str, files: [[&str; 2]; 3], more: &str, status: i32) {
    let files = files.map(|[name, content]| (name, content));
    let names = files.map(|(name, _)| name).join(" ");
    expect(golden, &files, &format!("{verb} {names}{more}"), status);
}

/// By the table of section 1: on at 3 alone, off at 0, 1 and 2. A row is x1, a column
/// x0, so row 0 has patterns 0 and 1, row 1 patterns 2 and 3.
#[test]
fn conj_shown() {
    expect("show-conj.txt", &[("conj.hex", CONJ)], "show conj.hex", 0);
}

/// By section 2. While x2 is 0 it is x0: patterns 0 to 3 are 0 1 0 1. While x2 is 1 it is
/// x1, but open at 5: patterns 4 to 7 are 0 - 1 1. In Gray order the columns are 0, 1, 3
/// and 2, so rows 0 1 1 0 and 0 - 1 1. On are 1, 3, 6 and 7; off 0, 2 and 4.
#[test]
fn mux_open_shown() {
    let mux_open = "46 4E 03 02 02 01 04 06 00 00 05 04 03";
    expect("show-mux-open.txt", &[("mux-open.hex", mux_open)], "show mux-open.hex", 0);
}

/// One on cube, x0', which holds pattern 0; no off cube, so pattern 1 is open. One input
/// goes along the columns, and the one row has no label.
#[test]
fn one_input_shown() {
    expect("show-one-input.txt", &[("half.hex", "46 4E 01 01 00 00 01")], "show half.hex", 0);
}

/// On: x0·x3 and x2·x4', 8 patterns each, of which the 2 with x0·x2·x3·x4' are in both:
/// 14. Off: x0'·x2', 8 patterns, and x0·x2'·x3'·x4, 2 others: 10. Open: 32 - 24. No cube
/// names x1. Along the columns x2x1x0 are 000 001 011 010 with x2 = 0, where x0 is
/// 0 1 1 0, and 110 111 101 100 with x2 = 1, where x0 is 0 1 1 0 too. The rows, x4x3:
/// 00: x2 makes it on, else x0' makes it off, else open: 0 - - 0, 1 1 1 1;
/// 01: as above, and x0 makes it on: 0 1 1 0, 1 1 1 1;
/// 11: x0 makes it on, else x2' makes it off, else open: 0 1 1 0, - 1 1 -;
/// 10: no on cube holds; x2' makes it off, by x0' or by the last cube: 0 0 0 0, - - - -.
#[test]
fn five_inputs_shown() {
    let five = "46 4E 05 02 02 09 00 04 10 00 05 11 0C";
    expect("show-five-inputs.txt", &[("five.hex", five)], "show five.hex", 0);
}

/// On: x0·x4, 64 patterns, and x1·x4'·x5, 32 others: 96. Off: x0'·x1', 64 patterns, and
/// x3·x4'·x5'·x7, 16, of which 4 have x0'·x1' too: 76. Open: 256 - 172. No cube names x2
/// or x6. In each four columns from the left, x1x0 are 00 01 11 10, then 10 11 01 00, and
/// so on; x3 is 1 in the last eight. The rows, by x4 and x5 and then x7:
/// x4 = 1: x0 makes it on, x0'·x1' off: 0 1 1 -, - 1 1 0, and the same again;
/// x4 = 0, x5 = 1: x1 makes it on, x0'·x1' off: 0 - 1 1, 1 1 - 0, and again;
/// both 0, x7 = 0: x0'·x1' alone, off: 0 - - -, - - - 0, and again;
/// both 0, x7 = 1: the same, but off wherever x3 is 1, in the last eight.
#[test]
fn eight_inputs_shown() {
    let eight = "46 4E 08 02 02 11 00 22 10 00 03 88 30";
    expect("show-eight-inputs.txt", &[("eight.hex", eight)], "show eight.hex", 0);
}

/// Two inputs and six on cubes, of which the last, P = 04, names x2. It begins at
/// 5 + 2·5 = 15, and its second byte is the first of the next line.
#[test]
fn a_refused_function_shown() {
    let bad = "46 4E 02 06 00 01 00 01 00 01 00 01 00 01 00 04 00";
    expect("show-refused.txt", &[("bad.hex", bad)], "show bad.hex", 2);
}

/// On are x0·x1'·x2', which shares nothing, x1, and x0'; off are x0·x1, x1·x2' and x0'·x1'.
/// x1, at 5 + 2, shares 3 with the first of these, and with the second the smaller 2. That
/// x0' shares 0 with the third is no matter.
#[test]
fn an_on_cube_that_meets_an_off_cube_shown() {
    let bad = "46 4E 03 03 03 01 06 02 00 00 01 03 00 02 04 00 03";
    for words in ["show bad.hex", "record bad.hex", "table bad.hex"] {
        expect("show-on-and-off.txt", &[("bad.hex", bad)], words, 2);
    }
    expect("show-on-and-off.json", &[("bad.hex", bad)], "show bad.hex --json", 2);

    // The same of any function that is asked for.
    let shown = golden("show-on-and-off.txt");
    let first = shown.lines().next().expect("a line");
    let fault = first.strip_prefix("refused: bad.hex, taken for hex: ").expect("its fault");
    let folder = Folder::new();
    for (name, content) in [("bad.hex", bad), ("mux.hex", MUX), ("claim.hex", "4D 54")] {
        folder.write(name, content);
    }
    for (words, whose) in [
        ("summary bad.hex", "bad.hex, taken for hex: refused: "),
        ("match bad.hex mux.hex", "refused: f (bad.hex, taken for hex): "),
        ("match mux.hex bad.hex", "refused: g (bad.hex, taken for hex): "),
        ("match mux.hex mux.hex bad.hex", "bad.hex, taken for hex: refused: "),
        ("check mux.hex bad.hex claim.hex", "refused: g (bad.hex, taken for hex): "),
        ("explain bad.hex mux.hex claim.hex", "refused: f (bad.hex, taken for hex): "),
    ] {
        let ran = folder.zap(words);
        let line = format!("{whose}{fault}");
        assert!(ran.status == 2 && ran.out.lines().any(|told| told == line), "{words}: {ran:?}");
    }
}

/// By the table of section 5: f is read at 3, 2, 1 and 0, is on at 3 alone, and q = 1
/// asks the opposite of g.
#[test]
fn a_match_explained() {
    let claim = "4D 54 02 01 10 11";
    let files = [["conj.hex", CONJ], ["disj.hex", DISJ], ["claim.hex", claim]];
    expect_explained("explain-match.txt", files, "", 0);
}

/// x0 is y0 inverted, so f is read at 1 where g is at 0, and at 0 where g is at 1. The
/// wire is on at 1 and off at 0, and q = 0 asks the same of g: twice it is the other.
#[test]
fn a_disagreement_explained() {
    let claim = "4D 54 01 00 10";
    let files = [["wire.hex", WIRE], ["wire.hex", WIRE], ["claim.hex", claim]];
    expect_explained("explain-disagreement.txt", files, "", 1);
}

/// By the table of section 4, in which f is MuxOpen: where that is open, at y = 6 and
/// x = 5, the multiplexor is off and the AND-OR cell is on.
#[test]
fn a_disagreement_checked() {
    let and_or = "46 4E 03 02 02 03 00 04 00 00 05 00 06";
    let claim = "4D 54 03 00 02 00 01";
    let files = [["mux.hex", MUX], ["and-or.hex", and_or], ["claim.hex", claim]];
    expect_of_three("check-disagreement.txt", "check", files, "", 1);
    expect_of_three("check-disagreement.json", "check", files, " --json", 1);
}

/// g is the cell of above with its output inverted, and its input 1: on for x0'·x2' and
/// x1·x2', off for x0·x1' and x2. So is the wiring: x0 is y2, x1 is y0, x2 is y1 inverted,
/// and q is 1. Then y = 6 of above is y = 4 here, x is 5 again, and both are off. Row by
/// row, x0 x1 x2 are y2, y0 and the opposite of y1; f is x0 if x2 is 0, and else x1.
#[test]
fn a_disagreement_with_the_output_inverted_explained() {
    let g = "46 4E 03 02 02 00 05 02 04 01 02 04 00";
    let claim = "4D 54 03 01 02 00 11";
    let files = [["mux.hex", MUX], ["and-nor.hex", g], ["claim.hex", claim]];
    expect_explained("explain-disagreement-inverted.txt", files, "", 1);
    // What `check` says stands before the picture.
    let explained = golden("explain-disagreement-inverted.txt");
    let (checked, _) = explained.split_once("\n\n  f ").expect("a picture");
    let folder = Folder::new();
    files.iter().for_each(|[name, content]| drop(folder.write(name, content)));
    let ran = folder.zap("check mux.hex and-nor.hex claim.hex");
    assert_eq!(ran, Ran { out: format!("{checked}\n"), err: String::new(), status: 1 });
}

/// Bytes 4 and 5 are both y0 inverted; the second is at fault.
#[test]
fn an_input_used_twice_explained() {
    let claim = "4D 54 02 01 10 10";
    let files = [["conj.hex", CONJ], ["disj.hex", DISJ], ["claim.hex", claim]];
    expect_explained("explain-used-twice.txt", files, "", 1);
}

/// By the table of section 6, whose y0 and y1 are x0 and x1 of g here: its on cubes are
/// x0·x1' and x0'·x1, its off cubes x0·x1 and x0'·x1'. Each closing takes x0' of f, of
/// which nothing is left to place. There are 2·2!·4 = 16 wirings. Each tree is a split
/// and four closings at depth 1, which depth 0 does not show, and depth 2 adds nothing.
#[test]
fn a_refusal_explained() {
    let files = [["conj.hex", CONJ], ["odd.hex", ODD], ["claim.hex", CONJ_ODD]];
    expect_explained("explain-refusal-depth-0.txt", files, " --depth 0", 0);
    for more in ["", " --depth 1", " --depth 2", " --depth 9"] {
        expect_explained("explain-refusal.txt", files, more, 0);
    }
}

/// The same with 02 at byte 13: there the fourth node of depth 1 begins, that for y1
/// inverted, and 02 begins none. Three closings stand before it, and the second tree is
/// not come to. Byte 13 is the fourteenth of the first line.
#[test]
fn a_bad_node_explained() {
    let (before, after) = CONJ_ODD.split_at(13 * 3);
    let bad = format!("{before}02{}", &after[2..]);
    let files = [["conj.hex", CONJ], ["odd.hex", ODD], ["claim.hex", &bad]];
    expect_explained("explain-bad-node.txt", files, "", 1);
}

/// f is x1·x2, off for x1' and for x2'; g is its input 0. At the root every cube has a
/// literal and none is placed: a split. If x0 takes y0, g has no literal left on a free
/// input, and the first pair is dead, on cube 0 of f with cube 0 of g. Otherwise there
/// is a split over x1, with q = 0 for these choices:
/// y0: on cube 0 of f and off cube 0 of g are kept apart, as x1 becomes y0; so are off
///     cube 0 and on cube 0; but off cube 1, x2', has no literal of g left to meet;
/// y0 inverted: x1 becomes y0', so that on cube 0 and off cube 0 stay together;
/// another: on cube 0 has x2 to place yet, and y0 is free; off cube 0, x1', is placed.
/// With q = 1 on goes with on and off with off, so y0 and y0 inverted change places.
/// Each tree has a split at depth 0, 2 closings and 4 splits at depth 1, 16 closings at
/// depth 2: 18·3 + 5 = 59 bytes. There are 2·3!·8 = 96 wirings.
#[test]
fn a_refusal_of_three_inputs_explained() {
    let f = "46 4E 03 01 02 06 00 00 02 00 04";
    let g = "46 4E 03 01 01 01 00 00 01";
    let plain = "FF 01 01 00 00 00 00 01 00 00 01 00 00 ".repeat(4);
    let inverted = "FF 00 00 00 01 01 00 01 00 00 01 00 00 ".repeat(4);
    let closed = "00 00 00 00 00 00";
    let claim = format!("52 46 03 FF {closed} {plain}FF {closed} {inverted}");
    let files = [["both.hex", f], ["first.hex", g], ["claim.hex", &claim]];
    expect_explained("explain-three-inputs.txt", files, "", 0);
    expect_explained("explain-three-inputs-depth-1.txt", files, " --depth 1", 0);
}

// ---- Tables ----

/// A refused table, shown.
fn expect_refused_table(golden: &str, text: impl AsRef<[u8]>) {
    expect(golden, &[("bad.pla", text)], "show bad.pla", 2);
}

/// The example's seventh line has two of three inputs.
#[test]
fn a_short_term_shown() {
    let file = repository().join("examples/refused/short-term.pla");
    let text = fs::read_to_string(file).expect("an example");
    expect("show-short-term.txt", &[("short.pla", text)], "show short.pla", 2);
}

/// Line 5 begins with a tab and a blank, which are shown as two blanks: 1 is in column 3
/// and x in column 4. CR is not shown.
#[test]
fn a_bad_input_shown() {
    let text = ".i 2\r\n.o 1\r\n.type fr\r\n\r\n\t 1x  1 # out\r\n.e\r\n";
    expect_refused_table("show-bad-input.txt", text);
}

/// Where the output should stand is after a blank.
#[test]
fn a_missing_output_shown() {
    expect_refused_table("show-no-output.txt", ".i 2\n.o 1\n.type fr\n10\n.e");
}

#[test]
fn an_unknown_keyword_shown() {
    expect_refused_table("show-unknown-keyword.txt", ".i2\n.o 1\n");
}

/// Of the three, `.o` alone stands before line 3.
#[test]
fn missing_keywords_shown() {
    expect_refused_table("show-missing-keyword.txt", ".o 1\n.p 1\n01 1\n.type fr\n");
}

/// Four lines, and the line after the last is the fifth.
#[test]
fn no_end_shown() {
    expect_refused_table("show-no-end.txt", ".i 2\n.o 1\n.type fr\n01 1\n");
}

#[test]
fn an_outside_number_of_inputs_shown() {
    expect_refused_table("show-outside.txt", "\n.i 9\n.i 9\n");
}

/// Terms in lines 5 to 7, one of which adds nothing.
#[test]
fn a_miscount_shown() {
    let text = ".i 2\n.o 1\n.type fr\n.p 4\n01 1\n-- ~\n10 0\n.e\n";
    expect_refused_table("show-miscounted.txt", text);
}

/// 66 terms with output 1, from line 4 on: the 65th is in line 68.
#[test]
fn too_many_terms_shown() {
    let text = format!(".i 1\n.o 1\n.type fr\n{}0 0\n.e\n", "1 1\n".repeat(66));
    expect_refused_table("show-65-terms.txt", text);
}

/// x0' and x0·x2' share nothing. x1 and x0·x2' share x0·x1·x2', which is pattern 3. x1 is
/// on cube 1, at 5 + 2.
#[test]
fn a_shared_pattern_shown() {
    let text = ".i 3\n.o 1\n.type fr\n1-0 0\n0-- 1\n-1- 1\n.e\n";
    expect_refused_table("show-shared-pattern.txt", text);
    expect("show-shared-pattern.json", &[("bad.pla", text)], "show bad.pla --json", 2);
}

/// Where it is g, its answer has record 2.
#[test]
fn a_refused_table_matched() {
    let files = [("conj.hex", CONJ), ("bad.pla", ".i 2\n.o 1\n.type fr\n.o 1\n")];
    expect("match-refused-table.txt", &files, "match conj.hex bad.pla", 2);
}

/// 200 characters before the x and 150 after it: 60 and 59 of them are shown, 120 in all.
#[test]
fn a_long_line_shown() {
    let (before, after) = ("0".repeat(200), "1".repeat(150));
    let text = format!(".i 2\n.o 1\n.type fr\n{before}x{after} 1\n");
    expect_refused_table("show-long-line.txt", text);
}

/// What a terminal would take for an order is shown as letters.
#[test]
fn control_characters_shown() {
    let text = b".i 2\n.o 1\n.type fr\n\x1B[31m 1 \x00\xFF\n.e\n";
    expect_refused_table("show-control-characters.txt", text);
}

/// On: 1-10 is P 5, N 8; -110 is 6, 8; -001 is 8, 6. Off: --00 is 0, C; 0010 is 4, B. The
/// two terms that add nothing are left out.
#[test]
fn a_table_written() {
    let file = repository().join("examples/round-up.pla");
    let text = fs::read_to_string(file).expect("an example");
    expect("table-round-up.txt", &[("r.pla", &text)], "table r.pla", 0);
    expect("record-round-up.txt", &[("r.pla", &text)], "record r.pla", 0);
    let record = "46 4E 04 03 02 05 08 06 08 08 06 00 0C 04 0B";
    expect("table-round-up.txt", &[("r.hex", record)], "table r.hex", 0);
}

// ---- The runs that the documents show ----

/// A run: the command's line without its `$ `, and what is printed below it.
type Shown = (String, String);

/// The runs in the blocks of a document, fenced or indented by four blanks.
fn runs(document: &str) -> Vec<Shown> {
    blocks(document).iter().flat_map(|block| runs_of(block)).collect()
}

fn blocks(document: &str) -> Vec<Vec<&str>> {
    let mut blocks = vec![];
    let mut lines = document.lines().peekable();
    while let Some(line) = lines.next() {
        if line.starts_with("```") {
            blocks.push(lines.by_ref().take_while(|line| !line.starts_with("```")).collect());
        } else if let Some(first) = line.strip_prefix("    ") {
            let mut block = vec![first];
            // Empty lines inside belong to it.
            let inside = |line: &&str| line.is_empty() || line.starts_with("    ");
            while let Some(line) = lines.next_if(inside) {
                block.push(line.strip_prefix("    ").unwrap_or(""));
            }
            blocks.push(block);
        }
    }
    blocks
}

fn runs_of(block: &[&str]) -> Vec<Shown> {
    let mut runs = vec![];
    let starts = (0..block.len()).filter(|&at| block[at].starts_with("$ "));
    for start in starts {
        let line = &block[start]["$ ".len()..];
        if line.starts_with("./zap ") || line.starts_with("zap ") {
            let printed = block[start + 1..].iter().take_while(|line| !line.starts_with("$ "));
            let printed: Vec<&str> = printed.copied().collect();
            runs.push((line.to_string(), printed.join("\n").trim_end().to_string()));
        }
    }
    runs
}

#[test]
fn runs_are_found_in_blocks() {
    let document = "\
Some words, and `$ zap show a` among them.

    $ ./zap show a
    a: 1

      x
    $ ls
    b
    $ zap show b

Words.

```sh
$ ./zap show c # why
c
```

    zap show d
    $ ./zapper
";
    let shown = |line: &str, printed: &str| (line.to_string(), printed.to_string());
    let expected = [
        shown("./zap show a", "a: 1\n\n  x"),
        shown("zap show b", ""),
        shown("./zap show c # why", "c"),
    ];
    assert_eq!(runs(document), expected);
}

/// Each run prints what the document says. It is made in a folder that looks like the
/// repository's root, so that what it writes stays there; a block's runs share one.
#[test]
fn the_documents_show_what_is_printed() {
    let mut found = vec![];
    for document in ["README.md", "docs/FORMATS.md", "examples/README.md"] {
        let text = fs::read_to_string(repository().join(document)).expect("a document");
        let runs = runs(&text);
        let folder = Folder::new();
        for entry in fs::read_dir(repository()).expect("the repository") {
            let path = entry.expect("read").path();
            symlink(&path, folder.path().join(path.file_name().expect("a name"))).expect("a link");
        }
        for (line, printed) in &runs {
            // A terminal shows both outputs. The script runs the binary that is named.
            let beside = binary().parent().expect("a folder").to_path_buf();
            let others = std::env::var("PATH").expect("a PATH");
            let mut shell = Command::new("sh");
            shell.args(["-c", &format!("exec 2>&1\n{line}")]).current_dir(folder.path());
            shell.env("PATH", format!("{}:{others}", beside.display()));
            shell.env("ZAP_BINARY", binary()).env_remove("NO_COLOR").env_remove("TERM");
            let ran = Ran::of(&mut shell, b"");
            assert_eq!(ran.out.trim_end(), printed, "{document}: {line}");
        }
        found.push((document, runs.len()));
    }
    assert!(found[0].1 > 0, "README.md shows no run: {found:?}");
}
