//! Names of files.

use std::ffi::{OsStr, OsString};
use std::fs;
use std::os::unix::ffi::OsStringExt;

use zap_tests::cases::WIRE;
use zap_tests::command::{command, Folder, Ran};

use crate::written::{functions, CONJ_DISJ_CLAIM};

/// A name, and how text and JSON have it. What is no UTF-8 is shown by a sign.
fn all_names() -> Vec<(OsString, &'static str, &'static str)> {
    let name = |bytes: &[u8]| OsString::from_vec(bytes.to_vec());
    vec![
        (name(b" my cell .hex"), " my cell .hex", "\" my cell .hex\""),
        (name(b"a'b\"c"), "a'b\"c", "\"a'b\\\"c\""),
        (name(b"back\\slash"), "back\\slash", "\"back\\\\slash\""),
        (name(b"-x"), "-x", "\"-x\""),
        (name(b"--json"), "--json", "\"--json\""),
        (name(b"--"), "--", "\"--\""),
        (name(b"*?[$HOME]`ls`"), "*?[$HOME]`ls`", "\"*?[$HOME]`ls`\""),
        (name("\u{2192} \u{e4}".as_bytes()), "\u{2192} \u{e4}", "\"\u{2192} \u{e4}\""),
        (name(b"n\xFFm\xC3"), "n\u{fffd}m\u{fffd}", "\"n\u{fffd}m\u{fffd}\""),
        (name(b"a\nb\tc"), "a\nb\tc", "\"a\\nb\\u0009c\""),
    ]
}

#[test]
fn names_of_files_that_are_read() {
    let folder = Folder::new();
    folder.write("wire", WIRE);
    folder.write("m", "4D 54 01 00 00");
    for (name, text, json) in all_names() {
        let file = folder.path().join(&name);
        fs::write(&file, WIRE).expect("a new file");
        let run = |words: &[&OsStr]| {
            let ran = Ran::of(command().current_dir(folder.path()).args(words), b"");
            assert_eq!((ran.err.as_str(), ran.status), ("", 0), "{text}");
            ran.out
        };
        let word = OsStr::new;
        let out = run(&[word("summary"), word("--"), &name]);
        assert_eq!(out, format!("{text}: 1 input, 1 in use; 1 pattern on, 1 off, 0 open\n"));
        let out = run(&[word("summary"), word("--json"), word("--"), &name]);
        let start = format!("{{\"verb\":\"summary\",\"file\":{json},\"result\":\"accepted\",");
        assert!(out.starts_with(&start) && out.lines().count() == 1, "{out}");
        let out = run(&[word("check"), word("--json"), word("--"), &name, &name, word("m")]);
        let start = format!("{{\"verb\":\"check\",\"f\":{json},\"g\":{json},\"claim\":\"m\",");
        assert!(out.starts_with(&start) && out.lines().count() == 1, "{out}");
        let out = run(&[word("match"), word("--"), word("wire"), &name, &name]);
        assert!(out.starts_with(&format!("{text}: match: x0 to x0\n")), "{out}");
        fs::remove_file(file).expect("the test's own");
    }
    // Before `--` a dash makes an option; and `-` is a file only if it has a folder.
    folder.write("-x", WIRE);
    folder.write("-", WIRE);
    let ran = folder.zap("summary -x");
    assert!(ran.err.contains("no option -x") && ran.status == 2, "{ran:?}");
    let ran = folder.zap("summary ./- ./-x");
    assert!(
        ran.status == 0 && ran.out.contains("  ./-\n") && ran.out.contains("  ./-x\n"),
        "{ran:?}"
    );
}

/// A name that is missing is told as well.
#[test]
fn names_of_files_that_are_missing() {
    let folder = Folder::new();
    for (name, text, json) in all_names() {
        let run = |more: &[&str]| {
            let mut command = command();
            command.arg("show").args(more).arg("--").arg(&name);
            Ran::of(command.current_dir(folder.path()), b"")
        };
        let reason = "cannot be read: No such file or directory";
        let ran = run(&[]);
        assert_eq!((ran.err, ran.status), (format!("zap: {text} {reason}\n"), 2));
        let ran = run(&["--json"]);
        let why = json.strip_suffix('"').expect("in quotes");
        let object =
            format!("{{\"verb\":\"show\",\"result\":\"trouble\",\"error\":{why} {reason}\"}}\n");
        assert_eq!((ran.out, ran.status), (object, 2));
    }
}

fn expect_written(folder: &Folder, words: &[OsString], name: &OsStr, text: &str, json: &str) {
    let run = |more: &[&str]| {
        let ran = Ran::of(command().current_dir(folder.path()).args(words).args(more), b"");
        assert_eq!((ran.err.as_str(), ran.status), ("", 0), "{text}");
        let file = folder.path().join(name);
        assert_eq!(fs::read(&file).ok().as_deref(), Some(CONJ_DISJ_CLAIM), "{words:?}");
        fs::remove_file(file).expect("written");
        ran.out
    };
    let before = folder.names();
    let out = run(&[]);
    assert!(out.contains(&format!("\nwritten to {text}, binary\n")), "{out}");
    let out = run(&["--json"]);
    assert!(out.ends_with(&format!(",\"claim\":{json}}}\n")), "{out}");
    assert_eq!(folder.names(), before);
}

#[test]
fn names_of_files_that_are_written() {
    let folder = functions();
    for (name, text, json) in all_names() {
        let words = ["match", "conj", "disj", "-o"].map(OsString::from);
        expect_written(&folder, &[&words[..], &[name.clone()]].concat(), &name, text, json);
    }
}

/// The same with the name joined to the option.
#[test]
fn names_joined_to_the_option() {
    let folder = functions();
    for (name, text, json) in all_names() {
        let mut joined = OsString::from("--output=");
        joined.push(&name);
        let words = [&["match", "conj", "disj"].map(OsString::from)[..], &[joined]].concat();
        expect_written(&folder, &words, &name, text, json);
    }
}
