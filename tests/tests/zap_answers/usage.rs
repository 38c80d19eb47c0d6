//! Help, and wrong use.

use std::collections::BTreeMap;
use std::fs;

use zap_tests::cases::{CONJ, DISJ};
use zap_tests::command::{zap, Folder};

use crate::{answered, object, objects};

/// The verbs that `zap help` lists, each with its usage: `show F`.
fn verbs() -> Vec<(String, String)> {
    let help = zap(["help"]);
    answered(&help, 0);
    let (list, _) = help.out.split_once("\n\n").expect("a list, and more");
    let usages = list.lines().filter_map(|line| line.strip_prefix("zap "));
    let verb = |usage: &str| usage.split(' ').next().expect("a verb").to_string();
    usages.map(|usage| (verb(usage), usage.to_string())).collect()
}

#[test]
fn every_verb_has_its_page() {
    let verbs = verbs();
    let names: Vec<&str> = verbs.iter().map(|(name, _)| &name[..]).collect();
    let expected = ["match", "check", "summary", "show", "explain", "table", "record", "help"];
    assert_eq!(names, expected);
    for (name, usage) in &verbs {
        let page = zap(["help", name]);
        answered(&page, 0);
        assert_eq!(page.out.lines().next(), Some(&format!("zap {usage}")[..]));
        // Every option of the usage is explained, and --json, which every verb takes.
        let option = |line: &str| line.trim_start().starts_with('-');
        let options: Vec<&str> = page.out.lines().filter(|line| option(line)).collect();
        let in_usage = usage.split(['[', ']', ' ']).filter(|word| word.starts_with('-'));
        for wanted in in_usage.chain(["--json"]) {
            let told = |line: &&str| line.split([' ', ',']).any(|word| word == wanted);
            assert_eq!(
                options.iter().filter(|line| told(line)).count(),
                1,
                "{wanted}: {}",
                page.out
            );
        }
        for more in ["--help", "-h"] {
            assert_eq!(zap([&name[..], more]), page, "{name} {more}");
        }
        assert_eq!(zap([name, "any", "files", "--help"]), page, "{name}");
        let in_object = zap(["help", name, "--json"]);
        answered(&in_object, 0);
        assert_eq!(object(&in_object).text("page"), page.out, "{name}");
    }
    let listed = zap(["help", "--json"]);
    answered(&listed, 0);
    let listed: Vec<(String, String)> = objects(&listed)
        .iter()
        .map(|verb| {
            let name = verb.text("name").to_string();
            (name.clone(), format!("{name} {}", verb.text("usage")))
        })
        .collect();
    assert_eq!(listed, verbs);
    for words in ["--help", "-h"] {
        assert_eq!(zap([words]), zap(["help"]));
    }
    // Without a word it is wrong use, and no answer.
    let nothing = zap::<&str>([]);
    assert_eq!((nothing.status, &nothing.out[..]), (2, ""));
    assert_eq!(nothing.err, zap(["help"]).out);
}

/// Wrong use, and what the message names.
const WRONG: &[(&str, &[&str])] = &[
    // A mistyped verb: the nearest, or where they are listed.
    ("mtach f g", &["mtach", "did you mean match?"]),
    ("chek f g claim", &["chek", "did you mean check?"]),
    ("sumary f", &["sumary", "did you mean summary?"]),
    ("shwo f", &["shwo", "did you mean show?"]),
    ("explian f g claim", &["explian", "did you mean explain?"]),
    ("tabel f", &["tabel", "did you mean table?"]),
    ("recrod f", &["recrod", "did you mean record?"]),
    ("help mach", &["mach", "did you mean match?"]),
    ("summarize f", &["summarize", "did you mean summary?"]),
    ("frobnicate f", &["frobnicate", "zap help"]),
    // A mistyped option, and one of another verb.
    ("show f --jsno", &["--jsno", "did you mean --json?"]),
    ("match f g --ouput claim", &["--ouput", "did you mean --output?"]),
    ("match f g -o claim --hxe", &["--hxe", "did you mean --hex?"]),
    ("explain f g claim --detph 2", &["--detph", "did you mean --depth?"]),
    ("summary f --frobnicate", &["--frobnicate", "zap help summary"]),
    ("check f g claim --depth 2", &["check has no option --depth"]),
    ("table f -o new --hex", &["table has no option --hex"]),
    ("record f --ouput new", &["--ouput", "did you mean --output?"]),
    // Values.
    ("explain f g claim --depth x", &["--depth", "number"]),
    ("explain f g claim --depth=", &["--depth", "number"]),
    ("explain f g claim --depth -1", &["--depth", "number"]),
    ("explain f g claim --depth", &["--depth N"]),
    ("match f g -o", &["-o FILE"]),
    ("table f -o", &["-o FILE"]),
    ("record f --output", &["--output FILE"]),
    ("show f --json=1", &["--json", "no value"]),
    ("match f g --hex --hex", &["--hex", "twice"]),
    // Files.
    ("match - -", &["standard input", "once"]),
    ("check - g -", &["standard input", "once"]),
    ("match f g --hex", &["--hex", "-o"]),
    ("record f --hex", &["--hex", "-o"]),
    ("table cells", &["cells is a folder"]),
    ("match f g g -o claim", &["-o", "one g"]),
    ("match f cells -o claim", &["-o", "one g"]),
];

/// Too few files and too many: the message is how the verb is used.
const MISUSED: &[(&str, &str)] = &[
    ("match", "match"),
    ("match f", "match"),
    ("check f g", "check"),
    ("check f g claim claim", "check"),
    ("summary", "summary"),
    ("show", "show"),
    ("show f g", "show"),
    ("explain f g", "explain"),
    ("explain f g claim claim", "explain"),
    ("table", "table"),
    ("table f g", "table"),
    ("record", "record"),
    ("record f g -o new", "record"),
    ("help match show", "help"),
];

#[test]
fn wrong_use_is_told_and_nothing_is_answered() {
    let folder = Folder::new();
    for (name, bytes) in [("f", CONJ), ("g", DISJ), ("cells/g", DISJ)] {
        folder.write(name, bytes);
    }
    folder.write("claim", [0x4D, 0x54, 2, 1, 0x10, 0x11]);
    let names = folder.names();
    for (words, parts) in WRONG {
        let why = expect_wrong(&folder, words);
        for part in *parts {
            assert!(why.contains(part), "{words}: no {part:?} in {why}");
        }
    }
    let usages: BTreeMap<String, String> = verbs().into_iter().collect();
    for (words, verb) in MISUSED {
        assert_eq!(expect_wrong(&folder, words), format!("usage: zap {}", usages[*verb]));
    }
    assert_eq!(folder.names(), names, "something was written");
    assert_eq!(fs::read(folder.path().join("claim")).expect("still there").len(), 6);
}

/// The message. There is no answer; for a script it is an object too.
fn expect_wrong(folder: &Folder, words: &str) -> String {
    let ran = folder.zap(words);
    assert_eq!((ran.status, &ran.out[..]), (2, ""), "{words}: {}", ran.err);
    let why = ran.err.strip_prefix("zap: ").and_then(|why| why.strip_suffix('\n'));
    let why = why.unwrap_or_else(|| panic!("{words}: {}", ran.err));
    assert_eq!(why.lines().count(), 1, "{why}");
    if !words.contains("--json") {
        // Before the other words: an option without its value would take it for that.
        let (verb, rest) = words.split_once(' ').unwrap_or((words, ""));
        let json = folder.zap(format!("{verb} --json {rest}").trim_end());
        assert_eq!((json.status, &json.err), (2, &ran.err), "{words}");
        assert_eq!(object(&json).text("error"), why, "{words}");
    }
    why.to_string()
}
