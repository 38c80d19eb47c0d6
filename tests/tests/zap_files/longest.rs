//! The longest claim.

use std::fs::{self, File};
use std::io::{BufWriter, Write};
use std::thread;
use std::time::{Duration, Instant};

use zap_tests::command::Folder;
use zap_tests::reference::answer::Answer;
use zap_tests::reference::programs::hex;

use crate::ways::numbers_in_json;
use crate::written::{longest_pair, longest_refusal};

#[test]
fn the_longest_claim() {
    let folder = Folder::new();
    let [f, g] = longest_pair(8);
    assert_eq!([hex(&f), hex(&g)], ["46 4E 08 01 01 80 00 00 80", "46 4E 08 02 00 FF 00 00 FF"]);
    folder.write("f", f);
    folder.write("g", g);
    let claim = longest_refusal(8);
    assert_eq!(claim.len(), 75_323_621);
    let file = folder.path().join("c");

    // No progress is shown: standard error is no terminal here.
    let ran = folder.zap("match f g -o c");
    assert_eq!((ran.err.as_str(), ran.status), ("", 1));
    assert!(ran.out.contains("a refusal of 75,323,621 bytes"), "{}", ran.out);
    assert!(ran.out.ends_with(LONGEST), "{}", ran.out);
    assert!(fs::read(&file).expect("written") == claim, "another claim");
    expect_longest(&folder, explained_in_words);

    fs::remove_file(&file).expect("written");
    let digits: Vec<String> = (0..=255).map(|byte| format!("{byte:02X} ")).collect();
    let mut text = BufWriter::new(File::create(&file).expect("a new file"));
    for row in claim.chunks(32) {
        let row: String = row.iter().map(|&byte| digits[byte as usize].as_str()).collect();
        writeln!(text, "{row}").expect("written");
    }
    text.flush().expect("written");
    drop(text);
    assert!(fs::metadata(&file).expect("written").len() > 226_000_000);
    // It is no function, so all that takes time is to read it.
    let start = Instant::now();
    let ran = folder.zap("summary --json c");
    let took = start.elapsed();
    let numbers = numbers_in_json(Answer::refused(2, 1, 0));
    assert!(ran.out.contains(&numbers) && ran.out.contains("\"taken_for\":\"hex\""), "{ran:?}");
    assert!(took < Duration::from_secs(10), "{took:?}");
    expect_longest(&folder, explained_in_an_object);
}

/// The file is accepted, and can be explained. Each takes seconds, so they go side by side.
fn expect_longest(folder: &Folder, explained: fn(&Folder)) {
    thread::scope(|threads| {
        threads.spawn(|| explained(folder));
        let ran = folder.zap("check f g c");
        assert_eq!((ran.err.as_str(), ran.status), ("", 0));
        assert!(ran.out.starts_with("accepted: the refusal holds, "), "{}", ran.out);
        assert!(ran.out.ends_with(LONGEST), "{}", ran.out);
    });
}

const LONGEST: &str = "code 0, kind 2, record 0, place 75323621, pattern 0\n";

/// 1 + 16 + 224 + 2,688 + 26,880 + 215,040 + 1,290,240 + 5,160,960 + 10,321,920 nodes.
fn explained_in_words(folder: &Folder) {
    let ran = folder.zap("explain f g c");
    assert_eq!((ran.err.as_str(), ran.status), ("", 0));
    let (closings, all) = ("10,321,920", "17,017,969");
    let rows =
        [["8", closings, closings, closings, closings], ["all", all, closings, all, closings]];
    for row in rows {
        let is_row = |line: &str| line.split_whitespace().eq(row);
        assert!(ran.out.lines().any(is_row), "{row:?}");
    }
    assert!(ran.out.ends_with(LONGEST));
}

/// 2·8 nodes at depth 1, 2·7 below each of them, and so on; those of depth 8 close.
fn explained_in_an_object(folder: &Folder) {
    let ran = folder.zap("explain f g c --depth 0 --json");
    assert_eq!((ran.err.as_str(), ran.status), ("", 0));
    let mut depths = vec![];
    for q in 0..2 {
        let mut nodes = 1;
        for depth in 0..=8 {
            let closings = if depth == 8 { nodes } else { 0 };
            depths.push(format!(
                "{{\"q\":{q},\"depth\":{depth},\"nodes\":{nodes},\"closings\":{closings}}}"
            ));
            nodes *= 2 * (8 - depth);
        }
    }
    assert!(ran.out.contains(&numbers_in_json(Answer::accepted(2, 75_323_621))), "{}", ran.out);
    assert!(ran.out.ends_with(&format!("\"depths\":[{}]}}\n", depths.join(","))), "{}", ran.out);
}
