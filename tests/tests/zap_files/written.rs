//! Files written: whole or not at all.

use std::fs;
use std::os::unix::fs::{symlink, FileTypeExt, PermissionsExt};
use std::path::{Path, PathBuf};
use std::process::Command;
use std::sync::atomic::{AtomicBool, Ordering};
use std::thread;
use std::time::{Duration, Instant};

use zap_tests::cases::{CONJ, CONJ_ODD_CLAIM, DISJ, ODD};
use zap_tests::claims::trees::split_everywhere;
use zap_tests::command::{binary, command, Folder, Ran};

use crate::faults::quoted;

/// No wiring agrees, and nothing is dead before the last input of f is placed: f is that
/// input, and g is on at the last pattern and at the first. So its refusal is the longest.
pub fn longest_pair(n: u32) -> [Vec<u8>; 2] {
    let (last, all) = (1 << (n - 1), (2_u32.pow(n) - 1) as u8);
    let mark = [0x46, 0x4E, n as u8];
    let [f, g] = [[1, 1, last, 0, 0, last], [2, 0, all, 0, 0, all]];
    [f, g].map(|rest| [&mark[..], &rest].concat())
}

/// With the output plain f's off cube meets g's on cubes. Plain it is dead with the one of
/// the first pattern, number 1; inverted with that of the last, number 0. With the output
/// inverted it is f's on cube, and the other way round.
pub fn longest_refusal(n: usize) -> Vec<u8> {
    let mut claim = vec![0x52, 0x46, n as u8];
    split_everywhere(n, [[1, 0, 1], [1, 0, 0]], &mut claim);
    split_everywhere(n, [[0, 0, 0], [0, 0, 1]], &mut claim);
    claim
}

/// Written by hand in FORMATS.md.
pub const CONJ_DISJ_CLAIM: &[u8] = &[0x4D, 0x54, 2, 1, 0x10, 0x11];

/// A folder with functions, whose claims are known.
pub fn functions() -> Folder {
    let folder = Folder::new();
    let [f, g] = longest_pair(6);
    for (name, record) in [("conj", CONJ), ("disj", DISJ), ("odd", ODD), ("f", &f), ("g", &g)] {
        folder.write(name, record);
    }
    folder
}

/// Hex as the command writes it: two digits a byte, blanks and line ends between.
fn from_hex(text: &str) -> Vec<u8> {
    let byte = |word: &str| {
        assert_eq!(word.len(), 2, "{word}");
        u8::from_str_radix(word, 16).expect("hex")
    };
    text.split_whitespace().map(byte).collect()
}

#[test]
fn claims_are_written() {
    let folder = functions();
    let read = |name| fs::read(folder.path().join(name)).expect("written");
    let long = longest_refusal(6);
    assert_eq!(long.len(), 336_269);
    let cases =
        [("conj disj", CONJ_DISJ_CLAIM, 0), ("conj odd", CONJ_ODD_CLAIM, 1), ("f g", &long, 1)];
    for (pair, claim, status) in cases {
        let before = folder.names();
        for (option, form) in
            [("-o new", "binary"), ("--output=new", "binary"), ("--hex -o new", "hex")]
        {
            let ran = folder.zap(&format!("match {pair} {option}"));
            assert!(ran.out.contains(&format!("written to new, {form}\n")), "{ran:?}");
            assert_eq!((ran.err.as_str(), ran.status), ("", status), "{pair}");
            let written = read("new");
            match form {
                "binary" => assert!(written == claim, "{pair}: {} bytes", written.len()),
                _ => {
                    let text = String::from_utf8(written).expect("text");
                    assert!(from_hex(&text) == claim && text.ends_with('\n'), "{pair}");
                }
            }
            let checked = folder.zap(&format!("check {pair} new"));
            assert!(checked.out.starts_with("accepted: ") && checked.status == 0, "{checked:?}");
            fs::remove_file(folder.path().join("new")).expect("written");
            assert_eq!(folder.names(), before);
        }
        let json = folder.zap(&format!("match {pair} -o new --json"));
        assert!(json.out.ends_with(",\"claim\":\"new\"}\n"), "{json:?}");
        assert!(read("new") == claim);
        fs::remove_file(folder.path().join("new")).expect("written");
    }
}

/// A function that is refused, or a file that is missing, makes no claim.
#[test]
fn no_claim_is_no_file() {
    let folder = functions();
    folder.write("bad", "46 4E 09");
    folder.write("kept", "old");
    let before = folder.names();
    for words in ["match conj bad", "match bad conj", "match conj missing", "match f conj"] {
        for file in ["new", "kept"] {
            let ran = folder.zap(&format!("{words} -o {file}"));
            assert_eq!(ran.status, 2, "{words}: {ran:?}");
            assert!(!format!("{ran:?}").contains("written to"), "{words}: {ran:?}");
        }
    }
    assert_eq!(folder.names(), before);
    assert_eq!(fs::read(folder.path().join("kept")).expect("kept"), b"old");
}

#[test]
fn a_file_is_replaced_and_keeps_its_mode() {
    let folder = functions();
    let mode = |path: &Path| fs::metadata(path).expect("there").permissions().mode() & 0o7777;
    let file = folder.write("c", "old");
    let before = folder.names();
    for kept in [0o600, 0o640, 0o644, 0o666, 0o755] {
        fs::set_permissions(&file, fs::Permissions::from_mode(kept)).expect("one's own file");
        let ran = folder.zap("match f g -o c");
        assert_eq!((ran.err.as_str(), ran.status, mode(&file)), ("", 1, kept), "{kept:o}");
        assert_eq!(fs::metadata(&file).expect("there").len(), 336_269);
        folder.zap("match conj disj -o c");
        assert_eq!(fs::read(&file).expect("readable"), CONJ_DISJ_CLAIM);
        assert_eq!((folder.names(), mode(&file)), (before.clone(), kept));
    }
    // A new one has the mode that new files have.
    let plain = folder.write("plain", "");
    folder.zap("match conj disj -o new");
    assert_eq!(mode(&folder.path().join("new")), mode(&plain));
}

/// Whoever reads the file meanwhile sees the old one or the new one, each of them whole.
#[test]
fn nobody_sees_a_part() {
    let folder = functions();
    let claims = [CONJ_DISJ_CLAIM.to_vec(), longest_refusal(6)];
    let file = folder.write("c", &claims[0]);
    let done = AtomicBool::new(false);
    let seen = thread::scope(|threads| {
        let reader = threads.spawn(|| {
            let (start, mut seen) = (Instant::now(), [0; 2]);
            while !done.load(Ordering::Relaxed) && start.elapsed() < Duration::from_secs(20) {
                let found = fs::read(&file).expect("it is always there");
                seen[claims.iter().position(|claim| *claim == found).expect("whole")] += 1;
            }
            seen
        });
        for _ in 0..10 {
            folder.zap("match f g -o c");
            folder.zap("match conj disj -o c");
        }
        done.store(true, Ordering::Relaxed);
        reader.join().expect("the one or the other")
    });
    assert!(seen.iter().all(|&times| times > 0), "{seen:?}");
}

#[test]
fn a_link_stays_a_link() {
    let folder = functions();
    folder.write("sub/real", "old");
    symlink("sub/real", folder.path().join("link")).expect("a new link");
    symlink(folder.path().join("link"), folder.path().join("link to it")).expect("a new link");
    let before = folder.names();
    for (name, leads) in [("link", "sub/real".into()), ("link to it", folder.path().join("link"))] {
        folder.write("sub/real", "old");
        let words = ["match", "conj", "disj", "-o", name];
        let ran = Ran::of(command().current_dir(folder.path()).args(words), b"");
        assert_eq!((ran.err.as_str(), ran.status), ("", 0));
        assert_eq!(fs::read_link(folder.path().join(name)).expect("a link"), leads);
        assert_eq!(fs::read(folder.path().join("sub/real")).expect("there"), CONJ_DISJ_CLAIM);
    }
    assert_eq!(folder.names(), before);
    assert_eq!(fs::read_dir(folder.path().join("sub")).expect("a folder").count(), 1);
}

/// As with `> link`, which makes what the link leads to.
#[test]
fn a_link_to_a_file_that_is_not_there_yet_stays_a_link() {
    let folder = functions();
    fs::create_dir(folder.path().join("sub")).expect("a new folder");
    symlink("sub/new", folder.path().join("link")).expect("a new link");
    let ran = folder.zap("match conj disj -o link");
    assert_eq!((ran.err.as_str(), ran.status), ("", 0));
    assert_eq!(fs::read(folder.path().join("link")).expect("written"), CONJ_DISJ_CLAIM);
    let leads = fs::read_link(folder.path().join("link"));
    assert_eq!(leads.expect("it was a link"), Path::new("sub/new"));
    assert_eq!(fs::read(folder.path().join("sub/new")).expect("made"), CONJ_DISJ_CLAIM);
}

/// A run that was killed may have left its part behind, and a later one may get its
/// number: that file is not its own. A shell keeps its number where it becomes the
/// command.
#[test]
fn a_part_that_is_somebody_elses_stays() {
    let folder = functions();
    let before = folder.names();
    let script = "echo other >.zap.$$.0.part; exec \"$0\" match conj disj -o c";
    let mut shell = Command::new("sh");
    shell.current_dir(folder.path()).args(["-c", script]).arg(binary());
    let ran = Ran::of(&mut shell, b"");
    assert_eq!((ran.err.as_str(), ran.status), ("", 0));
    let left: Vec<String> =
        folder.names().into_iter().filter(|name| !before.contains(name)).collect();
    let [part, claim] = &left[..] else { panic!("{left:?}") };
    assert!(part.starts_with(".zap.") && part.ends_with(".0.part"), "{part}");
    assert_eq!(fs::read(folder.path().join(part)).expect("still there"), b"other\n");
    assert_eq!(claim, "c");
    assert_eq!(fs::read(folder.path().join(claim)).expect("written"), CONJ_DISJ_CLAIM);
}

/// No file system of Linux takes a longer name; this one may be used in full.
#[test]
fn a_file_with_the_longest_name() {
    let folder = functions();
    for length in [200, 255] {
        let name = "n".repeat(length);
        let ran = folder.zap(&format!("match conj disj -o {name}"));
        assert_eq!((ran.err.as_str(), ran.status), ("", 0), "{length}");
        assert_eq!(fs::read(folder.path().join(&name)).expect("written"), CONJ_DISJ_CLAIM);
    }
}

#[test]
fn files_that_cannot_be_written() {
    let folder = functions();
    fs::create_dir(folder.path().join("sub")).expect("a new folder");
    folder.write("kept", "old");
    let before = folder.names();
    let name = "n".repeat(256);
    for (file, reason) in [
        ("sub", "is a directory"),
        ("sub/", "is a directory"),
        (".", "is a directory"),
        ("/", "is a directory"),
        ("no/c", "no such file or directory"),
        ("kept/c", "not a directory"),
        ("kept/", "not a directory"),
        ("", "no such file or directory"),
        ("/dev/full", "no space left on device"),
        ("/proc/self/c", ""),
        (&name, "file name too long"),
    ] {
        // Long claims, which are written piece by piece, and short ones.
        for pair in [["conj", "disj"], ["f", "g"]] {
            let run = |more: &[&str]| {
                let mut command = command();
                command.current_dir(folder.path()).arg("match").args(pair).args(["-o", file]);
                Ran::of(command.args(more), b"")
            };
            let ran = run(&[]);
            let start = format!("zap: {file} cannot be written: ");
            let told = ran.err.starts_with(&start) && ran.err.to_lowercase().contains(reason);
            assert!(told && ran.err.lines().count() == 1, "{file}: {ran:?}");
            assert_eq!((ran.out.as_str(), ran.status), ("", 2), "{file}");
            let json = run(&["--json", "--hex"]);
            let error = quoted(ran.err[5..].trim_end());
            let object =
                format!("{{\"verb\":\"match\",\"result\":\"trouble\",\"error\":{error}}}\n");
            assert_eq!((json.out, json.status), (object, 2), "{file}");
        }
    }
    assert_eq!(folder.names(), before);
    assert_eq!(fs::read(folder.path().join("kept")).expect("kept"), b"old");
    assert_eq!(fs::read_dir(folder.path().join("sub")).expect("a folder").count(), 0);
}

/// The disk takes the first block and no more.
#[test]
fn a_file_that_cannot_be_written_to_its_end() {
    let folder = functions();
    folder.write("kept", "old");
    let before = folder.names();
    let limited = "trap '' XFSZ; ulimit -f 1; exec \"$0\" \"$@\"";
    for file in ["kept", "new"] {
        for more in [&[][..], &["--hex"]] {
            let mut shell = Command::new("sh");
            shell.args(["-c", limited]).arg(command().get_program()).args(["match", "f", "g"]);
            let ran = Ran::of(shell.args(["-o", file]).args(more).current_dir(folder.path()), b"");
            let err = format!("zap: {file} cannot be written: File too large\n");
            assert_eq!(ran, Ran { out: String::new(), err, status: 2 });
            assert_eq!(folder.names(), before);
        }
    }
    assert_eq!(fs::read(folder.path().join("kept")).expect("kept"), b"old");
}

#[test]
fn a_claim_on_standard_output() {
    let folder = functions();
    let long = longest_refusal(6);
    for (pair, claim, words) in [
        (["conj", "disj"], CONJ_DISJ_CLAIM, "match: "),
        (["conj", "odd"], CONJ_ODD_CLAIM, "no match: "),
        (["f", "g"], &long, "no match: "),
    ] {
        for (more, start) in [(&[][..], words), (&["--json"], "{\"verb\":\"match\",")] {
            for form in [&[][..], &["--hex"]] {
                let mut command = command();
                command.current_dir(folder.path()).arg("match").args(pair).args(["-o", "-"]);
                let output = command.args(more).args(form).output().expect("run");
                let text = String::from_utf8(output.stderr).expect("text");
                assert!(text.starts_with(start) && !text.contains("zap: "), "{text}");
                assert!(!text.contains("written to"), "{text}");
                match form {
                    [] => assert!(output.stdout == claim, "{pair:?}"),
                    _ => {
                        let text = String::from_utf8(output.stdout).expect("text");
                        assert!(from_hex(&text) == claim, "{pair:?}");
                    }
                }
            }
        }
    }
    assert!(!folder.names().contains(&"-".to_string()));
}

pub fn make_pipe(folder: &Folder, name: &str) -> PathBuf {
    let path = folder.path().join(name);
    let made = Command::new("mkfifo").arg(&path).status().expect("mkfifo is there");
    assert!(made.success());
    path
}

/// They are written to, and are still what they were.
#[test]
fn devices_and_pipes_are_written_to() {
    let folder = functions();
    let device = || fs::metadata("/dev/null").expect("there").file_type().is_char_device();
    let ran = folder.zap("match f g -o /dev/null");
    assert_eq!((ran.err.as_str(), ran.status, device()), ("", 1, true));

    let pipe = make_pipe(&folder, "pipe");
    symlink("pipe", folder.path().join("link")).expect("a new link");
    let before = folder.names();
    let long = longest_refusal(6);
    for (pair, claim, status) in [("conj disj", CONJ_DISJ_CLAIM, 0), ("f g", &long, 1)] {
        for name in ["pipe", "link"] {
            let reader = {
                let pipe = pipe.clone();
                thread::spawn(move || fs::read(pipe).expect("a pipe gives bytes"))
            };
            let ran = folder.zap(&format!("match {pair} -o {name}"));
            // Where nothing was written to the pipe its reader would wait for ever.
            let is_pipe = |path: &Path| fs::metadata(path).expect("there").file_type().is_fifo();
            assert!(is_pipe(&pipe) && is_pipe(&folder.path().join(name)), "{name}");
            assert_eq!((ran.err.as_str(), ran.status), ("", status));
            assert!(reader.join().expect("read") == claim, "{name}");
        }
    }
    assert_eq!(folder.names(), before);
}
