//! The script `zap`, in a copy of its own: a small project, with stand-ins for `rt` and
//! `cargo` that keep a log of what they are asked.

use std::ffi::{OsStr, OsString};
use std::fs;
use std::io::{BufRead, BufReader, Read};
use std::os::unix::fs::{symlink, PermissionsExt};
use std::os::unix::process::CommandExt;
use std::path::{Path, PathBuf};
use std::process::{Child, Command, Stdio};
use std::time::{Duration, Instant};
use std::{env, thread};

use zap_tests::command::{repository, Folder, Ran};

// ---- A project ----

/// What the script asks for: the words of rt, and those of cargo.
const RT: &str = "rt lib";
const CARGO: &str = "cargo build --release --offline --manifest-path cli/Cargo.toml --target-dir";

/// As rt does it: a line where a crate begins, one where it is proved, much that is neither, and the archive.
const PROVES: &str = "
echo 'rt: chose --jobs 2 for a'
echo 'fn a::f: proved'
echo 'logic=proved functions=1'
echo 'rt: chose --jobs 2 for host'
echo 'logic=proved functions=1'
echo 'rt: chose --jobs 2 for host_c'
mkdir -p out && date >out/libhost_c.a
echo 'logic=proved functions=1'";

/// What rt says of a crate that it proves, and nothing where that was proved before.
const PROVES_A: &str = "
echo 'rt: chose --jobs 2 for a'
echo 'fn a::f: proved'
echo 'logic=proved functions=1'";

/// The binary tells its folder, its words and its standard input, and ends with 7.
const COMPILES: &str = "
mkdir -p cli/target/release
cat >cli/target/release/zap <<'END'
#!/bin/sh
pwd
for word; do printf '[%s]\\n' \"$word\"; done
cat
exit 7
END
chmod +x cli/target/release/zap
echo '   Compiling zap'";

struct Project {
    folder: Folder,
    path: OsString,
}

impl Project {
    fn new() -> Project {
        let folder = Folder::new();
        let tools = [folder.path().join("tools"), folder.path().join("system")];
        let project = Project { path: env::join_paths(tools).expect("a path"), folder };
        for (name, text) in [
            ("crates.txt", "# name, uses\na:\nother: a\nhost: a\nhost_c staticlib: host a\nafter: host a\n"),
            ("crates/a/src/lib.rt", "a"),
            ("crates/a/specs/A.antt", "a"),
            ("crates/host/src/lib.rt", "host"),
            ("crates/host_c/src/lib.rt", "host_c"),
            ("crates/other/src/lib.rt", "other"),
            ("cli/Cargo.toml", "toml"),
            ("cli/Cargo.lock", "lock"),
            ("cli/src/main.rs", "main"),
            ("cli/src/verbs/show.rs", "show"),
            ("calls/Cargo.toml", "toml"),
            ("calls/build.rs", "build"),
            ("calls/src/lib.rs", "lib"),
        ] {
            project.write(name, text);
        }
        project.write("tools/archive", "");
        for script in ["zap", "tools/archive"] {
            fs::copy(repository().join(script), project.file(script)).expect("a script");
        }
        project.tool("rt", PROVES);
        project.tool("cargo", COMPILES);
        // The system's own tools, without an rt or a cargo that may be among them.
        fs::create_dir(project.folder.path().join("system")).expect("a new folder");
        for tool in SYSTEM {
            let path = env::var_os("PATH").expect("a path");
            let mut found = env::split_paths(&path).map(|folder| folder.join(tool));
            let found = found.find(|file| file.is_file());
            let found = found.unwrap_or_else(|| panic!("there is no {tool} on the PATH"));
            symlink(found, project.folder.path().join("system").join(tool)).expect("a new link");
        }
        project
    }

    /// A file of the project, whose folder has a blank in its name.
    fn file(&self, name: &str) -> PathBuf {
        self.folder.path().join("the project").join(name)
    }

    fn write(&self, name: &str, text: &str) {
        self.folder.write(&format!("the project/{name}"), text);
    }

    /// A stand-in, which logs when it starts, what it is asked, and when it ends.
    fn tool(&self, name: &str, lines: &str) {
        let log = self.folder.path().join("log");
        let log = log.display();
        let lines = format!(
            "#!/bin/sh\necho \"{name} $*\" >>'{log}'\ntrap \"echo 'end of {name}' >>'{log}'\" EXIT\n\
             sleep 0.05{lines}\n"
        );
        let file = self.folder.write(&format!("tools/{name}"), lines);
        fs::set_permissions(file, fs::Permissions::from_mode(0o755)).expect("executable");
    }

    fn remove_tool(&self, name: &str) {
        fs::remove_file(self.folder.path().join("tools").join(name)).expect("a stand-in");
    }

    /// The script on words, in the folder above the project.
    fn command<S: AsRef<OsStr>>(&self, words: impl IntoIterator<Item = S>) -> Command {
        let mut command = Command::new(self.file("zap"));
        command.args(words).current_dir(self.folder.path());
        command.env("PATH", &self.path).env_remove("ZAP_BINARY");
        command
    }

    fn zap(&self) -> Ran {
        Ran::of(&mut self.command(["word"]), b"")
    }

    /// What the stand-ins were asked since this was last asked, in order.
    fn asked(&self) -> Vec<String> {
        let log = self.folder.path().join("log");
        let text = fs::read_to_string(&log).unwrap_or_default();
        fs::write(&log, "").expect("the log");
        text.lines().map(str::to_string).collect()
    }

    /// How a log looks where these were asked, one after the other.
    fn log(&self, asked: &[&str]) -> Vec<String> {
        let target = self.file("cli/target").canonicalize().expect("made");
        let lines = |asked: &&str| match *asked {
            RT => [RT.to_string(), "end of rt".to_string()],
            _ => [format!("{CARGO} {}", target.display()), "end of cargo".to_string()],
        };
        asked.iter().flat_map(lines).collect()
    }

    /// The binary ran, and just these were asked before it.
    fn expect(&self, asked: &[&str], what: &str) {
        let ran = self.zap();
        assert_eq!((ran.out, ran.status), (self.ran("[word]\n"), 7), "{what}: {}", ran.err);
        assert_eq!(self.asked(), self.log(asked), "{what}");
        assert_eq!(ran.err.is_empty(), asked.is_empty(), "{what}: {}", ran.err);
    }

    /// What the binary prints for these words, in the folder above the project.
    fn ran(&self, words: &str) -> String {
        let folder = self.folder.path().canonicalize().expect("there");
        format!("{}\n{words}", folder.display())
    }

    fn built() -> Project {
        let project = Project::new();
        project.expect(&[RT, CARGO], "first use");
        project
    }

    /// Waits until a line stands in the log.
    fn wait_for(&self, line: &str) {
        let log = self.folder.path().join("log");
        let is_there = || {
            let text = fs::read_to_string(&log).unwrap_or_default();
            text.lines().any(|found| found.starts_with(line))
        };
        let start = Instant::now();
        while !is_there() {
            assert!(start.elapsed() < Duration::from_secs(20), "{line} is not asked");
            thread::sleep(Duration::from_millis(2));
        }
    }
}

/// What the script and the stand-ins use.
const SYSTEM: [&str; 19] = [
    "sh", "dirname", "readlink", "sed", "find", "head", "tail", "tee", "date", "grep", "mkdir",
    "mv", "rm", "flock", "cat", "chmod", "sleep", "cp", "touch",
];

/// The seconds that passed are not known.
fn without_seconds(text: &str) -> String {
    let line = |line: &str| match line.strip_suffix(" s so far").and_then(|l| l.rsplit_once(", ")) {
        Some((start, _)) => format!("{start}\n"),
        None => format!("{line}\n"),
    };
    text.lines().map(line).collect()
}

const FIRST_USE: &str = "\
zap: the command's 2 crates are proved and built first; this takes some minutes the first time
zap: a proved, 1 of 2
zap: host proved and its archive written, 2 of 2
zap: compiling the command
";

// ---- Use after use ----

#[test]
fn the_first_use() {
    let project = Project::new();
    let words = ["match", "two words", "", "*", "-x", "--", "a\nb", " "];
    let ran = Ran::of(&mut project.command(words), b"the caller's input");
    let out = "[match]\n[two words]\n[]\n[*]\n[-x]\n[--]\n[a\nb]\n[ ]\nthe caller's input";
    assert_eq!(without_seconds(&ran.err), FIRST_USE);
    assert_eq!((ran.out, ran.status), (project.ran(out), 7));
    assert_eq!(project.asked(), project.log(&[RT, CARGO]));
}

/// What comes to standard input is for the binary, even where a tool would take it.
#[test]
fn the_callers_input_is_left_alone() {
    let project = Project::new();
    project.tool("rt", &format!("\ncat >/dev/null{PROVES}"));
    project.tool("cargo", &format!("\ncat >/dev/null{COMPILES}"));
    let ran = Ran::of(&mut project.command(["-"]), b"the caller's input");
    assert_eq!((ran.out, ran.status), (project.ran("[-]\nthe caller's input"), 7));
}

/// Crate after crate as it comes, and not when all is done.
#[test]
fn progress_as_it_comes() {
    let project = Project::new();
    let go = project.folder.path().join("go");
    let waits = format!("\nwhile [ ! -e '{}' ]; do sleep 0.01; done", go.display());
    project.tool("rt", &format!("{PROVES_A}{waits}{}", PROVES.replace(PROVES_A, "")));
    let mut command = project.command(["word"]);
    command.stdin(Stdio::null()).stdout(Stdio::null()).stderr(Stdio::piped());
    let mut child = command.spawn().expect("it can be run");
    let mut lines = BufReader::new(child.stderr.take().expect("piped")).lines();
    let mut line = || without_seconds(&lines.next().expect("a line").expect("text"));
    assert!(line().starts_with("zap: the command's 2 crates are proved and built first"));
    assert_eq!(line(), "zap: a proved, 1 of 2\n");
    fs::write(go, "").expect("a new file");
    assert_eq!(child.wait().expect("it ends").code(), Some(7));
}

/// What rt has proved before is counted, but is no news.
#[test]
fn crates_that_are_unchanged() {
    let project = Project::built();
    project.tool("rt", &PROVES.replace(PROVES_A, ""));
    project.write("crates/host/src/lib.rt", "other");
    let err = without_seconds(&project.zap().err);
    assert_eq!(err, FIRST_USE.replace("zap: a proved, 1 of 2\n", ""));
}

#[test]
fn the_next_use_builds_nothing() {
    let project = Project::built();
    for _ in 0..3 {
        project.expect(&[], "next use");
    }
    let took = (0..5).map(|_| {
        let start = Instant::now();
        assert_eq!(project.zap().status, 7);
        start.elapsed()
    });
    let best = took.min().expect("five");
    assert!(best < Duration::from_millis(200), "{best:?}");
    // Nor does it need what would build it.
    project.remove_tool("rt");
    project.remove_tool("cargo");
    project.expect(&[], "without rt and cargo");
}

/// In a shell in the project's folder.
fn shell(project: &Project, line: &str) {
    let mut shell = Command::new("sh");
    let status = shell.args(["-c", line]).current_dir(project.file("")).status();
    assert!(status.expect("a shell").success(), "{line}");
}

#[test]
fn changes_and_what_they_build() {
    let project = Project::built();
    let both: &[&str] = &[RT, CARGO];
    // An older file of the same length, to take the place of a source.
    shell(&project, "printf b >../old && touch -d 2001-01-01 ../old");
    for (change, asked) in [
        ("echo more >>crates/a/src/lib.rt", both),
        ("echo more >>crates/a/specs/A.antt", both),
        ("echo more >>crates/host/src/lib.rt", both),
        ("echo new >crates/a/src/new.rt", both),
        ("mkdir -p crates/a/proofs/deep && echo new >crates/a/proofs/deep/New.antt", both),
        ("echo more >>crates/a/proofs/deep/New.antt", both),
        ("rm crates/a/proofs/deep/New.antt", both),
        ("mkdir crates/a/proofs/deep/out && echo new >crates/a/proofs/deep/out/New.antt", both),
        ("rm -r crates/a/proofs", both),
        ("cp -p ../old crates/a/src/lib.rt", both),
        ("cp -p ../old ../older && mv ../older crates/a/src/lib.rt", both),
        ("touch -d 2001-01-01 crates/a/src/lib.rt", both),
        ("rm crates/a/src/new.rt", both),
        ("echo '# more' >>crates.txt", both),
        ("echo more >>cli/src/main.rs", &[CARGO]),
        ("echo more >>cli/src/verbs/show.rs", &[CARGO]),
        ("cp -p ../old cli/src/main.rs", &[CARGO]),
        ("rm cli/src/verbs/show.rs", &[CARGO]),
        ("echo more >>cli/Cargo.toml", &[CARGO]),
        ("echo more >>cli/Cargo.lock", &[CARGO]),
        ("echo more >>calls/src/lib.rs", &[CARGO]),
        ("echo more >>calls/build.rs", &[CARGO]),
        ("rm cli/target/release/zap", &[CARGO]),
        ("rm target/staticlib/libhost.a && echo more >>cli/src/main.rs", both),
        ("rm -r cli/target", both),
        ("rm -r target cli/target", both),
        // What rt makes anew, a crate that host does not use, and what is no source at all.
        ("echo made >crates/host_c/out/new && mkdir -p crates/a/out/deep && echo made >crates/a/out/deep/new", &[]),
        ("echo more >>crates/other/src/lib.rt", &[]),
        ("echo more >README.md && mkdir tests && echo new >tests/new", &[]),
    ] {
        shell(&project, change);
        project.expect(asked, change);
        project.expect(&[], change);
    }
    // One that host comes to use is one of its sources from then on.
    project.write("crates.txt", "a:\nother: a\nhost: other a\nhost_c staticlib: host other a\n");
    project.expect(both, "another crate");
    project.write("crates/other/src/lib.rt", "changed");
    project.expect(both, "a change of it");
}

/// The build may have missed it.
#[test]
fn changes_while_it_builds() {
    let project = Project::built();
    let once = |change: &str| {
        let done = project.folder.path().join("done");
        format!("\n[ -e '{0}' ] || {{ {change}; : >'{0}'; }}\nsleep 0.05", done.display())
    };
    let renew = |rt: &str, cargo: &str| {
        fs::remove_file(project.folder.path().join("done")).unwrap_or(());
        project.tool("rt", &format!("{rt}{PROVES}"));
        project.tool("cargo", &format!("{cargo}{COMPILES}"));
        shell(&project, "echo more >>crates/a/src/lib.rt");
    };
    // rt works in the folder of host_c.
    renew(&once("echo more >>../host/src/lib.rt"), "");
    project.expect(&[RT, CARGO], "a crate changes while it is proved");
    project.expect(&[RT, CARGO], "after that");
    project.expect(&[], "and again");

    renew("", &once("echo more >>crates/a/src/lib.rt"));
    project.expect(&[RT, CARGO], "a crate changes while the command is compiled");
    project.expect(&[RT, CARGO], "after that");
    project.expect(&[], "and again");

    renew("", &once("echo more >>cli/src/main.rs"));
    project.expect(&[RT, CARGO], "the command changes while it is compiled");
    project.expect(&[CARGO], "after that");
    project.expect(&[], "and again");

    renew(&once("echo more >>../../cli/src/main.rs"), "");
    project.expect(&[RT, CARGO], "the command changes before it is compiled");
    project.expect(&[], "after that");
}

#[test]
fn from_another_folder_and_through_links() {
    let project = Project::new();
    let folder = project.folder.path();
    fs::create_dir_all(folder.join("else where/bin")).expect("a new folder");
    symlink("../../the project/zap", folder.join("else where/bin/zap")).expect("a new link");
    symlink("bin/zap", folder.join("else where/link")).expect("a new link");
    let here = folder.join("else where");
    for program in ["./link", "bin/zap", "../the project/zap"] {
        let mut command = Command::new(program);
        command
            .args(["a b"])
            .current_dir(&here)
            .env("PATH", &project.path)
            .env_remove("ZAP_BINARY");
        let ran = Ran::of(&mut command, b"");
        let folder = here.canonicalize().expect("there");
        assert_eq!(
            (ran.out, ran.status),
            (format!("{}\n[a b]\n", folder.display()), 7),
            "{program}"
        );
    }
    assert_eq!(project.asked(), project.log(&[RT, CARGO]), "it is built once, in its own folder");
    assert_eq!(fs::read_dir(&here).expect("a folder").count(), 2);
    // By a shell that is told to read it, and by one that looks for it.
    for line in ["sh link 'a b'", "PATH=$PATH:$PWD/bin; zap 'a b'"] {
        let mut shell = Command::new("sh");
        shell.args(["-c", line]).current_dir(&here).env("PATH", &project.path);
        let ran = Ran::of(shell.env_remove("ZAP_BINARY"), b"");
        assert!(ran.out.ends_with("\n[a b]\n") && ran.status == 7, "{line}: {ran:?}");
    }
    assert_eq!(project.asked(), Vec::<String>::new());
}

#[test]
fn another_binary() {
    let project = Project::new();
    let other = project.folder.write("other one", "#!/bin/sh\necho \"other: $*\"\nexit 3\n");
    fs::set_permissions(&other, fs::Permissions::from_mode(0o755)).expect("executable");
    let run = |binary: &Path| Ran::of(project.command(["a", "b c"]).env("ZAP_BINARY", binary), b"");
    let out = "other: a b c\n".to_string();
    assert_eq!(run(&other), Ran { out, err: String::new(), status: 3 });
    assert_eq!(project.asked(), Vec::<String>::new());
    assert!(!project.file("cli/target").exists());
    // An empty one names none.
    assert_eq!(run(Path::new("")).status, 7);
    assert_eq!(project.asked(), project.log(&[RT, CARGO]));
}

// ---- What fails ----

/// Thirty lines, of which the last are told.
const FAILS: &str = "
i=1; while [ $i -le 30 ]; do echo \"trouble $i.\"; i=$((i + 1)); done >&2
exit 1";

fn expect_failure(project: &Project, asked: &[&str], what: &str) {
    let ran = project.zap();
    assert_eq!((ran.out.as_str(), ran.status), ("", 2), "{what}: {}", ran.err);
    assert_eq!(project.asked(), project.log(asked), "{what}");
    let log = project.file("cli/target/zap.log").canonicalize().expect("a log");
    let end = format!("zap: it could not be built; the whole log is in {}\n", log.display());
    assert!(ran.err.ends_with(&end), "{what}: {}", ran.err);
    assert!(ran.err.contains("trouble 30.\n") && ran.err.contains("trouble 20.\n"), "{}", ran.err);
    assert!(!ran.err.contains("trouble 1.\n"), "{what}: {}", ran.err);
    assert!(fs::read_to_string(log).expect("text").contains("trouble 1.\n"), "{what}");
}

#[test]
fn a_failing_rt() {
    let project = Project::new();
    project.tool("rt", FAILS);
    expect_failure(&project, &[RT], "first use");
    expect_failure(&project, &[RT], "it is tried again");
    // It fails late, with lines as of success and an archive.
    project.tool("rt", &format!("{PROVES}{FAILS}"));
    expect_failure(&project, &[RT], "late");
    project.tool("rt", PROVES);
    project.expect(&[RT, CARGO], "mended");
    // A binary that was built before is not run in the place of one that cannot be.
    project.tool("rt", FAILS);
    project.write("crates/a/src/lib.rt", "wrong");
    expect_failure(&project, &[RT], "a change");
    project.tool("rt", PROVES);
    project.expect(&[RT, CARGO], "mended again");
    // An archive that a failing rt has left is not taken for that of the time before.
    shell(&project, "rm target/staticlib/libhost.a && echo more >>cli/src/main.rs");
    project.tool("rt", &format!("{PROVES}{FAILS}"));
    expect_failure(&project, &[RT], "without the archive");
    project.tool("rt", PROVES);
    project.expect(&[RT, CARGO], "with it");
}

/// Its last line may have no end, as where it is cut off in the middle of one.
#[test]
fn a_failing_rt_in_the_middle_of_a_line() {
    for fails in ["printf 'no end of line'; exit 1", "printf 'no end of line'; kill -9 $$"] {
        let project = Project::new();
        project.tool("rt", &format!("{PROVES}\n{fails}"));
        let ran = project.zap();
        assert_eq!((ran.out.as_str(), ran.status), ("", 2), "{fails}: {}", ran.err);
    }
}

#[test]
fn a_failing_cargo() {
    let project = Project::new();
    project.tool("cargo", FAILS);
    expect_failure(&project, &[RT, CARGO], "first use");
    expect_failure(&project, &[CARGO], "what is proved stays proved");
    // It leaves a binary behind.
    project.tool("cargo", &format!("{COMPILES}{FAILS}"));
    expect_failure(&project, &[CARGO], "late");
    project.tool("cargo", COMPILES);
    project.expect(&[CARGO], "mended");
    project.tool("cargo", FAILS);
    project.write("cli/src/main.rs", "wrong");
    expect_failure(&project, &[CARGO], "a change");
    project.tool("cargo", COMPILES);
    project.expect(&[CARGO], "mended again");
    // Nor is such a binary.
    shell(&project, "rm cli/target/release/zap");
    project.tool("cargo", &format!("{COMPILES}{FAILS}"));
    expect_failure(&project, &[CARGO], "without the binary");
    project.tool("cargo", COMPILES);
    project.expect(&[CARGO], "with it");
}

#[test]
fn without_the_tools() {
    for missing in ["rt", "cargo"] {
        let project = Project::new();
        project.remove_tool(missing);
        let ran = project.zap();
        assert_eq!((ran.out.as_str(), ran.status), ("", 2), "{}", ran.err);
        let line = format!("zap: the command is not built yet, and {missing}, ");
        assert!(ran.err.starts_with(&line) && ran.err.lines().count() == 1, "{}", ran.err);
        assert_eq!(project.asked(), Vec::<String>::new());
        project.tool("rt", PROVES);
        project.tool("cargo", COMPILES);
        project.expect(&[RT, CARGO], "with both");
    }
    // Without flock it builds all the same.
    let project = Project::new();
    fs::remove_file(project.folder.path().join("system/flock")).expect("a link");
    project.expect(&[RT, CARGO], "without flock");
}

/// A file where the folder of the build should be.
#[test]
fn no_place_for_the_build() {
    let project = Project::new();
    project.write("cli/target", "a file");
    let ran = project.zap();
    assert_eq!((ran.out.as_str(), ran.status), ("", 2), "{}", ran.err);
    assert!(ran.err.contains("cli/target cannot be made\n"), "{}", ran.err);
    assert_eq!(project.asked(), Vec::<String>::new());
}

// ---- Two at once, and one that is killed ----

fn start(project: &Project) -> Child {
    let mut command = project.command(["word"]);
    command.stdin(Stdio::null()).stdout(Stdio::piped()).stderr(Stdio::piped());
    // A group of its own, so that all of it can be killed.
    command.process_group(0).spawn().expect("it can be run")
}

/// How it ends.
fn end(mut child: Child) -> Ran {
    let (mut out, mut err) = (String::new(), String::new());
    child.stdout.take().expect("piped").read_to_string(&mut out).expect("text");
    child.stderr.take().expect("piped").read_to_string(&mut err).expect("text");
    Ran { out, err, status: child.wait().expect("it ends").code().expect("by itself") }
}

/// All of them ran the binary in the end, and it was built once; what each of them said.
fn expect_built_once(project: &Project, all: Vec<Child>) -> Vec<String> {
    let all: Vec<Ran> = all.into_iter().map(end).collect();
    assert_eq!(project.asked(), project.log(&[RT, CARGO]));
    let said = |ran: Ran| {
        assert_eq!((ran.out, ran.status), (project.ran("[word]\n"), 7), "{}", ran.err);
        without_seconds(&ran.err)
    };
    all.into_iter().map(said).collect()
}

const WAITS: &str = "zap: another zap is building; waiting for it\n";

#[test]
fn two_first_uses_at_once() {
    let project = Project::new();
    let first = start(&project);
    project.wait_for("rt ");
    let second = start(&project);
    assert_eq!(expect_built_once(&project, vec![first, second]), [FIRST_USE, WAITS]);

    // At the same moment, and more of them.
    for _ in 0..3 {
        shell(&project, "rm -r target cli/target");
        let said = expect_built_once(&project, (0..4).map(|_| start(&project)).collect());
        let built = said.iter().filter(|err| err.contains("compiling the command"));
        assert_eq!(built.count(), 1, "{said:?}");
    }
}

/// One that uses the command while it is built anew waits for what is new.
#[test]
fn a_use_while_it_is_built_anew() {
    let project = Project::built();
    shell(&project, "echo more >>crates/a/src/lib.rt");
    let first = start(&project);
    project.wait_for("rt ");
    let second = start(&project);
    assert_eq!(expect_built_once(&project, vec![first, second]), [FIRST_USE, WAITS]);
}

/// It and all that it has started: its group.
fn kill_all(mut child: Child) {
    extern "C" {
        fn kill(process: i32, signal: i32) -> i32;
    }
    const SIGKILL: i32 = 9;
    let group = -i32::try_from(child.id()).expect("a small number");
    assert_eq!(unsafe { kill(group, SIGKILL) }, 0);
    child.wait().expect("it ends");
}

/// Waits until a file is there, though what makes it has not come to its end.
fn wait_for_file(file: &Path) {
    let start = Instant::now();
    while !file.exists() {
        assert!(start.elapsed() < Duration::from_secs(20), "{} is not made", file.display());
        thread::sleep(Duration::from_millis(2));
    }
}

#[test]
fn a_first_use_that_is_killed() {
    let project = Project::new();
    project.tool("rt", &format!("{PROVES}\nsleep 20"));
    let child = start(&project);
    wait_for_file(&project.file("crates/host_c/out/libhost_c.a"));
    kill_all(child);
    assert_eq!(project.asked(), [RT]);

    project.tool("rt", PROVES);
    project.tool("cargo", &format!("{COMPILES}\nsleep 20"));
    let child = start(&project);
    wait_for_file(&project.file("cli/target/release/zap"));
    kill_all(child);
    let asked = project.asked();
    assert_eq!((asked.len(), &asked[..2]), (3, &project.log(&[RT])[..]));

    project.tool("cargo", COMPILES);
    let start = Instant::now();
    project.expect(&[CARGO], "after both");
    assert!(start.elapsed() < Duration::from_secs(10), "it waited for one that is dead");
    project.expect(&[], "and again");
}

/// Killed alone, what it has started goes on; the next waits for that, and does not
/// tread on it.
#[test]
fn a_first_use_that_is_killed_alone() {
    let project = Project::new();
    project.tool("rt", &format!("\nsleep 0.3{PROVES}"));
    let mut child = start(&project);
    project.wait_for("rt ");
    child.kill().expect("it runs");
    child.wait().expect("it ends");
    let ran = project.zap();
    // Its pipe ends with the last of what it has started.
    child.stderr.take().expect("piped").read_to_end(&mut vec![]).expect("a pipe gives bytes");
    assert_eq!((ran.out, ran.status), (project.ran("[word]\n"), 7), "{}", ran.err);
    let asked = project.asked();
    let once = project.log(&[RT, CARGO]);
    let again = project.log(&[RT, RT, CARGO]);
    assert!(asked == once || asked == again, "{asked:?}");
    project.expect(&[], "after that");
}
