//! The command `zap`, run as a person runs it, and files for it.
//!
//! The binary is ../cli/target/release/zap, or what ZAP_BINARY names; a relative path
//! counts from this package.

use std::ffi::OsStr;
use std::io::Write;
use std::path::{Path, PathBuf};
use std::process::{self, Command, Stdio};
use std::sync::atomic::{AtomicUsize, Ordering};
use std::{env, fs, thread};

pub fn repository() -> PathBuf {
    Path::new(env!("CARGO_MANIFEST_DIR")).join("..").canonicalize().expect("above this package")
}

/// A file of examples/.
pub fn example(name: &str) -> PathBuf {
    repository().join("examples").join(name)
}

pub fn binary() -> PathBuf {
    let file = env::var_os("ZAP_BINARY").unwrap_or("../cli/target/release/zap".into());
    let file = Path::new(env!("CARGO_MANIFEST_DIR")).join(file);
    file.canonicalize().unwrap_or_else(|_| panic!("{} is missing: run ./zap once", file.display()))
}

/// The binary with nothing of the caller's own taste in its surroundings.
pub fn command() -> Command {
    let mut command = Command::new(binary());
    command.env_remove("NO_COLOR").env_remove("TERM");
    command
}

/// What a run printed, and its exit status.
#[derive(Debug, PartialEq, Eq)]
pub struct Ran {
    pub out: String,
    pub err: String,
    pub status: i32,
}

impl Ran {
    /// Runs it with these bytes for standard input.
    pub fn of(command: &mut Command, input: &[u8]) -> Ran {
        command.stdin(Stdio::piped()).stdout(Stdio::piped()).stderr(Stdio::piped());
        let mut child = command.spawn().expect("it can be run");
        let mut stdin = child.stdin.take().expect("piped");
        let output = thread::scope(|threads| {
            // One that does not read its input closes the pipe.
            threads.spawn(move || stdin.write_all(input).unwrap_or(()));
            child.wait_with_output().expect("it ends")
        });
        let text = |bytes| String::from_utf8(bytes).expect("text");
        let status = output.status.code().expect("it ended by itself");
        Ran { out: text(output.stdout), err: text(output.stderr), status }
    }
}

/// Runs the command on words, with nothing for standard input.
pub fn zap<S: AsRef<OsStr>>(words: impl IntoIterator<Item = S>) -> Ran {
    Ran::of(command().args(words), b"")
}

/// A folder for a test's files, with a blank in its name; it goes with the test.
pub struct Folder(PathBuf);

impl Folder {
    pub fn new() -> Folder {
        static MADE: AtomicUsize = AtomicUsize::new(0);
        let number = MADE.fetch_add(1, Ordering::Relaxed);
        let folder = env::temp_dir().join(format!("zap test {} {number}", process::id()));
        fs::create_dir(&folder).expect("a new folder");
        Folder(folder)
    }

    pub fn path(&self) -> &Path {
        &self.0
    }

    pub fn write(&self, name: &str, content: impl AsRef<[u8]>) -> PathBuf {
        let file = self.0.join(name);
        fs::create_dir_all(file.parent().expect("a folder")).expect("its folder");
        fs::write(&file, content).expect("a new file");
        file
    }

    /// The names in it, in order.
    pub fn names(&self) -> Vec<String> {
        let entries = fs::read_dir(&self.0).expect("it is there");
        let name = |entry: fs::DirEntry| entry.file_name().to_string_lossy().into_owned();
        let mut names: Vec<String> = entries.map(|entry| name(entry.expect("read"))).collect();
        names.sort();
        names
    }

    /// Runs the command here on words that are apart by single blanks.
    pub fn zap(&self, words: &str) -> Ran {
        Ran::of(command().current_dir(&self.0).args(words.split(' ')), b"")
    }
}

impl Default for Folder {
    fn default() -> Folder {
        Folder::new()
    }
}

impl Drop for Folder {
    fn drop(&mut self) {
        fs::remove_dir_all(&self.0).expect("the test's own folder");
    }
}
