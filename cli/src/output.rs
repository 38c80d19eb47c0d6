//! Text that is printed, and files that are written whole or not at all.

use std::env;
use std::ffi::OsStr;
use std::fs::{self, File, OpenOptions};
use std::io::{self, BufWriter, ErrorKind, IsTerminal, Write};
use std::path::{Path, PathBuf};
use std::process;

/// Why there is no answer: told on standard error, with status 2.
pub struct Trouble(pub String);

pub fn trouble<T>(why: impl Into<String>) -> Result<T, Trouble> {
    Err(Trouble(why.into()))
}

#[derive(Clone, Copy)]
pub enum Colour {
    Good = 32,
    Bad = 31,
}

/// Where the words go: standard output, or standard error where a claim has taken
/// that.
pub struct Out {
    sink: BufWriter<Box<dyn Write>>,
    name: &'static str,
    colour: bool,
}

impl Out {
    pub fn standard() -> Out {
        Out::of(Box::new(io::stdout()), "standard output", io::stdout().is_terminal())
    }

    pub fn error() -> Out {
        Out::of(Box::new(io::stderr()), "standard error", io::stderr().is_terminal())
    }

    fn of(sink: Box<dyn Write>, name: &'static str, terminal: bool) -> Out {
        let plain = env::var_os("NO_COLOR").is_some_and(|value| !value.is_empty());
        Out { sink: BufWriter::new(sink), name, colour: terminal && !plain && !is_dumb() }
    }

    pub fn text(&mut self, text: &str) {
        let written = self.sink.write_all(text.as_bytes());
        self.told(written);
    }

    pub fn line(&mut self, line: &str) {
        self.text(line);
        self.text("\n");
    }

    pub fn bytes(&mut self, fill: impl FnOnce(&mut dyn Write) -> io::Result<()>) {
        let written = fill(&mut self.sink);
        self.told(written);
    }

    pub fn flush(&mut self) {
        let written = self.sink.flush();
        self.told(written);
    }

    /// What cannot be written ends the command at once, other threads too: nobody
    /// is left to read the rest. A reader that has gone needs no word about it.
    fn told(&self, written: io::Result<()>) {
        let Err(why) = written else { return };
        if why.kind() != ErrorKind::BrokenPipe {
            complain(&format!("{}: {}", self.name, reason(&why)));
        }
        process::exit(2)
    }

    pub fn paint(&self, colour: Colour, text: &str) -> String {
        if self.colour {
            format!("\x1b[{}m{text}\x1b[0m", colour as u8)
        } else {
            text.to_string()
        }
    }
}

/// A terminal that only prints.
pub fn is_dumb() -> bool {
    env::var_os("TERM").is_some_and(|term| term == "dumb")
}

/// A word on standard error; where that is full too, nobody can be told.
pub fn complain(why: &str) {
    let _ = writeln!(io::stderr(), "zap: {why}");
}

/// The system's own words, without its number.
pub fn reason(why: &io::Error) -> String {
    let text = why.to_string();
    match text.find(" (os error") {
        Some(end) => text[..end].to_string(),
        None => text,
    }
}

/// Writes a file whole or not at all: beside it, brought to the disk, then renamed.
/// What is no plain file (a device, a pipe) is written to as it is.
pub fn write_whole(
    path: &OsStr,
    fill: impl FnOnce(&mut dyn Write) -> io::Result<()>,
) -> Result<(), Trouble> {
    written(&led(path), fill).map_err(|why| {
        Trouble(format!("{} cannot be written: {}", path.to_string_lossy(), reason(&why)))
    })
}

/// Where a path leads through links, also to a file that is not there yet: a link
/// stays a link, and what it leads to is replaced.
fn led(path: &OsStr) -> PathBuf {
    const MOST: usize = 40;
    let mut path = PathBuf::from(path);
    for _ in 0..MOST {
        let Ok(to) = fs::read_link(&path) else { break };
        path = path.with_file_name("").join(to);
    }
    path
}

fn written(path: &Path, fill: impl FnOnce(&mut dyn Write) -> io::Result<()>) -> io::Result<()> {
    let before = fs::metadata(path);
    match &before {
        Ok(found) if found.is_dir() => return Err(ErrorKind::IsADirectory.into()),
        Ok(found) if !found.is_file() => {
            return filled(OpenOptions::new().write(true).open(path)?, fill).map(drop);
        }
        _ => (),
    }
    let (beside, file) = create_beside(path)?;
    let renamed = filled(file, fill).and_then(|file| {
        if let Ok(found) = before {
            file.set_permissions(found.permissions())?;
        }
        file.sync_all()?;
        fs::rename(&beside, path)
    });
    renamed.inspect_err(|_| {
        let _ = fs::remove_file(&beside);
    })
}

fn filled(file: File, fill: impl FnOnce(&mut dyn Write) -> io::Result<()>) -> io::Result<File> {
    let mut sink = BufWriter::with_capacity(1 << 16, file);
    fill(&mut sink)?;
    sink.into_inner().map_err(|why| why.into_error())
}

/// A new file in the same folder. One of its name may be left from a run that was
/// killed, and is not ours to touch.
fn create_beside(path: &Path) -> io::Result<(PathBuf, File)> {
    let mut number = 0;
    loop {
        let beside = path.with_file_name(format!(".zap.{}.{number}.part", process::id()));
        match OpenOptions::new().write(true).create_new(true).open(&beside) {
            Err(why) if why.kind() == ErrorKind::AlreadyExists => number += 1,
            made => return made.map(|file| (beside, file)),
        }
    }
}
