//! The words of a command line: options, and files.

use std::ffi::{OsStr, OsString};
use std::os::unix::ffi::OsStrExt;

use crate::output::{trouble, Trouble};
use crate::words;

/// An option: how it is written, whether a value follows, and its line of help.
pub struct Opt {
    pub long: &'static str,
    pub short: Option<&'static str>,
    pub value: Option<&'static str>,
    pub about: &'static str,
}

/// Taken by every verb.
pub const JSON: Opt =
    Opt { long: "--json", short: None, value: None, about: "one JSON object a line, for scripts" };

/// What was given.
#[derive(Debug)]
pub struct Args {
    given: Vec<(&'static str, OsString)>,
    pub files: Vec<OsString>,
}

impl Args {
    /// The words after a verb that takes these options. `--` ends them, and `-` is a
    /// file.
    pub fn of(verb: &str, options: &[&Opt], words: &[OsString]) -> Result<Args, Trouble> {
        let mut args = Args { given: vec![], files: vec![] };
        let mut words = words.iter();
        while let Some(word) = words.next() {
            let text = word.to_string_lossy();
            if text == "--" {
                args.files.extend(words.by_ref().cloned());
            } else if text == "-" || !text.starts_with('-') {
                args.files.push(word.clone());
            } else {
                args.take(verb, options, word, &mut words)?;
            }
        }
        if args.files.iter().filter(|file| *file == "-").count() > 1 {
            return trouble("standard input can be taken only once");
        }
        Ok(args)
    }

    fn take<'a>(
        &mut self,
        verb: &str,
        options: &[&Opt],
        word: &OsStr,
        rest: &mut impl Iterator<Item = &'a OsString>,
    ) -> Result<(), Trouble> {
        // A value may be the name of a file, which need not be text.
        let bytes = word.as_bytes();
        let (name, joined) = match bytes.iter().position(|&c| c == b'=') {
            Some(at) if bytes.starts_with(b"--") => (&bytes[..at], Some(&bytes[at + 1..])),
            _ => (bytes, None),
        };
        let name = &*String::from_utf8_lossy(name);
        let found = options.iter().find(|option| option.long == name || option.short == Some(name));
        let Some(option) = found else {
            let known = options.iter().map(|option| option.long);
            let hint = match words::nearest(name, known) {
                Some(near) => format!("did you mean {near}?"),
                None => format!("zap help {verb} lists its options"),
            };
            return trouble(format!("{verb} has no option {name}; {hint}"));
        };
        if self.has(option) {
            return trouble(format!("{} is given twice", option.long));
        }
        let value = match (option.value, joined) {
            (None, None) => OsString::new(),
            (None, Some(_)) => return trouble(format!("{name} takes no value")),
            (Some(_), Some(value)) => OsStr::from_bytes(value).to_os_string(),
            (Some(value), None) => match rest.next() {
                Some(word) => word.clone(),
                None => return trouble(format!("{name} wants a value: {name} {value}")),
            },
        };
        self.given.push((option.long, value));
        Ok(())
    }

    pub fn has(&self, option: &Opt) -> bool {
        self.value(option).is_some()
    }

    pub fn value(&self, option: &Opt) -> Option<&OsString> {
        self.given.iter().find(|(long, _)| *long == option.long).map(|(_, value)| value)
    }

    pub fn json(&self) -> bool {
        self.has(&JSON)
    }
}

#[cfg(test)]
mod tests {
    use super::*;

    const DEPTH: Opt = Opt { long: "--depth", short: Some("-d"), value: Some("N"), about: "" };

    fn args(line: &str) -> Result<Args, Trouble> {
        let words: Vec<OsString> = line.split(' ').map(OsString::from).collect();
        Args::of("show", &[&JSON, &DEPTH], &words)
    }

    #[test]
    fn options_and_files() {
        for line in ["f - --depth 3 --json", "--depth=3 f --json -", "-d 3 --json -- f -"] {
            let args = args(line).ok().expect(line);
            assert_eq!(args.files, ["f", "-"], "{line}");
            assert_eq!(args.value(&DEPTH).expect(line), "3");
            assert!(args.json());
        }
    }

    #[test]
    fn wrong_words() {
        let why = |line| args(line).err().expect(line).0;
        assert_eq!(why("f --jsn"), "show has no option --jsn; did you mean --json?");
        assert_eq!(why("f -x"), "show has no option -x; zap help show lists its options");
        assert_eq!(why("f --depth"), "--depth wants a value: --depth N");
        assert_eq!(why("--json=1 f"), "--json takes no value");
        assert_eq!(why("--json --json"), "--json is given twice");
        assert_eq!(why("- -"), "standard input can be taken only once");
    }
}
