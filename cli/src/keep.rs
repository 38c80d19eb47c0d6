//! What -o keeps: a claim, a table or a record, in a file or on standard output.

use std::io::{self, Write};

use crate::args::{Args, Opt};
use crate::json::Object;
use crate::output::{trouble, write_whole, Out, Trouble};
use crate::words::hex;

/// -o, with a verb's own line of help.
pub const fn output(about: &'static str) -> Opt {
    Opt { long: "--output", short: Some("-o"), value: Some("FILE"), about }
}

/// How -o writes bytes.
pub const HEX: Opt =
    Opt { long: "--hex", short: None, value: None, about: "writes it as hex, not binary" };

/// --hex without -o says nothing.
pub fn wants_file(args: &Args, output: &Opt) -> Result<(), Trouble> {
    match args.has(&HEX) && !args.has(output) {
        true => trouble("--hex says how -o writes; there is no -o"),
        false => Ok(()),
    }
}

/// Writes it where -o says, if there is one: the file's name.
pub fn keep(
    args: &Args,
    output: &Opt,
    fill: impl FnOnce(&mut dyn Write) -> io::Result<()>,
) -> Result<Option<String>, Trouble> {
    let Some(file) = args.value(output) else { return Ok(None) };
    if file == "-" {
        let mut out = Out::standard();
        out.bytes(fill);
        out.flush();
    } else {
        write_whole(file, fill)?;
    }
    Ok(Some(file.to_string_lossy().into_owned()))
}

/// The same for bytes, which --hex writes as hex.
pub fn keep_bytes(args: &Args, output: &Opt, bytes: &[u8]) -> Result<Option<String>, Trouble> {
    keep(args, output, |sink| match args.has(&HEX) {
        true => write_hex(bytes, sink),
        false => sink.write_all(bytes),
    })
}

/// What --hex made of it.
pub fn form(args: &Args) -> &'static str {
    if args.has(&HEX) {
        "hex"
    } else {
        "binary"
    }
}

pub fn write_hex(bytes: &[u8], sink: &mut dyn Write) -> io::Result<()> {
    bytes.chunks(32).try_for_each(|row| writeln!(sink, "{}", hex(row)))
}

/// With the file that was written.
pub fn written(object: Object, kept: &Option<String>) -> Object {
    match kept {
        Some(file) => object.text("written", file),
        None => object,
    }
}

/// Where the words go: to standard error, where what is kept has standard output.
pub fn beside<'a>(kept: &Option<String>, out: &'a mut Out, aside: &'a mut Out) -> &'a mut Out {
    if kept.as_deref() == Some("-") {
        aside
    } else {
        out
    }
}
