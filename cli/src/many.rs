//! Work on all cores, with its results in order and a progress line on a terminal.

use std::collections::BTreeMap;
use std::io::{self, IsTerminal, Write};
use std::sync::atomic::{AtomicUsize, Ordering};
use std::sync::mpsc::{self, RecvTimeoutError};
use std::thread;
use std::time::{Duration, Instant};

use crate::output::is_dumb;

/// No progress line before this: most work is done by then.
const QUIET: Duration = Duration::from_secs(1);

/// Does the work for each item; hands the results on in the items' order, each as
/// soon as those before it are there. A worker keeps what `make` gives it.
pub fn each<I: Sync, S, R: Send>(
    items: &[I],
    doing: &str,
    make: impl Fn() -> S + Sync,
    work: impl Fn(&mut S, &I) -> R + Sync,
    mut done: impl FnMut(&I, R),
) {
    let cores = thread::available_parallelism().map_or(1, |cores| cores.get());
    let next = AtomicUsize::new(0);
    let (send, receive) = mpsc::channel();
    thread::scope(|threads| {
        for _ in 0..cores.min(items.len()) {
            let send = send.clone();
            let (next, make, work) = (&next, &make, &work);
            threads.spawn(move || {
                let mut state = make();
                loop {
                    let at = next.fetch_add(1, Ordering::Relaxed);
                    let Some(item) = items.get(at) else { return };
                    // Where the receiver has gone, the command is about to end.
                    if send.send((at, work(&mut state, item))).is_err() {
                        return;
                    }
                }
            });
        }
        drop(send);
        let mut progress = Progress::new(doing, items.len());
        let mut early = BTreeMap::new();
        let (mut came, mut shown) = (0, 0);
        loop {
            match receive.recv_timeout(Duration::from_millis(100)) {
                Ok((at, result)) => {
                    early.insert(at, result);
                    came += 1;
                    while let Some(result) = early.remove(&shown) {
                        progress.clear();
                        done(&items[shown], result);
                        shown += 1;
                    }
                }
                Err(RecvTimeoutError::Timeout) => progress.show(came),
                Err(RecvTimeoutError::Disconnected) => break,
            }
        }
        progress.clear();
    });
}

/// A line on standard error that is written over, where that is a terminal.
struct Progress<'a> {
    doing: &'a str,
    of: usize,
    start: Instant,
    terminal: bool,
    line: String,
}

impl Progress<'_> {
    fn new(doing: &str, of: usize) -> Progress<'_> {
        let terminal = io::stderr().is_terminal() && !is_dumb();
        Progress { doing, of, start: Instant::now(), terminal, line: String::new() }
    }

    fn show(&mut self, came: usize) {
        let passed = self.start.elapsed();
        if !self.terminal || passed < QUIET {
            return;
        }
        let so_far = if self.of > 1 { format!(", {came} of {}", self.of) } else { String::new() };
        self.write(format!("{}{so_far}, {} s", self.doing, passed.as_secs()));
    }

    fn clear(&mut self) {
        self.write(String::new());
    }

    fn write(&mut self, line: String) {
        if line != self.line {
            let _ = write!(io::stderr(), "\r\x1b[K{line}");
            self.line = line;
        }
    }
}
