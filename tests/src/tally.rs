//! How many cases of each call and code were compared.

use std::collections::BTreeMap;
use std::fmt;
use std::io::{self, Write};
use std::thread;

#[derive(Clone, Debug, Default)]
pub struct Tally {
    counts: BTreeMap<(&'static str, u64), u64>,
}

impl Tally {
    pub fn add(&mut self, call: &'static str, code: u64) {
        *self.counts.entry((call, code)).or_insert(0) += 1;
    }

    pub fn join(&mut self, other: &Tally) {
        for (&key, count) in &other.counts {
            *self.counts.entry(key).or_insert(0) += count;
        }
    }

    pub fn seen(&self, call: &'static str, code: u64) -> u64 {
        self.counts.get(&(call, code)).copied().unwrap_or(0)
    }

    /// The codes of a call that were seen fewer than `floor` times.
    pub fn missing(&self, call: &'static str, codes: &[u64], floor: u64) -> Vec<String> {
        let few = codes.iter().filter(|&&code| self.seen(call, code) < floor);
        few.map(|&code| format!("{call}: code {code} seen {} times", self.seen(call, code)))
            .collect()
    }

    /// Shows what was compared, and fails if a code was seen fewer than `floor`
    /// times.
    pub fn require(&self, wanted: &[(&'static str, &[u64])], floor: u64) {
        // Not by `print!`, which a passing test keeps to itself: what was
        // compared belongs in every log.
        let mut out = io::stdout();
        write!(out, "\n{self}").expect("standard output takes the tally");
        self.demand(wanted, floor);
    }

    /// The same without a word where nothing is missing.
    pub fn demand(&self, wanted: &[(&'static str, &[u64])], floor: u64) {
        let missing = wanted.iter().flat_map(|&(call, codes)| self.missing(call, codes, floor));
        let missing: Vec<String> = missing.collect();
        assert!(missing.is_empty(), "too few cases:\n{}", missing.join("\n"));
    }
}

/// More codes than these are not shown one by one.
const MOST_SHOWN: usize = 64;

/// One line per call: its cases, then `code:count` for each code seen.
impl fmt::Display for Tally {
    fn fmt(&self, out: &mut fmt::Formatter) -> fmt::Result {
        let mut calls: Vec<&str> = self.counts.keys().map(|&(call, _)| call).collect();
        calls.dedup();
        for call in calls {
            let of_call = self.counts.iter().filter(|((name, _), _)| *name == call);
            let cases: u64 = of_call.clone().map(|(_, count)| count).sum();
            write!(out, "{call}: {cases} cases,")?;
            let codes = of_call.clone().count();
            if codes > MOST_SHOWN {
                let least = of_call.map(|(_, count)| count).min().expect("more than one");
                writeln!(out, " {codes} different, each at least {least} times")?;
                continue;
            }
            for ((_, code), count) in of_call {
                write!(out, " {code}:{count}")?;
            }
            writeln!(out)?;
        }
        Ok(())
    }
}

/// Runs sweeps that are independent of each other, each in a thread and with a
/// tally of its own. A difference that one of them finds ends the test.
pub fn of_all<S, D>(sweeps: impl IntoIterator<Item = S>) -> Tally
where
    S: FnOnce() -> Result<Tally, D> + Send + 'static,
    D: fmt::Display + Send + 'static,
{
    let runs: Vec<_> = sweeps.into_iter().map(thread::spawn).collect();
    let mut tally = Tally::default();
    for run in runs {
        match run.join().expect("a sweep panicked") {
            Ok(seen) => tally.join(&seen),
            Err(difference) => panic!("not as the reference has it\n{difference}"),
        }
    }
    tally
}

#[cfg(test)]
mod tests {
    use super::*;

    #[test]
    fn counting_joining_and_missing() {
        let mut tally = Tally::default();
        tally.add("read", 1);
        tally.add("read", 1);
        tally.add("write", 19);
        let mut both = tally.clone();
        both.join(&tally);
        assert_eq!(both.to_string(), "read: 4 cases, 1:4\nwrite: 2 cases, 19:2\n");
        assert_eq!(both.missing("read", &[1], 4), Vec::<String>::new());
        assert_eq!(both.missing("read", &[1], 5), ["read: code 1 seen 4 times"]);
        assert_eq!(both.missing("read", &[2], 1), ["read: code 2 seen 0 times"]);
    }

    #[test]
    fn many_codes_are_counted() {
        let mut tally = Tally::default();
        (0..200).for_each(|at| tally.add("read", at % 100));
        (0..50).for_each(|at| tally.add("read", at));
        assert_eq!(tally.to_string(), "read: 250 cases, 100 different, each at least 2 times\n");
    }
}
