//! The call for dead pairs, held against the reference.
//!
//! A `Trial` has the call under test. Its methods make one call each and compare
//! the answer with what the reference says: by all completions of the partial
//! wiring, and for a whole wiring on patterns as well. `sweeps` has the inputs.

pub mod pairs;
pub mod sweeps;

use crate::calls::DeadCall;
use crate::records::Outcome;
use crate::reference::agreement::Tables;
use crate::reference::dead::{find, find_in, Found};
use crate::reference::record::record;
use crate::reference::two::Two;
use crate::reference::wiring::{BadWiring, Wiring};
use crate::show::hex;
use crate::tally::Tally;

/// The lines of the tally. Refusals are counted by the code that 01 has for them,
/// all others by n.
pub const BAD_RECORDS: &str = "dead, records refused";
pub const BAD_WIRING: &str = "dead, wiring refused";
pub const NO_PAIRS: &str = "dead, no pairs at all";
pub const NOTHING: &str = "dead, none";
pub const OF_ON_LIST: &str = "dead, s = 0";
pub const OF_OFF_LIST: &str = "dead, s = 1";
pub const AGREES: &str = "whole, agrees";
pub const DIFFERS: &str = "whole, does not agree";

/// Two valid functions, with all that can be worked out before the wiring comes.
pub struct Given {
    pub two: Two,
    pub tables: Tables,
    pub f: Vec<u8>,
    pub g: Vec<u8>,
}

impl Given {
    pub fn new(two: Two) -> Given {
        let (f, g) = (record(&two.f), record(&two.g));
        Given { tables: Tables::of(&two), two, f, g }
    }
}

pub struct Trial {
    pub call: DeadCall,
    pub tally: Tally,
}

impl Trial {
    pub fn new(call: DeadCall) -> Trial {
        Trial { call, tally: Tally::default() }
    }

    /// Any bytes at all.
    pub fn bytes(&mut self, f: &[u8], g: &[u8], w: &[u8], q: u8) -> Outcome {
        let want = find(f, g, w, q);
        let n = f.get(2).copied().unwrap_or(0);
        self.compare(f, g, w, q, want)?;
        self.count(want, n as u64);
        Ok(())
    }

    /// Two valid functions, any bytes as a wiring.
    pub fn dead(&mut self, given: &Given, w: &[u8], q: u8) -> Outcome {
        let want = find_in(&given.two, w, q);
        self.compare(&given.f, &given.g, w, q, want)?;
        self.count(want, given.two.n() as u64);
        Ok(())
    }

    /// A whole wiring: no pair is dead just if it agrees on patterns.
    pub fn whole(&mut self, given: &Given, wiring: &Wiring) -> Outcome {
        let (w, q) = (wiring.inputs.bytes(), wiring.q as u8);
        let agrees = given.tables.agree(wiring.q, &wiring.inputs);
        let got = (self.call)(&given.f, &given.g, &w, q);
        if agrees != (got == Found::Nothing.packed()) {
            let input = show(&given.f, &given.g, &w, q);
            return Err(format!("{input}\n  the wiring agrees: {agrees}\n  got  {got:#X}"));
        }
        // Where there are no pairs, every wiring agrees; that is counted below.
        if given.two.pairs(wiring.q).next().is_some() {
            self.tally.add(if agrees { AGREES } else { DIFFERS }, given.two.n() as u64);
        }
        self.dead(given, &w, q)
    }

    fn compare(&self, f: &[u8], g: &[u8], w: &[u8], q: u8, want: Found) -> Outcome {
        let got = (self.call)(f, g, w, q);
        if got == want.packed() {
            return Ok(());
        }
        let input = show(f, g, w, q);
        Err(format!("{input}\n  want {:#X}, {want:?}\n  got  {got:#X}", want.packed()))
    }

    fn count(&mut self, found: Found, n: u64) {
        let (line, code) = match found {
            Found::BadRecords(code) => (BAD_RECORDS, code),
            Found::BadWiring(BadWiring::TooLong) => (BAD_WIRING, 8),
            Found::BadWiring(BadWiring::BadByte) => (BAD_WIRING, 12),
            Found::BadWiring(BadWiring::UsedTwice) => (BAD_WIRING, 13),
            Found::NoPairs => (NO_PAIRS, n),
            Found::Nothing => (NOTHING, n),
            Found::Pair(pair) if pair.s == 0 => (OF_ON_LIST, n),
            Found::Pair(_) => (OF_OFF_LIST, n),
        };
        self.tally.add(line, code);
    }
}

fn show(f: &[u8], g: &[u8], w: &[u8], q: u8) -> String {
    format!("dead, q {q}\n  f    {}\n  g    {}\n  w    {}", hex(f), hex(g), hex(w))
}
