//! The checker, held against the reference.
//!
//! A `Trial` has the call under test. Its methods make one call each and compare
//! all five numbers with what the reference says; of a claim that was made to be
//! valid it is known without the reference. `sweeps` has the inputs, `trees` the
//! refusal claims among them.

pub mod sweeps;
pub mod trees;

use crate::patterns::others_of_wiring;
use crate::records::Outcome;
use crate::reference::answer::{Answer, MATCH, NO_MATCH, OF_CLAIM, OF_F, OF_G};
use crate::reference::checker::{check, check_in, Checked, Node, NodeByte};
use crate::reference::claim::{match_claim, MATCH_MARK};
use crate::reference::wiring::Wiring;
use crate::show::{self, hex, hex_near};
use crate::tally::Tally;
use crate::wirings::Given;

/// The lines of the tally: all answers by code;
pub const CHECK: &str = "check";
pub const OF_F_OR_G: [&str; 2] = ["check, f refused", "check, g refused"];
/// where in the claim, by code, and for the header also by place;
pub const HEADER_CUT: &str = "check, 1 in the header, by place";
pub const HEADER_MARK: &str = "check, 2 in the header, by place";
pub const MATCH_CLAIM: &str = "check, match claim";
pub const REFUSAL_CLAIM: &str = "check, refusal claim";
pub const TREE: [&str; 2] = ["check, tree for q = 0", "check, tree for q = 1"];
/// the nodes of trees, by depth;
pub const CUT: [&str; 3] =
    ["check, 1 for a node, by depth", "check, 1 for u, by depth", "check, 1 for v, by depth"];
pub const BEYOND: [&str; 3] =
    ["check, 15 at a node, by depth", "check, 15 at u, by depth", "check, 15 at v, by depth"];
pub const SPLIT_AT_N: &str = "check, 16 by depth";
pub const NOT_DEAD: &str = "check, 17 by depth";
/// the patterns of 7 and of 14;
pub const CLASH_PATTERNS: [&str; 2] = ["check, 7 in f by pattern", "check, 7 in g by pattern"];
pub const PATTERNS: [&str; 2] =
    ["check, 14 with q = 0 by pattern", "check, 14 with q = 1 by pattern"];
/// where it was 14, how often each wrong pattern is another, by its index in `OF_WIRING`;
pub const OTHER_PATTERN: &str = "check, 14, a wrong pattern is another, by mistake";
/// and what was accepted, by n.
pub const MATCHES: &str = "check, match accepted, by n";
pub const CLOSED: &str = "check, refusal without a split accepted, by n";
pub const SPLITS: &str = "check, refusal with splits accepted, by n";

/// A refusal claim of two closings; a split makes it longer.
const TWO_CLOSINGS: usize = 9;

/// The checker's call, or a wrong one in its place.
pub type Call = Box<dyn Fn(&[u8], &[u8], &[u8]) -> u64>;

pub struct Trial {
    call: Call,
    pub tally: Tally,
}

impl Trial {
    pub fn new(call: impl Fn(&[u8], &[u8], &[u8]) -> u64 + 'static) -> Trial {
        Trial { call: Box::new(call), tally: Tally::default() }
    }

    /// Any bytes at all.
    pub fn bytes(&mut self, f: &[u8], g: &[u8], claim: &[u8]) -> Outcome {
        let want = check(f, g, claim);
        self.compare(f, g, claim, want.answer)?;
        self.count(claim, want);
        Ok(())
    }

    /// Two valid functions, any bytes as a claim.
    pub fn claim(&mut self, given: &Given, claim: &[u8]) -> Outcome {
        let want = check_in(&given.two, claim);
        self.compare(&given.f, &given.g, claim, want.answer)?;
        self.count(claim, want);
        Ok(())
    }

    /// A claim that is valid by the way it was made.
    pub fn valid(&mut self, given: &Given, claim: &[u8]) -> Outcome {
        let kind = if claim[0] == MATCH_MARK[0] { MATCH } else { NO_MATCH };
        self.compare(&given.f, &given.g, claim, Answer::accepted(kind, claim.len()))?;
        self.claim(given, claim)
    }

    /// A match claim: where it does not agree, the wrong patterns are counted too.
    pub fn wiring(&mut self, given: &Given, wiring: &Wiring) -> Outcome {
        self.claim(given, &match_claim(wiring))?;
        if let Some(right) = given.tables.disagreements(wiring.q, &wiring.inputs).next() {
            let others = others_of_wiring(given, wiring, right);
            others.for_each(|mistake| self.tally.add(OTHER_PATTERN, mistake));
        }
        Ok(())
    }

    /// A wiring that disagrees at this pattern of g and at none that is smaller, by the way
    /// it was made.
    pub fn disagrees(&mut self, given: &Given, wiring: &Wiring, pattern: usize) -> Outcome {
        let answer = Answer::refused(14, OF_CLAIM, 0).naming(pattern);
        self.compare(&given.f, &given.g, &match_claim(wiring), answer)?;
        self.wiring(given, wiring)
    }

    fn compare(&self, f: &[u8], g: &[u8], claim: &[u8], want: Answer) -> Outcome {
        let got = (self.call)(f, g, claim);
        if got == want.packed() {
            return Ok(());
        }
        Err(format!(
            "check\n  f     {}\n  g     {}\n  claim {}\n  want {}\n  got  {}",
            hex(f),
            hex(g),
            hex_near(claim, want.place as usize),
            show::answer(want),
            show::answer(Answer::unpacked(got)),
        ))
    }

    fn count(&mut self, claim: &[u8], Checked { answer, node }: Checked) {
        let Answer { code, kind, record, place, pattern } = answer;
        self.tally.add(CHECK, code);
        match code {
            7 => self.tally.add(CLASH_PATTERNS[(record == OF_G) as usize], pattern),
            14 => self.tally.add(PATTERNS[claim[3] as usize], pattern),
            _ => {}
        }
        match (record, code) {
            (0, _) => {
                let n = claim[2] as u64;
                let closed = claim.len() <= TWO_CLOSINGS;
                let line = match kind {
                    MATCH => MATCHES,
                    _ if closed => CLOSED,
                    _ => SPLITS,
                };
                self.tally.add(line, n);
            }
            (OF_F, _) => self.tally.add(OF_F_OR_G[0], code),
            (OF_G, _) => self.tally.add(OF_F_OR_G[1], code),
            (_, 1) if place < 3 => self.tally.add(HEADER_CUT, place),
            (_, 2) => self.tally.add(HEADER_MARK, place),
            _ if claim[0] == MATCH_MARK[0] => self.tally.add(MATCH_CLAIM, code),
            _ => self.tally.add(REFUSAL_CLAIM, code),
        }
        if let Some(Node { q, depth, byte }) = node {
            let which = match byte {
                NodeByte::First => 0,
                NodeByte::U => 1,
                NodeByte::V => 2,
            };
            let line = match code {
                1 => CUT[which],
                15 => BEYOND[which],
                16 => SPLIT_AT_N,
                _ => NOT_DEAD,
            };
            self.tally.add(TREE[q as usize], code);
            self.tally.add(line, depth as u64);
        }
    }
}
