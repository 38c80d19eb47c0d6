//! The matcher, held against the reference.
//!
//! A `Trial` has the call under test. Its methods make calls with buffers of
//! several lengths and compare every number returned and every byte of the buffer,
//! the bytes after the claim and around the buffer too, with what the reference
//! says. Of more inputs than the reference tries everything for, the claim is also
//! read by both checkers. `sweeps` has the inputs, `pairs` the functions among
//! them.

pub mod pairs;
pub mod sweeps;

use crate::calls;
use crate::lent::{byte, inside, lent, other_byte};
use crate::records::Outcome;
use crate::reference::answer::{Answer, MATCH, OF_F, OF_G};
use crate::reference::checker::check_in;
use crate::reference::claim::{Tree, WIRING};
use crate::reference::matcher::{find, put, Found};
use crate::reference::pair::Pair;
use crate::reference::record::record;
use crate::reference::two::Two;
use crate::reference::wiring::{Partial, Wiring};
use crate::show::{self, hex, hex_near};
use crate::tally::Tally;
use crate::wirings::pairs::{straight, the_wrong_way_round};

/// The lines of the tally: all answers by code;
pub const FIND: &str = "match";
pub const OF_F_OR_G: [&str; 2] = ["match, f refused", "match, g refused"];
/// the patterns of 7;
pub const CLASH_PATTERNS: [&str; 2] = ["match, 7 in f by pattern", "match, 7 in g by pattern"];
/// buffers for valid functions, by the kind of the claim;
pub const EMPTY: &str = "match, buffer empty, by kind";
pub const SHORT: &str = "match, buffer too short, by kind";
pub const ONE_SHORT: &str = "match, buffer one byte short, by kind";
pub const EXACT: &str = "match, buffer just long enough, by kind";
pub const LONGER: &str = "match, buffer longer, by kind";
/// the wirings found, by n;
pub const PHASE: [&str; 2] = ["match found, q = 0, by n", "match found, q = 1, by n"];
pub const NOT_STRAIGHT: &str = "match found, not straight, by n";
pub const ONE_WAY: &str = "match found, another the wrong way round, by n";
/// the refusals, by n;
pub const CLOSED: &str = "no match, both trees closed at the root, by n";
pub const SPLITS: &str = "no match, a tree split, by n";
/// their trees, by the depths at which there is such a node;
pub const SPLIT_AT: [&str; 2] = [
    "no match, trees for q = 0 with splits, by depth",
    "no match, trees for q = 1 with splits, by depth",
];
pub const CLOSED_AT: [&str; 2] = [
    "no match, trees for q = 0 with closings, by depth",
    "no match, trees for q = 1 with closings, by depth",
];
pub const CLOSED_BY: [&str; 3] = [
    "no match, trees closed by s = 1, by depth",
    "no match, trees closed by u above 0, by depth",
    "no match, trees closed by v above 0, by depth",
];
/// and what both checkers accepted, and where a wiring was known, by n.
pub const CHECKED: [&str; 2] = ["match found and checked, by n", "no match and checked, by n"];
pub const KNOWN: [&str; 2] = ["match found, the one known, by n", "match found, earlier, by n"];

/// The matcher's call, or a wrong one in its place.
pub type Call = Box<dyn Fn(&[u8], &[u8], &mut [u8]) -> u64>;

pub struct Trial {
    call: Call,
    pub tally: Tally,
}

/// "No refusal claim by these rules is longer."
const LONGEST: u64 = 75_323_621;

/// Two valid functions, and what is to be found for them.
struct Asked {
    f: Vec<u8>,
    g: Vec<u8>,
    found: Found,
    claim: Vec<u8>,
}

impl Asked {
    fn new(two: &Two) -> Asked {
        let found = Found::of(two);
        Asked { f: record(&two.f), g: record(&two.g), claim: found.claim(two.n()), found }
    }
}

/// How a lent buffer is filled beforehand.
type Fill = fn(usize) -> u8;

impl Trial {
    pub fn new(call: impl Fn(&[u8], &[u8], &mut [u8]) -> u64 + 'static) -> Trial {
        Trial { call: Box::new(call), tally: Tally::default() }
    }

    /// Any bytes at all, with a buffer of so many bytes.
    pub fn bytes(&mut self, f: &[u8], g: &[u8], room: usize) -> Outcome {
        let (want, written) = find(f, g, room);
        self.compare(f, g, room, byte, want, written.as_deref())
    }

    /// Two valid functions, with buffers from empty to longer than needed.
    pub fn pair(&mut self, two: &Two) -> Outcome {
        let asked = Asked::new(two);
        let length = asked.claim.len();
        let both: [Fill; 2] = [byte, other_byte];
        for fill in both {
            for room in [length - 1, length] {
                self.with_room(&asked, room, fill)?;
            }
        }
        for (room, fill) in [0, length + 1, length + 9].into_iter().zip(both.into_iter().cycle()) {
            self.with_room(&asked, room, fill)?;
        }
        self.count(two.n(), &asked.found);
        Ok(())
    }

    /// The same with buffers of every length up to more than is needed.
    pub fn every_room(&mut self, two: &Two) -> Outcome {
        let asked = Asked::new(two);
        for room in 0..asked.claim.len() + 4 {
            self.with_room(&asked, room, if room % 2 == 0 { byte } else { other_byte })?;
        }
        self.count(two.n(), &asked.found);
        Ok(())
    }

    /// The same, where both checkers have to accept what comes.
    pub fn checked(&mut self, two: &Two, known: Option<&Wiring>) -> Outcome {
        self.accepted(two, known)?;
        self.pair(two)
    }

    /// What comes has only to be accepted by both checkers: this is for searches that
    /// are too long for the reference. If a wiring is known to agree, none that is
    /// later may come.
    pub fn accepted(&mut self, two: &Two, known: Option<&Wiring>) -> Outcome {
        let (f, g) = (record(&two.f), record(&two.g));
        let differs =
            |what| Err(format!("match\n  f    {}\n  g    {}\n  {what}", hex(&f), hex(&g)));
        // As a caller does who knows nothing of the length.
        let asked = Answer::unpacked((self.call)(&f, &g, &mut []));
        if asked.code != 18 || asked.place > LONGEST {
            return differs(format!("without a buffer: {}", show::answer(asked)));
        }
        let mut claim = vec![0; asked.place as usize];
        let told = Answer::unpacked((self.call)(&f, &g, &mut claim));
        let right = Answer::accepted(told.kind, claim.len());
        let readers = [
            ("the matcher", told),
            ("the checker", Answer::unpacked(calls::check(&f, &g, &claim))),
            ("the reference", check_in(two, &claim).answer),
        ];
        for (who, said) in readers {
            if said != right {
                let claim = hex_near(&claim, said.place as usize);
                return differs(format!("claim {claim}\n  {who} says {}", show::answer(said)));
            }
        }
        let n = two.n() as u64;
        let wiring = (told.kind == MATCH).then(|| wiring_of(&claim));
        self.tally.add(CHECKED[wiring.is_none() as usize], n);
        match (known, wiring) {
            (None, _) => Ok(()),
            (Some(known), Some(found)) if found <= *known => {
                self.tally.add(KNOWN[(found < *known) as usize], n);
                Ok(())
            }
            (Some(known), _) => {
                differs(format!("{known:?} agrees\n  claim {}", hex_near(&claim, 0)))
            }
        }
    }

    fn with_room(&mut self, asked: &Asked, room: usize, fill: Fill) -> Outcome {
        let Asked { f, g, found, claim } = asked;
        let (want, written) = put(found.kind(), claim.clone(), room);
        self.compare(f, g, room, fill, want, written.as_deref())?;
        let line = match room {
            0 => EMPTY,
            _ if room + 1 == claim.len() => ONE_SHORT,
            _ if room < claim.len() => SHORT,
            _ if room == claim.len() => EXACT,
            _ => LONGER,
        };
        self.tally.add(line, found.kind());
        Ok(())
    }

    fn compare(
        &mut self,
        f: &[u8],
        g: &[u8],
        room: usize,
        fill: Fill,
        want: Answer,
        written: Option<&[u8]>,
    ) -> Outcome {
        let expected = lent(room, fill, written.unwrap_or(&[]));
        let mut buffer = lent(room, fill, &[]);
        let got = (self.call)(f, g, inside(&mut buffer));
        if got != want.packed() || buffer != expected {
            let differ = buffer.iter().zip(&expected).position(|(one, other)| one != other);
            let near = differ.unwrap_or(0);
            return Err(format!(
                "match, room {room}\n  f    {}\n  g    {}\n  want {}\n  got  {}\n  \
                 buffer wanted {}\n  buffer found  {}",
                hex(f),
                hex(g),
                show::answer(want),
                show::answer(Answer::unpacked(got)),
                hex_near(&expected, near),
                hex_near(&buffer, near),
            ));
        }
        self.tally.add(FIND, want.code);
        if want.code == 7 {
            self.tally.add(CLASH_PATTERNS[(want.record == OF_G) as usize], want.pattern);
        }
        match want.record {
            OF_F => self.tally.add(OF_F_OR_G[0], want.code),
            OF_G => self.tally.add(OF_F_OR_G[1], want.code),
            _ => {}
        }
        Ok(())
    }

    fn count(&mut self, n: usize, found: &Found) {
        let by_n = n as u64;
        match found {
            Found::Match(wiring) => {
                self.tally.add(PHASE[wiring.q as usize], by_n);
                if wiring.inputs != straight(n) {
                    self.tally.add(NOT_STRAIGHT, by_n);
                }
                if wiring.inputs != the_wrong_way_round(&wiring.inputs) {
                    self.tally.add(ONE_WAY, by_n);
                }
            }
            Found::NoMatch(trees) => {
                let split = trees.iter().any(|tree| matches!(tree, Tree::Split(_)));
                self.tally.add(if split { SPLITS } else { CLOSED }, by_n);
                for (q, tree) in trees.iter().enumerate() {
                    self.count_nodes(q, tree);
                }
            }
        }
    }

    /// Each sort of node once for each depth at which the tree has one.
    fn count_nodes(&mut self, q: usize, tree: &Tree) {
        let mut seen = vec![];
        nodes(tree, 0, &mut |depth, closing| {
            let lines = match closing {
                None => vec![SPLIT_AT[q]],
                Some(Pair { s, u, v }) => {
                    let by = CLOSED_BY.into_iter().zip([s, u, v]);
                    let above_0 = by.filter(|(_, index)| *index > 0).map(|(line, _)| line);
                    [CLOSED_AT[q]].into_iter().chain(above_0).collect()
                }
            };
            for line in lines {
                if !seen.contains(&(line, depth)) {
                    seen.push((line, depth));
                }
            }
        });
        for (line, depth) in seen {
            self.tally.add(line, depth as u64);
        }
    }
}

/// Visits the nodes of a tree: their depth, and the pair of a closing.
fn nodes(tree: &Tree, depth: usize, visit: &mut dyn FnMut(usize, Option<Pair>)) {
    match tree {
        Tree::Closing(pair) => visit(depth, Some(*pair)),
        Tree::Split(children) => {
            visit(depth, None);
            children.iter().for_each(|child| nodes(child, depth + 1, visit));
        }
    }
}

/// The wiring of a match claim that is accepted.
pub fn wiring_of(claim: &[u8]) -> Wiring {
    let inputs = Partial::from_bytes(&claim[WIRING..], claim[2] as usize).expect("accepted");
    Wiring { q: claim[3] == 1, inputs }
}
