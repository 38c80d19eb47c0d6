//! The checker: a claim is read once, from its start to its end.

use super::answer::{Answer, Refusal, CLAIM, MATCH, NO_MATCH};
use super::function::{read_two, Cube, Cubes, Lists};
use super::wiring::Wiring;
use super::SPLIT;

pub fn check(f: &[u8], g: &[u8], claim: &[u8]) -> Answer {
    let kind = read_two(f, g).and_then(|two| {
        let mut reader = Reader { lists: two.lists, n: two.n, claim, place: 0 };
        reader.claim()
    });
    match kind {
        Ok(kind) => Answer::Accepted { kind, place: claim.len() },
        Err(refusal) => Answer::Refused(refusal),
    }
}

struct Reader<'a> {
    lists: [[Lists<'a>; 2]; 2],
    n: u8,
    claim: &'a [u8],
    /// Where the next byte is.
    place: usize,
}

fn refused(code: u8, place: usize) -> Refusal {
    Refusal::new(code, CLAIM, place)
}

impl Reader<'_> {
    fn byte(&mut self) -> Result<u8, Refusal> {
        let byte = self.claim.get(self.place).ok_or(refused(1, self.claim.len()))?;
        self.place += 1;
        Ok(*byte)
    }

    /// The whole claim: its kind.
    fn claim(&mut self) -> Result<u8, Refusal> {
        let (kind, second) = match self.byte()? {
            0x4D => (MATCH, 0x54),
            0x52 => (NO_MATCH, 0x46),
            _ => return Err(refused(2, 0)),
        };
        if self.byte()? != second {
            return Err(refused(2, 1));
        }
        if self.byte()? != self.n {
            return Err(refused(10, 2));
        }
        if kind == MATCH {
            self.wiring()?;
        } else {
            self.tree(0, Wiring::new(self.n))?;
            self.tree(1, Wiring::new(self.n))?;
            if self.place < self.claim.len() {
                return Err(refused(8, self.place));
            }
        }
        Ok(kind)
    }

    fn wiring(&mut self) -> Result<(), Refusal> {
        let end = 4 + self.n as usize;
        if self.claim.len() < end {
            return Err(refused(1, self.claim.len()));
        }
        if self.claim.len() > end {
            return Err(refused(8, end));
        }
        let q = self.claim[3];
        if q > 1 {
            return Err(refused(11, 3));
        }
        let mut wiring = Wiring::new(self.n);
        for (place, byte) in self.claim.iter().enumerate().skip(4) {
            let (j, inverted) = (byte & 0x0F, byte & 0x10 != 0);
            if byte & 0xE0 != 0 || j >= self.n {
                return Err(refused(12, place));
            }
            if wiring.uses(j) {
                return Err(refused(13, place));
            }
            wiring = wiring.place(j, inverted);
        }
        let mut smallest = None;
        for (of_f, of_g) in self.lists[q as usize] {
            for one in of_f.iter() {
                let carried = wiring.carry(one);
                // What it shares with any cube is no smaller than its own P.
                if smallest.is_none_or(|smallest| carried.p < smallest) {
                    let shared = of_g.smallest_shared(carried);
                    smallest = smallest.into_iter().chain(shared).min();
                }
            }
        }
        match smallest {
            Some(pattern) => Err(Refusal { pattern, ..refused(14, 0) }),
            None => Ok(()),
        }
    }

    fn tree(&mut self, q: usize, wiring: Wiring) -> Result<(), Refusal> {
        let start = self.place;
        match self.byte()? {
            SPLIT if wiring.is_whole() => Err(refused(16, start)),
            SPLIT => {
                for j in wiring.free() {
                    for inverted in [false, true] {
                        self.tree(q, wiring.place(j, inverted))?;
                    }
                }
                Ok(())
            }
            s @ (0 | 1) => {
                let (of_f, of_g) = self.lists[q][s as usize];
                let one = self.cube(of_f)?;
                let other = self.cube(of_g)?;
                if wiring.dead(one, other) {
                    Ok(())
                } else {
                    Err(refused(17, start))
                }
            }
            _ => Err(refused(15, start)),
        }
    }

    /// The cube that the next byte names.
    fn cube(&mut self, list: Cubes) -> Result<Cube, Refusal> {
        let place = self.place;
        let index = self.byte()?;
        list.get(index as usize).ok_or(refused(15, place))
    }
}
