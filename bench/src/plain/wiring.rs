//! A partial wiring, handed on by value.

use super::function::{Cube, Lists};

#[derive(Clone, Copy)]
pub struct Wiring {
    n: u8,
    /// How many inputs of f are placed.
    depth: u8,
    /// The inputs of g that serve them.
    used: u8,
    /// For each placed input of f a byte, with the bit of its j.
    bits: u64,
    /// The inputs of f whose choice is inverted.
    inverted: u8,
}

impl Wiring {
    pub fn new(n: u8) -> Wiring {
        Wiring { n, depth: 0, used: 0, bits: 0, inverted: 0 }
    }

    pub fn is_whole(&self) -> bool {
        self.depth == self.n
    }

    /// Whether an input of g is taken.
    pub fn uses(&self, j: u8) -> bool {
        self.used >> j & 1 != 0
    }

    /// The inputs of g that are not taken.
    pub fn free(self) -> impl Iterator<Item = u8> {
        (0..self.n).filter(move |&j| !self.uses(j))
    }

    /// The same with the next input placed.
    pub fn place(mut self, j: u8, inverted: bool) -> Wiring {
        let bit = 1 << j;
        self.bits |= u64::from(bit) << (8 * self.depth);
        self.inverted |= (inverted as u8) << self.depth;
        self.used |= bit;
        self.depth += 1;
        self
    }

    /// The bytes of the choices.
    pub fn bytes(self) -> impl Iterator<Item = u8> {
        let placed = self.bits.to_le_bytes().into_iter().take(self.depth.into()).enumerate();
        placed.map(move |(i, bit)| bit.trailing_zeros() as u8 | (self.inverted >> i & 1) << 4)
    }

    /// The literals of a cube of f on placed inputs, as a cube of g.
    pub fn carry(&self, cube: Cube) -> Cube {
        // An inverted input changes the side of its literal.
        let turned = (cube.p ^ cube.n) & self.inverted;
        Cube { p: self.carry_mask(cube.p ^ turned), n: self.carry_mask(cube.n ^ turned) }
    }

    /// No loop over the placed inputs: the mask's bits are spread to whole bytes.
    fn carry_mask(&self, mask: u8) -> u8 {
        const ONES: u64 = 0x0101_0101_0101_0101;
        // Byte i has bit i of the mask at its own place i, then in all places.
        let own = (u64::from(mask) * ONES) & 0x8040_2010_0804_0201;
        let spread = (((own + 0x7F * ONES) >> 7) & ONES) * 0xFF;
        // No two bytes have a bit in common, so the topmost byte of the product has
        // the bits of all.
        ((self.bits & spread).wrapping_mul(ONES) >> 56) as u8
    }

    /// The inputs of g at which a literal of f's cube may still come to stand.
    fn open(&self, of_f: Cube) -> u8 {
        if u32::from(of_f.inputs()) >> self.depth == 0 {
            0
        } else {
            !self.used
        }
    }

    pub fn dead(&self, of_f: Cube, of_g: Cube) -> bool {
        self.open(of_f) & of_g.inputs() == 0 && !self.separates(of_f, of_g)
    }

    fn separates(&self, of_f: Cube, of_g: Cube) -> bool {
        const ONES: u64 = 0x0101_0101_0101_0101;
        let turned = (of_f.p ^ of_f.n) & self.inverted;
        let rows = |mask: u8| ROWS[mask as usize];
        let all = |mask: u8| u64::from(mask) * ONES;
        let opposed = rows(of_f.p ^ turned) & all(of_g.n) | rows(of_f.n ^ turned) & all(of_g.p);
        opposed & self.bits != 0
    }

    /// The first dead pair, as a closing names it.
    pub fn first_dead(&self, lists: &[Lists; 2]) -> Option<[u8; 3]> {
        for (s, (of_f, of_g)) in (0..).zip(lists) {
            for (u, one) in (0..).zip(of_f.iter()) {
                let (carried, open) = (self.carry(one), self.open(one));
                let dead = |other: Cube| open & other.inputs() == 0 && !carried.apart(other);
                if let Some(v) = of_g.iter().position(dead) {
                    return Some([s, u, v as u8]);
                }
            }
        }
        None
    }
}

static ROWS: [u64; 256] = {
    let mut rows = [0; 256];
    let mut mask = 0;
    while mask < 256 {
        let mut i = 0;
        while i < 8 {
            if mask >> i & 1 != 0 { rows[mask] |= 0xFF << (8 * i); }
            i += 1;
        }
        mask += 1;
    }
    rows
};
