//! A list of cubes turned on its side: for each literal, which cubes have it.

use super::function::Cubes;

/// The literals of a cube: bit i if input i must be 1, bit 8 + i if it must be 0.
pub type Literals = u16;

/// Added to a literal's number or taken from it, this gives the opposite literal.
pub const OPPOSITE: usize = 8;

/// For each literal the cubes that have it: bit v is cube v.
pub type Columns = [u64; 16];

/// Both literals on each of these inputs.
pub fn literals_on(inputs: u8) -> Literals {
    u16::from(inputs) * 0x0101
}

/// The bits of a number that are set, by place.
pub fn places(bits: impl Into<u64>) -> impl Iterator<Item = usize> {
    let mut rest = bits.into();
    std::iter::from_fn(move || {
        let place = rest.trailing_zeros();
        // Nothing is left to take from 0.
        rest &= rest.checked_sub(1)?;
        Some(place as usize)
    })
}

/// The cubes of a list by columns.
pub struct List<'a> {
    pub cubes: Cubes<'a>,
    pub columns: Columns,
    /// A bit for each cube.
    pub all: u64,
    /// The cubes with a literal on input i or above it.
    pub from: [u64; 9],
    pub named: [u64; 8],
}

impl<'a> List<'a> {
    pub fn new(cubes: Cubes<'a>) -> List<'a> {
        let mut columns = [0; 16];
        let mut all = 0;
        for v in 0..cubes.len() {
            all |= 1 << v;
            for literal in places(literals(cubes, v)) {
                columns[literal & 15] |= 1 << v;
            }
        }
        let mut from = [0; 9]; let mut named = [0; 8];
        for input in (0..8).rev() {
            named[input] = columns[input] | columns[input + OPPOSITE];
            from[input] = from[input + 1] | named[input];
        }
        List { cubes, columns, all, from, named }
    }

    pub fn literals(&self, v: usize) -> Literals {
        literals(self.cubes, v)
    }

    /// The cubes that have a literal on just one of these inputs.
    pub fn on_one_of(&self, inputs: u8) -> u64 {
        let (mut some, mut several) = (0, 0);
        for input in places(inputs) {
            let named = self.named[input & 7];
            several |= some & named;
            some |= named;
        }
        some & !several
    }
}

fn literals(cubes: Cubes, v: usize) -> Literals {
    u16::from_le_bytes(cubes.0[v])
}
