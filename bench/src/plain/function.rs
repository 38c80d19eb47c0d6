//! Function records: a function is its record, tested.

use super::answer::{Refusal, F, G};

#[derive(Clone, Copy)]
pub struct Cube {
    pub p: u8,
    pub n: u8,
}

impl Cube {
    /// The inputs on which it has a literal.
    pub fn inputs(self) -> u8 {
        self.p | self.n
    }

    /// Whether the two hold no pattern in common.
    pub fn apart(self, other: Cube) -> bool {
        self.p & other.n | self.n & other.p != 0
    }
}

/// A list of cubes: a part of a record, P then N of each cube.
#[derive(Clone, Copy)]
pub struct Cubes<'a>(pub &'a [[u8; 2]]);

impl<'a> Cubes<'a> {
    pub fn get(self, index: usize) -> Option<Cube> {
        self.0.get(index).map(|&[p, n]| Cube { p, n })
    }

    pub fn iter(self) -> impl Iterator<Item = Cube> + 'a {
        self.0.iter().map(|&[p, n]| Cube { p, n })
    }

    pub fn len(self) -> usize {
        self.0.len()
    }

    pub fn bytes(self) -> &'a [u8] {
        self.0.as_flattened()
    }

    /// The smallest pattern that some cube has in common with this one: all that either
    /// asks to be 1, and no more.
    pub fn smallest_shared(self, cube: Cube) -> Option<u8> {
        if !self.any_shared(cube) {
            return None;
        }
        let opposite = u16::from_ne_bytes([cube.n, cube.p]);
        let smallest = self.0.iter().fold(i16::MAX, |smallest, &other| {
            let apart = opposite & u16::from_ne_bytes(other) != 0;
            let pattern = i16::from(cube.p | other[0]);
            smallest.min(if apart { i16::MAX } else { pattern })
        });
        Some(smallest as u8)
    }

    /// Whether some cube has a pattern in common with this one.
    fn any_shared(self, cube: Cube) -> bool {
        // P against N and N against P as one mask, and no early end: so several cubes are
        // tested at once.
        let opposite = u16::from_ne_bytes([cube.n, cube.p]);
        self.0.iter().fold(false, |any, &other| any | (opposite & u16::from_ne_bytes(other) == 0))
    }

    /// The first cube that has a pattern in common with some cube of the other list, and
    /// the smallest such pattern.
    pub fn first_shared(self, other: Cubes) -> Option<(usize, u8)> {
        let mut all = self.iter().enumerate();
        all.find_map(|(index, cube)| other.smallest_shared(cube).map(|pattern| (index, pattern)))
    }

    fn split_at(self, index: usize) -> (Cubes<'a>, Cubes<'a>) {
        let (one, other) = self.0.split_at(index);
        (Cubes(one), Cubes(other))
    }
}

pub struct Function<'a> {
    pub n: u8,
    pub on: Cubes<'a>,
    pub off: Cubes<'a>,
}

/// Two functions of the same number of inputs.
pub struct Two<'a> {
    pub n: u8,
    /// By q, then by s.
    pub lists: [[Lists<'a>; 2]; 2],
}

/// A list of f and the list of g that it must be kept apart from.
pub type Lists<'a> = (Cubes<'a>, Cubes<'a>);

/// Where a record's cubes start.
pub const CUBES: usize = 5;

pub const LONGEST_LIST: usize = 64;

/// Both functions, which must not differ in the number of inputs.
pub fn read_two<'a>(f: &'a [u8], g: &'a [u8]) -> Result<Two<'a>, Refusal> {
    let (f, g) = (read(f, F)?, read(g, G)?);
    if f.n != g.n {
        return Err(Refusal::new(9, G, 2));
    }
    let lists = [[(f.on, g.off), (f.off, g.on)], [(f.on, g.on), (f.off, g.off)]];
    Ok(Two { n: f.n, lists })
}

pub fn read(bytes: &[u8], record: u8) -> Result<Function<'_>, Refusal> {
    let refused = |code, place| Refusal::new(code, record, place);
    let byte = |place: usize| bytes.get(place).copied().ok_or(refused(1, bytes.len()));

    if byte(0)? != 0x46 {
        return Err(refused(2, 0));
    }
    if byte(1)? != 0x4E {
        return Err(refused(2, 1));
    }
    let n = byte(2)?;
    if !(1..=8).contains(&n) {
        return Err(refused(3, 2));
    }
    let a = byte(3)? as usize;
    if a > LONGEST_LIST {
        return Err(refused(4, 3));
    }
    let b = byte(4)? as usize;
    if b > LONGEST_LIST {
        return Err(refused(4, 4));
    }
    let end = CUBES + 2 * (a + b);
    if bytes.len() < end {
        return Err(refused(1, bytes.len()));
    }
    if bytes.len() > end {
        return Err(refused(8, end));
    }

    let cubes = Cubes(bytes[CUBES..].as_chunks().0);
    for (index, cube) in cubes.iter().enumerate() {
        if u32::from(cube.inputs()) >> n != 0 {
            return Err(refused(5, CUBES + 2 * index));
        }
        if cube.p & cube.n != 0 {
            return Err(refused(6, CUBES + 2 * index));
        }
    }
    let (on, off) = cubes.split_at(a);
    match on.first_shared(off) {
        Some((index, pattern)) => Err(Refusal { pattern, ..refused(7, CUBES + 2 * index) }),
        None => Ok(Function { n, on, off }),
    }
}
