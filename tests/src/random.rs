//! A small generator with fixed seeds, and the functions and records made by it.

use crate::reference::pattern::{patterns, value, Cube, Function, INPUTS};
use crate::reference::record::{record, MOST_CUBES};

/// splitmix64: the same seed gives the same numbers everywhere.
pub struct Random {
    state: u64,
}

impl Random {
    pub fn new(seed: u64) -> Random {
        Random { state: seed }
    }

    /// Any number of 64 bits.
    pub fn number(&mut self) -> u64 {
        self.state = self.state.wrapping_add(0x9E37_79B9_7F4A_7C15);
        let mut z = self.state;
        z = (z ^ (z >> 30)).wrapping_mul(0xBF58_476D_1CE4_E5B9);
        z = (z ^ (z >> 27)).wrapping_mul(0x94D0_49BB_1331_11EB);
        z ^ (z >> 31)
    }

    /// A number from 0 to bound - 1.
    pub fn below(&mut self, bound: usize) -> usize {
        (self.number() % bound as u64) as usize
    }

    pub fn byte(&mut self) -> u8 {
        self.below(256) as u8
    }

    pub fn flip(&mut self) -> bool {
        self.below(2) == 1
    }

    pub fn pick<T: Copy>(&mut self, from: &[T]) -> T {
        from[self.below(from.len())]
    }

    pub fn shuffle<T>(&mut self, list: &mut [T]) {
        for last in (1..list.len()).rev() {
            list.swap(last, self.below(last + 1));
        }
    }
}

// ---- Valid functions ----

/// A valid function of any n, in one of several styles, with lists of any size.
pub fn any_function(random: &mut Random) -> Function {
    let n = 1 + random.below(INPUTS);
    function_of(random, n, any_size)
}

/// A valid function of n inputs, in one of several styles.
pub fn function_of(random: &mut Random, n: usize, size: fn(&mut Random) -> usize) -> Function {
    let sizes = [size(random), size(random)];
    match random.below(8) {
        0..=2 => from_table(random, n, sizes),
        3..=4 => split_by_an_input(random, n, sizes),
        5 => from_points(random, n, sizes),
        6 => constant(random, n, sizes[0]),
        _ if random.flip() => one_sided(random, n, sizes[0]),
        _ => Function { n, on: vec![], off: vec![] },
    }
}

/// A valid function of n inputs with 64 on cubes and 64 off cubes.
pub fn full_function(random: &mut Random, n: usize) -> Function {
    let sizes = [MOST_CUBES; 2];
    loop {
        // A table may happen to have no on patterns, or no off patterns.
        let f = if random.flip() {
            from_table(random, n, sizes)
        } else {
            split_by_an_input(random, n, sizes)
        };
        if [f.on.len(), f.off.len()] == sizes {
            return f;
        }
    }
}

/// The sizes at the edges come up often, the others now and then.
pub fn any_size(random: &mut Random) -> usize {
    match random.below(12) {
        0 => 0,
        1 => 1,
        2 => MOST_CUBES - 1,
        3 => MOST_CUBES,
        4..=9 => random.below(8),
        _ => random.below(MOST_CUBES + 1),
    }
}

/// Lists of few cubes leave more wirings that agree; an empty one comes seldom.
pub fn few(random: &mut Random) -> usize {
    match random.below(8) {
        0 => 0,
        _ => 1 + random.below(4),
    }
}

/// Cubes grown inside the on and off patterns of a random table.
fn from_table(random: &mut Random, n: usize, sizes: [usize; 2]) -> Function {
    // How often a pattern is on, off or open differs from table to table.
    let shares = [random.below(4), random.below(4), random.below(3)];
    let total = shares.iter().sum::<usize>().max(1);
    let mut on = vec![false; 1 << n];
    let mut off = vec![false; 1 << n];
    for pattern in patterns(n) {
        let drawn = random.below(total);
        on[pattern] = drawn < shares[0];
        off[pattern] = !on[pattern] && drawn < shares[0] + shares[1];
    }
    Function { n, on: grown(random, n, &on, sizes[0]), off: grown(random, n, &off, sizes[1]) }
}

/// So many cubes that hold only patterns of the set; none if the set is empty.
fn grown(random: &mut Random, n: usize, set: &[bool], size: usize) -> Vec<Cube> {
    let members: Vec<usize> = patterns(n).filter(|&pattern| set[pattern]).collect();
    if members.is_empty() {
        return vec![];
    }
    let mut list = vec![];
    for _ in 0..size {
        let mut cube = point(n, random.pick(&members));
        let mut inputs: Vec<usize> = (0..n).collect();
        random.shuffle(&mut inputs);
        for input in inputs {
            // Not every cube is grown as far as it can be.
            let wider = without(cube, input);
            let inside = patterns(n).all(|pattern| set[pattern] || !wider.holds(pattern));
            if inside && random.below(4) != 0 {
                cube = wider;
            }
        }
        list.push(cube);
    }
    list
}

/// On cubes where one input has one value, off cubes where it has the other.
fn split_by_an_input(random: &mut Random, n: usize, sizes: [usize; 2]) -> Function {
    let input = random.below(n);
    let side = random.flip();
    let mut list = |size, side| -> Vec<Cube> {
        (0..size).map(|_| with(without(any_cube(random, n), input), input, side)).collect()
    };
    Function { n, on: list(sizes[0], side), off: list(sizes[1], !side) }
}

/// Single patterns, each on or off at most once; all of them if they fit.
pub fn from_points(random: &mut Random, n: usize, sizes: [usize; 2]) -> Function {
    let mut all: Vec<Cube> = patterns(n).map(|pattern| point(n, pattern)).collect();
    random.shuffle(&mut all);
    let on = sizes[0].min(all.len());
    let off = sizes[1].min(all.len() - on);
    Function { n, on: all[..on].to_vec(), off: all[on..on + off].to_vec() }
}

/// On or off everywhere by a cube without literals; the other list is empty.
pub fn constant(random: &mut Random, n: usize, size: usize) -> Function {
    let mut f = one_sided(random, n, size.max(1));
    let list = if f.on.is_empty() { &mut f.off } else { &mut f.on };
    let at = random.below(list.len());
    list[at] = Cube::ALL;
    f
}

/// Any cubes in one list; the other is empty.
pub fn one_sided(random: &mut Random, n: usize, size: usize) -> Function {
    let list: Vec<Cube> = (0..size).map(|_| any_cube(random, n)).collect();
    let on = random.flip();
    with_one_list(n, list, on)
}

/// The list as the on list, or else as the off list; the other is empty.
pub fn with_one_list(n: usize, list: Vec<Cube>, on: bool) -> Function {
    if on {
        Function { n, on: list, off: vec![] }
    } else {
        Function { n, on: vec![], off: list }
    }
}

// ---- Cubes ----

/// A cube in which each input is plain, inverted or missing.
pub fn any_cube(random: &mut Random, n: usize) -> Cube {
    let mut cube = Cube::ALL;
    for input in 0..n {
        match random.below(3) {
            0 => {}
            side => cube = with(cube, input, side == 1),
        }
    }
    cube
}

/// The cube that holds just one pattern.
pub fn point(n: usize, pattern: usize) -> Cube {
    (0..n).fold(Cube::ALL, |cube, input| with(cube, input, value(pattern, input)))
}

/// The cube with a literal more: the input must be 1, or must be 0.
pub fn with(cube: Cube, input: usize, side: bool) -> Cube {
    let bit = 1 << input;
    if side {
        Cube { p: cube.p | bit, n: cube.n }
    } else {
        Cube { p: cube.p, n: cube.n | bit }
    }
}

/// The cube without its literal on an input.
pub fn without(cube: Cube, input: usize) -> Cube {
    Cube { p: cube.p & !(1 << input), n: cube.n & !(1 << input) }
}

// ---- Records that are nearly valid ----

/// The record of a valid function with one or two faults put in.
pub fn spoiled(random: &mut Random, mut f: Function) -> Vec<u8> {
    for _ in 0..1 + random.below(2) {
        match random.below(4) {
            0 => clash(random, &mut f),
            1 => name_a_missing_input(random, &mut f),
            2 => name_an_input_twice(random, &mut f),
            _ => too_many(random, &mut f),
        }
    }
    let mut bytes = record(&f);
    // Now and then the header or the length is at fault as well.
    match random.below(16) {
        0 => bytes[2] = random.pick(&[0, 9, 10, 128, 255]),
        1 => bytes.push(random.byte()),
        2 => bytes.truncate(random.below(bytes.len())),
        3 => bytes[random.below(2)] ^= 1 << random.below(8),
        _ => {}
    }
    bytes
}

/// Makes an on cube share a pattern with an off cube, if both lists have cubes.
pub fn clash(random: &mut Random, f: &mut Function) {
    if f.on.is_empty() || f.off.is_empty() {
        return;
    }
    let off = random.pick(&f.off);
    let shared: Vec<usize> = patterns(f.n).filter(|&pattern| off.holds(pattern)).collect();
    if shared.is_empty() {
        return;
    }
    let mut cube = point(f.n, random.pick(&shared));
    // A cube of few literals clashes with many, one of all literals with few.
    let keep = 1 + random.below(4);
    for input in 0..f.n {
        if random.below(4) >= keep {
            cube = without(cube, input);
        }
    }
    let at = random.below(f.on.len());
    f.on[at] = cube;
}

/// Puts an input at or above n into a cube; with 8 inputs there is none.
fn name_a_missing_input(random: &mut Random, f: &mut Function) {
    if f.n < INPUTS {
        let input = f.n + random.below(INPUTS - f.n);
        let side = random.flip();
        change_a_cube(random, f, |cube| with(cube, input, side));
    }
}

/// Puts an input into both masks of a cube; it may be one at or above n.
fn name_an_input_twice(random: &mut Random, f: &mut Function) {
    let reach = if random.below(4) == 0 { INPUTS } else { f.n };
    let input = random.below(reach);
    change_a_cube(random, f, |cube| with(with(cube, input, false), input, true));
}

/// Changes one cube of either list, if there is one.
fn change_a_cube(random: &mut Random, f: &mut Function, change: impl Fn(Cube) -> Cube) {
    let count = f.on.len() + f.off.len();
    if count == 0 {
        return;
    }
    // Late cubes are the ones that a reader may forget.
    let at = if random.flip() { count - 1 } else { random.below(count) };
    let on = f.on.len();
    let cube = if at < on { &mut f.on[at] } else { &mut f.off[at - on] };
    *cube = change(*cube);
}

/// Makes a list longer than 64 by more cubes of the same kind.
fn too_many(random: &mut Random, f: &mut Function) {
    let size = random.pick(&[65, 66, 127, 128, 129, 192, 255]);
    let list = if random.flip() { &mut f.on } else { &mut f.off };
    let cube = list.last().copied().unwrap_or(Cube::ALL);
    list.resize(size, cube);
}

#[cfg(test)]
mod tests {
    use super::*;
    use crate::reference::record::read;
    use std::collections::BTreeSet;

    #[test]
    fn every_function_made_is_valid_and_all_sorts_occur() {
        let mut random = Random::new(5);
        let (mut inputs, mut on_sizes, mut off_sizes) =
            (BTreeSet::new(), BTreeSet::new(), BTreeSet::new());
        let (mut open, mut constants, mut no_open_pattern) = (0, 0, 0);
        for _ in 0..2_000 {
            let f = any_function(&mut random);
            assert!(read(&record(&f), 1).answer.is_accepted(), "{f:?}");
            inputs.insert(f.n);
            on_sizes.insert(f.on.len());
            off_sizes.insert(f.off.len());
            open += (f.on.is_empty() && f.off.is_empty()) as usize;
            constants += f.cubes().any(|cube| cube == Cube::ALL) as usize;
            no_open_pattern += patterns(f.n).all(|pattern| !f.is_open(pattern)) as usize;
        }
        assert_eq!(inputs, (1..=8).collect());
        for size in [0, 1, 2, 63, 64] {
            assert!(on_sizes.contains(&size) && off_sizes.contains(&size), "size {size}");
        }
        assert!(open > 20 && constants > 20 && no_open_pattern > 20);
    }

    #[test]
    fn full_functions_are_full_and_valid() {
        let mut random = Random::new(6);
        for n in 1..=8 {
            let reading = read(&record(&full_function(&mut random, n)), 1);
            assert_eq!([reading.n, reading.a, reading.b], [n as u64, 64, 64]);
        }
    }

    #[test]
    fn spoiled_records_have_every_code_of_a_record() {
        let mut random = Random::new(7);
        let mut codes = BTreeSet::new();
        for _ in 0..2_000 {
            let f = any_function(&mut random);
            codes.insert(read(&spoiled(&mut random, f), 1).answer.code);
        }
        assert!((1..=8).all(|code| codes.contains(&code)), "{codes:?}");
    }
}
