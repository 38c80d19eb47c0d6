//! The matcher: a search by prefixes that measures the trees, then the claim.

use std::ops::ControlFlow::{self, Break, Continue};

use super::answer::{room, Answer, Refusal, MATCH, NO_MATCH};
use super::columns::{literals_on, places, Columns, List, Literals, OPPOSITE};
use super::function::{read_two, Two};
use super::SPLIT;

/// The claim is written at the start of `out`, if it has the room.
pub fn find(f: &[u8], g: &[u8], out: &mut [u8]) -> Answer {
    match read_two(f, g).and_then(|two| claim(&two, out)) {
        Ok((kind, place)) => Answer::Accepted { kind, place },
        Err(refusal) => Answer::Refused(refusal),
    }
}

/// Writes the claim: its kind and its length.
fn claim(two: &Two, out: &mut [u8]) -> Result<(u8, usize), Refusal> {
    let n = two.n;
    let free = (0xFF >> (8 - n)) as u8;
    let [of_f, of_g] = lists(two);
    let mut length = 3;
    for q in 0..2 {
        let mut pairs = Pairs::new(&of_f, &of_g, q);
        match pairs.root() { Some(_) => length += 3, None => 
        match pairs.search(0, free) {
            Break(()) => {
                let length = 4 + n as usize;
                let out = room(out, length)?;
                out[..4].copy_from_slice(&[0x4D, 0x54, n, q as u8]);
                for (to, child) in out[4..].iter_mut().zip(pairs.choices) {
                    *to = (child & 7) | (child & 8) << 1;
                }
                return Ok((MATCH, length));
            }
            Continue(tree) => length += tree,
        } }
    }
    let out = room(out, length)?;
    out[..3].copy_from_slice(&[0x52, 0x46, n]);
    let mut place = 3;
    for q in 0..2 {
        let mut pairs = Pairs::new(&of_f, &of_g, q);
        match pairs.root() {
            Some(closing) => place = put_closing(out, place, closing),
            None => place = pairs.put(0, free, out, place),
        }
    }
    Ok((NO_MATCH, length))
}

fn lists<'a>(two: &Two<'a>) -> [[List<'a>; 2]; 2] {
    let [(f_on, g_off), (f_off, g_on)] = two.lists[0];
    [[List::new(f_on), List::new(f_off)], [List::new(g_off), List::new(g_on)]]
}

struct Pairs<'a> {
    sides: [Side<'a>; 2],
    choices: [u8; 8],
}

struct Side<'a> {
    of_f: &'a List<'a>,
    of_g: &'a List<'a>,
    opposed_by_f: Columns,
    opposed_by_g: Columns,
}

trait Note {
    const ALL: bool;
    fn open(&self) -> u16;
    fn in_order(&mut self, child: usize, dead: u64, pair: impl Fn(u32) -> u32);
    fn out_of_order(&mut self, child: usize, dead: u64, pair: impl Fn(u32) -> u32);
}

struct Open(u16);

impl Note for Open {
    const ALL: bool = false;
    fn open(&self) -> u16 { self.0 }
    fn in_order(&mut self, child: usize, dead: u64, _: impl Fn(u32) -> u32) {
        self.0 &= !(((dead != 0) as u16) << child);
    }
    fn out_of_order(&mut self, child: usize, dead: u64, _: impl Fn(u32) -> u32) {
        self.0 &= !(((dead != 0) as u16) << child);
    }
}

struct Closings {
    open: u16,
    first: [u32; 16],
}

impl Note for Closings {
    const ALL: bool = true;
    fn open(&self) -> u16 { self.open }
    fn in_order(&mut self, child: usize, dead: u64, pair: impl Fn(u32) -> u32) {
        self.first[child & 15] = if dead == 0 { !0 } else { pair(dead.trailing_zeros()) };
        self.open &= !(((dead != 0) as u16) << child);
    }
    fn out_of_order(&mut self, child: usize, dead: u64, pair: impl Fn(u32) -> u32) {
        let pair = if dead == 0 { !0 } else { pair(dead.trailing_zeros()) };
        self.first[child & 15] = self.first[child & 15].min(pair);
        self.open &= !(((dead != 0) as u16) << child);
    }
}

fn put_closing(out: &mut [u8], place: usize, closing: u32) -> usize {
    out[place..place + 3].copy_from_slice(&closing.to_be_bytes()[1..]);
    place + 3
}

fn opposed(literals: Literals, columns: &Columns) -> u64 {
    places(literals).fold(0, |opposed, literal| opposed | columns[literal & 15])
}

impl<'a> Pairs<'a> {
    fn new(of_f: &'a [List; 2], of_g: &'a [List; 2], q: usize) -> Pairs<'a> {
        let side = |s: usize| Side {
            of_f: &of_f[s],
            of_g: &of_g[s ^ q],
            opposed_by_f: [0; 16],
            opposed_by_g: [0; 16],
        };
        Pairs { sides: [side(0), side(1)], choices: [0; 8] }
    }

    fn root(&self) -> Option<u32> {
        for (s, side) in self.sides.iter().enumerate() {
            for u in places(side.of_f.all) {
                let dead = if side.of_f.from[0] >> u & 1 == 0 { side.of_g.all } else { side.of_g.all & !side.of_g.from[0] };
                if dead != 0 {
                    return Some((s << 16 | u << 8) as u32 | dead.trailing_zeros());
                }
            }
        }
        None
    }

    #[inline(always)]
    fn children<N: Note>(&self, depth: usize, free: u8, closings: &mut N) {
        for (s, side) in self.sides.iter().enumerate() {
            side.close(s, depth, free, closings);
            if closings.open() == 0 {
                break;
            }
        }
    }

    fn search(&mut self, depth: usize, free: u8) -> ControlFlow<(), usize> {
        if free == 0 {
            return Break(());
        }
        let mut open = Open(literals_on(free)); self.children(depth, free, &mut open); let open = open.0;
        let mut length = 1 + 3 * (literals_on(free) & !open).count_ones() as usize;
        for j in places(free) {
            for child in [j, j + 8] {
                if open >> child & 1 != 0 {
                    self.place(depth, child);
                    length += self.search(depth + 1, free & !(1 << j))?;
                }
            }
        }
        Continue(length)
    }

    fn put(&mut self, depth: usize, free: u8, out: &mut [u8], place: usize) -> usize {
        out[place] = SPLIT;
        let mut place = place + 1;
        let mut closings = Closings { open: literals_on(free), first: [!0; 16] }; self.children(depth, free, &mut closings);
        for j in places(free) {
            for child in [j, j + 8] {
                if closings.open >> child & 1 != 0 {
                    self.place(depth, child);
                    place = self.put(depth + 1, free & !(1 << j), out, place);
                } else {
                    place = put_closing(out, place, closings.first[child & 15]);
                }
            }
        }
        place
    }

    fn place(&mut self, depth: usize, child: usize) {
        self.choices[depth & 7] = child as u8;
        for side in &mut self.sides {
            side.place(depth & 7, child & 15);
        }
    }
}

impl Side<'_> {
    fn place(&mut self, depth: usize, child: usize) {
        self.opposed_by_f[depth] = self.of_g.columns[child ^ OPPOSITE];
        self.opposed_by_f[depth | OPPOSITE] = self.of_g.columns[child];
        self.opposed_by_g[child] = self.of_f.columns[depth | OPPOSITE];
        self.opposed_by_g[child ^ OPPOSITE] = self.of_f.columns[depth];
    }

    #[inline(always)]
    fn close<N: Note>(&self, s: usize, depth: usize, free: u8, closings: &mut N) {
        let depth = depth & 7;
        let later = self.of_f.from[depth + 1];
        for u in places(self.of_f.from[depth] & !later) {
            let literals = self.of_f.literals(u);
            let placed = literals & literals_on(((1u32 << depth) - 1) as u8);
            let shared = self.of_g.all & !opposed(placed, &self.opposed_by_f);
            let turn = if literals >> depth & 1 != 0 { OPPOSITE } else { 0 };
            for child in places(closings.open()) {
                let dead = shared & !self.of_g.columns[(child ^ turn) & 15];
                closings.in_order(child, dead, |v| (s << 16 | u << 8) as u32 | v);
            }
            if closings.open() == 0 { break; }
        }
        if later == 0 { return; }
        for v in places(self.of_g.on_one_of(free)) {
            let literals = self.of_g.literals(v);
            let open = literals_on(free);
            let literal = (literals & open).trailing_zeros() as usize;
            if closings.open() & (0x0101 << (literal & 7)) == 0 && !N::ALL { continue; }
            let shared = later & !opposed(literals & !open, &self.opposed_by_g);
            for (child, column) in [(literal & 15, depth | OPPOSITE), ((literal ^ OPPOSITE) & 15, depth)] {
                let dead = shared & !self.of_f.columns[column];
                closings.out_of_order(child, dead, |u| (s << 16 | v) as u32 | u << 8);
            }
        }
    }
}

/// The nodes that the searches go through.
pub fn nodes(f: &[u8], g: &[u8]) -> usize {
    fn below(pairs: &mut Pairs, depth: usize, free: u8, nodes: &mut usize) -> ControlFlow<()> {
        *nodes += 1;
        if free == 0 { return Break(()); }
        let mut open = Open(literals_on(free)); pairs.children(depth, free, &mut open); let open = open.0;
        for j in places(free) {
            for child in [j, j + 8] {
                if open >> child & 1 != 0 {
                    pairs.place(depth, child);
                    below(pairs, depth + 1, free & !(1 << j), nodes)?;
                } else {
                    *nodes += 1;
                }
            }
        }
        Continue(())
    }
    let mut nodes = 0;
    if let Ok(two) = read_two(f, g) {
        let [of_f, of_g] = lists(&two);
        for q in 0..2 {
            let mut pairs = Pairs::new(&of_f, &of_g, q);
            if pairs.root().is_some() { nodes += 1; continue; }
            if below(&mut pairs, 0, (0xFF >> (8 - two.n)) as u8, &mut nodes).is_break() { break; }
        }
    }
    nodes
}
