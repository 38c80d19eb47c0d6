//! The functions, claims and tables that both sides work on, made with fixed seeds.

pub mod tables;

use crate::plain;
use crate::plain::function::Cube;
use crate::plain::wiring::Wiring;

/// Several claims, for the checker.
pub struct Claims {
    pub name: String,
    pub claims: Vec<Claim>,
    /// How often they are run for one time taken.
    pub times: u32,
}

/// Two functions and a claim about them.
#[derive(Clone)]
pub struct Claim {
    pub f: Vec<u8>,
    pub g: Vec<u8>,
    pub claim: Vec<u8>,
}

impl Claims {
    /// The same claims, each changed.
    fn with(&self, what: &str, change: impl Fn(&mut Claim)) -> Claims {
        let name = format!("{}, {what}", self.name);
        let mut claims = self.claims.clone();
        claims.iter_mut().for_each(change);
        Claims { name, claims, times: self.times }
    }
}

/// Several pairs of functions, for the matcher.
pub struct Pairs {
    pub name: String,
    pub pairs: Vec<Pair>,
}

#[derive(Clone)]
pub struct Pair {
    pub f: Vec<u8>,
    pub g: Vec<u8>,
    /// The length of the claim.
    pub room: usize,
}

/// What is timed.
pub fn large_claims() -> Vec<Claims> {
    let deepest = Make { n: 7, cubes: 16, literals: 4, tree: Tree::Deepest };
    let own = Make { n: 6, cubes: 6, literals: 4, tree: Tree::Own };
    vec![
        deepest.refusal(1),
        own.refusal(10),
        matching(8, 64, 4, 1_000),
        disagreeing(8, 64, 4, 16, 100),
    ]
}

pub fn large_pairs() -> Vec<Pairs> {
    vec![
        pairs(4, 4, 3, 400),
        pairs(4, 8, 3, 400),
        pairs(5, 6, 3, 100),
        pairs(6, 6, 3, 30),
        pairs(7, 6, 3, 6),
        pairs(8, 16, 5, 1),
    ]
}

/// Small ones of every sort, whole, cut and with a byte changed; and those with the
/// functions' lists made to meet.
pub fn small_claims() -> Vec<Claims> {
    let mut claims = vec![];
    // Enough cubes that no wiring fits at one of the first seeds.
    for (n, cubes, literals) in [(3, 3, 2), (4, 8, 3), (5, 10, 3)] {
        for tree in [Tree::Own, Tree::Deepest] {
            claims.push(Make { n, cubes, literals, tree }.refusal(1));
        }
        claims.push(matching(n, cubes, literals, 1));
        claims.push(disagreeing(n, cubes, literals, 8, 1));
    }
    claims.push(disagreeing(8, 64, 4, 16, 1));
    let clashing: Vec<Claims> = claims.iter().flat_map(clashing).collect();
    claims.into_iter().flat_map(damaged).chain(clashing).collect()
}

pub fn small_pairs() -> Vec<Pairs> {
    vec![pairs(3, 2, 2, 20), pairs(4, 4, 3, 20), pairs(5, 6, 3, 10), pairs(6, 6, 3, 2)]
}

/// The claims, and the same cut or changed at the last byte.
fn damaged(input: Claims) -> [Claims; 3] {
    let cut = input.with("cut", |claim| claim.claim.truncate(claim.claim.len() - 1));
    let changed = input.with("changed", |claim| {
        *claim.claim.last_mut().expect("a claim has bytes") ^= 1;
    });
    [input, cut, changed]
}

/// The claims with an off cube in the place of the last on cube, of f and then of g.
fn clashing(input: &Claims) -> [Claims; 2] {
    let clash = |record: &mut [u8]| {
        let [on, off] = [3, 4].map(|place| record[place] as usize);
        let middle = 5 + 2 * (on + off / 2);
        record.copy_within(middle..middle + 2, 5 + 2 * (on - 1));
    };
    [
        input.with("f's lists meet", |claim| clash(&mut claim.f)),
        input.with("g's lists meet", |claim| clash(&mut claim.g)),
    ]
}

// ---- Pairs ----

/// So many pairs of random functions, with so many cubes in each list and so many
/// literals in each cube. Some match and some do not.
fn pairs(n: u8, cubes: usize, literals: u8, count: u64) -> Pairs {
    let pair = |seed| {
        let mut random = Random(seed);
        let [f, g] = [(); 2].map(|()| record(&function(&mut random, n, cubes, literals)));
        // Told where the buffer is too short.
        let room = (plain::find_match(&f, &g, &mut []) >> 24) as usize;
        Pair { f, g, room }
    };
    let pairs: Vec<Pair> = (1..=count).map(pair).collect();
    let matched = pairs.iter().filter(|pair| pair.room == 4 + n as usize).count();
    let name = format!("n {n}, {cubes} + {cubes} cubes, {matched} of {count} match");
    Pairs { name, pairs }
}

// ---- Refusals ----

#[derive(Clone, Copy)]
enum Tree {
    /// The matcher's own: the first dead pair closes, and a split only where none
    /// is dead.
    Own,
    /// Split wherever it may be, closed at depth n by some dead pair.
    Deepest,
}

/// A refusal of two random functions: their inputs, cubes in each list, literals
/// in each cube, and how the trees are made.
#[derive(Clone, Copy)]
struct Make {
    n: u8,
    cubes: usize,
    literals: u8,
    tree: Tree,
}

impl Make {
    fn refusal(self, times: u32) -> Claims {
        let Make { n, cubes, literals, tree } = self;
        let how = match tree {
            Tree::Own => "the matcher's own tree",
            Tree::Deepest => "split everywhere",
        };
        let name = format!("n {n}, {cubes} + {cubes} cubes, {how}");
        // Two functions that some wiring fits are passed over.
        for seed in 1.. {
            let mut random = Random(seed);
            let f = function(&mut random, n, cubes, literals);
            let g = function(&mut random, n, cubes, literals);
            if let Some(claim) = self.claim(&mut random, &f, &g) {
                let claim = Claim { f: record(&f), g: record(&g), claim };
                return Claims { name, claims: vec![claim], times };
            }
        }
        unreachable!("there are seeds enough")
    }

    fn claim(self, random: &mut Random, f: &Function, g: &Function) -> Option<Vec<u8>> {
        let mut claim = vec![0x52, 0x46, self.n];
        for kept_apart in [[(&f.on, &g.off), (&f.off, &g.on)], [(&f.on, &g.on), (&f.off, &g.off)]] {
            let mut pairs = vec![];
            for (s, (of_f, of_g)) in (0..).zip(kept_apart) {
                for (u, &one) in (0..).zip(of_f) {
                    pairs.extend((0..).zip(of_g).map(|(v, &other)| ([s, u, v], one, other)));
                }
            }
            self.put(random, &pairs, Wiring::new(self.n), &mut claim)?;
        }
        Some(claim)
    }

    /// Writes the tree below a wiring; nothing comes of it if a wiring agrees.
    fn put(
        self,
        random: &mut Random,
        pairs: &[([u8; 3], Cube, Cube)],
        wiring: Wiring,
        claim: &mut Vec<u8>,
    ) -> Option<()> {
        // The deepest tree starts its search anywhere: the cubes read should differ
        // from closing to closing.
        let from = match self.tree {
            Tree::Own => Some(0),
            Tree::Deepest => wiring.is_whole().then(|| random.below(pairs.len())),
        };
        let dead = from.and_then(|from| {
            let mut all = pairs[from..].iter().chain(&pairs[..from]);
            all.find(|(_, one, other)| wiring.dead(*one, *other))
        });
        if let Some((closing, ..)) = dead {
            claim.extend(closing);
            return Some(());
        }
        if wiring.is_whole() {
            return None;
        }
        claim.push(plain::SPLIT);
        for j in wiring.free() {
            for inverted in [false, true] {
                self.put(random, pairs, wiring.place(j, inverted), claim)?;
            }
        }
        Some(())
    }
}

// ---- Matches ----

/// A function and itself, straight.
fn matching(n: u8, cubes: usize, literals: u8, times: u32) -> Claims {
    let f = record(&function(&mut Random(1), n, cubes, literals));
    let mut claim = vec![0x4D, 0x54, n, 0];
    claim.extend(0..n);
    let name = format!("n {n}, {cubes} + {cubes} cubes, a match");
    Claims { name, claims: vec![Claim { g: f.clone(), f, claim }], times }
}

/// So many match claims of a function to its copy under a wiring, with one thing wrong
/// in the wiring: two inputs changed places, or an inversion. So only some pairs share a
/// pattern. The first of them does not have the smallest, and that is not 0.
fn disagreeing(n: u8, cubes: usize, literals: u8, count: usize, times: u32) -> Claims {
    let claim = |seed| {
        let mut random = Random(seed);
        let f = function(&mut random, n, cubes, literals);
        let (q, wiring) = any_wiring(&mut random, n);
        let carried = |list: &[Cube]| list.iter().map(|&cube| wiring.carry(cube)).collect();
        let (on, off) = (carried(&f.on), carried(&f.off));
        let g = if q == 0 { Function { n, on, off } } else { Function { n, on: off, off: on } };

        let mut claim = vec![0x4D, 0x54, n, q];
        claim.extend(wiring.bytes());
        let at = random.below(n.into());
        match seed % 2 {
            0 => claim[4 + at] ^= 0x10,
            _ => claim[4..].swap(at, (at + 1) % usize::from(n)),
        }
        let shared = shared(&f, &g, &claim);
        let smallest = shared.iter().min();
        let fits = smallest > Some(&0) && shared.first() > smallest;
        fits.then(|| Claim { f: record(&f), g: record(&g), claim })
    };
    let name = format!("n {n}, {cubes} + {cubes} cubes, {count} wrong wirings");
    Claims { name, claims: (1..).filter_map(claim).take(count).collect(), times }
}

/// q, and the inputs.
fn any_wiring(random: &mut Random, n: u8) -> (u8, Wiring) {
    let mut wiring = Wiring::new(n);
    while !wiring.is_whole() {
        let free: Vec<u8> = wiring.free().collect();
        wiring = wiring.place(free[random.below(free.len())], random.below(2) == 1);
    }
    (random.below(2) as u8, wiring)
}

/// Of each pair that is to be kept apart and is not, the smallest pattern, in order.
fn shared(f: &Function, g: &Function, claim: &[u8]) -> Vec<u8> {
    let wiring = claim[4..]
        .iter()
        .fold(Wiring::new(f.n), |wiring, byte| wiring.place(byte & 0x0F, byte & 0x10 != 0));
    let kept_apart = match claim[3] {
        0 => [(&f.on, &g.off), (&f.off, &g.on)],
        _ => [(&f.on, &g.on), (&f.off, &g.off)],
    };
    let mut shared = vec![];
    for (of_f, of_g) in kept_apart {
        for one in of_f.iter().map(|&one| wiring.carry(one)) {
            let sharing = of_g.iter().filter(|&&other| !one.apart(other));
            shared.extend(sharing.map(|other| one.p | other.p));
        }
    }
    shared
}

// ---- Functions ----

struct Function {
    n: u8,
    on: Vec<Cube>,
    off: Vec<Cube>,
}

fn function(random: &mut Random, n: u8, cubes: usize, literals: u8) -> Function {
    // The first cubes may leave no room for the last: then it starts anew.
    const TRIES: usize = 10_000;
    loop {
        let (mut on, mut off): (Vec<Cube>, Vec<Cube>) = (vec![], vec![]);
        for _ in 0..TRIES {
            if on.len() == cubes && off.len() == cubes {
                return Function { n, on, off };
            }
            let (list, other) =
                if on.len() <= off.len() { (&mut on, &off) } else { (&mut off, &on) };
            let next = cube(random, n, literals);
            if other.iter().all(|one| one.apart(next)) {
                list.push(next);
            }
        }
    }
}

fn cube(random: &mut Random, n: u8, literals: u8) -> Cube {
    let mut cube = Cube { p: 0, n: 0 };
    while cube.inputs().count_ones() < literals.into() {
        let bit = 1 << random.below(n.into());
        if cube.inputs() & bit == 0 {
            let side = if random.below(2) == 0 { &mut cube.p } else { &mut cube.n };
            *side |= bit;
        }
    }
    cube
}

fn record(f: &Function) -> Vec<u8> {
    let mut record = vec![0x46, 0x4E, f.n, f.on.len() as u8, f.off.len() as u8];
    record.extend(f.on.iter().chain(&f.off).flat_map(|cube| [cube.p, cube.n]));
    record
}

/// splitmix64: the same seed gives the same numbers everywhere.
struct Random(u64);

impl Random {
    fn below(&mut self, bound: usize) -> usize {
        self.0 = self.0.wrapping_add(0x9E37_79B9_7F4A_7C15);
        let mut z = self.0;
        z = (z ^ (z >> 30)).wrapping_mul(0xBF58_476D_1CE4_E5B9);
        z = (z ^ (z >> 27)).wrapping_mul(0x94D0_49BB_1331_11EB);
        ((z ^ (z >> 31)) % bound as u64) as usize
    }
}
