//! Claims taken apart to be shown: a match's wiring, a refusal's trees.
//!
//! Nothing here judges a claim. What the archive accepts is shown whole, what it
//! refuses up to the place that it names.

use crate::function::{values, Cube, Function, Value};
use crate::json::Object;
use crate::words::{count, number};

/// Which input of g serves an input of f.
#[derive(Clone, Copy, Debug, PartialEq, Eq)]
pub struct Choice {
    pub j: usize,
    pub inverted: bool,
}

impl Choice {
    pub fn of(byte: u8) -> Choice {
        Choice { j: (byte % 16) as usize, inverted: byte >= 16 }
    }

    /// The one at place k of the order.
    fn at(k: usize) -> Choice {
        Choice { j: k / 2, inverted: k % 2 == 1 }
    }

    pub fn words(self) -> String {
        format!("x{}{}", self.j, if self.inverted { " inverted" } else { "" })
    }
}

/// `x0 to x1`, `x1 to x0 inverted`: for each input of f the one of g.
fn served(choices: &[Choice]) -> Vec<String> {
    let choices = choices.iter().enumerate();
    choices.map(|(i, choice)| format!("x{i} to {}", choice.words())).collect()
}

// ---- Matches ----

/// A whole wiring.
pub struct Wiring {
    pub q: u8,
    pub choices: Vec<Choice>,
}

impl Wiring {
    /// Of an accepted match claim, or one that is refused by 14 alone.
    pub fn of(claim: &[u8]) -> Wiring {
        Wiring { q: claim[3], choices: claim[4..].iter().map(|&byte| Choice::of(byte)).collect() }
    }

    /// The pattern at which f is read where g has this one.
    pub fn read(&self, y: usize) -> usize {
        let bit = |choice: &Choice| (y >> choice.j & 1) ^ usize::from(choice.inverted);
        self.choices.iter().enumerate().map(|(i, choice)| bit(choice) << i).sum()
    }

    /// Both functions where g has this pattern.
    pub fn both(&self, f: &Function, g: &Function, y: usize) -> Both {
        let x = self.read(y);
        let value = f.value(x);
        let asked = if self.q == 1 { value.inverted() } else { value };
        Both { n: g.n, y, x, f: value, asked, g: g.value(y) }
    }

    /// A wire for each input, and one for the output.
    pub fn picture(&self) -> Vec<String> {
        let wire = |from: &str, to: &str, inverted| {
            let (line, word) =
                if inverted { ("──o──", "inverted") } else { ("─────", "") };
            format!("{from:6}  {line}  {to:6}  {word}").trim_end().to_string()
        };
        let inputs = self.choices.iter().enumerate();
        let inputs = inputs.map(|(i, c)| wire(&format!("x{i}"), &format!("x{}", c.j), c.inverted));
        let mut lines = vec![format!("{:6}  {:5}  {}", "f", "", "g")];
        lines.extend(inputs);
        lines.push(wire("output", "output", self.q == 1));
        lines
    }

    /// The same in one line.
    pub fn line(&self) -> String {
        let mut words = served(&self.choices);
        if self.q == 1 {
            words.push("output inverted".to_string());
        }
        words.join(", ")
    }
}

/// Two functions at a pattern of g, and at that of f where the wiring reads it.
pub struct Both {
    n: usize,
    pub y: usize,
    pub x: usize,
    pub f: Value,
    /// What f asks of g: its own value, inverted if q = 1.
    pub asked: Value,
    pub g: Value,
}

impl Both {
    pub fn are_specified(&self) -> bool {
        self.f != Value::Open && self.g != Value::Open
    }

    pub fn disagree(&self) -> bool {
        self.are_specified() && self.asked != self.g
    }

    /// Where they disagree, and what is wrong there.
    pub fn disagreement(&self) -> [String; 3] {
        let Both { n, y, x, f, g, .. } = *self;
        // Two that disagree are the same only where one of them is inverted.
        let wrong = if f == g {
            format!("both are {}; with the output inverted they should differ", f.word())
        } else {
            let (f, g) = (f.word(), g.word());
            format!("f is {f} and g is {g}; with the output plain they should be alike")
        };
        [
            format!("g's inputs {}: pattern {y} of g", values(y, n)),
            format!("f's inputs {} through the wiring: pattern {x} of f", values(x, n)),
            format!("there {wrong}"),
        ]
    }

    pub fn object(&self) -> String {
        let object = Object::inner().number("g_at", self.y).number("f_at", self.x);
        let values = [("f", self.f), ("asks", self.asked), ("g", self.g)];
        let with =
            |o: Object, (name, value): (&str, Value)| o.text(name, &value.sign().to_string());
        values.into_iter().fold(object, with).end()
    }
}

// ---- Refusals ----

/// The choices for inputs 0 to depth - 1, by value: a long refusal has millions.
#[derive(Clone, Copy, Debug)]
pub struct Path {
    choices: [Choice; 8],
    depth: usize,
}

impl Path {
    const ROOT: Path = Path { choices: [Choice { j: 0, inverted: false }; 8], depth: 0 };

    pub fn choices(&self) -> &[Choice] {
        &self.choices[..self.depth]
    }

    /// With each free choice for the next input, in order.
    fn children(self, n: usize) -> impl Iterator<Item = Path> {
        let used: usize = self.choices().iter().map(|choice| 1 << choice.j).sum();
        let free = move |choice: &Choice| used >> choice.j & 1 == 0;
        (0..2 * n).map(Choice::at).filter(free).map(move |choice| {
            let mut child = self;
            child.choices[self.depth] = choice;
            child.depth += 1;
            child
        })
    }
}

/// A node of a tree, as its bytes have it.
#[derive(Clone, Copy, Debug)]
pub struct Node {
    pub q: u8,
    pub place: usize,
    pub path: Path,
    pub what: What,
}

#[derive(Clone, Copy, Debug, PartialEq, Eq)]
pub enum What {
    Closing {
        s: u8,
        u: usize,
        v: usize,
    },
    Split,
    /// Here the archive found the fault.
    Fault,
}

impl Node {
    pub fn depth(&self) -> usize {
        self.path.depth
    }

    /// `x0 to x1, x1 to x0 inverted`.
    pub fn way(&self) -> String {
        served(self.path.choices()).join(", ")
    }
}

/// How many nodes and closings there are at each depth.
#[derive(Clone, Copy, Debug, Default, PartialEq, Eq)]
pub struct Counts {
    pub nodes: [usize; 9],
    pub closings: [usize; 9],
}

impl Counts {
    fn add(&mut self, node: &Node) {
        self.nodes[node.depth()] += 1;
        self.closings[node.depth()] += usize::from(matches!(node.what, What::Closing { .. }));
    }

    pub fn all(&self) -> (usize, usize) {
        (self.nodes.iter().sum(), self.closings.iter().sum())
    }

    pub fn deepest(&self) -> usize {
        self.nodes.iter().rposition(|&nodes| nodes > 0).unwrap_or(0)
    }
}

/// `29 bytes, 8 closings and 2 splits`: of an accepted refusal.
pub fn measure(claim: &[u8]) -> String {
    let both = Walk::new(claim, claim.len()).both(&mut |_| ()).map(|tree| tree.all());
    let (nodes, closings) = (both[0].0 + both[1].0, both[0].1 + both[1].1);
    let bytes = count(claim.len(), "byte");
    format!("{bytes}, {} and {}", count(closings, "closing"), count(nodes - closings, "split"))
}

/// A walk through the trees' bytes in order.
pub struct Walk<'a> {
    claim: &'a [u8],
    n: usize,
    /// The place of the fault, or the claim's end.
    stop: usize,
}

impl<'a> Walk<'a> {
    /// Of a claim whose header is right; up to a place.
    pub fn new(claim: &'a [u8], stop: usize) -> Walk<'a> {
        Walk { claim, n: claim[2] as usize, stop }
    }

    /// Both trees, q = 0 and q = 1, each node shown before those below it.
    pub fn both(&self, show: &mut impl FnMut(&Node)) -> [Counts; 2] {
        let mut counts = [Counts::default(); 2];
        let mut after = Some(3);
        for q in 0..2 {
            if let Some(place) = after {
                let root = self.node(q, place, Path::ROOT);
                after = self.tree(&root, &mut counts[q as usize], show);
            }
        }
        counts
    }

    /// What stands at a place.
    fn node(&self, q: u8, place: usize, path: Path) -> Node {
        let what = match self.claim[place.min(self.claim.len())..] {
            [0xFF, ..] if self.stop != place => What::Split,
            [s @ 0..=1, u, v, ..] if !(place..place + 3).contains(&self.stop) => {
                What::Closing { s, u: u as usize, v: v as usize }
            }
            _ => What::Fault,
        };
        Node { q, place, path, what }
    }

    /// The place after a tree, or nothing where the fault came before it.
    fn tree(
        &self,
        node: &Node,
        counts: &mut Counts,
        show: &mut impl FnMut(&Node),
    ) -> Option<usize> {
        show(node);
        match node.what {
            What::Fault => None,
            What::Closing { .. } => {
                counts.add(node);
                Some(node.place + 3)
            }
            What::Split => {
                counts.add(node);
                let mut after = node.place + 1;
                for child in node.path.children(self.n) {
                    after = self.tree(&self.node(node.q, after, child), counts, show)?;
                }
                Some(after)
            }
        }
    }

    /// How many nodes and closings lie below a split.
    pub fn below(&self, node: &Node) -> (usize, usize) {
        let mut counts = Counts::default();
        self.tree(node, &mut counts, &mut |_| ());
        let (nodes, closings) = counts.all();
        (nodes - 1, closings)
    }
}

/// The two cubes of a closing, and their names: of f, and of g.
pub struct Pair {
    f: Cube,
    g: Cube,
    words: [String; 2],
}

impl Pair {
    pub fn of(f: &Function, g: &Function, q: u8, s: u8, u: usize, v: usize) -> Pair {
        // What f is on for must be kept apart from what g is off for, or on for if q = 1.
        let other = if q == 0 { 1 - s } else { s };
        let (cube_f, cube_g) = (f.list(s)[u], g.list(other)[v]);
        let name = |s, at, who, cube: Cube| {
            let list = if s == 0 { "on" } else { "off" };
            format!("{list} cube {at} of {who}, {}", cube.product())
        };
        let words = [name(s, u, "f", cube_f), name(other, v, "g", cube_g)];
        Pair { f: cube_f, g: cube_g, words }
    }

    /// Why no choice for the inputs that are left can keep the two apart: worked out
    /// here for its words alone.
    pub fn reason(&self, choices: &[Choice]) -> String {
        let [f, g] = &self.words;
        let placed = (1u16 << choices.len()) - 1;
        let used: u16 = choices.iter().map(|choice| 1 << choice.j).sum();
        let why = if self.f.named() as u16 & !placed == 0 {
            "no literal of f's cube is left to place"
        } else if self.g.named() as u16 & !used == 0 {
            "no literal of g's cube is on a free input"
        } else {
            "as the archive says"
        };
        format!("{f}, and {g}, can no longer be kept apart ({why})")
    }

    pub fn names(&self) -> &[String; 2] {
        &self.words
    }
}

/// `12 nodes below, 10 of them closings`.
pub fn below_words((nodes, closings): (usize, usize)) -> String {
    format!("{} below, {} of them closings", count(nodes, "node"), number(closings))
}

#[cfg(test)]
mod tests {
    use super::*;
    use crate::function::lists;

    fn function(record: &[u8]) -> Function {
        let [on, off] = lists(record);
        let n = record[2] as usize;
        Function { n, on, off, on_patterns: 0, off_patterns: 0, in_use: 0 }
    }

    /// The one pattern of g at which they disagree.
    fn only(f: &[u8], g: &[u8], claim: &[u8]) -> Both {
        let [f, g] = [f, g].map(function);
        let all = (0..g.patterns()).map(|y| Wiring::of(claim).both(&f, &g, y));
        let mut all: Vec<Both> = all.filter(Both::disagree).collect();
        assert_eq!(all.len(), 1);
        all.remove(0)
    }

    /// A multiplexor: x0 while x2 is 0, x1 while x2 is 1.
    const MUX: &[u8] = &[0x46, 0x4E, 3, 2, 2, 1, 4, 6, 0, 0, 5, 4, 2];

    /// x0 is y2, x1 is y0, x2 is y1. At y = 6, y1 and y2 are 1, so x0 and x2 are, and x = 5:
    /// there x2 selects x1, which is 0, so f is off. g, y0·y1 or y2, is on. By the table of
    /// FORMATS.md, section 4, they agree at the others.
    #[test]
    fn a_disagreement_with_the_output_plain() {
        let and_or = [0x46, 0x4E, 3, 2, 2, 3, 0, 4, 0, 0, 5, 0, 6];
        let both = only(MUX, &and_or, &[0x4D, 0x54, 3, 0, 2, 0, 1]);
        assert_eq!(
            both.disagreement(),
            [
                "g's inputs x0 = 0, x1 = 1, x2 = 1: pattern 6 of g",
                "f's inputs x0 = 1, x1 = 0, x2 = 1 through the wiring: pattern 5 of f",
                "there f is off and g is on; with the output plain they should be alike",
            ]
        );
        assert_eq!(both.object(), r#"{"g_at":6,"f_at":5,"f":"0","asks":"0","g":"1"}"#);
    }

    /// g is that of above, inverted, and so is its y1: off for y0·y1' and for y2. x2 is y1
    /// inverted. At y = 4 y2 alone is 1, so that x0 and x2 are, and x = 5.
    #[test]
    fn a_disagreement_with_the_output_inverted() {
        let g = [0x46, 0x4E, 3, 2, 2, 0, 5, 2, 4, 1, 2, 4, 0];
        let both = only(MUX, &g, &[0x4D, 0x54, 3, 1, 2, 0, 0x11]);
        assert_eq!(
            both.disagreement(),
            [
                "g's inputs x0 = 0, x1 = 0, x2 = 1: pattern 4 of g",
                "f's inputs x0 = 1, x1 = 0, x2 = 1 through the wiring: pattern 5 of f",
                "there both are off; with the output inverted they should differ",
            ]
        );
        assert_eq!(both.object(), r#"{"g_at":4,"f_at":5,"f":"0","asks":"1","g":"0"}"#);
    }

    /// Where one of them is open they agree.
    #[test]
    fn no_disagreement_where_one_is_open() {
        let [wire, open] = [&[0x46, 0x4E, 1, 1, 1, 1, 0, 0, 1][..], &[0x46, 0x4E, 1, 0, 0]];
        let [wire, open] = [wire, open].map(function);
        for q in 0..2 {
            let wiring = Wiring::of(&[0x4D, 0x54, 1, q, 0]);
            for y in 0..2 {
                assert!(!wiring.both(&wire, &open, y).disagree());
                assert!(!wiring.both(&open, &wire, y).disagree());
            }
        }
    }
}
