//! `zap check` and `zap explain`, on the claims that the checker is tested with.

use std::cell::RefCell;
use std::collections::BTreeMap;
use std::rc::Rc;

use zap_tests::calls;
use zap_tests::claims::sweeps::{self, Sweep};
use zap_tests::claims::Trial;
use zap_tests::command::Folder;
use zap_tests::json::Json;
use zap_tests::matches::wiring_of;
use zap_tests::reference::agreement::read_at;
use zap_tests::reference::answer::{Answer, MATCH, NO_MATCH, OF_CLAIM};
use zap_tests::reference::checker::check;
use zap_tests::reference::pair::{asks, Pair};
use zap_tests::reference::pattern::patterns;
use zap_tests::reference::two::{two, Two};
use zap_tests::reference::wiring::{Partial, Wiring};
use zap_tests::tally::{self, Tally};

use crate::matched::{picture, read_picture};
use crate::{
    answer_of, answered, choice_words, counted, forms, in_form, inputs_at, numbers, object,
    product, sign, thousands,
};

/// The nodes of a refusal's trees that end before a place, by section 6 of FORMATS.md.
struct Reading {
    nodes: Vec<Node>,
    /// The one that does not, if there is one: its q, its place, its way.
    broken: Option<(bool, usize, Partial)>,
}

struct Node {
    q: bool,
    place: usize,
    way: Partial,
    closing: Option<Pair>,
}

impl Node {
    fn depth(&self) -> usize {
        self.way.placed.len()
    }
}

impl Reading {
    /// Of a claim whose header is right, up to a fault or the end.
    fn of(claim: &[u8], end: usize) -> Reading {
        let mut reading = Reading { nodes: vec![], broken: None };
        let mut place = 3;
        for q in [false, true] {
            let root = Partial::empty(claim[2] as usize);
            if reading.broken.is_none() {
                place = reading.tree(&claim[..end], q, place, root);
            }
        }
        reading
    }

    /// The place after a tree.
    fn tree(&mut self, bytes: &[u8], q: bool, place: usize, way: Partial) -> usize {
        match bytes[place..] {
            [0xFF, ..] => {
                let mut after = place + 1;
                self.nodes.push(Node { q, place, way: way.clone(), closing: None });
                for choice in way.free() {
                    if self.broken.is_none() {
                        after = self.tree(bytes, q, after, way.with(choice));
                    }
                }
                after
            }
            [s, u, v, ..] => {
                let [s, u, v] = [s, u, v].map(usize::from);
                self.nodes.push(Node { q, place, way, closing: Some(Pair { s, u, v }) });
                place + 3
            }
            _ => {
                self.broken = Some((q, place, way));
                place
            }
        }
    }

    /// Nodes and closings at each depth of the tree for q, as deep as there are any.
    fn depths(&self, q: bool) -> Vec<[u64; 2]> {
        let mut depths = vec![];
        for node in self.nodes.iter().filter(|node| node.q == q) {
            if node.depth() >= depths.len() {
                depths.resize(node.depth() + 1, [0, 0]);
            }
            depths[node.depth()][0] += 1;
            depths[node.depth()][1] += node.closing.is_some() as u64;
        }
        depths
    }

    /// How many nodes and closings lie below the node at an index.
    fn below(&self, at: usize) -> [usize; 2] {
        let top = &self.nodes[at];
        let inside = |node: &&Node| node.q == top.q && node.depth() > top.depth();
        let below: Vec<&Node> = self.nodes[at + 1..].iter().take_while(inside).collect();
        [below.len(), below.iter().filter(|node| node.closing.is_some()).count()]
    }
}

/// The two cubes of a closing in words.
fn cubes_in_words(two: &Two, q: bool, pair: Pair) -> [String; 2] {
    let (of_f, of_g) = two.cubes(q, pair).expect("both are in their lists");
    let list = |on: bool| if on { "on" } else { "off" };
    // With q = 1 on goes with on, and off with off.
    let (f_on, g_on) = (pair.s == 0, (pair.s == 0) == q);
    [
        format!("{} cube {} of f, {}", list(f_on), pair.u, product(of_f)),
        format!("{} cube {} of g, {}", list(g_on), pair.v, product(of_g)),
    ]
}

/// The command in the place of the checker's call, for some of the claims of a sweep:
/// the first of each sort, and one of many after that.
pub struct Runs {
    folder: Folder,
    seen: RefCell<BTreeMap<[u64; 5], usize>>,
    tally: RefCell<Tally>,
}

/// The lines of the tally: all answers, and what was explained of which.
const CHECKED: &str = "zap check and explain, by code";
const KINDS: &str = "zap check and explain, accepted, by kind";
const PATTERNS: &str = "zap explain, patterns shown, by code";
const DISAGREE: &str = "zap check and explain, where they disagree, by q";
const APART: &str = "zap check and explain, where they disagree at patterns apart";
const TREES: &str = "zap explain, trees shown, by code";
const DEEPEST: &str = "zap explain, trees shown, by depth";

/// So many come first.
const FIRST: usize = 2;

/// After them it is one of so many: of fewer where there is more to be shown.
fn of_many(code: u64) -> usize {
    match code {
        0 | 14 | 17 => 151,
        _ => 1_001,
    }
}

impl Runs {
    fn of(sweep: Sweep) -> Result<Tally, String> {
        let folder = Folder::new();
        let runs = Rc::new(Runs { folder, seen: RefCell::default(), tally: RefCell::default() });
        let call = Rc::clone(&runs);
        sweep(&mut Trial::new(move |f, g, claim| call.answer(f, g, claim)))?;
        let tally = runs.tally.borrow().clone();
        Ok(tally)
    }

    /// The packed answer: the command's own where it is run.
    fn answer(&self, f: &[u8], g: &[u8], claim: &[u8]) -> u64 {
        let quick = calls::check(f, g, claim);
        let Answer { code, kind, record, .. } = Answer::unpacked(quick);
        let n = f.get(2).map_or(0, |&n| n as u64);
        let mark = [0x4D, 0x52].iter().position(|mark| claim.first() == Some(mark));
        let sort = [code, kind, record, n, mark.map_or(2, |mark| mark as u64)];
        let mut seen = self.seen.borrow_mut();
        let count = seen.entry(sort).or_insert(0);
        *count += 1;
        if *count <= FIRST || *count % of_many(code) == 0 {
            self.run(f, g, claim, *count).packed()
        } else {
            quick
        }
    }

    /// Runs `check` and `explain`, both for a person and for a script. What they add to
    /// the answer is compared here; the answer itself is for the trial.
    fn run(&self, f: &[u8], g: &[u8], claim: &[u8], count: usize) -> Answer {
        for (at, (name, bytes)) in [("f", f), ("g", g), ("claim", claim)].into_iter().enumerate() {
            let forms = forms(bytes);
            self.folder.write(name, in_form(bytes, forms[(count + at) % forms.len()]));
        }
        let want = check(f, g, claim).answer;
        let status = match (want.code, want.record) {
            (0, _) => 0,
            (_, OF_CLAIM) => 1,
            _ => 2,
        };
        // All of these depths come.
        let depth = count % 4;
        let explained = format!("explain f g claim --depth {depth}");
        let [checked, told] = ["check f g claim", &explained].map(|words| {
            let [text, json] =
                ["", " --json"].map(|more| self.folder.zap(&format!("{words}{more}")));
            answered(&text, status);
            answered(&json, status);
            assert!(text.out.contains(&numbers(want)), "{}", text.out);
            (text.out, object(&json))
        });
        let answer = answer_of(&checked.1);
        assert_eq!(answer_of(&told.1), answer, "{explained}");
        let mut tally = self.tally.borrow_mut();
        tally.add(CHECKED, want.code);
        if want.code == 0 {
            tally.add(KINDS, want.kind);
        }
        for (_, object) in [&checked, &told] {
            let result = match (want.code, want.kind) {
                (0, MATCH) => "match accepted",
                (0, _) => "refusal accepted",
                _ => "refused",
            };
            assert_eq!(object.text("result"), result);
            assert_eq!(object.get("disagreement").is_some(), want.code == 14, "{explained}");
        }

        // A wiring that is whole is shown by its patterns, a refusal by its trees, once
        // the header is past; other claims by their bytes.
        let is_match = claim.first() == Some(&0x4D);
        let whole = want.code == 0 || want.code == 14;
        let body = status < 2 && (whole || want.place >= 3);
        assert_eq!(told.1.get("patterns").is_some(), body && is_match && whole, "{explained}");
        assert_eq!(told.1.get("depths").is_some(), body && !is_match, "{explained}");
        assert_eq!(told.1.get("nodes").is_some(), body && !is_match, "{explained}");
        if !body {
            return answer;
        }
        let two = two(f, g).expect("neither is refused");
        if !is_match {
            let end = if want.code == 0 { claim.len() } else { want.place as usize };
            let reading = Reading::of(claim, end);
            // After both trees there is no node to be at fault.
            assert_eq!(reading.broken.is_some(), want.code != 0 && want.code != 8);
            expect_trees(&two, &reading, depth, &told.1);
            expect_outline(&two, &reading, depth, &told.0);
            if want.code == 0 {
                expect_measure(&reading, claim.len(), &checked.0);
            }
            tally.add(TREES, want.code);
            let depths = [false, true].map(|q| reading.depths(q).len());
            tally.add(DEEPEST, depths[0].max(depths[1]).saturating_sub(1) as u64);
        } else if whole {
            let wiring = wiring_of(claim);
            expect_patterns(&two, &wiring, &told.0, &told.1);
            tally.add(PATTERNS, want.code);
            if want.code == 14 {
                let row = row(&two, &wiring, want.pattern as usize);
                expect_disagreement(two.n(), row, &checked.0, &checked.1);
                expect_disagreement(two.n(), row, &told.0, &told.1);
                tally.add(DISAGREE, wiring.q as u64);
                // A pattern of f in the place of g's would be seen.
                tally.add(APART, (row.0 != row.1) as u64);
            }
        }
        answer
    }
}

/// A pattern of g, that of f, f's value, what it asks of g, and g's value.
type Row = (usize, usize, char, char, char);

fn row(two: &Two, wiring: &Wiring, y: usize) -> Row {
    let x = read_at(&wiring.inputs, y);
    let f = sign(&two.f, x);
    let asks = match (f, wiring.q) {
        ('1', true) => '0',
        ('0', true) => '1',
        _ => f,
    };
    (y, x, f, asks, sign(&two.g, y))
}

fn read_row(object: &Json) -> Row {
    let [y, x] = ["g_at", "f_at"].map(|name| object.number(name) as usize);
    let [f, asks, g] = ["f", "asks", "g"].map(|name| object.text(name).parse().expect("a sign"));
    (y, x, f, asks, g)
}

/// Where the two disagree, in words and in an object.
fn expect_disagreement(n: usize, row: Row, text: &str, object: &Json) {
    let (y, x, f, asks, g) = row;
    assert_ne!(asks, g, "{row:?}");
    let word = |sign| match sign {
        '1' => "on",
        '0' => "off",
        _ => panic!("{row:?}: one is open"),
    };
    let there = match (word(f), word(g)) {
        (f, g) if f == g => format!("both are {f}; with the output inverted they should differ"),
        (f, g) => format!("f is {f} and g is {g}; with the output plain they should be alike"),
    };
    let lines = [
        format!("  g's inputs {}: pattern {y} of g", inputs_at(y, n)),
        format!("  f's inputs {} through the wiring: pattern {x} of f", inputs_at(x, n)),
        format!("  there {there}"),
    ];
    assert_eq!(text.split("\n\n").nth(1), Some(&lines.join("\n")[..]), "{text}");
    assert_eq!(read_row(object.get("disagreement").expect("told")), row);
}

/// The patterns that both specify, each with what f asks of g there.
fn expect_patterns(two: &Two, wiring: &Wiring, text: &str, object: &Json) {
    let mut rows: Vec<Row> = patterns(two.n()).map(|y| row(two, wiring, y)).collect();
    rows.retain(|&(_, _, f, _, g)| f != '-' && g != '-');
    assert_eq!(object.list("patterns").iter().map(read_row).collect::<Vec<Row>>(), rows);

    // The same in the text, with the patterns in binary beside them.
    let n = two.n();
    let of = format!("specify {} of {}:", rows.len(), counted(1 << n, "pattern"));
    let (before, table) = text.split_once(&of).unwrap_or_else(|| panic!("no {of}: {text}"));
    assert_eq!(read_picture(before), picture(wiring));
    let lines = table.lines().map(|line| line.split_whitespace().collect::<Vec<_>>().join(" "));
    let lines = lines.filter(|line| line.starts_with(|c: char| c.is_ascii_digit()));
    let expected = rows.iter().map(|&(y, x, f, asks, g)| {
        let differ = if asks == g { "" } else { " <- they disagree" };
        format!("{y} {y:0n$b} {x} {x:0n$b} {f} {asks} {g}{differ}")
    });
    assert!(lines.eq(expected), "{text}");
}

/// The nodes down to a depth, and how many there are at each.
fn expect_trees(two: &Two, reading: &Reading, depth: usize, object: &Json) {
    let mut depths = vec![];
    for q in [false, true] {
        for (depth, [nodes, closings]) in reading.depths(q).into_iter().enumerate() {
            depths.push([q as u64, depth as u64, nodes, closings]);
        }
    }
    let names = ["q", "depth", "nodes", "closings"];
    let listed = object.list("depths").iter().map(|row| names.map(|name| row.number(name)));
    assert_eq!(listed.collect::<Vec<_>>(), depths);

    let shown = reading.nodes.iter().filter(|node| node.depth() <= depth);
    let mut nodes: Vec<(bool, usize, &Partial, &str, Option<[String; 2]>)> = shown
        .map(|node| {
            let words = node.closing.map(|pair| cubes_in_words(two, node.q, pair));
            let what = if words.is_some() { "closing" } else { "split" };
            (node.q, node.place, &node.way, what, words)
        })
        .collect();
    // The one at fault comes last, however deep it is.
    if let Some((q, place, way)) = &reading.broken {
        nodes.push((*q, *place, way, "fault", None));
    }
    let listed = object.list("nodes");
    assert_eq!(listed.len(), nodes.len(), "{object:?}");
    for (row, (q, place, way, what, words)) in listed.iter().zip(nodes) {
        assert_eq!([row.number("q"), row.number("place")], [q as u64, place as u64]);
        let choices: Vec<String> = way.placed.iter().map(choice_words).collect();
        assert_eq!(row.texts("choices"), choices);
        assert_eq!(row.text("node"), what);
        match words {
            Some(words) => assert_eq!([row.text("f"), row.text("g")], words),
            None => assert_eq!((row.get("f"), row.get("g")), (None, None)),
        }
    }
}

/// The outline's closings with their reasons, what lies below the splits that it does
/// not go into, and the table of depths.
fn expect_outline(two: &Two, reading: &Reading, depth: usize, text: &str) {
    let lines_with =
        |part: &str| -> Vec<&str> { text.lines().filter(|line| line.contains(part)).collect() };
    let shown = reading.nodes.iter().filter(|node| node.depth() <= depth);
    let closings: Vec<(&Node, Pair)> =
        shown.filter_map(|node| Some((node, node.closing?))).collect();
    let lines = lines_with("can no longer be kept apart");
    assert_eq!(lines.len(), closings.len(), "{text}");
    for (line, (node, pair)) in lines.into_iter().zip(closings) {
        if let Some(choice) = node.way.placed.last() {
            let way = format!("x{} to {}: ", node.depth() - 1, choice_words(choice));
            assert!(line.trim_start().starts_with(&way), "{line}");
        }
        let words = cubes_in_words(two, node.q, pair);
        assert!(words.iter().all(|words| line.contains(&words[..])), "{line}: {words:?}");
        // The reason that is told is true.
        let (of_f, of_g) = two.cubes(node.q, pair).expect("both are in their lists");
        let no_unplaced = (node.depth()..two.n()).all(|i| asks(of_f, i).is_none());
        let no_unused = (0..two.n()).all(|j| node.way.uses(j) || asks(of_g, j).is_none());
        let by_f = line.ends_with("(no literal of f's cube is left to place)");
        let by_g = line.ends_with("(no literal of g's cube is on a free input)");
        assert!(by_f && no_unplaced || by_g && no_unused, "{line}");
    }

    let lines = lines_with(" below, ");
    let mut closed = vec![];
    for (at, node) in reading.nodes.iter().enumerate() {
        if node.depth() == depth && node.closing.is_none() {
            let [nodes, closings] = reading.below(at);
            let (nodes, closings) = (counted(nodes, "node"), thousands(closings));
            closed.push(format!("{nodes} below, {closings} of them closings"));
        }
    }
    assert_eq!(lines.len(), closed.len(), "{text}");
    assert!(lines.iter().zip(&closed).all(|(line, below)| line.ends_with(&below[..])), "{text}");

    let trees = [false, true].map(|q| reading.depths(q));
    let deepest = trees[0].len().max(trees[1].len()).max(1);
    let at = |depth| trees.each_ref().map(|tree| tree.get(depth).copied().unwrap_or([0, 0]));
    let mut rows: Vec<Vec<u64>> = (0..deepest).map(|depth| at(depth).concat()).collect();
    rows.push((0..4).map(|column| rows.iter().map(|row| row[column]).sum()).collect());
    let (_, table) = text.split_once("  depth  ").expect("a table");
    let lines = table.lines().skip(1).take_while(|line| !line.is_empty());
    let number = |word: &str| word.replace(',', "").parse().expect("a number");
    let read = lines.map(|line| line.split_whitespace().skip(1).map(number).collect());
    assert_eq!(read.collect::<Vec<Vec<u64>>>(), rows, "{text}");
}

/// `29 bytes, 8 closings and 2 splits`.
fn expect_measure(reading: &Reading, length: usize, text: &str) {
    let closings = reading.nodes.iter().filter(|node| node.closing.is_some()).count();
    let splits = counted(reading.nodes.len() - closings, "split");
    let (bytes, closings) = (counted(length, "byte"), counted(closings, "closing"));
    assert!(text.contains(&format!("{bytes}, {closings} and {splits}")), "{text}");
}

#[test]
fn claims_are_checked_and_explained_as_by_the_reference() {
    let tally = tally::of_all(sweeps::ALL.map(|sweep| move || Runs::of(sweep)));
    let wanted: [(_, &[u64]); 7] = [
        (CHECKED, &[0, 1, 2, 3, 4, 5, 6, 7, 8, 9, 10, 11, 12, 13, 14, 15, 16, 17]),
        (KINDS, &[MATCH, NO_MATCH]),
        (PATTERNS, &[0, 14]),
        (DISAGREE, &[0, 1]),
        (APART, &[0, 1]),
        (TREES, &[0, 1, 8, 15, 16, 17]),
        (DEEPEST, &[0, 1, 2, 3, 4]),
    ];
    tally.require(&wanted, 5);
}
