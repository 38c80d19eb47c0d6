//! `zap explain`: what a claim says, in words.

use zap_calls::Answer;

use super::{check, indented, take_three, Verb};
use crate::args::{Args, Opt};
use crate::claim::{below_words, Both, Choice, Counts, Node, Pair, Walk, What, Wiring};
use crate::function::{bits, Function, Value};
use crate::json::{quoted, Object};
use crate::output::{trouble, Colour, Out, Trouble};
use crate::words::{self, count, hex, number};
use crate::{refusal, Status};

const DEPTH: Opt = Opt {
    long: "--depth",
    short: None,
    value: Some("N"),
    about: "how deep a refusal's trees are shown (default 2)",
};

pub const VERB: Verb = Verb {
    name: "explain",
    usage: "F G CLAIM [--depth N]",
    about: "tells in words what a claim says, and why it is refused",
    options: &[&DEPTH],
    more: "\
Of a match: which input of g serves which input of f, and the patterns that both functions specify. Of a refusal: its
trees as an outline, with the reason of each closing, and the number of nodes and closings at each depth. A claim that
is refused is shown up to the byte at fault.
",
    run,
};

fn run(args: &Args, out: &mut Out) -> Result<Status, Trouble> {
    let depth = match args.value(&DEPTH).map(|value| value.to_string_lossy().parse::<usize>()) {
        None => 2,
        Some(Ok(depth)) => depth,
        Some(Err(_)) => return trouble("--depth wants a number"),
    };
    let [f, g, claim] = take_three(args, &VERB)?;
    let (answer, status) = check::asked(&f, &g, &claim);
    let parts = [&f, &g, &claim];
    let shown = match (Function::of(&f).1, Function::of(&g).1) {
        (Some(f), Some(g)) if status != Status::Trouble => {
            Some(Shown { f, g, claim: &claim.bytes, answer, depth })
        }
        _ => None,
    };
    if args.json() {
        let object = check::object(VERB.name, answer, &parts);
        let object = match shown {
            Some(shown) => shown.object(object, out)?,
            None => object,
        };
        out.line(&object.end());
        return Ok(status);
    }
    match answer.code {
        0 => check::verdict(out, answer, &claim.bytes),
        _ => refusal::show(out, answer, &parts),
    }
    if let Some(shown) = shown {
        shown.text(out)?;
    }
    if answer.code == 0 {
        out.line("");
        refusal::numbers(out, answer);
    }
    Ok(status)
}

/// Two accepted functions with as many inputs, and a claim about them.
struct Shown<'a> {
    f: Function,
    g: Function,
    claim: &'a [u8],
    answer: Answer,
    depth: usize,
}

impl Shown<'_> {
    /// The place of the fault, or the claim's end.
    fn stop(&self) -> usize {
        match self.answer.code {
            0 => self.claim.len(),
            _ => self.answer.place as usize,
        }
    }

    fn is_match(&self) -> bool {
        self.claim[0] == b'M'
    }

    /// The wiring is whole: the claim is accepted, or refused by 14 alone.
    fn is_whole(&self) -> bool {
        self.answer.code == 0 || self.answer.code == 14
    }

    /// Its header is right, and what follows is worth showing.
    fn has_body(&self) -> bool {
        self.is_whole() || self.answer.place >= 3
    }

    fn text(&self, out: &mut Out) -> Result<(), Trouble> {
        if !self.has_body() {
            return Ok(());
        }
        out.line("");
        if !self.is_match() {
            self.outline(out);
        } else if self.is_whole() {
            let wiring = Wiring::of(self.claim);
            indented(out, &wiring.picture());
            out.line("");
            self.patterns(&wiring, out)?;
        } else {
            self.bytes(out);
        }
        Ok(())
    }

    // ---- Matches ----

    /// What both specify: g's pattern, f's, what f asks of g, and what g gives.
    fn both_specify(&self, wiring: &Wiring) -> Result<Vec<Both>, Trouble> {
        let all = (0..self.g.patterns()).map(|y| wiring.both(&self.f, &self.g, y));
        let rows: Vec<Both> = all.filter(Both::are_specified).collect();
        // The archive decides; the table only shows what it says.
        let told = (self.answer.code == 14).then_some(self.answer.pattern as usize);
        if rows.iter().find(|row| row.disagree()).map(|row| row.y) != told {
            return trouble("the table of patterns and the archive's answer differ");
        }
        Ok(rows)
    }

    fn patterns(&self, wiring: &Wiring, out: &mut Out) -> Result<(), Trouble> {
        let rows = self.both_specify(wiring)?;
        let n = self.g.n;
        let of = format!("{} of {}", rows.len(), count(self.g.patterns(), "pattern"));
        out.line(&format!("both functions specify {of}:"));
        if rows.is_empty() {
            return Ok(());
        }
        out.line("");
        let wide = n.max(4);
        out.line(&format!("    g at  {:wide$}    f at  {:wide$}    f  asks  g", "", ""));
        for row in rows {
            let Both { y, x, f, asked, g, .. } = row;
            let [f, asked, g] = [f, asked, g].map(Value::sign);
            let line = format!(
                "    {y:>4}  {:wide$}    {x:>4}  {:wide$}    {f}   {asked}    {g}",
                bits(y, n),
                bits(x, n)
            );
            out.line(&match row.disagree() {
                true => format!("{line}  {}", out.paint(Colour::Bad, "<- they disagree")),
                false => line,
            });
        }
        Ok(())
    }

    /// A match claim's bytes, up to the one at fault.
    fn bytes(&self, out: &mut Out) {
        let bytes = self.claim;
        let says = |at: usize| match at {
            0 => "the mark of a match claim".to_string(),
            2 => count(bytes[2] as usize, "input"),
            3 if bytes[3] == 0 => "output plain".to_string(),
            3 => "output inverted".to_string(),
            _ => {
                let Choice { j, inverted } = Choice::of(bytes[at]);
                format!("x{} of f to x{j} of g{}", at - 4, if inverted { ", inverted" } else { "" })
            }
        };
        // The length is tested before all that follows n, which then says nothing yet.
        let judged = if matches!(self.answer.code, 1 | 8) { 3 } else { self.stop() };
        for at in [0].into_iter().chain(2..judged) {
            let part = if at == 0 { &bytes[..2] } else { &bytes[at..at + 1] };
            out.line(&format!("  byte {at:<2}  {:5}  {}", hex(part), says(at)));
        }
        let here = bytes.get(self.stop()).map_or(String::new(), |byte| hex(&[*byte]));
        let line = format!("  byte {:<2}  {here:5}  {}", self.stop(), self.fault());
        out.line(&line);
    }

    fn fault(&self) -> String {
        format!("<- {} (code {})", words::of_code(self.answer.code), self.answer.code)
    }

    // ---- Refusals ----

    /// What a node says, but for where it stands.
    fn says(&self, walk: &Walk, node: &Node) -> String {
        let over = node.depth();
        match node.what {
            What::Closing { s, u, v } => {
                Pair::of(&self.f, &self.g, node.q, s, u, v).reason(node.path.choices())
            }
            What::Split if over < self.depth => format!("split over x{over} of f"),
            What::Split => {
                format!("split over x{over} of f, {}", below_words(walk.below(node)))
            }
            What::Fault => {
                let bytes = self.claim;
                let from = node.place.min(bytes.len());
                let here = hex(&bytes[from..(from + 3).min(bytes.len())]);
                format!("byte {}: {here} {}", number(node.place), self.fault())
            }
        }
    }

    fn outline(&self, out: &mut Out) {
        let walk = Walk::new(self.claim, self.stop());
        let counts = walk.both(&mut |node| {
            let depth = node.depth();
            if depth > self.depth && node.what != What::Fault {
                return;
            }
            let says = self.says(&walk, node);
            let output = if node.q == 0 { "plain" } else { "inverted" };
            let phase = format!("q = {}, output {output}", node.q);
            let line = match node.path.choices().last() {
                None => format!("{phase}: {says}"),
                // The way to the fault, for the nodes above it may not be shown.
                Some(_) if node.what == What::Fault => format!("{phase}, {}: {says}", node.way()),
                Some(choice) => {
                    let indent = "  ".repeat(depth);
                    format!("{indent}x{} to {}: {says}", depth - 1, choice.words())
                }
            };
            out.line(&line);
        });
        out.line("");
        table(counts, out);
    }

    // ---- For scripts ----

    /// The rest of the object. A refusal's nodes are written out as they come: there
    /// may be millions.
    fn object(&self, object: Object, out: &mut Out) -> Result<Object, Trouble> {
        if !self.has_body() || self.is_match() && !self.is_whole() {
            return Ok(object);
        }
        if self.is_match() {
            let rows = self.both_specify(&Wiring::of(self.claim))?;
            return Ok(object.list("patterns", rows.iter().map(Both::object)));
        }
        out.text(&object.open("nodes"));
        let walk = Walk::new(self.claim, self.stop());
        let mut apart = "";
        let counts = walk.both(&mut |node| {
            if node.depth() <= self.depth || node.what == What::Fault {
                out.text(apart);
                out.text(&self.node_object(node));
                apart = ",";
            }
        });
        out.text("],");
        let depths = (0..2).flat_map(|q| depths(q, counts[q]));
        Ok(Object::rest().list("depths", depths))
    }

    fn node_object(&self, node: &Node) -> String {
        let object = Object::inner().number("q", node.q as usize).number("place", node.place);
        let object = object
            .list("choices", node.path.choices().iter().map(|choice| quoted(&choice.words())));
        match node.what {
            What::Closing { s, u, v } => {
                let pair = Pair::of(&self.f, &self.g, node.q, s, u, v);
                let [of_f, of_g] = pair.names();
                object.text("node", "closing").text("f", of_f).text("g", of_g)
            }
            What::Split => object.text("node", "split"),
            What::Fault => object.text("node", "fault"),
        }
        .end()
    }
}

fn table(counts: [Counts; 2], out: &mut Out) {
    out.line("              q = 0                     q = 1");
    out.line("  depth       nodes    closings       nodes    closings");
    let line = |name: &str, of: [(usize, usize); 2]| {
        let [a, b] = of.map(|(nodes, closings)| [number(nodes), number(closings)]);
        format!("  {name:5}{:>12}{:>12}{:>12}{:>12}", a[0], a[1], b[0], b[1])
    };
    let deepest = counts[0].deepest().max(counts[1].deepest());
    for depth in 0..=deepest {
        let at = counts.map(|tree| (tree.nodes[depth], tree.closings[depth]));
        out.line(&line(&depth.to_string(), at));
    }
    out.line(&line("all", counts.map(|tree| tree.all())));
}

fn depths(q: usize, counts: Counts) -> Vec<String> {
    let row = |depth: usize| {
        let object = Object::inner().number("q", q).number("depth", depth);
        object.number("nodes", counts.nodes[depth]).number("closings", counts.closings[depth]).end()
    };
    let reached = counts.nodes.iter().any(|&nodes| nodes > 0);
    (0..=counts.deepest()).filter(|_| reached).map(row).collect()
}
