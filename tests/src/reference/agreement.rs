//! Agreement of two functions under a wiring, on patterns.

use super::pattern::{held, patterns, value, Function};
use super::two::Two;
use super::wiring::Partial;

/// The pattern x at which f is read for a pattern y of g: bit i of x is bit j of
/// y, inverted if so marked. The wiring is whole.
pub fn read_at(inputs: &Partial, y: usize) -> usize {
    let mut x = 0;
    for (i, choice) in inputs.placed.iter().enumerate() {
        if value(y, choice.j) != choice.inverted {
            x += 1 << i;
        }
    }
    x
}

/// Where a function is on and where it is off, pattern by pattern.
#[derive(Clone, Debug, PartialEq, Eq)]
pub struct Table {
    pub on: Vec<bool>,
    pub off: Vec<bool>,
}

impl Table {
    pub fn of(f: &Function) -> Table {
        Table { on: held(&f.on, f.n), off: held(&f.off, f.n) }
    }
}

/// The tables of two functions, made once for many wirings.
#[derive(Clone, Debug, PartialEq, Eq)]
pub struct Tables {
    pub f: Table,
    pub g: Table,
}

impl Tables {
    pub fn of(two: &Two) -> Tables {
        Tables { f: Table::of(&two.f), g: Table::of(&two.g) }
    }

    /// The patterns of g at which the functions disagree under q and a whole wiring,
    /// upward.
    pub fn disagreements<'a>(
        &'a self,
        q: bool,
        inputs: &'a Partial,
    ) -> impl Iterator<Item = usize> + 'a {
        let (f, g) = (&self.f, &self.g);
        patterns(inputs.n).filter(move |&y| {
            let x = read_at(inputs, y);
            if q {
                f.on[x] && g.on[y] || f.off[x] && g.off[y]
            } else {
                f.on[x] && g.off[y] || f.off[x] && g.on[y]
            }
        })
    }

    /// Whether a whole wiring agrees under q.
    pub fn agree(&self, q: bool, inputs: &Partial) -> bool {
        self.disagreements(q, inputs).next().is_none()
    }
}

#[cfg(test)]
mod tests {
    use super::*;
    use crate::cases::{CONJ, CONST, DISJ, ODD, OPEN, WIRE};
    use crate::cases::{EXAMPLE_2_1, EXAMPLE_3_2, WIRINGS_OF_3_3, WIRING_OF_2_1};
    use crate::reference::two::two;
    use crate::reference::wiring::wirings;

    /// The agreeing wirings of two records, in order: q, then the bytes.
    fn agreeing(f: &[u8], g: &[u8]) -> Vec<(u8, Vec<u8>)> {
        let two = two(f, g).expect("a case of 01");
        let tables = Tables::of(&two);
        let all = wirings(two.n()).into_iter();
        let good = all.filter(|wiring| tables.agree(wiring.q, &wiring.inputs));
        good.map(|wiring| (wiring.q as u8, wiring.inputs.bytes())).collect()
    }

    #[test]
    fn f_is_read_at_the_pattern_that_01_says() {
        // Input 0 of f is input 1 of g, input 1 of f is input 2 of g inverted,
        // input 2 of f is input 0 of g.
        let inputs = Partial::from_bytes(&[0x01, 0x12, 0x00], 3).expect("a wiring");
        let read: Vec<usize> = patterns(3).map(|y| read_at(&inputs, y)).collect();
        assert_eq!(read, [0b010, 0b110, 0b011, 0b111, 0b000, 0b100, 0b001, 0b101]);
    }

    #[test]
    fn the_matches_that_01_names() {
        assert_eq!(agreeing(CONJ, DISJ)[0], (1, vec![0x10, 0x11]));
        assert_eq!(agreeing(CONJ, ODD), []);
        assert_eq!(agreeing(CONST, WIRE), []);
        assert_eq!(agreeing(OPEN, WIRE)[0], (0, vec![0x00]));
        assert!(agreeing(OPEN, WIRE).contains(&(0, vec![0x10])));
        assert_eq!(agreeing(WIRE, WIRE), [(0, vec![0x00]), (1, vec![0x10])]);
    }

    /// By hand, from where Conj and Disj are on and off.
    #[test]
    fn where_conj_and_disj_disagree() {
        let two = two(CONJ, DISJ).expect("two cases of 01");
        let tables = Tables::of(&two);
        let at = |q, bytes: [u8; 2]| -> Vec<usize> {
            let inputs = Partial::from_bytes(&bytes, 2).expect("a wiring");
            tables.disagreements(q, &inputs).collect()
        };
        // Straight, Conj is off at 0, 1, 2 and Disj on at 1, 2, 3.
        assert_eq!(at(false, [0x00, 0x01]), [1, 2]);
        assert_eq!(at(true, [0x00, 0x01]), [0, 3]);
        // Both inverted, Conj is read at 3 - y, and is on at y = 0 alone.
        assert_eq!(at(false, [0x10, 0x11]), [0, 1, 2, 3]);
        assert_eq!(at(true, [0x10, 0x11]), []);
        // Input 0 of Conj is input 1 inverted: it is on at y = 1 alone.
        assert_eq!(at(false, [0x11, 0x00]), [2, 3]);
        assert_eq!(at(true, [0x11, 0x00]), [0, 1]);
    }

    /// Examples 2.1 and 3.3 of the paper. In 3.3 inputs are permuted alone, and then
    /// there are just two wirings.
    #[test]
    fn the_examples_of_the_paper() {
        let wiring = |claim: &[u8]| (claim[3], claim[4..].to_vec());
        let [f, g] = EXAMPLE_2_1;
        assert!(agreeing(f, g).contains(&wiring(WIRING_OF_2_1)));
        let [f, g] = EXAMPLE_3_2;
        let mut permuted = agreeing(f, g);
        permuted.retain(|(q, bytes)| *q == 0 && bytes.iter().all(|&byte| byte < 16));
        let mut named = WIRINGS_OF_3_3.map(wiring);
        named.sort();
        assert_eq!(permuted, named);
    }
}
