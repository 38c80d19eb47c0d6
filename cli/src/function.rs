//! A function that the archive has accepted, taken apart to be shown.

use zap_calls::Answer;

use crate::input::Taken;

/// Two masks: it holds the patterns in which every input of `pos` is 1 and every
/// input of `neg` is 0.
#[derive(Clone, Copy, Debug, PartialEq, Eq)]
pub struct Cube {
    pub pos: u8,
    pub neg: u8,
}

impl Cube {
    pub fn holds(self, pattern: usize) -> bool {
        let pattern = pattern as u8;
        self.pos & !pattern == 0 && self.neg & pattern == 0
    }

    /// The inputs that it names.
    pub fn named(self) -> u8 {
        self.pos | self.neg
    }

    /// `x0·x2'`, or `1` for the cube without literals.
    pub fn product(self) -> String {
        let literal = |i: usize| match (self.pos >> i & 1, self.neg >> i & 1) {
            (1, _) => Some(format!("x{i}")),
            (_, 1) => Some(format!("x{i}'")),
            _ => None,
        };
        let literals: Vec<String> = (0..8).filter_map(literal).collect();
        if literals.is_empty() {
            "1".to_string()
        } else {
            literals.join("·")
        }
    }
}

#[derive(Clone, Copy, Debug, PartialEq, Eq)]
pub enum Value {
    On,
    Off,
    Open,
}

impl Value {
    pub fn sign(self) -> char {
        match self {
            Value::On => '1',
            Value::Off => '0',
            Value::Open => '-',
        }
    }

    pub fn word(self) -> &'static str {
        match self {
            Value::On => "on",
            Value::Off => "off",
            Value::Open => "open",
        }
    }

    pub fn inverted(self) -> Value {
        match self {
            Value::On => Value::Off,
            Value::Off => Value::On,
            Value::Open => Value::Open,
        }
    }
}

/// An accepted function, with the archive's own figures.
#[derive(Debug)]
pub struct Function {
    pub n: usize,
    pub on: Vec<Cube>,
    pub off: Vec<Cube>,
    pub on_patterns: usize,
    pub off_patterns: usize,
    pub in_use: usize,
}

impl Function {
    /// What was taken for a function, if the archive accepts it; its answer in either
    /// case.
    pub fn of(taken: &Taken) -> (Answer, Option<Function>) {
        match &taken.refused {
            Some(table) => (table.answer, None),
            None => Function::read(&taken.bytes),
        }
    }

    fn read(record: &[u8]) -> (Answer, Option<Function>) {
        let mut figures = [0; 3];
        let answer = Answer::of(zap_calls::summary(record, &mut figures));
        if answer.code != 0 {
            return (answer, None);
        }
        let [on, off] = lists(record);
        let [on_patterns, off_patterns, in_use] = figures.map(|figure| figure as usize);
        let n = record[2] as usize;
        let function = Function { n, on, off, on_patterns, off_patterns, in_use };
        (answer, Some(function))
    }

    pub fn patterns(&self) -> usize {
        1 << self.n
    }

    pub fn open_patterns(&self) -> usize {
        self.patterns() - self.on_patterns - self.off_patterns
    }

    pub fn value(&self, pattern: usize) -> Value {
        if self.on.iter().any(|cube| cube.holds(pattern)) {
            Value::On
        } else if self.off.iter().any(|cube| cube.holds(pattern)) {
            Value::Off
        } else {
            Value::Open
        }
    }

    /// List s: 0 the on list, 1 the off list.
    pub fn list(&self, s: u8) -> &[Cube] {
        if s == 0 {
            &self.on
        } else {
            &self.off
        }
    }
}

/// The on cubes and the off cubes of a record whose counts and length are right.
pub fn lists(record: &[u8]) -> [Vec<Cube>; 2] {
    let cubes: Vec<Cube> =
        record[5..].chunks_exact(2).map(|cube| Cube { pos: cube[0], neg: cube[1] }).collect();
    let (on, off) = cubes.split_at(record[3] as usize);
    [on.to_vec(), off.to_vec()]
}

/// The two cubes that a refusal with code 7 is about, by their numbers: the on cube at its
/// place in the record, and the first off cube that holds its pattern.
pub fn clash(answer: Answer, on: &[Cube], off: &[Cube]) -> Option<[usize; 2]> {
    let holds = |cube: &Cube| cube.holds(answer.pattern as usize);
    let at = (answer.place as usize).checked_sub(5)? / 2;
    on.get(at).filter(|cube| holds(cube))?;
    Some([at, off.iter().position(holds)?])
}

/// What they do: `share pattern 3: x0 = 1, x1 = 1`.
pub fn share(answer: Answer, n: usize) -> String {
    format!("share pattern {}: {}", answer.pattern, values(answer.pattern as usize, n))
}

/// A pattern's values by input: pattern 6 of three inputs is `x0 = 0, x1 = 1, x2 = 1`.
pub fn values(pattern: usize, n: usize) -> String {
    let value = |i| format!("x{i} = {}", pattern >> i & 1);
    (0..n).map(value).collect::<Vec<_>>().join(", ")
}

/// A pattern's values from the highest input down: pattern 6 of three inputs is 110.
pub fn bits(pattern: usize, n: usize) -> String {
    (0..n).rev().map(|i| if pattern >> i & 1 == 1 { '1' } else { '0' }).collect()
}

#[cfg(test)]
mod tests {
    use super::*;

    #[test]
    fn products() {
        let product = |pos, neg| Cube { pos, neg }.product();
        assert_eq!(product(0b101, 0b1000_0000), "x0·x2·x7'");
        assert_eq!(product(0, 0), "1");
    }

    /// x0 shares nothing with x0', pattern 3 with x0·x1, and the smaller 1 with x1'.
    #[test]
    fn cubes_that_share_a_pattern() {
        let [x0, not_0, x1, not_1] =
            [(1, 0), (0, 1), (2, 0), (0, 2)].map(|(pos, neg)| Cube { pos, neg });
        let both = Cube { pos: 3, neg: 0 };
        let answer = Answer { code: 7, kind: 0, record: 1, place: 7, pattern: 1 };
        assert_eq!(clash(answer, &[x1, x0], &[not_0, both, not_1]), Some([1, 2]));
        assert_eq!(share(answer, 2), "share pattern 1: x0 = 1, x1 = 0");
        // Nothing is made up where the cubes do not say so.
        assert_eq!(clash(answer, &[x1, x0], &[not_0, both]), None);
        assert_eq!(clash(answer, &[x0, x1], &[not_1]), None);
        assert_eq!(clash(answer, &[x0], &[not_1]), None);
    }

    #[test]
    fn patterns_of_bits() {
        assert_eq!(bits(6, 3), "110");
        assert_eq!(bits(0, 1), "0");
        assert_eq!(values(6, 3), "x0 = 0, x1 = 1, x2 = 1");
        assert_eq!(values(0, 1), "x0 = 0");
    }
}
