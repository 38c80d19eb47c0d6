//! Wirings and partial wirings, in their order.

/// The input j of g that serves one input of f, plain or inverted.
///
/// Choices run by j upward, plain before inverted: that is the order derived
/// here, since false comes before true. It is not the order of their bytes.
#[derive(Clone, Copy, Debug, PartialEq, Eq, PartialOrd, Ord)]
pub struct Choice {
    pub j: usize,
    pub inverted: bool,
}

/// What a claim adds to j where the choice is inverted.
const INVERTED: usize = 16;

impl Choice {
    /// All choices where g has n inputs, in order.
    pub fn all(n: usize) -> Vec<Choice> {
        let both = |j| [false, true].map(|inverted| Choice { j, inverted });
        (0..n).flat_map(both).collect()
    }

    /// The choice's byte in a claim: j if plain and j + 16 if inverted.
    pub fn byte(self) -> u8 {
        let mark = if self.inverted { INVERTED } else { 0 };
        (self.j + mark) as u8
    }

    /// The choice that a byte stands for, if it is in 0..n-1 or 16..16+n-1.
    pub fn from_byte(byte: u8, n: usize) -> Option<Choice> {
        Choice::all(n).into_iter().find(|choice| choice.byte() == byte)
    }
}

/// A partial wiring: the choices for the inputs 0 to d - 1 of f. It is whole if
/// d is n.
#[derive(Clone, Debug, PartialEq, Eq, PartialOrd, Ord)]
pub struct Partial {
    pub n: usize,
    pub placed: Vec<Choice>,
}

impl Partial {
    /// No input is placed.
    pub fn empty(n: usize) -> Partial {
        Partial { n, placed: vec![] }
    }

    pub fn is_whole(&self) -> bool {
        self.placed.len() == self.n
    }

    /// Whether an input of g serves an input of f already.
    pub fn uses(&self, j: usize) -> bool {
        self.placed.iter().any(|choice| choice.j == j)
    }

    /// The choices left for the next input, in order; none if it is whole.
    pub fn free(&self) -> Vec<Choice> {
        if self.is_whole() {
            return vec![];
        }
        Choice::all(self.n).into_iter().filter(|choice| !self.uses(choice.j)).collect()
    }

    /// The same with a choice for the next input.
    pub fn with(&self, choice: Choice) -> Partial {
        // With room for all: many of these are made.
        let mut placed = Vec::with_capacity(self.n);
        placed.extend(&self.placed);
        placed.push(choice);
        Partial { n: self.n, placed }
    }

    /// The whole wirings that start like this one, in order.
    pub fn completions(&self) -> Vec<Partial> {
        if self.is_whole() {
            return vec![self.clone()];
        }
        self.free().into_iter().flat_map(|choice| self.with(choice).completions()).collect()
    }

    /// The first of them that passes a test: the others are not made.
    pub fn first_completion(&self, test: &dyn Fn(&Partial) -> bool) -> Option<Partial> {
        if self.is_whole() {
            return test(self).then(|| self.clone());
        }
        self.free().into_iter().find_map(|choice| self.with(choice).first_completion(test))
    }

    /// This one and all longer ones that start like it: each comes before those
    /// that it is the start of, as the nodes of a claim's tree do.
    pub fn continuations(&self) -> Vec<Partial> {
        let longer = self.free().into_iter().map(|choice| self.with(choice));
        [self.clone()].into_iter().chain(longer.flat_map(|next| next.continuations())).collect()
    }

    /// The bytes of the choices.
    pub fn bytes(&self) -> Vec<u8> {
        self.placed.iter().map(|choice| choice.byte()).collect()
    }

    /// The partial wiring of n inputs that the bytes stand for, or why there is
    /// none.
    pub fn from_bytes(bytes: &[u8], n: usize) -> Result<Partial, BadWiring> {
        let mut partial = Partial::empty(n);
        for &byte in bytes {
            if partial.is_whole() {
                return Err(BadWiring::TooLong);
            }
            match Choice::from_byte(byte, n) {
                None => return Err(BadWiring::BadByte),
                Some(choice) if partial.uses(choice.j) => return Err(BadWiring::UsedTwice),
                Some(choice) => partial = partial.with(choice),
            }
        }
        Ok(partial)
    }
}

/// Why some bytes are not the start of a wiring.
#[derive(Clone, Copy, Debug, PartialEq, Eq)]
pub enum BadWiring {
    TooLong,
    BadByte,
    UsedTwice,
}

/// A wiring. Its order is q first, then the choices one by one.
#[derive(Clone, Debug, PartialEq, Eq, PartialOrd, Ord)]
pub struct Wiring {
    /// The output phase: whether q is 1.
    pub q: bool,
    /// A whole one.
    pub inputs: Partial,
}

/// All wirings of n inputs, in order.
pub fn wirings(n: usize) -> Vec<Wiring> {
    let under = |q| Partial::empty(n).completions().into_iter().map(move |inputs| (q, inputs));
    under(false).chain(under(true)).map(|(q, inputs)| Wiring { q, inputs }).collect()
}

#[cfg(test)]
mod tests {
    use super::*;

    /// Found in another way: all strings of choices, those with a j twice left out.
    #[test]
    fn no_wiring_is_missing_and_none_is_wrong() {
        for n in 1..=4 {
            let mut strings: Vec<Vec<Choice>> = vec![vec![]];
            for _ in 0..n {
                let longer = |start: &Vec<Choice>| {
                    let start = start.clone();
                    Choice::all(n).into_iter().map(move |next| [&start[..], &[next]].concat())
                };
                strings = strings.iter().flat_map(longer).collect();
            }
            strings.retain(|string| {
                let served = |j: usize| string.iter().filter(|choice| choice.j == j).count();
                (0..n).all(|j| served(j) == 1)
            });
            let under = |q: bool| wirings(n).into_iter().filter(move |wiring| wiring.q == q);
            for q in [false, true] {
                let found: Vec<Vec<Choice>> = under(q).map(|wiring| wiring.inputs.placed).collect();
                assert_eq!(found, strings, "n {n}");
            }
        }
    }

    #[test]
    fn the_first_completion_is_the_first_of_all() {
        for n in 1..=4 {
            for start in Partial::empty(n).continuations() {
                let all = start.completions();
                // Whichever of them a test lets through, and none.
                for least in 0..=all.len() {
                    let least = all.get(least);
                    let first = start.first_completion(&|one| least.is_some_and(|it| one >= it));
                    assert_eq!(first.as_ref(), least, "{start:?}");
                }
            }
        }
    }

    #[test]
    fn continuations_are_the_starts_of_wirings() {
        for n in 1..=4 {
            let all = Partial::empty(n).continuations();
            for length in 0..=n {
                let mut starts: Vec<Vec<Choice>> =
                    wirings(n).iter().map(|one| one.inputs.placed[..length].to_vec()).collect();
                starts.sort();
                starts.dedup();
                let of_length = all.iter().filter(|one| one.placed.len() == length);
                assert!(of_length.map(|one| &one.placed).eq(&starts), "n {n}, length {length}");
            }
        }
    }

    #[test]
    fn bytes_are_read_back_and_others_are_refused() {
        for n in 1..=3 {
            let all = Partial::empty(n).continuations();
            for one in &all {
                assert_eq!(Partial::from_bytes(&one.bytes(), n), Ok(one.clone()));
            }
            // Any string that is read is one of them, so the others are refused.
            let strings = (0..=255).flat_map(|first| (0..=255).map(move |second| [first, second]));
            let read = strings.filter(|string| Partial::from_bytes(string, n).is_ok()).count();
            assert_eq!(read, all.iter().filter(|one| one.placed.len() == 2).count(), "n {n}");
        }
        assert_eq!(Partial::from_bytes(&[0x10, 0x10], 2), Err(BadWiring::UsedTwice));
        assert_eq!(Partial::from_bytes(&[0x00, 0x10], 2), Err(BadWiring::UsedTwice));
        assert_eq!(Partial::from_bytes(&[0x02], 2), Err(BadWiring::BadByte));
        assert_eq!(Partial::from_bytes(&[0x12], 2), Err(BadWiring::BadByte));
        assert_eq!(Partial::from_bytes(&[0x00, 0x01, 0x02], 2), Err(BadWiring::TooLong));
    }
}
