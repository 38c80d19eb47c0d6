//! Two functions, f and g, read from their records.

use super::answer::{Answer, OF_F, OF_G};
use super::pattern::Function;
use super::record::function;

/// Two functions of the same number of inputs.
#[derive(Clone, Debug, PartialEq, Eq)]
pub struct Two {
    pub f: Function,
    pub g: Function,
}

impl Two {
    /// The number of inputs of both.
    pub fn n(&self) -> usize {
        self.f.n
    }
}

/// Reads f, then g; then they must not differ in n.
pub fn two(f: &[u8], g: &[u8]) -> Result<Two, Answer> {
    let two = Two { f: function(f, OF_F)?, g: function(g, OF_G)? };
    if two.f.n != two.g.n {
        return Err(Answer::refused(9, OF_G, 2));
    }
    Ok(two)
}

#[cfg(test)]
mod tests {
    use super::*;
    use crate::cases::{CONJ, DISJ, WIRE};

    #[test]
    fn f_then_g_then_n() {
        let bad: &[u8] = &[0x47];
        assert_eq!(two(bad, &[]), Err(Answer::refused(2, 1, 0)));
        assert_eq!(two(WIRE, bad), Err(Answer::refused(2, 2, 0)));
        assert_eq!(two(WIRE, CONJ), Err(Answer::refused(9, 2, 2)));
        assert_eq!(two(CONJ, DISJ).map(|two| two.n()), Ok(2));
    }
}
