//! Codes and numbers in words.

/// A code: what it is given for, what its place tells, and its pattern where that is not
/// always 0.
pub struct Code {
    pub number: u64,
    pub words: &'static str,
    pub place: &'static str,
    pub pattern: Option<&'static str>,
}

const fn code(number: u64, words: &'static str, place: &'static str) -> Code {
    Code { number, words, place, pattern: None }
}

impl Code {
    const fn pattern(self, pattern: &'static str) -> Code {
        Code { pattern: Some(pattern), ..self }
    }
}

/// Every code, in the words of include/zap.h.
pub const CODES: [Code; 22] = [
    code(1, "the bytes end too early", "the length"),
    code(2, "wrong mark", "the first wrong byte"),
    code(3, "n not 1 to 8 in a function record", "2"),
    code(4, "a count above 64", "3 or 4"),
    code(5, "a cube names an input at or above n", "first byte of the cube"),
    code(6, "a cube has an input in both masks", "first byte of the cube"),
    code(
        7,
        "an on cube and an off cube of one function share a pattern",
        "first byte of the first such on cube",
    )
    .pattern("the smallest that it shares with any off cube"),
    code(8, "bytes follow the end", "the first of them"),
    code(9, "f and g differ in n", "2, record 2"),
    code(10, "the claim's n is not theirs", "2"),
    code(11, "q is neither 0 nor 1", "3"),
    code(12, "a wiring byte outside 0..n-1 and 16..16+n-1", "that byte"),
    code(13, "an input of g used twice", "the second such byte"),
    code(14, "the wiring does not agree", "0")
        .pattern("the smallest of g at which the functions disagree"),
    code(15, "a node's first byte not 0, 1 or FF, or a cube index beyond its list", "that byte"),
    code(16, "a split at depth n", "that byte"),
    code(17, "the named pair is not dead", "first byte of the node"),
    code(18, "the output buffer is too short", "the length needed"),
    code(19, "a cube list has an odd length", "that length"),
    code(20, "malformed line or repeated keyword", "the line, from 1"),
    code(
        21,
        "unknown keyword, one missing at the first term or at .e, or no .e",
        "the line, from 1",
    ),
    code(22, "at .e, the term count differs from .p", "the line, from 1"),
];

pub fn of_code(number: u64) -> &'static str {
    CODES.iter().find(|code| code.number == number).map_or("an unknown code", |code| code.words)
}

/// 75323621 as 75,323,621.
pub fn number(value: usize) -> String {
    let digits = value.to_string();
    let mut text = String::new();
    for (i, c) in digits.chars().enumerate() {
        if i > 0 && (digits.len() - i).is_multiple_of(3) {
            text.push(',');
        }
        text.push(c);
    }
    text
}

/// `1 input`, `2 inputs`.
pub fn count(value: usize, one: &str) -> String {
    format!("{} {one}{}", number(value), if value == 1 { "" } else { "s" })
}

/// How many wirings n inputs have: 2·n!·2^n.
pub fn wirings(n: usize) -> usize {
    (1..=n).product::<usize>() << (n + 1)
}

/// Bytes as the project writes them: capital hex with single blanks.
pub fn hex(bytes: &[u8]) -> String {
    const DIGITS: &[u8; 16] = b"0123456789ABCDEF";
    let mut text = String::with_capacity(3 * bytes.len());
    for (at, byte) in bytes.iter().enumerate() {
        if at > 0 {
            text.push(' ');
        }
        text.push(DIGITS[(byte >> 4) as usize] as char);
        text.push(DIGITS[(byte & 15) as usize] as char);
    }
    text
}

/// The one of the words that is nearest to what was typed, if it is near.
pub fn nearest<'a>(typed: &str, words: impl Iterator<Item = &'a str>) -> Option<&'a str> {
    let (far, word) = words.map(|word| (distance(typed, word), word)).min()?;
    (far <= 1 + typed.chars().count() / 3).then_some(word)
}

/// How many letters have to be put in, taken out, changed or swapped with the next.
fn distance(a: &str, b: &str) -> usize {
    let (a, b): (Vec<char>, Vec<char>) = (a.chars().collect(), b.chars().collect());
    let mut rows = vec![vec![0; b.len() + 1]; a.len() + 1];
    for i in 0..=a.len() {
        for j in 0..=b.len() {
            rows[i][j] = if i == 0 || j == 0 {
                i + j
            } else {
                let changed = rows[i - 1][j - 1] + usize::from(a[i - 1] != b[j - 1]);
                let mut least = changed.min(rows[i - 1][j] + 1).min(rows[i][j - 1] + 1);
                if i > 1 && j > 1 && a[i - 1] == b[j - 2] && a[i - 2] == b[j - 1] {
                    least = least.min(rows[i - 2][j - 2] + 1);
                }
                least
            };
        }
    }
    rows[a.len()][b.len()]
}

#[cfg(test)]
mod tests {
    use super::*;

    #[test]
    fn numbers() {
        assert_eq!([0, 999, 1_000, 75_323_621].map(number), ["0", "999", "1,000", "75,323,621"]);
        assert_eq!([1, 2, 8].map(wirings), [4, 16, 20_643_840]);
        assert_eq!(count(1, "cube"), "1 cube");
    }

    #[test]
    fn near_words() {
        let verbs = || ["match", "check", "summary", "show", "explain"].into_iter();
        assert_eq!(nearest("mtach", verbs()), Some("match"));
        assert_eq!(nearest("sumary", verbs()), Some("summary"));
        assert_eq!(nearest("frobnicate", verbs()), None);
    }
}
