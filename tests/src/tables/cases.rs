//! The cases of tables that the readings of W-201 name, with their numbers.
//!
//! What a comment marks "by hand" is worked out from a rule that they name no case
//! for. Nothing here was copied from an output.

use crate::cases::{CONJ, DISJ, ODD, OPEN, WIRE};
use crate::reference::answer::Answer;

/// The six named functions as tables, in the order of `NAMED`.
pub const TABLES_OF_NAMED: [&str; 6] = [
    ".i 2\n.o 1\n.type fr\n.p 3\n11 1\n0- 0\n-0 0\n.e\n",
    ".i 2\n.o 1\n.type fr\n.p 3\n1- 1\n-1 1\n00 0\n.e\n",
    ".i 2\n.o 1\n.type fr\n.p 4\n10 1\n01 1\n11 0\n00 0\n.e\n",
    ".i 1\n.o 1\n.type fr\n.p 1\n- 1\n.e\n",
    ".i 1\n.o 1\n.type fr\n.p 2\n1 1\n0 0\n.e\n",
    ".i 1\n.o 1\n.type fr\n.p 0\n.e\n",
];

/// Some text, so many times over.
type Run = (&'static str, usize);

/// A table that is read: its code (0 if it is accepted), place and pattern, and the
/// record.
pub struct TableCase {
    pub name: &'static str,
    pub runs: &'static [Run],
    pub code: u64,
    pub place: usize,
    pub pattern: usize,
    pub record: Option<&'static [u8]>,
}

impl TableCase {
    pub fn text(&self) -> Vec<u8> {
        self.runs.iter().flat_map(|(text, times)| text.repeat(*times).into_bytes()).collect()
    }

    pub fn answer(&self) -> Answer {
        match self.code {
            0 => Answer::accepted(3, self.place),
            code => Answer::refused(code, 1, self.place).naming(self.pattern),
        }
    }
}

const fn reads(name: &'static str, runs: &'static [Run], record: &'static [u8]) -> TableCase {
    TableCase { name, runs, code: 0, place: record.len(), pattern: 0, record: Some(record) }
}

const fn fails(name: &'static str, runs: &'static [Run], code: u64, place: usize) -> TableCase {
    TableCase { name, runs, code, place, pattern: 0, record: None }
}

/// The on cube at this place shares this pattern with an off cube, and none that is
/// smaller.
const fn clashes(
    name: &'static str,
    runs: &'static [Run],
    place: usize,
    pattern: usize,
) -> TableCase {
    TableCase { name, runs, code: 7, place, pattern, record: None }
}

/// The keywords that every table has, in three lines.
const ONE: Run = (".i 1\n.o 1\n.type fr\n", 1);
const TWO: Run = (".i 2\n.o 1\n.type fr\n", 1);
const END: Run = (".e\n", 1);

/// 64 on cubes x0 and 64 off cubes x0'.
const FULL: &[u8] = &{
    let mut record = [0; 261];
    record[0] = 0x46;
    record[1] = 0x4E;
    record[2] = 1;
    record[3] = 64;
    record[4] = 64;
    let mut at = 0;
    while at < 64 {
        record[5 + 2 * at] = 1;
        record[134 + 2 * at] = 1;
        at += 1;
    }
    record
};

pub const TABLES: &[TableCase] = &[
    // 1. Lines.
    fails("the empty text", &[], 21, 1),
    fails("a line without LF", &[(".i 2", 1)], 21, 2),
    fails("a line with LF", &[(".i 2\n", 1)], 21, 2),
    fails("an empty line", &[("\n", 1)], 21, 2),
    fails("two lines, the second empty", &[(".i 2\n\n", 1)], 21, 3),
    reads("CR LF", &[(".i 1\r\n.o 1\r\n.type fr\r\n1 1\r\n0 0\r\n.e\r\n", 1)], WIRE),
    reads("CR for a blank", &[(".i\r1\n\r.o\r1\r\n.type\rfr\n1\r1\n0\r\r0\n.e\rx", 1)], WIRE),
    fails("CR alone ends no line", &[(".i 1\r.o 1\r.type fr\r.e\r", 1)], 20, 1),
    fails("nor does a form feed", &[ONE, ("1 1\x0C0 0\n.e\n", 1)], 20, 4),
    // 2. Blanks and comments.
    reads(
        "blanks before and after",
        &[(" \t.i\t 2 \n .o  1\t\n\t.type \t fr\r\n  11\t 1  \n0-   0\n\t-0 0\t\n .e \n", 1)],
        CONJ,
    ),
    reads(
        "lines of nothing but blanks or a comment",
        &[("# Conj\n \t\r\n", 1), TWO, ("\n  # terms\n11 1\n\n0- 0\n#\n-0 0\n\r\n", 1), END],
        CONJ,
    ),
    reads("a comment after all", &[(".i 1# a\n.o 1#\n.type fr#.\n.e#e", 1)], OPEN),
    reads("a comment after a term", &[TWO, ("11 1#1\n0- 0 # 0\n-0 0\t#\n", 1), END], CONJ),
    fails("111 with n = 2", &[TWO, ("111\n", 1), END], 20, 4),
    fails("a comment for a blank", &[TWO, ("11#\n", 1), END], 20, 4),
    fails("blanks inside the inputs", &[TWO, ("1 1 1\n", 1), END], 20, 4),
    fails("a vertical tab is no blank", &[TWO, ("11\x0B1\n", 1), END], 20, 4),
    fails("an empty line of a form feed", &[TWO, ("\x0C\n", 1), END], 20, 4),
    // 3. Keywords.
    fails(".i2", &[(".i2\n", 1)], 21, 1),
    fails(".I", &[(".I 2\n", 1)], 21, 1),
    fails(".end", &[TWO, (".end\n", 1)], 21, 4),
    fails("a dot", &[TWO, (".\n", 1)], 21, 4),
    fails("two dots", &[("..i 2\n", 1)], 21, 1),
    fails(".i without a value, before #", &[(".i#2\n", 1)], 20, 1),
    fails("garbage before the keywords", &[("i 2\n", 1)], 21, 1),
    fails("garbage, one keyword missing", &[(".i 2\n.o 1\nx\n.type fr\n", 1)], 21, 3),
    fails("garbage after the keywords", &[TWO, ("x\n", 1)], 20, 4),
    fails("a term, one keyword missing", &[(".o 1\n.type fr\n11 1\n.i 2\n.e", 1)], 21, 3),
    fails(".type missing at .e", &[(".i 2\n.o 1\n.e\n", 1)], 21, 3),
    reads("another order", &[(".type fr\n.p 0\n.o 1\n.i 1\n", 1), END], OPEN),
    // 4. Values.
    reads("leading zeros", &[(".i 0001\n.o 1\n.type fr\n.p 00\n", 1), END], OPEN),
    fails(".i 0", &[(".i 0\n", 1)], 3, 1),
    fails(".i 000", &[("#\n.i 000\n", 1)], 3, 2),
    fails(".i 9", &[(".i 9\n", 1)], 3, 1),
    fails("an .i of twenty digits", &[(".i 99999999999999999999\n", 1)], 3, 1),
    fails("2 to the 64 and 1", &[(".i 18446744073709551617\n", 1)], 3, 1),
    fails("a thousand digits", &[(".i ", 1), ("1", 1_000)], 3, 1),
    fails("a plus", &[(".i +2\n", 1)], 20, 1),
    fails("a minus", &[(".i -1\n", 1)], 20, 1),
    fails("a minus in .p", &[ONE, (".p -0\n", 1), END], 20, 4),
    fails("a fraction", &[(".i 2.0\n", 1)], 20, 1),
    fails("no value", &[(".i\n", 1)], 20, 1),
    fails("one too many", &[(".i 2 3\n", 1)], 20, 1),
    fails("one too many, and outside", &[(".i 9 9\n", 1)], 20, 1),
    fails("no value of .p", &[ONE, (".p\n", 1), END], 20, 4),
    fails("one too many of .p", &[ONE, (".p 0 0\n", 1), END], 20, 4),
    fails(".o 2", &[(".o 2\n", 1)], 20, 1),
    fails(".o 01", &[(".o 01\n", 1)], 20, 1),
    fails(".o 1 1", &[(".o 1 1\n", 1)], 20, 1),
    fails(".o alone", &[(".o\n", 1)], 20, 1),
    fails(".type f", &[(".type f\n", 1)], 20, 1),
    fails(".type FR", &[(".type FR\n", 1)], 20, 1),
    fails(".type fr f", &[(".type fr f\n", 1)], 20, 1),
    fails(".type alone", &[(".type\n", 1)], 20, 1),
    fails("an enormous .p", &[ONE, (".p 99999999999999999999\n1 1\n", 1), END], 22, 6),
    fails("2 to the 64 for 0", &[ONE, (".p 18446744073709551616\n", 1), END], 22, 5),
    fails("2 to the 32 and 1 for 1", &[ONE, (".p 4294967297\n1 1\n", 1), END], 22, 6),
    // 5. Two codes at one line.
    fails("a repeated .i 9", &[(".i 2\n.i 9\n", 1)], 20, 2),
    fails("a repeated .i 2", &[(".i 2\n\n.i 2\n", 1)], 20, 3),
    fails("a repeated .o", &[(".o 1\n.o 1\n", 1)], 20, 2),
    fails("a repeated .type", &[TWO, ("11 1\n.type fr\n", 1), END], 20, 5),
    fails("a repeated .p", &[ONE, (".p 0\n.p 0\n", 1), END], 20, 5),
    fails(".e, a keyword missing, a wrong count", &[(".i 2\n.o 1\n.p 1\n.e\n", 1)], 21, 4),
    fails("the first line wins", &[(".i 9\n.i x\nx\n.\n", 1)], 3, 1),
    fails("and a later code with it", &[(".\n.i x\n", 1)], 21, 1),
    // 6. Counts, and what follows .e.
    reads(".p first", &[(".p 2\n", 1), ONE, ("1 1\n0 0\n", 1), END], WIRE),
    reads(".p last", &[ONE, ("1 1\n0 0\n.p 2\n", 1), END], WIRE),
    reads("terms that add nothing count", &[ONE, ("1 1\n- -\n0 0\n1 ~\n.p 4\n", 1), END], WIRE),
    fails("one term more", &[ONE, (".p 1\n1 1\n0 0\n", 1), END], 22, 7),
    fails("one term less", &[ONE, (".p 3\n1 1\n0 0\n", 1), END], 22, 7),
    fails("open terms alone", &[ONE, (".p 0\n- -\n", 1), END], 22, 6),
    reads("faults after .e", &[ONE, (".e\n.i 9\nx\n.e\n.p 7\n.\n", 1)], OPEN),
    reads("words after .e", &[ONE, (".e .i 9 x\n", 1)], OPEN),
    fails("letters after .e", &[ONE, (".ex\n", 1)], 21, 4),
    fails("a blank inside .e", &[ONE, (". e\n", 1)], 21, 4),
    // By hand: terms.
    reads("Disj, off first", &[TWO, ("00 0\n1- 1\n-1 1\n", 1), END], DISJ),
    reads("Odd, in turns", &[TWO, ("10 1\n11 0\n-- ~\n01 1\n00 0\n", 1), END], ODD),
    fails("no output", &[TWO, ("11\n", 1), END], 20, 4),
    fails("two outputs", &[TWO, ("11 11\n", 1), END], 20, 4),
    fails("two outputs apart", &[TWO, ("11 1 1\n", 1), END], 20, 4),
    fails("another output", &[TWO, ("11 2\n", 1), END], 20, 4),
    fails("an input too few", &[TWO, ("1 1\n", 1), END], 20, 4),
    fails("an input too many", &[TWO, ("111 1\n", 1), END], 20, 4),
    fails("~ for an input", &[TWO, ("1~ 1\n", 1), END], 20, 4),
    fails("no .e after terms", &[TWO, ("11 1\n", 1)], 21, 5),
    // 7. What follows the lines.
    reads("64 and 64 cubes", &[ONE, ("1 1\n", 64), ("0 0\n", 64), ("- -\n", 9), END], FULL),
    fails("65 on cubes", &[ONE, ("1 1\n", 65), END], 4, 3),
    fails("65 off cubes", &[ONE, ("1 0\n", 65), END], 4, 4),
    fails("65 of both", &[ONE, ("1 0\n", 65), ("0 1\n", 65), END], 4, 3),
    fails("400 on cubes", &[ONE, ("1 1\n", 400), END], 4, 3),
    fails("65 on cubes and a shared pattern", &[ONE, ("1 1\n", 65), ("- 0\n", 1), END], 4, 3),
    fails("65 off cubes and a shared pattern", &[ONE, ("1 0\n", 65), ("- 1\n", 1), END], 4, 4),
    fails("65 on cubes, miscounted", &[ONE, (".p 64\n", 1), ("1 1\n", 65), END], 22, 70),
    // Input 0 stands first and is the pattern's lowest bit: off at 2, 3, on at 3.
    clashes("a shared pattern", &[TWO, ("-1 0\n11 1\n", 1), END], 5, 3),
    // On at 1 and at 2, 3, off at 2 and at 0.
    clashes("the second on cube", &[TWO, ("10 1\n01 0\n-1 1\n00 0\n", 1), END], 7, 2),
    clashes("cube 63 of 64", &[TWO, ("11 1\n", 63), ("-- 1\n00 0\n", 1), END], 131, 0),
    // On at 2, 3, off at 3 and at 2.
    clashes("a later off term's is smaller", &[TWO, ("-1 1\n11 0\n01 0\n", 1), END], 5, 2),
    // On at 2, 3 and everywhere, off at 1, 3.
    clashes("a later on term's is smaller", &[TWO, ("1- 0\n-1 1\n-- 1\n", 1), END], 5, 3),
    fails("a shared pattern, and no .e", &[TWO, ("-1 0\n11 1\n", 1)], 21, 6),
];
