//! Karnaugh maps: 1, 0, and - for open, rows and columns in Gray order.

use crate::function::{bits, Function};

/// The lines of a function's map. The lower inputs run along the columns, the upper
/// ones down the rows, so a row's label and a column's, one after the other, are the
/// pattern in binary.
pub fn lines(f: &Function) -> Vec<String> {
    let across = f.n.div_ceil(2);
    let down = f.n - across;
    let (rows, columns) = (names(across..f.n), names(0..across));
    let margin = rows.chars().count().max(down);
    let width = across.max(1);
    let head: Vec<String> = gray(across).map(|low| bits(low, across)).collect();
    let mut lines =
        vec![format!("{:margin$}  {columns}", ""), format!("{rows:margin$}  {}", head.join(" "))];
    for high in gray(down) {
        let value = |low: usize| format!("{:>width$}", f.value(high << across | low).sign());
        let cells: Vec<String> = gray(across).map(value).collect();
        lines.push(format!("{:>margin$}  {}", bits(high, down), cells.join(" ")));
    }
    lines
}

/// `x3x2` for inputs 2 and 3: as the labels have them, the highest first.
fn names(inputs: std::ops::Range<usize>) -> String {
    inputs.rev().map(|i| format!("x{i}")).collect()
}

/// The numbers of so many bits, each one bit away from the next.
fn gray(bits: usize) -> impl Iterator<Item = usize> {
    (0..1usize << bits).map(|k| k ^ k >> 1)
}

#[cfg(test)]
mod tests {
    use super::*;

    #[test]
    fn gray_order() {
        assert_eq!(gray(2).collect::<Vec<_>>(), [0, 1, 3, 2]);
        assert_eq!(gray(0).collect::<Vec<_>>(), [0]);
        let steps: Vec<usize> = gray(4).zip(gray(4).skip(1)).map(|(a, b)| a ^ b).collect();
        assert!(steps.iter().all(|step| step.is_power_of_two()));
    }
}
