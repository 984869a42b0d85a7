//! Rows of text in columns, two spaces apart.

/// The side at which a column's texts stand.
#[derive(Clone, Copy, PartialEq, Eq, Debug)]
pub enum Side {
    /// For words.
    Left,
    /// For numbers.
    Right,
}

const GAP: &str = "  ";

/// The rows as lines, each column as wide as its longest text. No line ends in a space.
///
/// ```
/// use mft::columns::{aligned, Side};
///
/// let rows = [["10.0.0.0/8".to_string(), "7".to_string()], ["10.1.0.0/16".to_string(), "1016".to_string()]];
/// assert_eq!(aligned([Side::Left, Side::Right], &rows), "10.0.0.0/8      7\n10.1.0.0/16  1016\n");
/// ```
pub fn aligned<const N: usize>(sides: [Side; N], rows: &[[String; N]]) -> String {
    let mut widths = [0; N];
    for row in rows {
        for (width, text) in widths.iter_mut().zip(row) {
            *width = text.chars().count().max(*width);
        }
    }
    rows.iter().map(|row| line(sides, widths, row)).collect()
}

fn line<const N: usize>(sides: [Side; N], widths: [usize; N], row: &[String; N]) -> String {
    let cells = row.iter().zip(sides).zip(widths).map(|((text, side), width)| match side {
        Side::Left => format!("{text:<width$}"),
        Side::Right => format!("{text:>width$}"),
    });
    let line = cells.collect::<Vec<_>>().join(GAP);
    format!("{}\n", line.trim_end())
}
