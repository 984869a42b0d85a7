//! What stands on which sheet of paper, counted in lines of 5 mm, which is how high the style makes them.

use super::rows::Table;
use std::ops::Range;

/// The lines of a sheet between its upper margin and its foot. There is room for two more: a browser rounds the height
/// of a row to its own dots.
const SHEET_LINES: usize = 52;
/// The lines of the short heading on top of every sheet but the first.
const RUNNING_LINES: usize = 2;
/// The lines above the rows of a table: its heading and the heads of its columns.
const TABLE_HEAD_LINES: usize = 3;
/// The fewest rows that a table begins with at the end of a sheet, if it has so many.
const ROWS_TOGETHER: usize = 3;

/// Some rows of a table, on one sheet.
#[derive(Clone, PartialEq, Eq, Debug)]
pub struct Piece {
    /// The number of the table.
    pub table: usize,
    /// Which of its rows.
    pub rows: Range<usize>,
}

/// The pieces on each sheet, where the head of the first takes so many lines. Every row is in one piece.
pub fn sheets(tables: &[Table], head_lines: usize) -> Vec<Vec<Piece>> {
    let mut sheets = vec![Vec::new()];
    let mut left = SHEET_LINES.saturating_sub(head_lines);
    for (number, table) in tables.iter().enumerate() {
        let mut next = 0;
        while next < table.rows.len() {
            let fit = rows_that_fit(table, next, left.saturating_sub(TABLE_HEAD_LINES));
            let wanted = ROWS_TOGETHER.min(table.rows.len() - next);
            // A row always fits on a sheet of its own: names have no more than so many lines.
            if fit < wanted && left < SHEET_LINES - RUNNING_LINES {
                sheets.push(Vec::new());
                left = SHEET_LINES - RUNNING_LINES;
                continue;
            }
            let rows = next..next + fit.max(1);
            left = left.saturating_sub(TABLE_HEAD_LINES + lines_of(table, rows.clone()));
            next = rows.end;
            if let Some(sheet) = sheets.last_mut() {
                sheet.push(Piece { table: number, rows });
            }
        }
    }
    sheets
}

/// How many rows, from this one on, have no more than so many lines.
fn rows_that_fit(table: &Table, first: usize, mut lines: usize) -> usize {
    let fits = |row: &&super::rows::Row| {
        let fits = row.lines <= lines;
        lines = lines.saturating_sub(row.lines);
        fits
    };
    table.rows[first..].iter().take_while(fits).count()
}

fn lines_of(table: &Table, rows: Range<usize>) -> usize {
    table.rows[rows].iter().map(|row| row.lines).sum()
}
