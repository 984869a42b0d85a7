//! A plain check of good order: every row is visited once from row 0, as one would write it in C.

const ROW_WORDS: usize = 5;
const WIDTH: u32 = 32;
const ROUTES_LAST: usize = 4096;

/// A row to visit: its place, and the priority node next above it, before which it must not come.
#[derive(Clone, Copy)]
struct Visit {
    row: u32,
    depth: u32,
    path: u32,
    above: (u32, u32),
}

/// Whether the table is in good order.
pub fn is_good(rows: &[u32], n: u32) -> bool {
    if n as usize > ROUTES_LAST.min(rows.len() / ROW_WORDS) {
        return false;
    }
    let mut seen = 0;
    // At most one row waits at each depth, and the one that is visited next.
    let mut waiting = Vec::with_capacity(WIDTH as usize + 2);
    if n > 0 {
        // No row is longer than 32 bits, so 33 is before them all.
        waiting.push(Visit { row: 0, depth: 0, path: 0, above: (WIDTH + 1, 0) });
    }
    while let Some(Visit { row, depth, path, above }) = waiting.pop() {
        seen += 1;
        if row >= n || seen > n {
            return false;
        }
        let at = row as usize * ROW_WORDS;
        let (value, length, port) = (rows[at], rows[at + 1], rows[at + 2]);
        if length > WIDTH || length < depth || port == 0 || port > 4094 {
            return false;
        }
        if value & after(length) != 0 || (value ^ path) & !after(depth) != 0 || !before(above, (length, value)) {
            return false;
        }
        // An ordinary node hides nothing below it, so what is above it goes on down.
        let above = if length > depth { (length, value) } else { above };
        for (side, child) in [(1, rows[at + 4]), (0, rows[at + 3])] {
            if child != 0 {
                if depth == WIDTH {
                    return false;
                }
                let path = path | side << (WIDTH - 1 - depth);
                waiting.push(Visit { row: child, depth: depth + 1, path, above });
            }
        }
    }
    seen == n
}

/// The bits from the length on.
fn after(length: u32) -> u32 {
    u32::MAX.checked_shr(length).unwrap_or(0)
}

/// Longer first, then the smaller value.
fn before(a: (u32, u32), b: (u32, u32)) -> bool {
    a.0 > b.0 || a.0 == b.0 && a.1 < b.1
}
