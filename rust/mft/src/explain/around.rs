//! Bytes in hexadecimal, those that matter in brackets, and a few before and after them.

use std::ops::Range;

/// Bytes shown before and after those in brackets.
const BESIDE: usize = 8;
/// The most bytes shown in brackets.
const INSIDE: usize = 16;

/// `… 10 0a 01 00 09 [08 0a 00 07] …`. Where the brackets would be empty, they show where a byte is missing.
pub fn around(bytes: &[u8], marked: Range<usize>) -> String {
    let start = marked.start.min(bytes.len());
    let end = marked.end.clamp(start, bytes.len());
    let (from, to) = (start.saturating_sub(BESIDE), bytes.len().min(end + BESIDE));
    let inside = &bytes[start..end];
    let marked = match inside.get(..INSIDE) {
        Some(first) if inside.len() > INSIDE => format!("[{} …]", digits(first)),
        _ => format!("[{}]", digits(inside)),
    };
    let dots = |cut: bool| if cut { "…".to_string() } else { String::new() };
    let parts = [dots(from > 0), digits(&bytes[from..start]), marked, digits(&bytes[end..to]), dots(to < bytes.len())];
    parts.into_iter().filter(|part| !part.is_empty()).collect::<Vec<_>>().join(" ")
}

fn digits(bytes: &[u8]) -> String {
    bytes.iter().map(|byte| format!("{byte:02x}")).collect::<Vec<_>>().join(" ")
}
