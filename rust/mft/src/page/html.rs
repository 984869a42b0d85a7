//! The page as HTML: every text from outside is escaped.

use super::rows::{Column, Row, Table};
use super::sheets::Piece;
use super::{wrapped, Facts};
use crate::figures::{counted, routes};
use crate::shown;
use std::fmt::Write;

const STYLE: &str = include_str!("style.css");

/// The width of a line of the title, and of a line beside a label, in digits of their own size.
const TITLE_DIGITS: usize = 40;
const FACT_DIGITS: usize = 68;
/// The lines that a line of the title takes, and the blank line after the head.
const TITLE_LINE: usize = 2;
const LINE_AFTER: usize = 1;
/// What the foot of each sheet has of the checksum.
const CHECKSUM_BEGINS: usize = 8;

/// What stands on top of the first sheet.
pub struct Head {
    title: Vec<String>,
    facts: Vec<(&'static str, Vec<String>)>,
}

impl Head {
    /// The head of these facts.
    pub fn of(facts: &Facts) -> Head {
        let runs = counted(facts.runs.len() as u64, "run", "runs");
        let routes = format!("{}, {runs} of addresses", routes(facts.routes));
        Head {
            title: wrapped(&facts.title, TITLE_DIGITS),
            facts: vec![
                ("Date", vec![facts.date.to_string()]),
                ("File", wrapped(&facts.file, FACT_DIGITS)),
                ("SHA-256", vec![facts.checksum.clone()]),
                ("Routes", vec![routes]),
            ],
        }
    }

    /// How many lines it takes.
    pub fn lines(&self) -> usize {
        let facts: usize = self.facts.iter().map(|(_, lines)| lines.len()).sum();
        TITLE_LINE * self.title.len() + facts + LINE_AFTER
    }

    fn html(&self) -> String {
        let mut html = format!("<h1>{}</h1>\n<table class=\"facts\">\n", lines(&self.title));
        for (label, text) in &self.facts {
            let class = if *label == "SHA-256" { " class=\"checksum\"" } else { "" };
            let _ = writeln!(html, "<tr><td>{label}</td><td{class}>{}</td></tr>", lines(text));
        }
        html + "</table>\n"
    }
}

/// The whole document.
pub fn document(facts: &Facts, head: &Head, tables: &[Table], sheets: &[Vec<Piece>]) -> String {
    let title = escaped(&facts.title);
    let mut html = format!(
        "<!DOCTYPE html>\n<html lang=\"en\">\n<head>\n<meta charset=\"utf-8\">\n<title>{title}</title>\n\
         <style>\n{STYLE}</style>\n</head>\n<body>\n"
    );
    for (before, pieces) in sheets.iter().enumerate() {
        let top = if before == 0 { head.html() } else { running(facts) };
        let foot = foot(facts, before + 1, sheets.len());
        let pieces: String = pieces.iter().map(|piece| piece_html(&tables[piece.table], piece)).collect();
        let _ = writeln!(html, "<section class=\"page\">\n{top}{pieces}{foot}</section>");
    }
    html + "</body>\n</html>\n"
}

/// The short heading on every sheet but the first.
fn running(facts: &Facts) -> String {
    let (title, file) = (escaped(&facts.title), escaped(&facts.file));
    format!("<p class=\"running\"><b>{title}</b>, {}, {file}</p>\n", facts.date)
}

/// Sheets of two versions tell each other apart by the checksum.
fn foot(facts: &Facts, number: usize, count: usize) -> String {
    let begins = &facts.checksum[..CHECKSUM_BEGINS.min(facts.checksum.len())];
    format!("<p class=\"foot\"><span>SHA-256 begins {begins}</span><span>page {number} of {count}</span></p>\n")
}

fn piece_html(table: &Table, piece: &Piece) -> String {
    let continued = if piece.rows.start > 0 { ", continued" } else { "" };
    let class = if has_names(table) { "named" } else { table.class };
    let mut html = format!("<h2>{}{continued}</h2>\n<table class=\"{class}\">\n<colgroup>", table.heading);
    for Column { class, .. } in &table.columns {
        let _ = write!(html, "<col class=\"{class}\">");
    }
    html += "</colgroup>\n<tr>";
    for Column { class, head } in &table.columns {
        let _ = write!(html, "<th class=\"{class}\">{head}</th>");
    }
    html += "</tr>\n";
    for row in &table.rows[piece.rows.clone()] {
        html += &row_html(table, row);
    }
    html + "</table>\n"
}

fn has_names(table: &Table) -> bool {
    table.columns.iter().any(|column| column.class == "name")
}

fn row_html(table: &Table, row: &Row) -> String {
    let mut html = format!("<tr class=\"{}\">", table.class);
    for (column, cell) in table.columns.iter().zip(&row.cells) {
        let class = if column.class == "name" { " class=\"name\"" } else { "" };
        let _ = write!(html, "<td{class}>{cell}</td>");
    }
    html + "</tr>\n"
}

fn lines(lines: &[String]) -> String {
    lines.iter().map(|line| escaped(line)).collect::<Vec<_>>().join("<br>")
}

/// The text with what HTML would take for its own written out, and control characters replaced.
pub fn escaped(text: &str) -> String {
    let mut html = String::with_capacity(text.len());
    for character in text.chars() {
        match character {
            '&' => html += "&amp;",
            '<' => html += "&lt;",
            '>' => html += "&gt;",
            '"' => html += "&quot;",
            '\'' => html += "&#39;",
            other => html.push(shown::seen(other)),
        }
    }
    html
}
