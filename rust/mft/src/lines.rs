//! Texts that people write, line by line, and what is wrong with a line, shown under it.

use crate::failure::Failure;
use crate::figures::counted;
use crate::input::Source;
use crate::shown;
use std::fmt::Write;
use std::ops::Range;

const BYTE_ORDER_MARK: &[u8] = b"\xEF\xBB\xBF";
const COMMENT: char = '#';
const BLANKS: [char; 2] = [' ', '\t'];

/// The most faults that are shown; the others are counted.
const FAULTS_SHOWN: usize = 10;
/// The most characters that are shown of a line, and how many of them before the part at fault.
const LINE_SHOWN: usize = 160;
const SHOWN_BEFORE: usize = 60;

/// A line of a text.
#[derive(Clone, PartialEq, Eq, Debug)]
pub struct Line {
    /// Its number, from 1.
    pub number: usize,
    /// What it says, without its end. Bytes that are no text are replaced.
    pub text: String,
}

/// A word of a line, and where it stands.
#[derive(Clone, PartialEq, Eq, Debug)]
pub struct Word<'a> {
    /// What it says.
    pub text: &'a str,
    /// Its place in the line's text.
    pub at: Range<usize>,
}

/// The lines of a text. They may end as on any system: with a line feed, a carriage return, or both.
///
/// # Errors
///
/// Where the text is UTF-16, as some editors save it.
pub fn of(source: &Source) -> Result<Vec<Line>, Failure> {
    if source.bytes.starts_with(b"\xFF\xFE") || source.bytes.starts_with(b"\xFE\xFF") {
        let advice = "Save it as UTF-8, or as plain text.";
        return Err(Failure::refused(format!("{}: the text is UTF-16\n  {advice}", source.name)));
    }
    let bytes = source.bytes.strip_prefix(BYTE_ORDER_MARK).unwrap_or(&source.bytes);
    let text = String::from_utf8_lossy(bytes).replace("\r\n", "\n");
    let lines = text.split(['\n', '\r']).enumerate();
    Ok(lines.map(|(before, text)| Line { number: before + 1, text: text.into() }).collect())
}

impl Line {
    /// What stands before the comment.
    pub fn content(&self) -> &str {
        self.text.split(COMMENT).next().unwrap_or_default()
    }

    /// The words before the comment, parted by spaces and tabs.
    pub fn words(&self) -> Vec<Word<'_>> {
        let mut words = Vec::new();
        let mut start = 0;
        for text in self.content().split(BLANKS) {
            let at = start..start + text.len();
            // The blank after a word has one byte.
            start = at.end + 1;
            if !text.is_empty() {
                words.push(Word { text, at });
            }
        }
        words
    }

    /// What is wrong with a part of this line, and what to do about it.
    pub fn fault(&self, at: Range<usize>, wrong: impl Into<String>, advice: impl Into<String>) -> Fault {
        Fault { line: self.number, at, wrong: wrong.into(), advice: advice.into(), beside: None }
    }
}

/// What is wrong with a line.
#[derive(Clone, PartialEq, Eq, Debug)]
pub struct Fault {
    line: usize,
    at: Range<usize>,
    wrong: String,
    advice: String,
    beside: Option<usize>,
}

impl Fault {
    /// The same, with another line shown before it.
    pub fn beside(self, line: &Line) -> Fault {
        Fault { beside: Some(line.number), ..self }
    }
}

/// What is wrong with the lines of a text: the first faults, in the order of the lines, and how many there are besides.
#[derive(Clone, PartialEq, Eq, Debug, Default)]
pub struct Faults {
    first: Vec<Fault>,
    besides: u64,
}

impl Faults {
    /// One fault more, of any line.
    pub fn add(&mut self, fault: Fault) {
        let place = self.first.partition_point(|other| other.line <= fault.line);
        self.first.insert(place, fault);
        if self.first.len() > FAULTS_SHOWN {
            self.first.pop();
            self.besides += 1;
        }
    }

    /// Whether nothing is wrong.
    pub fn is_empty(&self) -> bool {
        self.first.is_empty()
    }

    /// The failure that shows them.
    pub fn failure(&self, source: &Source, lines: &[Line]) -> Failure {
        let faults = self.first.iter().map(|fault| format!("{}: {}", source.name, shown_fault(lines, fault)));
        let mut text = faults.collect::<Vec<_>>().join("mft: ");
        if self.besides > 0 {
            let more = counted(self.besides, "line is", "lines are");
            let _ = writeln!(text, "mft: {}: {more} at fault besides.", source.name);
        }
        Failure::refused(text)
    }
}

/// What the lines say, of those that say something, and what is wrong with the others.
pub fn read<'a, T>(lines: &'a [Line], say: impl Fn(&'a Line) -> Result<Option<T>, Fault>) -> (Vec<T>, Faults) {
    let (mut said, mut faults) = (Vec::new(), Faults::default());
    for line in lines {
        match say(line) {
            Ok(something) => said.extend(something),
            Err(fault) => faults.add(fault),
        }
    }
    (said, faults)
}

/// The line at fault with a mark under the part, and the line beside it, if any, above.
fn shown_fault(lines: &[Line], fault: &Fault) -> String {
    let text_of = |number: usize| lines.get(number - 1).map_or("", |line| line.text.as_str());
    let width = fault.line.to_string().len();
    let mut text = format!("line {}: {}\n", fault.line, fault.wrong);
    if let Some(beside) = fault.beside {
        let _ = writeln!(text, "  {beside:>width$} | {}", around(text_of(beside), &(0..0)).0);
    }
    let (line, mark) = around(text_of(fault.line), &fault.at);
    let _ = writeln!(text, "  {} | {line}", fault.line);
    let _ = writeln!(text, "  {:width$} | {mark}", "");
    let _ = writeln!(text, "  {}", fault.advice);
    text
}

/// The line, of a long one what stands around the part at fault, and the marks that go under that part. A tab before it
/// is a tab in both, so that the marks stand right however wide it is.
fn around(text: &str, at: &Range<usize>) -> (String, String) {
    let characters: Vec<char> = text.chars().collect();
    // A part that is missing is marked past the end of the line.
    let column = |byte: usize| text.get(..byte).map_or(characters.len() + 1, |before| before.chars().count());
    let (first, end) = (column(at.start), column(at.end));
    let from = if characters.len() > LINE_SHOWN { first.saturating_sub(SHOWN_BEFORE) } else { 0 };
    let to = characters.len().min(from + LINE_SHOWN);
    let seen = |character: &char| if *character == '\t' { '\t' } else { shown::seen(*character) };
    let blank = |character: &char| if *character == '\t' { '\t' } else { ' ' };
    let dots = |cut: bool| if cut { "…" } else { "" };
    let line: String = characters[from..to].iter().map(seen).collect();
    let before: String = characters.iter().chain([&' ']).take(first).skip(from).map(blank).collect();
    let marks = "^".repeat(end.min(to).saturating_sub(first).max(1));
    let indent = if from > 0 { " " } else { "" };
    (format!("{}{line}{}", dots(from > 0), dots(to < characters.len())), format!("{indent}{before}{marks}"))
}
