//! `mft compile`: text as people write it, and what is said about a line that is at fault.

use crate::support::{example, example_bytes, file_of_many, mft, mft_reading, Folder, GOOD};
use maftehon::RouteList;
use std::fmt::Write;
use workload::{clear_spare_bits, Random};

/// The route file that is made of a text.
#[track_caller]
fn compiled(text: impl AsRef<[u8]>) -> Vec<u8> {
    let ran = mft_reading(text.as_ref(), &["compile", "-", "-o", "-"]);
    assert_eq!(ran.status, 0, "{}", ran.errors);
    ran.output
}

/// What is said about a text that is refused.
#[track_caller]
fn fault(text: impl AsRef<[u8]>) -> String {
    mft_reading(text.as_ref(), &["compile", "-", "-o", "-"]).refused().to_string()
}

#[test]
fn the_bundled_texts_make_the_bundled_files() {
    for name in GOOD {
        let folder = Folder::new();
        let new = folder.file("new.routes");
        mft(&["compile", &example(&format!("{name}.txt")), "-o", &new]).done();
        let mut expected = example_bytes(&format!("{name}.routes"));
        clear_spare_bits(&mut expected);
        assert_eq!(std::fs::read(&new).expect("it was written"), expected, "{name}");
        assert_eq!(folder.names(), ["new.routes"]);
    }
}

#[test]
fn what_was_written_is_said() {
    let folder = Folder::new();
    let new = folder.file("new.routes");
    let said = mft(&["compile", &example("line.txt"), "-o", &new]).done();
    assert_eq!(said, format!("{new}: 116 routes in 793 bytes\n"));
}

#[test]
fn the_order_of_the_lines_does_not_matter() {
    let text = String::from_utf8(example_bytes("line.txt")).expect("it is text");
    let mut lines: Vec<&str> = text.lines().collect();
    for seed in 0..20 {
        let mut random = Random::new(seed);
        for last in (1..lines.len()).rev() {
            lines.swap(last, random.index(last + 1));
        }
        assert_eq!(compiled(lines.join("\n")), example_bytes("line.routes"), "seed {seed}");
    }
}

#[test]
fn spaces_tabs_comments_line_ends_and_a_byte_order_mark_are_accepted() {
    let expected = compiled("10.0.0.0/8 7\n10.1.0.0/16 9\n");
    let texts: [&[u8]; 9] = [
        b"10.0.0.0/8 7\n10.1.0.0/16 9",
        b"10.0.0.0/8 7\r\n10.1.0.0/16 9\r\n",
        b"10.0.0.0/8 7\r10.1.0.0/16 9\r",
        b"\xEF\xBB\xBF10.0.0.0/8 7\n10.1.0.0/16 9\n",
        b"\t10.0.0.0/8\t\t7\t\n   10.1.0.0/16    9   \n",
        b"# all\n\n10.0.0.0/8 7# hall 7\n \t \n10.1.0.0/16 9 # bay # 9\n#",
        b"10.0.0.0/8 7 # M\xFCller\n10.1.0.0/16 9 # \x00\x01\n",
        "10.1.0.0/16 9 # Prüfstand 9\n10.0.0.0/8 7\n".as_bytes(),
        "10.0.0.0/8 7 #\u{a0}\n10.1.0.0/16 9\n".as_bytes(),
    ];
    for text in texts {
        assert_eq!(compiled(text), expected, "{}", String::from_utf8_lossy(text));
    }
}

#[test]
fn a_text_without_routes_makes_the_file_of_no_routes() {
    for text in ["", "\n", "# nothing\n", " \t\r\n"] {
        assert_eq!(compiled(text), [1, 0, 0, 0, 0]);
    }
}

#[test]
fn a_line_at_fault_is_shown_with_a_mark_under_the_part_and_what_to_do() {
    assert_eq!(
        fault("# bays\n10.20.1.0/20 101  # bay 1\n"),
        "mft: standard input: line 2: the address has bits set past the prefix length (refusal 5)\n\
         \u{20} 2 | 10.20.1.0/20 101  # bay 1\n\
         \u{20}   | ^^^^^^^^^\n\
         \u{20} Write 10.20.0.0/20, or a longer length: at least 10.20.1.0/24.\n"
    );
}

/// A line, the marks under it, what is said of it, and the advice.
const FAULTS: [(&str, &str, &str, &str); 20] = [
    ("10.20.1.0 101", "^^^^^^^^^", "there is no / between an address and a length", "10.20.1.0/24"),
    ("10.20.1/24 101", "^^^^^^^", "what stands before the / is no address", "four numbers"),
    ("10.20.1.256/24 101", "^^^^^^^^^^^", "what stands before the / is no address", "0 to 255"),
    ("10.20.01.0/24 101", "^^^^^^^^^^", "what stands before the / is no address", "no 0 before another digit"),
    ("/24 101", "^", "what stands before the / is no address", "four numbers"),
    ("bay/24 101", "^^^", "what stands before the / is no address", "four numbers"),
    ("10.20.1.0/x 101", "          ^", "what follows the / is no number", "from 0 to 32"),
    ("10.20.1.0/255.255.255.0 101", "          ^^^^^^^^^^^^^", "what follows the / is no number", "24, where a mask"),
    ("10.20.1.0/33 101", "          ^^", "the prefix length is above 32 (refusal 4)", "from 0 to 32"),
    ("10.20.1.1/24 101", "^^^^^^^^^", "bits set past the prefix length (refusal 5)", "10.20.1.0/24, or a longer"),
    ("128.0.0.0/0 101", "^^^^^^^^^", "bits set past the prefix length (refusal 5)", "at least 128.0.0.0/1."),
    ("10.20.1.0/24 0", "             ^", "the port is outside 1 to 4094 (refusal 6)", "1 to 4094"),
    ("10.20.1.0/24 4095", "             ^^^^", "the port is outside 1 to 4094 (refusal 6)", "1 to 4094"),
    ("10.20.1.0/24 99999999999", "             ^^^^^^^^^^^", "the port is outside 1 to 4094 (refusal 6)", "1 to 4094"),
    ("10.20.1.0/24 bay", "             ^^^", "what follows the prefix is no number", "1 to 4094"),
    ("10.20.1.0/24 0101", "             ^^^^", "what follows the prefix is no number", "1 to 4094"),
    ("10.20.1.0/24 101 bay 1", "                 ^^^^^", "something follows the port", "Put a # before it"),
    ("\t10.20.1.256/24\t101 # bay", "\t^^^^^^^^^^^", "what stands before the / is no address", "four numbers"),
    ("10.20.1.0/24\u{a0}101", "            ^", "no ordinary one, but the character U+00A0", "Type a space"),
    ("ä/24 101", "^", "what stands before the / is no address", "four numbers"),
];

#[test]
fn every_fault_of_a_line_is_marked_and_explained() {
    for (line, marks, wrong, advice) in FAULTS {
        let said = fault(format!("10.0.0.0/8 7\n{line}\n"));
        let [head, shown, mark, last] = said.lines().collect::<Vec<_>>()[..] else { panic!("{said}") };
        assert!(head.starts_with("mft: standard input: line 2: ") && head.contains(wrong), "{said}");
        assert_eq!((shown, mark), (format!("  2 | {line}").as_str(), format!("    | {marks}").as_str()));
        assert!(last.contains(advice), "{said}");
    }
}

#[test]
fn a_missing_port_is_marked_where_it_should_stand() {
    let said = fault("10.20.1.0/24\n");
    assert!(said.contains("\n  1 | 10.20.1.0/24\n    |              ^\n"), "{said}");
    let said = fault("10.20.1.0/24 # 101\n");
    assert!(said.contains("\n  1 | 10.20.1.0/24 # 101\n    |              ^\n"), "{said}");
}

#[test]
fn lines_are_counted_alike_whatever_ends_them() {
    for end in ["\n", "\r\n", "\r"] {
        let said = fault(["10.0.0.0/8 7", "# the bays", "", "10.20.1.0/24 x", ""].join(end));
        assert!(
            said.starts_with("mft: standard input: line 4: ") && said.contains("\n  4 | 10.20.1.0/24 x\n"),
            "{said}"
        );
    }
}

#[test]
fn a_line_with_an_earlier_number_is_shown_first_though_it_is_found_last() {
    let mut lines = vec!["10.0.0.0/8 7".to_string(); 2];
    lines.extend((0..20).map(|number| format!("10.{number}.0.0/16 x")));
    let said = fault(lines.join("\n"));
    assert!(said.starts_with("mft: standard input: line 2: 10.0.0.0/8 stands in line 1 already"), "{said}");
    assert!(said.ends_with("mft: standard input: 11 lines are at fault besides.\n"), "{said}");
}

#[test]
fn equal_prefixes_are_refused_with_both_lines() {
    for port in [101, 102] {
        let said = fault(format!("10.20.1.0/24 101 # first\n10.0.0.0/8 7\n10.20.1.0/24 {port}\n"));
        assert_eq!(
            said,
            format!(
                "mft: standard input: line 3: 10.20.1.0/24 stands in line 1 already (refusal 7)\n\
                 \u{20} 1 | 10.20.1.0/24 101 # first\n\
                 \u{20} 3 | 10.20.1.0/24 {port}\n\
                 \u{20}   | ^^^^^^^^^^^^\n\
                 \u{20} Keep one of the two lines: a prefix has one port.\n"
            )
        );
    }
}

#[test]
fn ten_faults_are_shown_in_order_and_the_others_counted() {
    let mut text = String::new();
    for number in 0..12 {
        let _ = writeln!(text, "10.{number}.0.0/16 5000");
    }
    text += "11.0.0.0/8 1\n11.0.0.0/8 2\n";
    let said = fault(&text);
    let lines: Vec<&str> = said.lines().filter(|line| line.starts_with("mft: ")).collect();
    assert_eq!(lines.len(), 11, "{said}");
    for (number, line) in lines[..10].iter().enumerate() {
        assert!(line.starts_with(&format!("mft: standard input: line {}: ", number + 1)), "{line}");
    }
    assert_eq!(lines[10], "mft: standard input: 3 lines are at fault besides.");
}

#[test]
fn the_first_line_too_many_is_named_whatever_the_order() {
    let mut lines = vec!["# many".to_string()];
    lines.extend((0..4097).rev().map(|number| format!("10.{}.{}.0/24 7", number / 256, number % 256)));
    let said = fault(lines.join("\n"));
    assert!(said.starts_with("mft: standard input: line 4098: this is one route more than the 4,096"), "{said}");
    assert!(said.contains("(refusal 8)\n  4098 | 10.0.0.0/24 7\n       | ^^^^^^^^^^^^^\n"), "{said}");
    lines.pop();
    assert_eq!(RouteList::read(&compiled(lines.join("\n"))).map(|list| list.len()), Ok(4096));
}

#[test]
fn a_long_line_is_shown_around_its_fault() {
    let said = fault(format!("{}10.0.0.0/40 7{}\n", " ".repeat(5000), " ".repeat(5000)));
    let lines: Vec<&str> = said.lines().collect();
    assert!(lines.iter().all(|line| line.chars().count() < 200), "{said}");
    let column = |line: &str, text: &str| line.find(text).map(|at| line[..at].chars().count());
    assert_eq!(column(lines[1], "40 7"), column(lines[2], "^^"), "{said}");
}

#[test]
fn what_is_no_text_is_told() {
    assert!(fault(example_bytes("line.routes")).contains("this is a route file already, and no text\n  `mft text`"));
    assert!(fault(b"\xFF\xFE1\x000\x00").contains("the text is UTF-16\n  Save it as UTF-8"));
    assert!(fault(file_of_many(1)).contains("this is a route file already"));
}

#[test]
fn characters_that_a_terminal_obeys_are_not_printed() {
    let said = fault("10.0.0.0/8 \x1b[2J\x07\n");
    assert!(said.chars().all(|character| character == '\n' || !character.is_control()), "{said:?}");
}
