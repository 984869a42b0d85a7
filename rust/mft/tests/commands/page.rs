//! `mft page`: what stands on the page, and on which sheet.

use crate::support::{any_list, example, example_bytes, file_of, file_of_many, mft, mft_reading, seeds, Folder};
use mft::date::Date;
use mft::figures::grouped;
use mft::page::wrapped;
use workload::Random;

/// The page of a file, with these options.
#[track_caller]
fn page(file: &[u8], options: &[&str]) -> String {
    let ran = mft_reading(file, &[&["page", "-", "-o", "-"], options].concat());
    assert_eq!(ran.status, 0, "{}", ran.errors);
    ran.text()
}

#[track_caller]
fn line_page(options: &[&str]) -> String {
    let (file, names) = (example("line.routes"), example("line.ports"));
    let ran = mft(&[&["page", &file, "-o", "-", "--names", &names], options].concat());
    assert_eq!(ran.status, 0, "{}", ran.errors);
    ran.text()
}

/// The cells of the rows of a class, in order.
fn rows(html: &str, class: &str) -> Vec<Vec<String>> {
    let begins = format!("<tr class=\"{class}\">");
    let lines = html.lines().filter_map(|line| line.strip_prefix(&begins)?.strip_suffix("</tr>"));
    let cells = |line: &str| {
        let cells = line.split("</td>").filter(|cell| !cell.is_empty());
        cells.map(|cell| cell.split_once('>').map_or(cell, |(_, text)| text).to_string()).collect()
    };
    lines.map(cells).collect()
}

fn sections(html: &str) -> Vec<&str> {
    html.split("<section class=\"page\">").skip(1).collect()
}

#[test]
fn the_head_has_title_date_file_checksum_and_routes() {
    let html = line_page(&["--title", "Test line 3", "--date", "2026-11-17"]);
    for part in [
        "<!DOCTYPE html>",
        "<meta charset=\"utf-8\">",
        "<title>Test line 3</title>",
        "<h1>Test line 3</h1>",
        "<tr><td>Date</td><td>2026-11-17</td></tr>",
        "<tr><td>File</td><td>line.routes</td></tr>",
        "<td class=\"checksum\">99fd9483 c072d858 ea3575eb c677e584 80537c32 689ba738 7dd9c4cc dfdfe195</td>",
        "<tr><td>Routes</td><td>116 routes, 132 runs of addresses</td></tr>",
    ] {
        assert_eq!(html.matches(part).count(), 1, "{part}");
    }
}

#[test]
fn without_a_title_and_a_date_it_has_the_file_and_today() {
    let before = Date::today();
    let html = line_page(&[]);
    assert!(html.contains("<h1>Routes of line.routes</h1>"));
    let dates = [before, Date::today()].map(|date| format!("<td>Date</td><td>{date}</td>"));
    assert!(dates.iter().any(|date| html.contains(date)));
}

#[test]
fn nothing_is_fetched_and_nothing_runs() {
    for html in [line_page(&[]), page(&example_bytes("empty.routes"), &[]), page(&file_of_many(4096), &[])] {
        for part in ["<script", "http", "src=", "href=", "url(", "@import", "<link"] {
            assert!(!html.contains(part), "{part}");
        }
    }
}

#[test]
fn every_run_and_every_port_stands_there_once() {
    for seed in seeds(40) {
        let file = file_of(&any_list(&mut Random::new(seed)));
        let html = page(&file, &[]);
        let listed = mft_reading(&file, &["runs", "-"]).done();
        let expected = listed.lines().skip(1).map(|line| {
            let [first, last, port] = line.split(' ').collect::<Vec<_>>()[..] else { panic!("{line}") };
            let number = |text: &str| u32::from(text.parse::<std::net::Ipv4Addr>().expect("it is an address"));
            let count = grouped(u64::from(number(last) - number(first)) + 1);
            let port = if port == "0" { "no route" } else { port };
            [first, last, port, &count].map(String::from).to_vec()
        });
        assert_eq!(rows(&html, "run"), expected.collect::<Vec<_>>(), "MAFTEHON_SEED={seed}");
        let counted = mft_reading(&file, &["counts", "-"]).done();
        let counted = counted.lines().filter(|line| !line.starts_with("total")).map(|line| {
            let (port, count) = line.rsplit_once("  ").expect("a line has two columns");
            vec![port.trim().trim_start_matches("port ").to_string(), count.trim().to_string()]
        });
        assert_eq!(rows(&html, "by-port"), counted.collect::<Vec<_>>(), "MAFTEHON_SEED={seed}");
    }
}

#[test]
fn ports_have_their_names() {
    let runs = rows(&line_page(&[]), "run");
    assert_eq!(runs[3], ["10.20.1.16", "10.20.1.31", "1016", "Bay 1, radio fixture 1", "16"]);
    assert!(runs.iter().all(|row| !row[3].is_empty()), "each port of the example has a name");
    let folder = Folder::new();
    let names = folder.with("names", "\u{feff}# two\r\n7\tHall  7 # the hall\r\n\r\n4094 elsewhere\r\n");
    let html = page(&example_bytes("floor.routes"), &["--names", &names]);
    let by_port: Vec<[String; 2]> =
        rows(&html, "by-port").into_iter().map(|row| [row[0].clone(), row[1].clone()]).collect();
    assert_eq!(by_port, [["no route", ""], ["7", "Hall 7"], ["9", ""]].map(|row| row.map(String::from)));
}

#[test]
fn all_text_is_escaped() {
    let folder = Folder::new();
    let names = folder.with("names", "7 <b>\"Hall\" & 'yard'</b>\n9 </td><script>\n");
    let file = folder.with("a<i>&.routes", example_bytes("floor.routes"));
    let html = mft(&["page", &file, "-o", "-", "--names", &names, "--title", "<h1>&amp;\u{7}"]).text();
    assert!(html.contains("&lt;b&gt;&quot;Hall&quot; &amp; &#39;yard&#39;&lt;/b&gt;"), "{html}");
    assert!(html.contains("&lt;/td&gt;&lt;script&gt;"));
    assert!(html.contains("<h1>&lt;h1&gt;&amp;amp;\u{fffd}</h1>"));
    assert!(html.contains("<td>a&lt;i&gt;&amp;.routes</td>"));
    assert!(!html.contains("<b>\"") && !html.contains("<script") && !html.contains("<i>"));
}

#[test]
fn every_sheet_says_its_number_and_repeats_its_heads() {
    for (file, sheets) in [(example_bytes("empty.routes"), 1), (example_bytes("line.routes"), 6), (file_of_many(1), 1)]
    {
        let html = page(&file, &["--title", "Hall", "--date", "2026-11-17"]);
        let sections = sections(&html);
        assert_eq!(sections.len(), sheets);
        for (before, section) in sections.iter().enumerate() {
            assert!(section.contains(&format!("<span>page {} of {sheets}</span>", before + 1)));
            assert_eq!(section.matches("<h2>").count(), section.matches("<th class=\"port\">Port</th>").count());
            assert!(section.contains("<tr class=\"run\">") || section.contains("<tr class=\"by-port\">"));
            assert_eq!(
                section.contains("<p class=\"running\"><b>Hall</b>, 2026-11-17, standard input</p>"),
                before > 0
            );
        }
    }
}

/// The lines that a sheet takes, as the style makes them high.
fn lines_of(section: &str) -> usize {
    let rows = section.lines().filter(|line| line.starts_with("<tr")).map(|line| 1 + line.matches("<br>").count());
    let title = section.lines().find(|line| line.starts_with("<h1>"));
    let head = title.map_or(2, |title| 2 * (1 + title.matches("<br>").count()) + 1);
    head + 2 * section.matches("<h2>").count() + rows.sum::<usize>()
}

#[test]
fn no_sheet_is_overfull_however_many_runs_and_however_long_the_names() {
    let folder = Folder::new();
    let long = |number: u32| match number % 4 {
        0 => "W".repeat(120),
        1 => "many words and then some more, ".repeat(3),
        2 => "工位".repeat(60),
        _ => "x".to_string(),
    };
    let names: String = (1..4095).map(|port| format!("{port} {}\n", long(port))).collect();
    let names = folder.with("names", names);
    let title = "W".repeat(120);
    let alternate: Vec<u32> = (0..4096).flat_map(|number| [2 * number + 1, 32, 1 + number % 4094]).collect();
    let file = file_of(&alternate);
    let plain = page(&file, &[]);
    assert_eq!(rows(&plain, "run").len(), 8193);
    let named = page(&file, &["--names", &names, "--title", &title]);
    assert_eq!(rows(&named, "run").len(), 8193);
    for html in [plain, named] {
        let sections = sections(&html);
        for (before, section) in sections.iter().enumerate() {
            assert!(lines_of(section) <= 52, "page {}: {}", before + 1, lines_of(section));
        }
        // Only names that would not fit leave room at the end of a sheet.
        assert!(sections.len() < 8193 * 8 / 30, "{} pages", sections.len());
    }
}

#[test]
fn a_table_does_not_begin_with_a_row_or_two_at_the_end_of_a_sheet() {
    for routes in 0..60 {
        let alternate: Vec<u32> = (0..routes).flat_map(|number| [2 * number + 1, 32, 1 + number]).collect();
        let html = page(&file_of(&alternate), &[]);
        for section in sections(&html) {
            for table in section.split("<h2>").skip(1) {
                let count = table.matches("<tr class=").count();
                let all = if table.starts_with("Where") { 2 * routes + 1 } else { 1 + routes };
                let is_first = !table.split("</h2>").next().unwrap_or_default().ends_with("continued");
                assert!(count >= 3 || !is_first || count as u32 >= all.min(3), "{routes} routes: {count} rows");
            }
        }
    }
}

#[test]
fn names_at_fault_are_marked() {
    let folder = Folder::new();
    let cases = [
        ("Bay 1\n", "line 1: this is no port number", "    | ^^^\n"),
        ("0 Bay\n", "line 1: the port is outside 1 to 4094 (refusal 6)", "    | ^\n"),
        ("# x\n4095 Bay\n", "line 2: the port is outside 1 to 4094 (refusal 6)", "    | ^^^^\n"),
        ("0101 Bay\n", "line 1: this is no port number", "    | ^^^^\n"),
        ("101\n", "line 1: there is no name after the port", "    |     ^\n"),
        ("101 # Bay 1\n", "line 1: there is no name after the port", "    |     ^\n"),
        ("7 Bay\n7 Hall\n", "line 2: port 7 has a name in line 1 already", "  1 | 7 Bay\n  2 | 7 Hall\n    | ^\n"),
    ];
    for (text, wrong, shown) in cases {
        let (names, new) = (folder.with("names", text), folder.file("new.html"));
        let ran = mft(&["page", &example("floor.routes"), "--names", &names, "-o", &new]);
        assert!(ran.refused().starts_with(&format!("mft: {names}: {wrong}\n")), "{}", ran.errors);
        assert!(ran.errors.contains(shown), "{}", ran.errors);
        assert_eq!(folder.names(), ["names"]);
    }
    let cases: [(&[u8], &str); 3] = [
        (b"7 M\xFCller\n", "line 1: this is no UTF-8 text"),
        (b"\xFF\xFE7\x00", "the text is UTF-16"),
        (&[&b"7 "[..], &[b'x'; 121]].concat(), "line 1: the name has more than 120 characters"),
    ];
    for (text, wrong) in cases {
        let names = folder.with("names", text);
        let ran = mft(&["page", &example("floor.routes"), "--names", &names, "-o", "-"]);
        assert!(ran.refused().starts_with(&format!("mft: {names}: {wrong}\n")), "{}", ran.errors);
    }
}

#[test]
fn text_is_parted_at_spaces_and_no_character_is_lost() {
    assert_eq!(wrapped("", 10), [""]);
    assert_eq!(wrapped("Bay 1, radio fixture 1", 11), ["Bay 1, radio", "fixture 1"]);
    assert_eq!(wrapped("0123456789", 4), ["0123", "4567", "89"]);
    for seed in seeds(200) {
        let mut random = Random::new(seed);
        let letters = ['a', 'W', 'i', ' ', '1', 'ß', '工'];
        let text: String = (0..random.index(60)).map(|_| random.pick(&letters)).collect();
        let lines = wrapped(&text, 2 + random.index(20));
        let letters = |text: &str| text.chars().filter(|c| *c != ' ').collect::<String>();
        assert_eq!(letters(&lines.concat()), letters(&text), "MAFTEHON_SEED={seed}");
    }
}

#[test]
fn how_many_pages_there_are_is_said() {
    let folder = Folder::new();
    let new = folder.file("new.html");
    assert_eq!(mft(&["page", &example("line.routes"), "-o", &new]).done(), format!("{new}: 6 pages\n"));
    assert_eq!(mft(&["page", &example("floor.routes"), "-o", &new]).done(), format!("{new}: 1 page\n"));
}
