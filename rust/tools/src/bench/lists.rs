//! Builds, listings, the check of good order, saving, and the route file.

use super::race::{Race, Runner};
use super::subject::Subject;
use crate::plain_check;
use crate::plain_trie::PlainTrie;
use maftehon::calls;

const RUN_WORDS_LAST: usize = 3 * 8193;
const FILE_BYTES_LAST: usize = 5 + 7 * 4096;
/// Quick operations are repeated within a turn.
const REPEATED: usize = 10;

pub fn races(subject: &Subject) -> Vec<Race<'_>> {
    vec![
        image_build(subject, 1, "image build, stride 1"),
        image_build(subject, 2, "image build, stride 2"),
        image_build(subject, 4, "image build, stride 4"),
        table_build(subject),
        check(subject),
        list_runs(subject),
        table_runs(subject),
        save(subject),
        file_read(subject),
        file_write(subject),
    ]
}

fn image_build<'a>(subject: &'a Subject, stride: u32, what: &'static str) -> Race<'a> {
    let list = &subject.list;
    let room = || (vec![0; 2 * 130_000], vec![0; 450_000]);
    let (mut nodes, mut ports) = room();
    let (mut other_nodes, mut other_ports) = room();
    Race::new(what)
        .runner(Runner::Proved, 1, move |_| calls::image_build(stride, list, &mut nodes, &mut ports))
        .runner(Runner::Plain, 1, |_| PlainTrie::build(list))
        .runner(Runner::Reference, 1, move |_| reference::image_build(stride, list, &mut other_nodes, &mut other_ports))
}

fn table_build(subject: &Subject) -> Race<'_> {
    let list = &subject.list;
    let (mut rows, mut other_rows) = (subject.rows.clone(), subject.rows.clone());
    Race::new("table build")
        .runner(Runner::Proved, 1, move |_| calls::table_build(list, &mut rows))
        .runner(Runner::Plain, 1, |_| PlainTrie::build(list))
        .runner(Runner::Reference, 1, move |_| reference::table_build(list, &mut other_rows))
}

fn check(subject: &Subject) -> Race<'_> {
    let Subject { rows, n, .. } = subject;
    Race::new("good-order check, and a plain loop over the rows")
        .runner(Runner::Proved, REPEATED, |_| calls::table_check(rows, *n))
        .runner(Runner::Plain, REPEATED, |_| plain_check::is_good(rows, *n))
        .runner(Runner::Reference, 1, |_| reference::table_check(rows, *n))
}

fn list_runs(subject: &Subject) -> Race<'_> {
    let list = &subject.list;
    let (mut runs, mut other_runs) = (vec![0; RUN_WORDS_LAST], vec![0; RUN_WORDS_LAST]);
    Race::new("run listing of a list")
        .runner(Runner::Proved, REPEATED, move |_| calls::list_runs(list, &mut runs))
        .runner(Runner::Reference, 1, move |_| reference::list_runs(list, &mut other_runs))
}

fn table_runs(subject: &Subject) -> Race<'_> {
    let Subject { rows, n, .. } = subject;
    let (mut runs, mut other_runs) = (vec![0; RUN_WORDS_LAST], vec![0; RUN_WORDS_LAST]);
    Race::new("run listing of a table")
        .runner(Runner::Proved, 1, move |_| calls::table_runs(rows, *n, &mut runs))
        .runner(Runner::Reference, 1, move |_| reference::table_runs(rows, *n, &mut other_runs))
}

fn save(subject: &Subject) -> Race<'_> {
    let Subject { rows, n, .. } = subject;
    let (mut list, mut other_list) = (subject.list.clone(), subject.list.clone());
    Race::new("table saved as a list")
        .runner(Runner::Proved, 1, move |_| calls::table_save(rows, *n, &mut list))
        .runner(Runner::Reference, 1, move |_| reference::table_save(rows, *n, &mut other_list))
}

fn file_read(subject: &Subject) -> Race<'_> {
    let mut file = vec![0; FILE_BYTES_LAST];
    let written = reference::file_write(&subject.list, &mut file);
    file.truncate(written.answer[1] as usize);
    let other_file = file.clone();
    let (mut list, mut other_list) = (subject.list.clone(), subject.list.clone());
    Race::new("file read").runner(Runner::Proved, REPEATED, move |_| calls::file_read(&file, &mut list)).runner(
        Runner::Reference,
        REPEATED,
        move |_| reference::file_read(&other_file, &mut other_list),
    )
}

fn file_write(subject: &Subject) -> Race<'_> {
    let list = &subject.list;
    let (mut file, mut other_file) = (vec![0; FILE_BYTES_LAST], vec![0; FILE_BYTES_LAST]);
    Race::new("file written").runner(Runner::Proved, REPEATED, move |_| calls::file_write(list, &mut file)).runner(
        Runner::Reference,
        REPEATED,
        move |_| reference::file_write(list, &mut other_file),
    )
}
