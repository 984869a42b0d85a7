//! Each call of the boundary, made on two libraries and compared.

use crate::lent::{Lent, Memory};
use crate::library::Library;
use crate::tally::Tally;
use reference::Answer;
use std::fmt::{self, Debug};
use workload::segments::Stores;
use workload::{list_of, Held, COUNTS};

/// What a compared call, or a scenario of them, gives where the two libraries agree.
///
/// # Errors
///
/// Of every function that gives this: the first call on which they differ, or that both get wrong, and nothing else.
pub type Compared<T> = Result<T, Difference>;

/// A call on which the two libraries differ, or whose output is not what the rules say.
#[derive(Debug)]
pub struct Difference {
    call: &'static str,
    arguments: String,
    what: String,
}

/// All there are.
const ADDRESSES: u64 = 1 << 32;

/// The element of an address whose lookup is refused, where many are looked up in one call.
const UNFOUND: u16 = 65_535;

/// A large input or output is not printed whole: the seed makes it again.
const SHOWN_LAST: usize = 400;

fn shown(value: &impl Debug) -> String {
    let mut text = format!("{value:?}");
    if text.len() > SHOWN_LAST {
        text.truncate(SHOWN_LAST);
        text += " ..";
    }
    text
}

impl Difference {
    fn new(call: &'static str, argument: &impl Debug, what: String) -> Difference {
        Difference { call, arguments: shown(argument), what }
    }
}

impl fmt::Display for Difference {
    fn fmt(&self, formatter: &mut fmt::Formatter) -> fmt::Result {
        write!(formatter, "{} {}: {}", self.call, self.arguments, self.what)
    }
}

impl std::error::Error for Difference {}

/// Makes every call on the tried library and on the one that is right, each with its own copy of the memory.
pub struct Checker<'a> {
    tried: &'a Library,
    right: &'a Library,
    pub tally: Tally,
}

impl<'a> Checker<'a> {
    pub fn new(tried: &'a Library, right: &'a Library) -> Checker<'a> {
        Checker { tried, right, tally: Tally::default() }
    }

    /// The call with each of the arguments in turn, then the memory, guards included.
    fn each<M: Memory, A: Debug, const N: usize>(
        &mut self,
        call: &'static str,
        lent: M,
        arguments: &[A],
        make: impl Fn(&Library, &mut M, &A) -> Answer<N>,
    ) -> Compared<(Vec<Answer<N>>, M)> {
        let (mut tried_lent, mut right_lent) = (lent.clone(), lent);
        let mut answers = Vec::with_capacity(arguments.len());
        for argument in arguments {
            let tried = make(self.tried, &mut tried_lent, argument);
            let right = make(self.right, &mut right_lent, argument);
            if tried != right {
                let what = format!("answered {tried:?}, and the reference {right:?}");
                return Err(Difference::new(call, argument, what));
            }
            self.tally.add(call, tried.number);
            answers.push(right);
        }
        match (tried_lent.difference(&right_lent), arguments.last()) {
            (Some(what), Some(last)) => Err(Difference::new(call, last, what)),
            _ => Ok((answers, right_lent)),
        }
    }

    /// One call; its argument is only what a difference prints.
    fn one<M: Memory, A: Debug, const N: usize>(
        &mut self,
        call: &'static str,
        lent: M,
        argument: A,
        make: impl Fn(&Library, &mut M) -> Answer<N>,
    ) -> Compared<(Answer<N>, M)> {
        let (answers, lent) = self.each(call, lent, &[argument], |library, lent, _| make(library, lent))?;
        Ok((answers[0], lent))
    }

    pub fn file_read(&mut self, file: &[u8], room: usize) -> Compared<(Answer<2>, Vec<u32>)> {
        let lent = (Lent::of(file), Lent::room(room));
        let (answer, (_, list)) = self.one("file_read", lent, (file, room), |library, (file, list)| {
            (library.file_read)(file.all(), list.all_mut())
        })?;
        Ok((answer, list.all().to_vec()))
    }

    pub fn file_write(&mut self, list: &[u32], room: usize) -> Compared<(Answer<2>, Vec<u8>)> {
        let lent = (Lent::of(list), Lent::room(room));
        let (answer, (_, file)) = self.one("file_write", lent, (list, room), |library, (list, file)| {
            (library.file_write)(list.all(), file.all_mut())
        })?;
        Ok((answer, file.all().to_vec()))
    }

    /// Reads a file and writes what was read: what comes back is to be the bytes expected, which no library made.
    pub fn file_back(&mut self, file: &[u8], expected: &[u8]) -> Compared<()> {
        // A route takes three bytes at least and three words, so as many words as bytes are room enough.
        let (read, list) = self.file_read(file, file.len())?;
        let (written, back) = self.file_write(&list[..3 * read.answer[1] as usize], file.len())?;
        let back = &back[..written.answer[1] as usize];
        if back != expected {
            let what = format!("came back as {}, and is to come back as {}", shown(&back), shown(&expected));
            return Err(Difference::new("file_write", &file, what));
        }
        Ok(())
    }

    pub fn list_check(&mut self, list: &[u32]) -> Compared<Answer<1>> {
        let checked = self.one("list_check", Lent::of(list), (list,), |library, list| (library.list_check)(list.all()));
        Ok(checked?.0)
    }

    pub fn list_scan(&mut self, list: &[u32], addresses: &[u32]) -> Compared<()> {
        self.each("list_scan", Lent::of(list), addresses, |library, list, address| {
            (library.list_scan)(list.all(), *address)
        })?;
        Ok(())
    }

    pub fn table_check(&mut self, rows: &[u32], n: u32) -> Compared<Answer<1>> {
        let checked =
            self.one("table_check", Lent::of(rows), (n,), |library, rows| (library.table_check)(rows.all(), n));
        Ok(checked?.0)
    }

    pub fn table_lookup(&mut self, rows: &[u32], n: u32, addresses: &[u32]) -> Compared<Vec<Answer<3>>> {
        let found = self.each("table_lookup", Lent::of(rows), addresses, |library, rows, address| {
            (library.table_lookup)(rows.all(), n, *address)
        });
        Ok(found?.0)
    }

    pub fn table_build(&mut self, list: &[u32], room: usize) -> Compared<(Answer<2>, Vec<u32>)> {
        let lent = (Lent::of(list), Lent::room(room));
        let (answer, (_, rows)) = self.one("table_build", lent, (list, room), |library, (list, rows)| {
            (library.table_build)(list.all(), rows.all_mut())
        })?;
        Ok((answer, rows.all().to_vec()))
    }

    pub fn table_save(&mut self, rows: &[u32], n: u32, room: usize) -> Compared<Answer<2>> {
        let lent = (Lent::of(rows), Lent::room(room));
        let saved = self.one("table_save", lent, (n, room), |library, (rows, list)| {
            (library.table_save)(rows.all(), n, list.all_mut())
        });
        Ok(saved?.0)
    }

    /// Room is words of nodes, then ports.
    pub fn image_build(
        &mut self,
        stride: u32,
        list: &[u32],
        room: (usize, usize),
    ) -> Compared<(Answer<3>, Vec<u32>, Vec<u16>)> {
        let lent = (Lent::of(list), (Lent::room(room.0), Lent::room(room.1)));
        let (answer, (_, (nodes, ports))) =
            self.one("image_build", lent, (stride, list, room), |library, (list, (nodes, ports))| {
                (library.image_build)(stride, list.all(), nodes.all_mut(), ports.all_mut())
            })?;
        Ok((answer, nodes.all().to_vec(), ports.all().to_vec()))
    }

    /// The general lookup, and at strides 1, 2 and 4 also the one whose stride is a constant.
    pub fn image_lookup(
        &mut self,
        stride: u32,
        nodes: &[u32],
        ports: &[u16],
        addresses: &[u32],
    ) -> Compared<Vec<Answer<3>>> {
        let lent = (Lent::of(nodes), Lent::of(ports));
        let (answers, _) = self.each("image_lookup", lent.clone(), addresses, |library, (nodes, ports), address| {
            (library.image_lookup)(stride, nodes.all(), ports.all(), *address)
        })?;
        if [1, 2, 4].contains(&stride) {
            self.each("image_lookup_S", lent, addresses, |library, (nodes, ports), address| {
                (library.image_lookup_constant)(stride, nodes.all(), ports.all(), *address)
            })?;
        }
        Ok(answers)
    }

    pub fn list_runs(&mut self, list: &[u32], room: usize) -> Compared<(Answer<2>, Vec<u32>)> {
        let lent = (Lent::of(list), Lent::room(room));
        let (answer, (_, runs)) = self.one("list_runs", lent, (list, room), |library, (list, runs)| {
            (library.list_runs)(list.all(), runs.all_mut())
        })?;
        Ok((answer, runs.all().to_vec()))
    }

    pub fn table_runs(&mut self, rows: &[u32], n: u32, room: usize) -> Compared<Answer<2>> {
        let lent = (Lent::of(rows), Lent::room(room));
        let listed = self.one("table_runs", lent, (n, room), |library, (rows, runs)| {
            (library.table_runs)(rows.all(), n, runs.all_mut())
        });
        Ok(listed?.0)
    }

    /// Room is entries of each store.
    pub fn segments_build(&mut self, list: &[u32], room: [usize; 4]) -> Compared<(Answer<4>, Stores)> {
        let lent = (Lent::of(list), room.map(Lent::room));
        let (answer, (_, stores)) = self.one("segments_build", lent, (list, room), |library, (list, stores)| {
            (library.segments_build)(list.all(), stores.each_mut().map(Lent::all_mut))
        })?;
        Ok((answer, stores.map(|store| store.all().to_vec())))
    }

    pub fn segments_lookup(&mut self, stores: &Stores, addresses: &[u32]) -> Compared<Vec<Answer<3>>> {
        let lent = stores.each_ref().map(|store| Lent::of(store));
        let found = self.each("segments_lookup", lent, addresses, |library, stores, address| {
            (library.segments_lookup)(stores.each_ref().map(Lent::all), *address)
        });
        Ok(found?.0)
    }

    /// The call for the debug page, with each of these entries of a first table.
    pub fn segments_entries(&mut self, stores: &Stores, entries: &[u32]) -> Compared<Vec<Answer<3>>> {
        let [_, packed, plain, _] = stores;
        let lent = [Lent::of(packed), Lent::of(plain)];
        let given = self.each("segments_entries", lent, entries, |library, stores, entry| {
            (library.segments_entries)(stores.each_ref().map(Lent::all), *entry)
        });
        Ok(given?.0)
    }

    /// The elements of `out` are afterwards what the right library leaves, and those of the addresses are also to be what
    /// the tried library's own single lookups make.
    pub fn image_lookup_many(
        &mut self,
        stride: u32,
        nodes: &[u32],
        ports: &[u16],
        addresses: &[u32],
        out: &mut [u16],
    ) -> Compared<Answer<2>> {
        let lent = ((Lent::of(nodes), Lent::of(ports)), (Lent::of(addresses), Lent::of(out)));
        let argument = (stride, addresses, out.len());
        let (answer, (_, (_, left))) =
            self.one("image_lookup_many", lent, argument, |library, ((nodes, ports), (addresses, out))| {
                (library.image_lookup_many)(stride, nodes.all(), ports.all(), addresses.all(), out.all_mut())
            })?;
        out.copy_from_slice(left.all());
        single_lookups_agree("image_lookup_many", addresses, answer, out, |address| {
            (self.tried.image_lookup)(stride, nodes, ports, address)
        })?;
        Ok(answer)
    }

    /// The elements of `out` are afterwards what the right library leaves, and those of the addresses are also to be what
    /// the tried library's own single lookups make.
    pub fn segments_lookup_many(&mut self, stores: &Stores, addresses: &[u32], out: &mut [u16]) -> Compared<Answer<2>> {
        let lent = (stores.each_ref().map(|store| Lent::of(store)), (Lent::of(addresses), Lent::of(out)));
        let argument = (addresses, out.len());
        let (answer, (_, (_, left))) =
            self.one("segments_lookup_many", lent, argument, |library, (stores, (addresses, out))| {
                (library.segments_lookup_many)(stores.each_ref().map(Lent::all), addresses.all(), out.all_mut())
            })?;
        out.copy_from_slice(left.all());
        single_lookups_agree("segments_lookup_many", addresses, answer, out, |address| {
            (self.tried.segments_lookup)(stores.each_ref().map(Vec::as_slice), address)
        })?;
        Ok(answer)
    }

    pub fn message_write(&mut self, list: &[u32], room: usize) -> Compared<(Answer<2>, Vec<u8>)> {
        let lent = (Lent::of(list), Lent::room(room));
        let (answer, (_, message)) = self.one("message_write", lent, (list, room), |library, (list, message)| {
            (library.message_write)(list.all(), message.all_mut())
        })?;
        Ok((answer, message.all().to_vec()))
    }

    /// The counts are afterwards what the right library leaves.
    pub fn counts_make(&mut self, rows: &[u32], n: u32, counts: &mut [u64]) -> Compared<Answer<1>> {
        let lent = (Lent::of(rows), Lent::of(counts));
        let (answer, (_, left)) = self.one("counts_make", lent, (n, counts.len()), |library, (rows, counts)| {
            (library.counts_make)(rows.all(), n, counts.all_mut())
        })?;
        counts.copy_from_slice(left.all());
        Ok(answer)
    }

    /// The counts of a table, made in just the memory that they take; of one not in good order, counts of no table.
    pub fn counts_of(&mut self, rows: &[u32], n: u32) -> Compared<Vec<u64>> {
        let mut counts = vec![u64::MAX; COUNTS];
        self.counts_make(rows, n, &mut counts)?;
        Ok(counts)
    }

    /// The rows and the counts are afterwards what the right library leaves.
    pub fn counted_announce(
        &mut self,
        rows: &mut [u32],
        n: u32,
        route: [u32; 3],
        counts: &mut [u64],
    ) -> Compared<Answer<2>> {
        let [value, length, port] = route;
        let (lent, argument) = (lent_table(rows, counts), (n, route, counts.len()));
        let (answer, left) = self.one("counted_announce", lent, argument, |library, (rows, counts)| {
            (library.counted_announce)(rows.all_mut(), n, value, length, port, counts.all_mut())
        })?;
        hand_back(left, rows, counts);
        Ok(answer)
    }

    /// The rows and the counts are afterwards what the right library leaves.
    pub fn counted_withdraw(
        &mut self,
        rows: &mut [u32],
        n: u32,
        prefix: (u32, u32),
        counts: &mut [u64],
    ) -> Compared<Answer<2>> {
        let (value, length) = prefix;
        let (lent, argument) = (lent_table(rows, counts), (n, prefix, counts.len()));
        let (answer, left) = self.one("counted_withdraw", lent, argument, |library, (rows, counts)| {
            (library.counted_withdraw)(rows.all_mut(), n, value, length, counts.all_mut())
        })?;
        hand_back(left, rows, counts);
        Ok(answer)
    }

    /// The rows and the counts are afterwards what the right library leaves.
    pub fn counted_message(
        &mut self,
        message: &[u8],
        port: u32,
        rows: &mut [u32],
        n: u32,
        counts: &mut [u64],
    ) -> Compared<Answer<2>> {
        let (lent, argument) = ((Lent::of(message), lent_table(rows, counts)), (message, port, n, counts.len()));
        let (answer, (_, left)) =
            self.one("counted_message", lent, argument, |library, (message, (rows, counts))| {
                (library.counted_message)(message.all(), port, rows.all_mut(), n, counts.all_mut())
            })?;
        hand_back(left, rows, counts);
        Ok(answer)
    }

    /// Makes the counts of a table: they are to be those that were kept beside it, and to total all addresses.
    pub fn counts_kept(&mut self, rows: &[u32], n: u32, kept: &[u64]) -> Compared<()> {
        let made = self.counts_of(rows, n)?;
        if made != kept[..COUNTS] {
            let what = format!("made {}, and kept beside the table were {}", shown(&made), shown(&kept));
            return Err(Difference::new("counts_make", &(n,), what));
        }
        self.counts_total(n, kept)
    }

    /// The counts that were kept beside a table are to total all addresses.
    pub fn counts_total(&self, n: u32, kept: &[u64]) -> Compared<()> {
        let total: u64 = kept[..COUNTS].iter().sum();
        if total != ADDRESSES {
            return Err(Difference::new("counts kept", &(n,), format!("total {total}, and are to total {ADDRESSES}")));
        }
        Ok(())
    }

    /// Saves a table: it is to hold the routes expected, which no library made, and no others.
    pub fn table_holds(&mut self, rows: &[u32], n: u32, expected: &Held) -> Compared<()> {
        let lent = (Lent::of(rows), Lent::room(3 * expected.len()));
        let (answer, (_, list)) = self.one("table_save", lent, (n,), |library, (rows, list)| {
            (library.table_save)(rows.all(), n, list.all_mut())
        })?;
        if (answer.number, answer.answer[1] as usize) != (0, expected.len()) || list.all() != list_of(expected) {
            let what = format!("holds {}, and is to hold {}", shown(&list.all()), shown(expected));
            return Err(Difference::new("table_save", &(n,), what));
        }
        Ok(())
    }
}

/// What a call that was done has answered and left for these addresses is to be what their single lookups make.
fn single_lookups_agree(
    call: &'static str,
    addresses: &[u32],
    answer: Answer<2>,
    out: &[u16],
    lookup: impl Fn(u32) -> Answer<3>,
) -> Compared<()> {
    if answer.number != 0 {
        return Ok(());
    }
    let elements: Vec<u16> = addresses.iter().map(|address| element_of(lookup(*address))).collect();
    let some_unfound = u32::from(elements.contains(&UNFOUND));
    if !out.starts_with(&elements) || answer.answer != [0, some_unfound] {
        let what =
            format!("answered {answer:?} and left {}, and its single lookups make {}", shown(&out), shown(&elements));
        return Err(Difference::new(call, &addresses, what));
    }
    Ok(())
}

/// What a single lookup makes of the element of its address.
fn element_of(found: Answer<3>) -> u16 {
    match found {
        Answer { number: 0, answer: [_, port, _] } => port as u16,
        _ => UNFOUND,
    }
}

/// The memory of an update.
type LentTable = (Lent<u32>, Lent<u64>);

fn lent_table(rows: &[u32], counts: &[u64]) -> LentTable {
    (Lent::of(rows), Lent::of(counts))
}

fn hand_back(left: LentTable, rows: &mut [u32], counts: &mut [u64]) {
    rows.copy_from_slice(left.0.all());
    counts.copy_from_slice(left.1.all());
}
