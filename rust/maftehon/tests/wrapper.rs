//! The ordinary wrapper: what it gives, and the texts of its refusals.

use maftehon::{Image, Place, Prefix, Refusal, Route, RouteList, SegmentTables, Stride, Table};
use std::net::Ipv4Addr;

/// The three routes of `examples/floor.routes`.
const FLOOR: &[u8] = include_bytes!("../../../examples/floor.routes");

fn floor() -> RouteList {
    RouteList::read(FLOOR).expect("the example is valid")
}

#[test]
fn the_floor_example_has_seven_runs() {
    let runs: Vec<String> = floor().runs().iter().map(|run| run.to_string()).collect();
    let expected = [
        "0.0.0.0 9.255.255.255 0",
        "10.0.0.0 10.0.255.255 7",
        "10.1.0.0 10.1.1.255 9",
        "10.1.2.0 10.1.2.255 7",
        "10.1.3.0 10.1.255.255 9",
        "10.2.0.0 10.255.255.255 7",
        "11.0.0.0 255.255.255.255 0",
    ];
    assert_eq!(runs, expected);
}

#[test]
fn every_structure_gives_the_port_of_the_scan() {
    let list = floor();
    let table = Table::build(&list, 3).expect("room for three routes");
    let segments = SegmentTables::build(&list);
    for stride in [Stride::One, Stride::Two, Stride::Four] {
        let image = Image::build(&list, stride);
        for run in list.runs() {
            for address in [run.first, run.last] {
                assert_eq!(list.scan(address), run.port);
                assert_eq!(table.lookup(address).port, run.port);
                assert_eq!(segments.lookup(address).port, run.port);
                assert_eq!(image.lookup(address).port, run.port);
            }
        }
    }
}

/// Both ends of every run of the floor example, from the last to the first, and the port of each.
fn ends_of_the_floor() -> (Vec<u32>, Vec<u16>) {
    let runs = floor().runs();
    let ends = runs.iter().rev().flat_map(|run| [run.last, run.first].map(|end| (end, run.port)));
    ends.map(|(end, port)| (u32::from(end), port.unwrap_or(0))).unzip()
}

#[test]
fn many_addresses_in_one_call_have_the_ports_of_their_single_lookups() {
    let (addresses, ports) = ends_of_the_floor();
    for stride in [Stride::One, Stride::Two, Stride::Four] {
        assert_eq!(Image::build(&floor(), stride).lookup_many(&addresses), ports);
    }
    assert_eq!(SegmentTables::build(&floor()).lookup_many(&addresses), ports);
}

#[test]
fn no_address_in_one_call_has_no_port() {
    assert!(Image::build(&floor(), Stride::Four).lookup_many(&[]).is_empty());
    assert!(SegmentTables::build(&floor()).lookup_many(&[]).is_empty());
}

#[test]
fn ports_are_written_where_the_caller_says_and_the_rest_stays() {
    let (image, tables) = (Image::build(&floor(), Stride::Four), SegmentTables::build(&floor()));
    let addresses = [0x0A01_0203, 0x0A01_0303, 0x0A00_0000, 0];
    let mut ports = [5; 6];
    assert_eq!(image.lookup_many_into(&addresses, &mut ports), Ok(()));
    assert_eq!(ports, [7, 9, 7, 0, 5, 5]);
    // Again in the same memory, with just enough of it.
    assert_eq!(tables.lookup_many_into(&addresses[1..], &mut ports[..3]), Ok(()));
    assert_eq!(ports, [9, 7, 0, 0, 5, 5]);
}

#[test]
fn too_few_ports_for_the_addresses_are_refused_and_stay() {
    let (image, tables) = (Image::build(&floor(), Stride::Four), SegmentTables::build(&floor()));
    for room in 0..3 {
        let mut ports = vec![5; room];
        assert_eq!(image.lookup_many_into(&[0x0A01_0203; 3], &mut ports), Err(Refusal::NoRoom));
        assert_eq!(tables.lookup_many_into(&[0x0A01_0203; 3], &mut ports), Err(Refusal::NoRoom));
        assert_eq!(ports, vec![5; room]);
    }
}

#[test]
fn a_saved_table_and_a_written_file_come_back() {
    let list = floor();
    assert_eq!(Table::build(&list, 4096).expect("room").save(), list);
    assert_eq!(list.write(), FLOOR);
    let routes: Vec<Route> = list.routes().collect();
    assert_eq!(RouteList::from_routes(&routes), Ok(list));
}

#[test]
fn a_file_with_spare_bits_is_read_without_them() {
    // 10.128.0.0/9 to port 7, with all seven spare bits set.
    let list = RouteList::read(&[1, 0, 0, 0, 5, 9, 10, 0xFF, 0, 7]).expect("no fault");
    assert_eq!(Ok(list.clone()), RouteList::from_words(vec![0x0A80_0000, 9, 7]));
    assert_eq!(list.write(), [1, 0, 0, 0, 5, 9, 10, 0x80, 0, 7]);
    // The same as a list is refused.
    assert_eq!(RouteList::from_words(vec![0x0AFF_0000, 9, 7]), Err(Refusal::SpareBits(Place::Route(0))));
}

#[test]
fn the_empty_list_has_one_run_and_an_image_of_one_node() {
    let list = RouteList::default();
    assert_eq!(list.runs().len(), 1);
    assert_eq!(list.write(), [1, 0, 0, 0, 0]);
    let image = Image::build(&list, Stride::Four);
    assert_eq!((image.node_count(), image.port_count()), (1, 16));
    assert_eq!(image.lookup(Ipv4Addr::BROADCAST).port, None);
}

#[test]
fn segment_tables_of_the_floor_example_have_a_segment_for_10_1() {
    // 10.0.0.0/8 to 7, 10.1.0.0/16 to 9, and 10.1.2.0/24 to 7.
    let tables = SegmentTables::build(&floor());
    assert_eq!((tables.packed_count(), tables.plain_count(), tables.last_count()), (1, 0, 0));
    let found = |octets: [u8; 4]| tables.lookup(Ipv4Addr::from(octets));
    for (octets, port, read) in
        [([9, 0, 0, 0], None, 1), ([10, 2, 0, 0], Some(7), 1), ([10, 1, 2, 9], Some(7), 3), ([10, 1, 3, 0], Some(9), 3)]
    {
        assert_eq!((found(octets).port, found(octets).read), (port, read), "{octets:?}");
    }
}

#[test]
fn the_entries_of_a_segment_are_all_64_all_256_or_none() {
    let octets = (0..32).flat_map(|number| [0x0A02_0000 | (1 + 2 * number) << 8, 24, 1]);
    let words = [0x0A01_8000, 17, 9].into_iter().chain(octets).chain([0x0A03_0000, 32, 4]).collect();
    let tables = SegmentTables::build(&RouteList::from_words(words).expect("a valid list"));
    assert_eq!((tables.packed_count(), tables.plain_count(), tables.last_count()), (2, 1, 1));
    assert_eq!(tables.entries(0x0A01), [&[0, 9][..], &[0; 62]].concat());
    assert_eq!(tables.entries(0x0A02), [[0, 1].repeat(32), vec![0; 192]].concat());
    assert_eq!(tables.entries(0x0A03), [&[32_768, 0][..], &[0; 62]].concat());
    assert!(tables.entries(0x0A00).is_empty() && tables.entries(0).is_empty() && tables.entries(0xFFFF).is_empty());
}

#[test]
fn the_entries_of_a_segment_are_not_copied() {
    let words = [0x0A01_8000, 17, 9, 0x0A02_8000, 17, 9].to_vec();
    let tables = SegmentTables::build(&RouteList::from_words(words).expect("a valid list"));
    // Of two neighbours in one store the second stands one block, 96 words, after the first.
    let [one, other] = [0x0A01, 0x0A02].map(|first_bits| tables.entries(first_bits).as_ptr() as usize);
    assert_eq!(other - one, 96 * 2);
}

#[test]
fn the_empty_list_has_segment_tables_without_a_block() {
    let tables = SegmentTables::build(&RouteList::default());
    assert_eq!((tables.packed_count(), tables.plain_count(), tables.last_count()), (0, 0, 0));
    let found = tables.lookup(Ipv4Addr::BROADCAST);
    assert_eq!((found.port, found.read), (None, 1));
}

#[test]
fn the_worst_list_is_built_at_every_stride_and_into_segment_tables() {
    let worst: Vec<u32> = (0..4096).flat_map(|number| [number << 20 | 1, 32, 1]).collect();
    let list = RouteList::from_words(worst).expect("a valid list");
    let tables = SegmentTables::build(&list);
    assert_eq!((tables.packed_count(), tables.plain_count(), tables.last_count()), (4096, 0, 4096));
    assert_eq!(tables.lookup(Ipv4Addr::new(0, 0, 0, 1)).port, Some(1));
    for stride in [Stride::One, Stride::Two, Stride::Four] {
        assert_eq!(Image::build(&list, stride).lookup(Ipv4Addr::new(0, 0, 0, 1)).port, Some(1));
    }
}

/// A message of these parts, which are given as bytes; there are no attributes.
fn message_with(withdrawn: &[u8], announced: &[u8]) -> Vec<u8> {
    let size = 23 + withdrawn.len() + announced.len();
    let head = [&[255; 16][..], &(size as u16).to_be_bytes(), &[2], &(withdrawn.len() as u16).to_be_bytes()];
    [&head.concat()[..], withdrawn, &[0, 0], announced].concat()
}

#[test]
fn a_message_takes_routes_out_and_puts_routes_in() {
    let mut table = Table::build(&floor(), 4).expect("room for four routes");
    // 10.1.0.0/16 out, and a prefix that is not held; 10.1.2.0/24 and, with spare bits, 192.168.0.0/23 in.
    let message = message_with(&[16, 10, 1, 8, 77], &[24, 10, 1, 2, 23, 192, 168, 1]);
    assert_eq!(table.apply(&message, 5), Ok(()));
    let routes: Vec<String> = table.save().routes().map(|route| route.to_string()).collect();
    assert_eq!(routes, ["10.0.0.0/8 7", "10.1.2.0/24 5", "192.168.0.0/23 5"]);
    assert_eq!(table.len(), 3);
    // The End-of-RIB changes nothing.
    let before = table.clone();
    assert_eq!(table.apply(&message_with(&[], &[]), 5), Ok(()));
    assert_eq!(table, before);
}

#[test]
fn a_refused_message_changes_nothing() {
    let mut table = Table::build(&floor(), 3).expect("room for three routes");
    let before = table.clone();
    let at = Place::MessageByte;
    let one_in = message_with(&[], &[8, 11]);
    assert_eq!(table.apply(&one_in, 5), Err(Refusal::NoRoom));
    for port in [0, 4095, u16::MAX] {
        assert_eq!(table.apply(&one_in, port), Err(Refusal::WrongPort(Place::Whole)));
    }
    assert_eq!(table.apply(&one_in[..22], 5), Err(Refusal::BadMessage(Place::Whole)));
    assert_eq!(table.apply(&one_in[..24], 5), Err(Refusal::BadMessage(at(16))));
    assert_eq!(table.apply(&message_with(&[8, 10], &[33]), 5), Err(Refusal::LongPrefix(at(25))));
    assert_eq!(table.apply(&message_with(&[9, 10], &[]), 5), Err(Refusal::BadMessage(at(21))));
    assert_eq!(table, before);
}

#[test]
fn the_withdrawal_of_a_list_empties_its_table_and_none_is_longer_than_4096_bytes() {
    let message = floor().withdrawal().expect("a short list");
    assert_eq!(message, message_with(&[8, 10, 16, 10, 1, 24, 10, 1, 2], &[]));
    let mut table = Table::build(&floor(), 3).expect("room for three routes");
    assert_eq!((table.apply(&message, 1), table.len()), (Ok(()), 0));
    assert_eq!(RouteList::default().withdrawal(), Ok(message_with(&[], &[])));
    // Routes of 24 bits take four bytes each: 1,018 of them, and 23 bytes, are 4,095.
    let list_of = |count: u32| {
        RouteList::from_words((0..count).flat_map(|value| [value << 8, 24, 1]).collect()).expect("a valid list")
    };
    assert_eq!(list_of(1018).withdrawal().map(|message| message.len()), Ok(4095));
    assert_eq!(list_of(1019).withdrawal(), Err(Refusal::NoRoom));
}

#[test]
fn a_refused_update_changes_nothing() {
    let mut table = Table::build(&floor(), 3).expect("room for three routes");
    let before = table.clone();
    let new = Route::new(Ipv4Addr::new(192, 0, 2, 0), 24, 5).expect("a valid route");
    assert_eq!(table.announce(new), Err(Refusal::NoRoom));
    assert_eq!(table.withdraw(new.prefix()), Err(Refusal::NotHeld));
    assert_eq!(table, before);
}

/// The addresses of a table by port, first those without a route.
fn addresses_of(table: &Table) -> Vec<(Option<u16>, u64)> {
    let ports = [None].into_iter().chain((0..=u16::MAX).map(Some));
    ports.map(|port| (port, table.addresses(port))).filter(|(_, addresses)| *addresses != 0).collect()
}

#[test]
fn a_table_answers_how_many_addresses_a_port_gets() {
    let mut table = Table::with_capacity(4);
    assert_eq!(addresses_of(&table), [(None, 1 << 32)]);
    // 10.0.0.0/8 to 7, 10.1.0.0/16 to 9, and 10.1.2.0/24 to 7.
    floor().routes().for_each(|route| table.announce(route).expect("room for four routes"));
    let without = (None, (1 << 32) - (1 << 24));
    let expected = [without, (Some(7), (1 << 24) - (1 << 16) + (1 << 8)), (Some(9), (1 << 16) - (1 << 8))];
    assert_eq!(addresses_of(&table), expected);
    assert_eq!(table, Table::build(&floor(), 4).expect("room for four routes"));
    // The whole space to port 4094 takes what was left over, and 10.1.0.0/16 gives its addresses back.
    table.announce("0.0.0.0/0 4094".parse().expect("a route")).expect("room for one more");
    table.withdraw("10.1.0.0/16".parse().expect("a prefix")).expect("it is held");
    assert_eq!(addresses_of(&table), [(Some(7), 1 << 24), (Some(4094), (1 << 32) - (1 << 24))]);
    let message = message_with(&[8, 10, 24, 10, 1, 2], &[0]);
    assert_eq!(table.apply(&message, 1), Ok(()));
    assert_eq!(addresses_of(&table), [(Some(1), 1 << 32)]);
}

#[test]
fn the_addresses_of_all_ports_are_those_of_the_runs() {
    let mut table = Table::build(&floor(), 4096).expect("room");
    let runs_of = |table: &Table, port| -> u64 {
        let of_port = table.runs().into_iter().filter(|run| run.port == port);
        of_port.map(|run| u64::from(u32::from(run.last)) - u64::from(u32::from(run.first)) + 1).sum()
    };
    for number in 0..40u32 {
        let port = 1 + (number % 4) as u16;
        let route = Route::new(Ipv4Addr::from(number << 27 & 0x7FFF_FFFF), 5, port).expect("a valid route");
        let updated = if number % 3 == 2 { table.withdraw(route.prefix()) } else { table.announce(route) };
        assert!(matches!(updated, Ok(()) | Err(Refusal::NotHeld)), "{updated:?}");
        let addresses = addresses_of(&table);
        assert!(addresses.iter().all(|(port, addresses)| runs_of(&table, *port) == *addresses));
        assert_eq!(addresses.iter().map(|(_, addresses)| addresses).sum::<u64>(), 1 << 32);
    }
}

#[test]
fn a_port_that_no_route_can_have_has_no_address() {
    let table = Table::with_capacity(1);
    for port in [0, 4095, u16::MAX] {
        assert_eq!(table.addresses(Some(port)), 0);
    }
}

#[test]
fn a_prefix_and_a_route_are_refused_4_5_6_in_this_order() {
    let address = Ipv4Addr::new(192, 0, 2, 1);
    assert_eq!(Prefix::new(address, 33), Err(Refusal::LongPrefix(Place::Whole)));
    assert_eq!(Prefix::new(address, 31), Err(Refusal::SpareBits(Place::Whole)));
    assert_eq!(Route::new(address, 33, 0), Err(Refusal::LongPrefix(Place::Whole)));
    assert_eq!(Route::new(address, 31, 0), Err(Refusal::SpareBits(Place::Whole)));
    for port in [0, 4095, u16::MAX] {
        assert_eq!(Route::new(address, 32, port), Err(Refusal::WrongPort(Place::Whole)));
    }
    let route = Route::new(address, 32, 4094).expect("a valid route");
    assert_eq!(Ok(route.prefix()), Prefix::new(address, 32));
    assert_eq!((route.address(), route.length(), route.port()), (address, 32, 4094));
}

#[test]
fn prefixes_stand_in_the_order_of_a_list() {
    let mut routes: Vec<Route> = floor().routes().collect();
    routes.reverse();
    assert_eq!(RouteList::from_routes(&routes), Err(Refusal::NotAbove(Place::Route(1))));
    routes.sort_by_key(|route| route.prefix());
    assert_eq!(RouteList::from_routes(&routes), Ok(floor()));
}

#[test]
fn a_refusal_says_where_and_why() {
    let text = |file: &[u8]| RouteList::read(file).expect_err("refused").to_string();
    assert_eq!(text(&[1, 0]), "the file is shorter than the 5 bytes that every route file begins with (refusal 1)");
    assert_eq!(text(&[2, 0, 0, 0, 0]), "this is no route file of version 1 (refusal 2)");
    assert_eq!(
        text(&[1, 0, 0, 0, 2, 0]),
        "the size is not the stated one; the file or list may be cut off (refusal 3)"
    );
    assert_eq!(
        text(&[1, 0, 0, 0, 5, 0, 0, 1, 8, 10]),
        "route at byte 8: the route runs past the end of the file (refusal 3)"
    );
    let twice = [10 << 24, 8, 7, 10 << 24, 8, 7].to_vec();
    assert_eq!(
        RouteList::from_words(twice).expect_err("refused").to_string(),
        "route 1: the route is not above the one before it; sort by address, then by length (refusal 7)"
    );
    assert_eq!(Stride::try_from(3).expect_err("refused").to_string(), "the stride is not 1, 2 or 4 (refusal 12)");
}

#[test]
fn a_refusal_of_a_message_says_where_and_why() {
    let text = |message: &[u8]| Table::with_capacity(1).apply(message, 1).expect_err("refused").to_string();
    let mut message = message_with(&[8, 10], &[]);
    assert_eq!(
        text(&message[..22]),
        "this is no UPDATE message: it has under 23 bytes, or no marker of 16 bytes 255 (refusal 14)"
    );
    assert_eq!(
        text(&message[..24]),
        "byte 16 of the message: the length is outside 23 to 4096, or not the number of bytes; the message may be cut \
         off (refusal 14)"
    );
    let runs_past = "more bytes are to follow than are left in the message, or in the part of it that this is in";
    message[20] = 3;
    assert_eq!(text(&message), format!("byte 19 of the message: {runs_past} (refusal 14)"));
    message[20] = 1;
    assert_eq!(text(&message), format!("byte 22 of the message: {runs_past} (refusal 14)"));
    message[20..22].copy_from_slice(&[2, 9]);
    assert_eq!(text(&message), format!("byte 21 of the message: {runs_past} (refusal 14)"));
    message[21] = 33;
    assert_eq!(text(&message), "byte 21 of the message: the prefix length is above 32 (refusal 4)");
    message[18] = 4;
    assert_eq!(text(&message), "byte 18 of the message: the type is not 2, which UPDATE has (refusal 14)");
}
