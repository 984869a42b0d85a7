//! `mft apply`: messages as text and as bytes, what they do, and what is said where one is refused.

use crate::support::{example, file_of, mft, mft_reading, seeds, Folder};
use maftehon::{calls, RouteList, Table};
use workload::messages::{captured, Sent};
use workload::{damage_message, list_of, Held, Kind, Message, Prefix, Random};

const EMPTY: [u8; 5] = [1, 0, 0, 0, 0];

/// The new file that these messages leave.
#[track_caller]
fn applied(file: &[u8], messages: impl AsRef<[u8]>, port: u32) -> Vec<u8> {
    let folder = Folder::new();
    let messages = folder.with("messages", messages);
    let ran = mft_reading(file, &["apply", "-", &messages, "--port", &port.to_string(), "-o", "-"]);
    assert_eq!(ran.status, 0, "{}", ran.errors);
    ran.output
}

/// What is said of messages that are refused.
#[track_caller]
fn refused(file: &[u8], messages: impl AsRef<[u8]>) -> String {
    let folder = Folder::new();
    let messages = folder.with("messages", messages);
    let new = folder.with("new.routes", "as it was");
    let ran = mft_reading(file, &["apply", "-", &messages, "--port", "9", "-o", &new]);
    assert_eq!(std::fs::read(&new).expect("it is there"), b"as it was");
    assert_eq!(folder.names(), ["messages", "new.routes"]);
    ran.refused().replace(folder.path().to_str().expect("it is text"), "")
}

fn file_of_prefixes(prefixes: impl IntoIterator<Item = Prefix>, port: u32) -> Vec<u8> {
    file_of(&prefixes.into_iter().flat_map(|(value, length)| [value, length, port]).collect::<Vec<u32>>())
}

fn held_at_the_end(sent: &Sent) -> Vec<u8> {
    file_of_prefixes(sent.messages.last().expect("there are messages").1.iter().copied(), 9)
}

fn in_hexadecimal(message: &[u8]) -> String {
    message.iter().map(|byte| format!("{byte:02x}")).collect()
}

#[test]
fn captured_messages_leave_what_is_held_as_text_and_as_bytes() {
    for sent in captured() {
        let text = std::fs::read(example(&format!("messages/{}.hex", sent.daemon))).expect("it is there");
        assert_eq!(applied(&EMPTY, text, 9), held_at_the_end(&sent), "{}", sent.daemon);
        let stream: Vec<u8> = sent.messages.iter().flat_map(|(message, _)| message.clone()).collect();
        assert_eq!(applied(&EMPTY, stream, 9), held_at_the_end(&sent), "{}", sent.daemon);
    }
}

#[test]
fn each_message_is_said_to_have_done_what_it_did() {
    let folder = Folder::new();
    let (new, messages) = (folder.file("new.routes"), example("messages/exabgp.hex"));
    let said = mft(&["apply", &example("floor.routes"), &messages, "-p", "9", "-o", &new]).done();
    let expected = "\
M: line 5: changed nothing, with nothing in it (End-of-RIB)
M: line 9: 4 routes came, 1 route changed the port
  came     0.0.0.0/0 9
  came     172.16.0.0/12 9
  came     198.51.100.0/25 9
  came     203.0.113.7/32 9
  changed  10.0.0.0/8 9, from port 7
M: line 13: 3 routes went
  went     10.1.0.0/16 9
  went     172.16.0.0/12 9
  went     198.51.100.0/25 9
M: line 17: 1 route came, 1 route went
  came     10.128.0.0/9 9
  went     10.0.0.0/8 9
N: 4 routes in 26 bytes, after 4 messages
";
    assert_eq!(said.replace(&messages, "M").replace(&new, "N"), expected);
}

#[test]
fn several_files_are_applied_in_order() {
    let folder = Folder::new();
    let [bird, exabgp] = ["messages/bird.hex", "messages/exabgp.hex"].map(example);
    let [one, two] = ["one.routes", "two.routes"].map(|name| folder.file(name));
    mft(&["apply", &example("empty.routes"), &bird, &exabgp, "-p", "9", "-o", &one]).done();
    mft(&["apply", &example("empty.routes"), &bird, "-p", "9", "-o", &two]).done();
    mft(&["apply", &two, &exabgp, "-p", "9", "-o", &two]).done();
    assert_eq!(std::fs::read(one).expect("it is there"), std::fs::read(two).expect("it is there"));
}

#[test]
fn what_is_done_is_said_as_errors_are_where_the_file_goes_to_standard_output() {
    let ran = mft(&["apply", &example("empty.routes"), &example("messages/bird.hex"), "-p", "9", "-o", "-"]);
    assert_eq!((ran.status, RouteList::read(&ran.output).map(|list| list.len())), (0, Ok(3)));
    assert!(ran.errors.ends_with("standard output: 3 routes in 21 bytes, after 4 messages\n"), "{}", ran.errors);
}

#[test]
fn random_messages_leave_the_set_that_they_say_in_every_form() {
    for seed in seeds(60) {
        let mut random = Random::new(seed);
        let count = random.index(60);
        let held = random.pick(&Kind::ALL).routes(&mut random, count);
        let mut after: Held = held.clone();
        let (mut stream, mut text) = (Vec::new(), String::from("# messages\r\n"));
        for _ in 0..random.below(5) {
            let message = Message::any(&mut random, &after, 20);
            after = message.applied_to(&after, 9);
            let digits = in_hexadecimal(&message.bytes());
            let (first, rest) = digits.split_at(random.index(digits.len()));
            text += &format!("  {first} \t{}\r\n\r\nheld whatever 12\r\n", rest.to_uppercase());
            stream.extend(message.bytes());
        }
        let (file, expected) = (file_of(&list_of(&held)), file_of(&list_of(&after)));
        assert_eq!(applied(&file, text, 9), expected, "MAFTEHON_SEED={seed}");
        if !stream.is_empty() {
            assert_eq!(applied(&file, stream, 9), expected, "MAFTEHON_SEED={seed}");
        }
    }
}

#[test]
fn a_damaged_message_is_explained_with_the_number_and_the_place_of_the_library() {
    let mut count = 0;
    for seed in seeds(1000) {
        let mut random = Random::new(seed);
        let routes = random.index(20);
        let held = random.pick(&Kind::ALL).routes(&mut random, routes);
        let file = file_of(&list_of(&held));
        let mut message = Message::any(&mut random, &held, 8).bytes();
        damage_message(&mut message, &mut random);
        if message.is_empty() {
            continue;
        }
        let folder = Folder::new();
        let text = folder.with("one.hex", in_hexadecimal(&message));
        let ran = mft_reading(&file, &["apply", "-", &text, "--port", "9", "-o", "-"]);
        let list = RouteList::read(&file).expect("the file is good");
        let mut table = Table::build(&list, 4096).expect("there is room");
        match table.apply(&message, 9) {
            Ok(()) => assert_eq!((ran.status, ran.output), (0, table.save().write()), "MAFTEHON_SEED={seed}"),
            Err(refusal) => {
                count += 1;
                let head = ran.refused().lines().next().unwrap_or_default().to_string();
                assert!(head.contains("one.hex: line 1: "), "{head}");
                assert!(head.ends_with(&format!("(refusal {})", refusal.number())), "MAFTEHON_SEED={seed}: {head}");
                let place = format!(": byte {}", refusal.place());
                assert!(refusal.place() == 0 || head.contains(&place), "MAFTEHON_SEED={seed}: {head}");
            }
        }
    }
    assert!(count > 300, "{count} refused");
}

#[test]
fn it_stops_at_the_first_message_that_is_refused() {
    let good = in_hexadecimal(&Message { announced: vec![(0, 0)], ..Message::default() }.bytes());
    let said = refused(&EMPTY, format!("{good}\n{good}\nff\n{good}\n"));
    assert_eq!(
        said,
        "mft: /messages: line 3: this is no UPDATE message: it has 1 byte, and the shortest has 23 (refusal 14)\n\
         \u{20} bytes  [ff]\n\
         \u{20} See that it is one whole message, from its marker on.\n\
         \u{20} Nothing is written, since what follows would be applied to the wrong table. \
         The 2 messages before it were not refused.\n"
    );
}

/// The bytes after the marker, in hexadecimal, and what is said.
const REFUSED: [(&str, &str); 9] = [
    ("0018 02 0000 0000", "byte 16: its length is stated as 24, and it has 23 bytes; 23 to 4,096 may be (refusal 14)"),
    ("0016 02 0000 0000", "byte 16: its length is stated as 22, and it has 23 bytes; 23 to 4,096 may be (refusal 14)"),
    ("0017 01 0000 0000", "byte 18, its type, is 1, OPEN, and not 2, which is UPDATE (refusal 14)"),
    ("0013 04", "this is no UPDATE message, but one of type 4, KEEPALIVE (refusal 14)"),
    ("0017 02 0001 0000", "byte 19: the withdrawn part leaves no two bytes after it (refusal 14)"),
    ("0017 02 0000 0001", "byte 21: the path attributes run past the end (refusal 14)"),
    ("0019 02 0002 100a 0000", "byte 21: a prefix of length 16 runs past its part of the message (refusal 14)"),
    ("0019 02 0000 0000 100a", "byte 23: a prefix of length 16 runs past its part of the message (refusal 14)"),
    ("0019 02 0000 0000 210a", "byte 23: a prefix length of 33, and 32 is the longest (refusal 4)"),
];

#[test]
fn every_refusal_of_a_message_is_explained() {
    for (rest, expected) in REFUSED {
        let said = refused(&EMPTY, format!("{} {rest}\n", "ff".repeat(16)));
        assert!(said.starts_with(&format!("mft: /messages: line 1: {expected}\n  bytes  ")), "{said}");
    }
    let said = refused(&EMPTY, format!("{} 0017 02 0000 0000\n", "fe".repeat(16)));
    assert!(said.contains("no UPDATE message: its marker is not 16 bytes 255 (refusal 14)\n"), "{said}");
}

#[test]
fn a_table_that_would_be_too_full_is_refused() {
    let message = in_hexadecimal(&Message { announced: vec![(0, 0)], ..Message::default() }.bytes());
    let full = crate::support::file_of_many(4096);
    assert!(
        refused(&full, message).contains("line 1: the table would hold more than 4096 routes after it (refusal 9)\n")
    );
}

#[test]
fn a_stream_that_cannot_be_parted_is_refused_by_the_library() {
    let message = Message { announced: vec![(0, 0)], ..Message::default() }.bytes();
    for cut in 1..message.len() {
        let said = refused(&EMPTY, [&message[..], &message[..cut]].concat());
        assert!(said.starts_with(&format!("mft: /messages: message 2, at byte {}: ", message.len())), "{said}");
        assert!(said.contains("(refusal 14)\n") && said.contains("The message before it was not refused."), "{said}");
    }
    let said = refused(&EMPTY, [&message[..], &[255; 100]].concat());
    assert!(
        said.contains("message 2, at byte 24: byte 16: its length is stated as 65535, and it has 100 bytes"),
        "{said}"
    );
    assert!(refused(&EMPTY, b"").contains("message 1, at byte 0: this is no UPDATE message: it has 0 bytes"));
    assert!(refused(&EMPTY, [&[0][..], &message].concat()).contains("its marker is not 16 bytes 255"));
}

#[test]
fn a_line_that_is_no_hexadecimal_is_marked() {
    let said = refused(&EMPTY, "# one\nff fg\nfff # cut\n");
    assert_eq!(
        said,
        "mft: /messages: line 2: this is no hexadecimal digit\n\
         \u{20} 2 | ff fg\n\
         \u{20}   |     ^\n\
         \u{20} Write a message as pairs of the digits 0 to 9 and a to f, and put a # before a comment.\n\
         mft: /messages: line 3: there are 3 digits, and a byte has two\n\
         \u{20} 3 | fff # cut\n\
         \u{20}   |   ^\n\
         \u{20} See whether a digit is lost, or the line cut off.\n"
    );
}

#[test]
fn the_port_is_refused_by_the_library_whatever_the_messages_are() {
    for port in ["0", "4095", "65536", "99999999999999999999"] {
        let words = ["apply", &example("floor.routes"), &example("messages/bird.hex"), "-p", port, "-o", "-"];
        let ran = mft(&words);
        assert!(ran.refused().starts_with(&format!("mft: --port {port}: the port is outside 1 to 4094 (refusal 6)\n")));
    }
}

#[test]
fn a_text_without_messages_leaves_the_routes_as_they_are() {
    let file = crate::support::example_bytes("controller.routes");
    let new = applied(&file, "# nothing came\n\n", 9);
    assert_eq!(RouteList::read(&new), RouteList::read(&file));
    assert_eq!(calls::file_read(&new, &mut [0; 36]).number, 0);
}
