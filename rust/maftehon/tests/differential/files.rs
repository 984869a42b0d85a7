//! Reading and writing route files.

use compare::{on_seeds, scenarios};

/// A file whose stated size is that of its routes.
fn file_with(routes: &[u8]) -> Vec<u8> {
    [&[1], &(routes.len() as u32).to_be_bytes()[..], routes].concat()
}

#[test]
fn small_files_are_written_and_read_alike() {
    on_seeds(4000, |checker, random| scenarios::valid_files(checker, random, 30));
}

#[test]
fn files_of_4096_routes_are_written_and_read_alike() {
    on_seeds(40, |checker, random| scenarios::valid_files(checker, random, 4096));
}

#[test]
fn files_with_spare_bits_are_read_alike_and_come_back_with_them_cleared() {
    on_seeds(10_000, |checker, random| scenarios::spared_files(checker, random, 30));
    on_seeds(40, |checker, random| scenarios::spared_files(checker, random, 4096));
}

/// Routes as a file has them, the list that is read, and the routes that are written then.
const SPARED: [(&[u8], &[u32], &[u8]); 7] = [
    // Length 9: seven spare bits, of which some are set.
    (&[0x09, 0x0A, 0xC3, 0, 7], &[0x0A80_0000, 9, 7], &[0x09, 0x0A, 0x80, 0, 7]),
    // Length 25: all seven.
    (&[0x19, 10, 1, 2, 0xFF, 0, 7], &[0x0A01_0280, 25, 7], &[0x19, 10, 1, 2, 0x80, 0, 7]),
    // Length 1, of either half.
    (&[0x01, 0xFF, 0, 7], &[0x8000_0000, 1, 7], &[0x01, 0x80, 0, 7]),
    (&[0x01, 0x01, 0, 7], &[0, 1, 7], &[0x01, 0x00, 0, 7]),
    // In the last route alone.
    (
        &[0x08, 0x0A, 0, 7, 0x0C, 0x0A, 0x1F, 0, 8],
        &[0x0A00_0000, 8, 7, 0x0A10_0000, 12, 8],
        &[0x08, 0x0A, 0, 7, 0x0C, 0x0A, 0x10, 0, 8],
    ),
    // In the route before alone, which would stand above if its bits were kept.
    (
        &[0x09, 0x0A, 0xFF, 0, 7, 0x10, 0x0A, 0x80, 0, 8],
        &[0x0A80_0000, 9, 7, 0x0A80_0000, 16, 8],
        &[0x09, 0x0A, 0x80, 0, 7, 0x10, 0x0A, 0x80, 0, 8],
    ),
    // Lengths 0, 8 and 32 have none.
    (
        &[0, 0, 7, 8, 0xFF, 0, 7, 32, 0xFF, 0xFF, 0xFF, 0xFF, 0, 7],
        &[0, 0, 7, 0xFF00_0000, 8, 7, 0xFFFF_FFFF, 32, 7],
        &[0, 0, 7, 8, 0xFF, 0, 7, 32, 0xFF, 0xFF, 0xFF, 0xFF, 0, 7],
    ),
];

#[test]
fn spare_bits_are_cleared() {
    on_seeds(1, |checker, _| {
        for (routes, list, back) in SPARED {
            let (answer, read) = checker.file_read(&file_with(routes), list.len())?;
            assert_eq!((answer.number, &read[..]), (0, list), "{routes:02X?}");
            checker.file_back(&file_with(routes), &file_with(back))?;
        }
        Ok(())
    });
}

/// Two routes of five bytes each, of which the second is not above the first once their spare bits are cleared.
const NOT_ABOVE: [[u8; 10]; 4] = [
    // Both are 10.128.0.0/9.
    [0x09, 0x0A, 0x80, 0, 7, 0x09, 0x0A, 0x81, 0, 8],
    [0x09, 0x0A, 0x81, 0, 7, 0x09, 0x0A, 0x80, 0, 8],
    // 10.128.0.0/9 after 10.128.0.0/16, and after 10.192.0.0/10.
    [0x10, 0x0A, 0x80, 0, 7, 0x09, 0x0A, 0x81, 0, 8],
    [0x0A, 0x0A, 0xC0, 0, 7, 0x09, 0x0A, 0xFF, 0, 8],
];

#[test]
fn the_order_is_compared_once_spare_bits_are_cleared() {
    on_seeds(1, |checker, _| {
        for routes in NOT_ABOVE {
            let (answer, _) = checker.file_read(&file_with(&routes), 6)?;
            assert_eq!((answer.number, answer.answer), (7, [10, 0]), "{routes:02X?}");
        }
        Ok(())
    });
}

#[test]
fn damaged_files_are_refused_alike() {
    on_seeds(20_000, |checker, random| scenarios::damaged_files(checker, random, 12));
    on_seeds(40, |checker, random| scenarios::damaged_files(checker, random, 4096));
}

#[test]
fn noise_is_refused_alike() {
    on_seeds(20_000, |checker, random| scenarios::noise_files(checker, random, 8));
}

#[test]
fn a_file_of_4097_routes_is_refused_at_the_last_one() {
    on_seeds(1, |checker, _| {
        let routes: Vec<u8> =
            (0..4097u32).flat_map(|value| [&[32], &value.to_be_bytes()[..], &[0, 1]].concat()).collect();
        let (answer, _) = checker.file_read(&file_with(&routes), 3 * 4097)?;
        assert_eq!((answer.number, answer.answer), (8, [5 + 7 * 4096, 0]));
        Ok(())
    });
}
