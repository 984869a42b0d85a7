//! The C boundary of the route library, as its header `maftehon.h` declares it, and the archive linked. The package
//! `maftehon` has the same calls on slices, which are safe.
//!
//! A pointer is valid for its size, aligned, and not null even where the size is 0; sizes count elements. `answer`
//! receives the place first and then the results; it overlaps nothing else that is lent, and of the memories lent to be
//! written none overlaps another.

// The numbers that a call returns: 0, or a published refusal. `maftehon::Refusal` says when each is given.
pub const DONE: u32 = 0;
pub const SHORT_FILE: u32 = 1;
pub const WRONG_VERSION: u32 = 2;
pub const WRONG_SIZE: u32 = 3;
pub const LONG_PREFIX: u32 = 4;
pub const SPARE_BITS: u32 = 5;
pub const WRONG_PORT: u32 = 6;
pub const NOT_ABOVE: u32 = 7;
pub const TOO_MANY_ROUTES: u32 = 8;
pub const NO_ROOM: u32 = 9;
pub const NOT_HELD: u32 = 10;
pub const NOT_IN_ORDER: u32 = 11;
pub const WRONG_STRIDE: u32 = 12;
// 13 is not given, and no other refusal takes the number.
pub const BAD_MESSAGE: u32 = 14;

unsafe extern "C" {
    pub fn mft_file_read(file: *const u8, file_size: usize, list: *mut u32, list_words: usize, answer: *mut u32)
        -> u32;
    pub fn mft_file_write(
        list: *const u32,
        list_words: usize,
        file: *mut u8,
        file_size: usize,
        answer: *mut u32,
    ) -> u32;
    pub fn mft_list_check(list: *const u32, list_words: usize, answer: *mut u32) -> u32;
    pub fn mft_list_scan(list: *const u32, list_words: usize, address: u32, answer: *mut u32) -> u32;

    pub fn mft_table_check(rows: *const u32, row_words: usize, n: u32, answer: *mut u32) -> u32;
    pub fn mft_table_lookup(rows: *const u32, row_words: usize, n: u32, address: u32, answer: *mut u32) -> u32;
    pub fn mft_table_build(
        list: *const u32,
        list_words: usize,
        rows: *mut u32,
        row_words: usize,
        answer: *mut u32,
    ) -> u32;
    pub fn mft_table_save(
        rows: *const u32,
        row_words: usize,
        n: u32,
        list: *mut u32,
        list_words: usize,
        answer: *mut u32,
    ) -> u32;

    pub fn mft_image_build(
        stride: u32,
        list: *const u32,
        list_words: usize,
        nodes: *mut u32,
        node_words: usize,
        ports: *mut u16,
        port_count: usize,
        answer: *mut u32,
    ) -> u32;
    pub fn mft_image_lookup(
        stride: u32,
        nodes: *const u32,
        node_words: usize,
        ports: *const u16,
        port_count: usize,
        address: u32,
        answer: *mut u32,
    ) -> u32;
    pub fn mft_image_lookup_1(
        nodes: *const u32,
        node_words: usize,
        ports: *const u16,
        port_count: usize,
        address: u32,
        answer: *mut u32,
    ) -> u32;
    pub fn mft_image_lookup_2(
        nodes: *const u32,
        node_words: usize,
        ports: *const u16,
        port_count: usize,
        address: u32,
        answer: *mut u32,
    ) -> u32;
    pub fn mft_image_lookup_4(
        nodes: *const u32,
        node_words: usize,
        ports: *const u16,
        port_count: usize,
        address: u32,
        answer: *mut u32,
    ) -> u32;

    pub fn mft_list_runs(
        list: *const u32,
        list_words: usize,
        runs: *mut u32,
        run_words: usize,
        answer: *mut u32,
    ) -> u32;
    pub fn mft_table_runs(
        rows: *const u32,
        row_words: usize,
        n: u32,
        runs: *mut u32,
        run_words: usize,
        answer: *mut u32,
    ) -> u32;

    pub fn mft_segments_build(
        list: *const u32,
        list_words: usize,
        first: *mut u16,
        first_count: usize,
        packed: *mut u16,
        packed_count: usize,
        plain: *mut u16,
        plain_count: usize,
        last: *mut u16,
        last_count: usize,
        answer: *mut u32,
    ) -> u32;
    pub fn mft_segments_lookup(
        first: *const u16,
        first_count: usize,
        packed: *const u16,
        packed_count: usize,
        plain: *const u16,
        plain_count: usize,
        last: *const u16,
        last_count: usize,
        address: u32,
        answer: *mut u32,
    ) -> u32;
    pub fn mft_segments_entries(
        packed: *const u16,
        packed_count: usize,
        plain: *const u16,
        plain_count: usize,
        entry: u32,
        answer: *mut u32,
    ) -> u32;

    pub fn mft_image_lookup_many(
        stride: u32,
        nodes: *const u32,
        node_words: usize,
        ports: *const u16,
        port_count: usize,
        addresses: *const u32,
        address_count: usize,
        out: *mut u16,
        out_count: usize,
        answer: *mut u32,
    ) -> u32;
    pub fn mft_segments_lookup_many(
        first: *const u16,
        first_count: usize,
        packed: *const u16,
        packed_count: usize,
        plain: *const u16,
        plain_count: usize,
        last: *const u16,
        last_count: usize,
        addresses: *const u32,
        address_count: usize,
        out: *mut u16,
        out_count: usize,
        answer: *mut u32,
    ) -> u32;

    pub fn mft_message_write(
        list: *const u32,
        list_words: usize,
        message: *mut u8,
        message_size: usize,
        answer: *mut u32,
    ) -> u32;

    pub fn mft_counts_make(
        rows: *const u32,
        row_words: usize,
        n: u32,
        counts: *mut u64,
        count_room: usize,
        answer: *mut u32,
    ) -> u32;
    pub fn mft_counted_announce(
        rows: *mut u32,
        row_words: usize,
        n: u32,
        value: u32,
        length: u32,
        port: u32,
        counts: *mut u64,
        count_room: usize,
        answer: *mut u32,
    ) -> u32;
    pub fn mft_counted_withdraw(
        rows: *mut u32,
        row_words: usize,
        n: u32,
        value: u32,
        length: u32,
        counts: *mut u64,
        count_room: usize,
        answer: *mut u32,
    ) -> u32;
    pub fn mft_counted_message(
        message: *const u8,
        message_size: usize,
        port: u32,
        rows: *mut u32,
        row_words: usize,
        n: u32,
        counts: *mut u64,
        count_room: usize,
        answer: *mut u32,
    ) -> u32;
}
