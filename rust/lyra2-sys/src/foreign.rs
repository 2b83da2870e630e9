//! The functions of the crate `derivation_export` under their C names.
//!
//! A Rattle slice passes as a pointer and a number of elements. A reference to an array or a number passes as
//! a pointer, and a `bool` as C's.

extern "C" {
    pub fn lyra2_derive(
        password: *const u8,
        password_len: usize,
        salt: *const u8,
        salt_len: usize,
        time: usize,
        rows: usize,
        columns: usize,
        rounds: usize,
        rotation: usize,
        mixer: bool,
        key: *mut u8,
        key_len: usize,
        matrix: *mut u64,
        matrix_len: usize,
        counts: *mut [u64; 3],
    ) -> u32;

    pub fn lyra2_derive_recorded(
        password: *const u8,
        password_len: usize,
        salt: *const u8,
        salt_len: usize,
        time: usize,
        rows: usize,
        columns: usize,
        rounds: usize,
        rotation: usize,
        mixer: bool,
        key: *mut u8,
        key_len: usize,
        matrix: *mut u64,
        matrix_len: usize,
        record: *mut u64,
        record_len: usize,
        state: *mut [u64; 16],
        counts: *mut [u64; 3],
    ) -> u32;

    pub fn lyra2_check(
        password: *const u8,
        password_len: usize,
        salt: *const u8,
        salt_len: usize,
        time: usize,
        rows: usize,
        columns: usize,
        rounds: usize,
        rotation: usize,
        mixer: bool,
        stored: *const u8,
        stored_len: usize,
        matrix: *mut u64,
        matrix_len: usize,
        same: *mut u32,
        counts: *mut [u64; 3],
    ) -> u32;

    pub fn lyra2_cost(
        key: usize,
        password: usize,
        salt: usize,
        time: usize,
        rows: usize,
        columns: usize,
        rounds: usize,
        counts: *mut [u64; 3],
    ) -> u32;

    pub fn lyra2_lanes_derive(
        password: *const u8,
        password_len: usize,
        salt: *const u8,
        salt_len: usize,
        time: usize,
        rows: usize,
        columns: usize,
        lanes: usize,
        key: *mut u8,
        key_len: usize,
        matrix: *mut u64,
        matrix_len: usize,
        counts: *mut [u64; 3],
    ) -> u32;

    pub fn lyra2_lanes_check(
        password: *const u8,
        password_len: usize,
        salt: *const u8,
        salt_len: usize,
        time: usize,
        rows: usize,
        columns: usize,
        lanes: usize,
        stored: *const u8,
        stored_len: usize,
        matrix: *mut u64,
        matrix_len: usize,
        same: *mut u32,
        counts: *mut [u64; 3],
    ) -> u32;

    pub fn lyra2_lanes_cost(
        key_len: usize,
        password_len: usize,
        salt_len: usize,
        time: usize,
        rows: usize,
        columns: usize,
        lanes: usize,
        counts: *mut [u64; 3],
    ) -> u32;

    pub fn lyra2_choose(
        key: usize,
        password: usize,
        salt: usize,
        words: usize,
        budget: u64,
        rounds: usize,
        tries: usize,
        values: *mut [usize; 4],
    ) -> u32;

    pub fn lyra2_record_pair(word: u64, numbers: *mut [u64; 2]);

    pub fn lyra2_walk(rows: usize, row0: usize, row1: *mut usize) -> u32;

    pub fn lyra2_line_read(
        line: *const u8,
        line_len: usize,
        salt: *mut u8,
        salt_room: usize,
        key: *mut u8,
        key_room: usize,
        values: *mut [usize; 5],
    ) -> u32;

    pub fn lyra2_line_write(
        time: usize,
        rows: usize,
        columns: usize,
        salt: *const u8,
        salt_len: usize,
        key: *const u8,
        key_len: usize,
        line: *mut u8,
        line_room: usize,
        line_len: *mut usize,
    ) -> u32;

    pub fn lyra2_book_find(
        book: *const u8,
        book_len: usize,
        used: usize,
        number: u32,
        place: *mut usize,
    ) -> u32;

    pub fn lyra2_book_add(
        book: *mut u8,
        book_len: usize,
        used: usize,
        number: u32,
        time: usize,
        rows: usize,
        columns: usize,
        salt: *const u8,
        salt_len: usize,
        key: *const u8,
        key_len: usize,
        used_after: *mut usize,
    ) -> u32;

    pub fn lyra2_book_remove(
        book: *mut u8,
        book_len: usize,
        used: usize,
        number: u32,
        used_after: *mut usize,
    ) -> u32;

    pub fn lyra2_book_check(
        password: *const u8,
        password_len: usize,
        book: *const u8,
        book_len: usize,
        used: usize,
        number: u32,
        matrix: *mut u64,
        matrix_len: usize,
        same: *mut u32,
        counts: *mut [u64; 3],
    ) -> u32;

    pub fn lyra2_book_account(
        book: *const u8,
        book_len: usize,
        place: usize,
        values: *mut [usize; 6],
    ) -> usize;
}
