//! The functions of the library, as include/quernhem.h declares them.
use crate::Record;

extern "C" {
    pub fn quernhem_run(
        text: *const u8,
        text_len: usize,
        input: *const u8,
        input_len: usize,
        space: *mut u8,
        space_len: usize,
        room: *mut u8,
        room_len: usize,
        index: *const u16,
        index_len: usize,
        records: *mut Record,
        records_len: usize,
        budget: u32,
        tables: *mut u8,
        answer: *mut u64,
    );
    pub fn quernhem_check(text: *const u8, text_len: usize, verdict: *mut u64);
    pub fn quernhem_ask(
        tables: *const u8,
        space: *const u8,
        space_len: usize,
        name: *const u8,
        name_len: usize,
        found: *mut u64,
    );
    pub fn quernhem_begin(
        buffer: *const u8,
        buffer_len: usize,
        receipt: *mut u64,
        verdict: *mut u64,
    );
    pub fn quernhem_take(
        buffer: *mut u8,
        buffer_len: usize,
        receipt: *mut u64,
        part: *const u8,
        part_len: usize,
    );
    pub fn quernhem_finish(
        buffer: *mut u8,
        buffer_len: usize,
        receipt: *const u64,
        verdict: *mut u64,
    );
    pub fn quernhem_index(text: *const u8, text_len: usize, index: *mut u16, verdict: *mut u64);
    pub fn quernhem_line(index: *const u16, number: u16, found: *mut u64);
    pub fn quernhem_callers(index: *const u16, number: u16, callers: *mut u16, count: *mut u64);
}
