//! The port's functions on images, from its static library.

use crate::library::Library;

unsafe extern "C" {
    fn wuohtan_translate(
        width: u64,
        image: *const u64,
        words: usize,
        base: u64,
        root: u64,
        addr: u64,
        out: *mut u64,
        room: usize,
    ) -> u8;

    fn wuohtan_search(
        width: u64,
        image: *const u64,
        words: usize,
        base: u64,
        root: u64,
        page: u64,
        out: *mut u64,
        room: usize,
    ) -> u8;

    fn wuohtan_list(
        width: u64,
        image: *const u64,
        words: usize,
        base: u64,
        root: u64,
        page: u64,
        empty_tables: *mut u8,
        tables: usize,
        answers: *mut u64,
        answers_room: usize,
        out: *mut u64,
        room: usize,
    ) -> u8;
}

pub const PORT: Library = Library {
    translate: wuohtan_translate,
    search: wuohtan_search,
    list: wuohtan_list,
};
