//! What a single entry says.

use super::{holds_table, PHYSICAL};
use crate::image::{Image, PAGE_BYTES};

pub enum Entry {
    Absent,
    Reserved,
    /// It maps a page of its level's size.
    Page,
    /// It names the table at this address, which is wholly in the image.
    Table(u64),
    /// It names one that is not.
    Outside,
}

impl Entry {
    /// The checks in document 01's order. Level 5 follows the rules of level 4 (document 02, Four).
    #[inline(always)]
    pub fn read(image: &Image, entry: u64, level: u32) -> Entry {
        if !bit(entry, 0) {
            return Entry::Absent;
        }
        let large = bit(entry, 7) && [2, 3].contains(&level);
        if bit(entry, 7) && [4, 5].contains(&level)
            || large && entry % span_bytes(level) / (1 << 13) != 0
        {
            return Entry::Reserved;
        }
        if large || level == 1 {
            return Entry::Page;
        }
        let table = entry % PHYSICAL / PAGE_BYTES * PAGE_BYTES;
        match holds_table(image, table) {
            true => Entry::Table(table),
            false => Entry::Outside,
        }
    }
}

pub fn bit(entry: u64, number: u32) -> bool {
    entry / (1 << number) % 2 == 1
}

/// The bytes that an entry of this level speaks for.
pub fn span_bytes(level: u32) -> u64 {
    1 << (12 + 9 * (level - 1))
}
