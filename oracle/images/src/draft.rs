//! An image in the making: entries are put under pages, and the tables on the way are taken from
//! those that are free.

use crate::image::{Image, PAGE_BYTES, TABLE};
use crate::reference::span_pages;
use crate::width::Width;

pub const PRESENT: u64 = 1;
pub const WRITABLE: u64 = 1 << 1;
pub const USER: u64 = 1 << 2;
pub const LARGE: u64 = 1 << 7;
pub const NO_EXECUTE: u64 = 1 << 63;

/// An entry that takes nothing away from the rights below it.
pub const OPEN: u64 = PRESENT | WRITABLE | USER;

/// The address in an entry that names a table.
pub const ADDRESS: u64 = (1 << 52) - PAGE_BYTES;

pub struct Draft {
    pub image: Image,
    /// The numbers of tables not yet in use; the last is taken first.
    free: Vec<usize>,
}

impl Draft {
    /// So many tables from base on. They are taken in this order, the first as the root.
    pub fn with_order(width: Width, base: u64, order: &[usize]) -> Draft {
        let mut free: Vec<_> = order.iter().rev().copied().collect();
        let root = free.pop().expect("a table for the root");
        Draft {
            image: Image {
                width,
                words: vec![0; TABLE * order.len()],
                base,
                root: table_address(base, root),
            },
            free,
        }
    }

    /// So many tables from base on, taken in the order of their addresses.
    pub fn new(width: Width, base: u64, tables: usize) -> Draft {
        Draft::with_order(width, base, &(0..tables).collect::<Vec<_>>())
    }

    /// The address of a table that was free.
    pub fn take(&mut self) -> Option<u64> {
        let table = self.free.pop()?;
        Some(table_address(self.image.base, table))
    }

    /// The address behind the last word.
    pub fn end(&self) -> u64 {
        self.image.base + 8 * self.image.words.len() as u64
    }

    /// An entry of the table at this address, if it is wholly in the image.
    pub fn word(&mut self, table: u64, index: u64) -> Option<&mut u64> {
        let start = table.checked_sub(self.image.base)? as usize / 8;
        let table = self.image.words.get_mut(start..start + TABLE)?;
        table.get_mut(index as usize)
    }

    /// Sets an entry of the table at this address.
    pub fn set(&mut self, table: u64, index: u64, entry: u64) {
        *self.word(table, index).expect("a table of the image") = entry;
    }

    /// Sets all entries of the table at this address.
    pub fn fill(&mut self, table: u64, mut entry: impl FnMut(u64) -> u64) {
        (0..TABLE as u64).for_each(|index| self.set(table, index, entry(index)));
    }

    /// The entry of this level on the way to a page. Absent entries above it get free tables.
    /// `None` if there are no more, or if a large or broken entry is in the way.
    pub fn at(&mut self, page: u64, level: u32) -> Option<&mut u64> {
        let mut table = self.image.root;
        for upper in (level + 1..=self.image.width.levels()).rev() {
            let entry = *self.word(table, index(page, upper))?;
            if entry & PRESENT == 0 {
                let next = self.take()?;
                *self.word(table, index(page, upper))? = next | OPEN;
                table = next;
            } else if entry & LARGE == 0 {
                table = entry & ADDRESS;
            } else {
                return None;
            }
        }
        self.word(table, index(page, level))
    }

    /// The entry of this level on the way to a page, with a way of its own: the tables on it are
    /// copied first, so that it changes no other page, also where many entries name one table.
    /// `None` as above.
    pub fn apart(&mut self, page: u64, level: u32) -> Option<&mut u64> {
        let mut table = self.image.root;
        for upper in (level + 1..=self.image.width.levels()).rev() {
            let entry = *self.word(table, index(page, upper))?;
            if entry & (PRESENT | LARGE) == PRESENT | LARGE {
                return None;
            }
            let own = self.take()?;
            let flags = match entry & PRESENT {
                0 => OPEN,
                _ => {
                    self.copy(entry & ADDRESS, own)?;
                    entry & !ADDRESS
                }
            };
            *self.word(table, index(page, upper))? = own | flags;
            table = own;
        }
        self.word(table, index(page, level))
    }

    /// Copies the entries of a table to another one.
    fn copy(&mut self, table: u64, to: u64) -> Option<()> {
        for index in 0..TABLE as u64 {
            *self.word(to, index)? = *self.word(table, index)?;
        }
        Some(())
    }

    /// Puts an entry on the way to a page; whether there was a way.
    pub fn put(&mut self, page: u64, level: u32, entry: u64) -> bool {
        match self.at(page, level) {
            Some(place) => {
                *place = entry;
                true
            }
            None => false,
        }
    }

    /// Maps so many pages of a level's size, consecutive from this page and frame on.
    pub fn map(&mut self, page: u64, level: u32, count: u64, frame: u64, flags: u64) {
        let large = if level == 1 { 0 } else { LARGE };
        for i in 0..count {
            let (page, frame) = (page + i * span_pages(level), frame + i * span_pages(level));
            self.put(page, level, (frame * PAGE_BYTES) | large | PRESENT | flags);
        }
    }
}

/// The index of a page at a level.
pub fn index(page: u64, level: u32) -> u64 {
    page / span_pages(level) % TABLE as u64
}

/// The number of the page with these indices, the highest level first.
pub fn page(indices: impl IntoIterator<Item = u64>) -> u64 {
    let size = TABLE as u64;
    let indices = indices.into_iter();
    indices.fold(0, |sum, index| sum * size + index)
}

fn table_address(base: u64, table: usize) -> u64 {
    base + table as u64 * PAGE_BYTES
}
