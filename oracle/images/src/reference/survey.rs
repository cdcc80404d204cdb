//! Which tables of an image hold nothing.
//!
//! A table, read as one of some level, holds nothing if all pages under it are absent: if each of its
//! entries is absent or names a table of the image that, read one level below, holds nothing. So the
//! tables are all read as such of level 1, then as such of level 2, up to the level of the root, each
//! once for each level, however many entries name it. Looks leave out the pages under such a table.

#[cfg(test)]
mod tests;

use super::entry::Entry;
use super::{accept, index, span_pages};
use crate::image::{Image, PAGE_BYTES, TABLE};
use crate::width::Width;

/// An image with what is known of its tables.
pub struct Survey<'a> {
    pub image: &'a Image,
    /// By the number of a table and its level less one: how many looks the pages under it take if
    /// only absent entries are passed at once. `None` if it holds something.
    looks: Vec<[Option<u64>; 5]>,
}

/// A table that holds nothing, on the way to a page.
#[derive(Clone, Copy)]
pub struct Empty {
    pub level: u32,
    /// The looks that it spares.
    pub looks: u64,
}

impl<'a> Survey<'a> {
    /// Of an image that is refused nothing is known.
    pub fn of(image: &'a Image) -> Survey<'a> {
        let mut survey = Survey::unknown(image);
        if accept(image).is_ok() {
            let tables = image.words.len() / TABLE;
            survey.looks = vec![[None; 5]; tables];
            for level in 1..=image.width.levels() {
                for table in 0..tables {
                    survey.looks[table][level as usize - 1] = survey.read(table, level);
                }
            }
        }
        survey
    }

    /// Nothing is known of any table, and each page is looked at.
    pub fn unknown(image: &'a Image) -> Survey<'a> {
        Survey {
            image,
            looks: Vec::new(),
        }
    }

    /// Whether the table that the words from 512 times this number on are, read as one of this
    /// level, is known to hold nothing.
    pub fn holds_nothing(&self, table: usize, level: u32) -> bool {
        self.looks_under(table, level).is_some()
    }

    /// The highest table on the way to a page that holds nothing.
    pub fn on_the_way(&self, page: u64) -> Option<Empty> {
        match self.image.width {
            Width::Bits48 => self.highest(page, [4, 3, 2, 1]),
            Width::Bits57 => self.highest(page, [5, 4, 3, 2, 1]),
        }
    }

    /// The same, level by level.
    fn highest<const N: usize>(&self, page: u64, levels: [u32; N]) -> Option<Empty> {
        let mut table = self.number(self.image.root);
        for level in levels {
            if let Some(looks) = self.looks_under(table, level) {
                return Some(Empty { level, looks });
            }
            let index = index(page * PAGE_BYTES, level) as usize;
            let entry = self.image.words[TABLE * table + index];
            match Entry::read(self.image, entry, level) {
                Entry::Table(lower) => table = self.number(lower),
                _ => break,
            }
        }
        None
    }

    /// The looks under a table of this level, if the tables of the level below are known.
    fn read(&self, table: usize, level: u32) -> Option<u64> {
        let entries = &self.image.words[TABLE * table..][..TABLE];
        let looks = |&entry| match Entry::read(self.image, entry, level) {
            Entry::Absent => Some(1),
            Entry::Table(lower) => self.looks_under(self.number(lower), level - 1),
            Entry::Reserved | Entry::Outside | Entry::Page => None,
        };
        entries.iter().map(looks).sum()
    }

    fn looks_under(&self, table: usize, level: u32) -> Option<u64> {
        *self.looks.get(table)?.get(level as usize - 1)?
    }

    /// The number of the table at an address in the image.
    fn number(&self, address: u64) -> usize {
        ((address - self.image.base) / PAGE_BYTES) as usize
    }
}

impl Empty {
    /// The pages under the table.
    pub fn pages(self) -> u64 {
        TABLE as u64 * span_pages(self.level)
    }
}
