//! Translation and lists as one writes them by hand in safe Rust, for the benchmark to measure the
//! port against. A list is one pass over the tables: absent entries are skipped by their span, runs
//! grow by whole entries, and a table that held nothing is not read again at that level. The number
//! of levels is a constant of each, so that four cost what they did when there were no five.

mod calls;
mod pass;
#[cfg(test)]
mod tests;

pub use calls::{HAND_WRITTEN, LIST_BY_SEARCHES};
pub use pass::{list, Listed};

use crate::draft::{LARGE, NO_EXECUTE, PRESENT, USER, WRITABLE};
use crate::image::TABLE;
use crate::reference::{NOT_ALIGNED, NOT_CANONICAL, NOT_PHYSICAL, ROOT_OUTSIDE};

const ADDRESS: u64 = 0x000f_ffff_ffff_f000;

/// Bit 12 of a large entry is not read.
const UNREAD_IN_LARGE: u64 = 1 << 12;

#[derive(Clone, Copy)]
pub struct Tables<'a> {
    pub words: &'a [u64],
    pub base: u64,
    pub root: u64,
}

pub enum Translation {
    Mapped {
        physical: u64,
        size: u64,
        rights: u64,
    },
    Absent(u32),
    Reserved(u32),
    Outside(u32),
}

impl<'a> Tables<'a> {
    fn table(&self, address: u64) -> Option<&'a [u64; TABLE]> {
        let start = usize::try_from(address.checked_sub(self.base)? / 8).ok()?;
        self.words.get(start..)?.first_chunk()
    }

    /// The root table, or the first refusal of base and root.
    fn root_table(&self) -> Result<&'a [u64; TABLE], u8> {
        for start in [self.base, self.root] {
            if start >> 52 != 0 {
                return Err(NOT_PHYSICAL);
            }
            if start & 0xfff != 0 {
                return Err(NOT_ALIGNED);
            }
        }
        self.table(self.root).ok_or(ROOT_OUTSIDE)
    }
}

/// The address that the lower bits of a number stand for, as many as so many levels have.
const fn sign_extended<const LEVELS: u32>(number: u64) -> u64 {
    let above = u64::BITS - shift(LEVELS + 1);
    ((number << above) as i64 >> above) as u64
}

fn is_canonical<const LEVELS: u32>(address: u64) -> bool {
    sign_extended::<LEVELS>(address) == address
}

/// How many bits of an address are below the index of this level.
const fn shift(level: u32) -> u32 {
    12 + 9 * (level - 1)
}

/// The bits that all entries of a walk have, and those that some entry has.
#[derive(Clone, Copy)]
struct Bits {
    all: u64,
    any: u64,
}

impl Bits {
    const OPEN: Bits = Bits { all: !0, any: 0 };

    fn with(self, entry: u64) -> Bits {
        Bits {
            all: self.all & entry,
            any: self.any | entry,
        }
    }

    /// 1 writable, 2 user, 4 no-execute.
    fn rights(self) -> u64 {
        (self.all >> 1 & 3) | (self.any >> 63 << 2)
    }

    /// The bits of a further entry that the rights still depend on.
    fn deciding(self) -> u64 {
        (self.all & (WRITABLE | USER)) | (!self.any & NO_EXECUTE)
    }
}

/// What an entry of a level that is present says.
enum Entry {
    Reserved,
    Page(u64),
    Table(u64),
}

#[inline(always)]
fn read(entry: u64, level: u32) -> Entry {
    let address = entry & ADDRESS;
    if level == 1 {
        return Entry::Page(address);
    }
    if entry & LARGE == 0 {
        return Entry::Table(address);
    }
    let below = address & ((1 << shift(level)) - 1) & !UNREAD_IN_LARGE;
    match level >= 4 || below != 0 {
        true => Entry::Reserved,
        false => Entry::Page(address & !UNREAD_IN_LARGE),
    }
}

#[inline(always)]
pub fn translate<const LEVELS: u32>(tables: Tables, address: u64) -> Result<Translation, u8> {
    let mut table = tables.root_table()?;
    if !is_canonical::<LEVELS>(address) {
        return Err(NOT_CANONICAL);
    }
    let mut bits = Bits::OPEN;
    for level in (1..=LEVELS).rev() {
        let entry = table[(address >> shift(level)) as usize % TABLE];
        if entry & PRESENT == 0 {
            return Ok(Translation::Absent(level));
        }
        bits = bits.with(entry);
        match read(entry, level) {
            Entry::Reserved => return Ok(Translation::Reserved(level)),
            Entry::Page(first) => {
                let size = 1 << shift(level);
                return Ok(Translation::Mapped {
                    physical: first | (address & (size - 1)),
                    size,
                    rights: bits.rights(),
                });
            }
            Entry::Table(next) => match tables.table(next) {
                Some(next) => table = next,
                None => return Ok(Translation::Outside(level)),
            },
        }
    }
    unreachable!("an entry of level 1 names no table")
}
