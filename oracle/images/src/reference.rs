//! What documents 01 and 02 say of images, page by page. Written from the documents, not from the
//! port: no table is searched, no recursion is used, and where the port takes bits apart this
//! divides.
//!
//! - A page's state is found by a plain loop over the levels from that of the root on (`state_at`):
//!   four at 48 bits, five at 57.
//! - A search looks at one page after the other. Pages are left out only where the look before
//!   settles them (`looks.rs`):
//!   - An absent or broken entry is read on the way to each page of its span, and nothing below it
//!     is read. So all these pages have the state of the one looked at.
//!   - Under a table that holds nothing all pages are absent. Which tables these are is found
//!     beforehand (`survey.rs`): few tables can stand for all pages, and to look at each page would
//!     take hours.
//!   - Of a 1 GiB page, pieces of 512 pages are looked at on their first and last page only. It is
//!     assumed that the frames between them lie between.
//! - The lines of a list come from one pass over these looks, not from one search after the other;
//!   a test holds that both give the same.
//!
//! A page is named by its number, 0 to 2^36 - 1 at 48 bits and to 2^45 - 1 at 57, the high half after
//! the low one, a frame by its address divided by 4,096.

mod entry;
pub mod looks;
pub mod runs;
pub mod search;
pub mod survey;
#[cfg(test)]
pub mod tests;

use entry::{bit, span_bytes, Entry};

use crate::image::{Image, PAGE_BYTES, TABLE};
use crate::width::Width;

/// Addresses are physical below this.
const PHYSICAL: u64 = 1 << 52;

/// Refusals by their numbers in document 01.
pub const NOT_CANONICAL: u8 = 1;
pub const NOT_PHYSICAL: u8 = 2;
pub const NOT_ALIGNED: u8 = 3;
pub const WRONG_FILE: u8 = 13;
pub const ROOT_OUTSIDE: u8 = 14;

#[derive(Clone, Copy, Debug, PartialEq, Eq)]
pub struct Rights {
    pub writable: bool,
    pub user: bool,
    pub no_execute: bool,
}

/// The state of a page, or the translation of an address.
#[derive(Clone, Copy, Debug, PartialEq, Eq)]
pub enum PageState {
    Mapped {
        physical: u64,
        size: u64,
        rights: Rights,
    },
    Absent {
        level: u32,
    },
    Reserved {
        level: u32,
    },
    Outside {
        level: u32,
    },
}

/// What translate answers for an address, or the number of its refusal.
pub fn translate(image: &Image, address: u64) -> Result<PageState, u8> {
    accept(image)?;
    if !canonical(image.width, address) {
        return Err(NOT_CANONICAL);
    }
    Ok(state_at(image, address % bytes(image.width)))
}

/// The state of the page of this number: what translate answers for its first address.
#[inline(always)]
pub fn translate_page(image: &Image, page: u64) -> PageState {
    state_at(image, page * PAGE_BYTES)
}

/// The first refusal of base and root, which both calls try before the address or page.
pub fn accept(image: &Image) -> Result<(), u8> {
    for start in [image.base, image.root] {
        if start >= PHYSICAL {
            return Err(NOT_PHYSICAL);
        }
        if !start.is_multiple_of(PAGE_BYTES) {
            return Err(NOT_ALIGNED);
        }
    }
    match holds_table(image, image.root) {
        true => Ok(()),
        false => Err(ROOT_OUTSIDE),
    }
}

/// The number of the page that starts at this address, or the number of the refusal.
pub fn page_at(width: Width, address: u64) -> Result<u64, u8> {
    if !canonical(width, address) {
        return Err(NOT_CANONICAL);
    }
    if !address.is_multiple_of(PAGE_BYTES) {
        return Err(NOT_ALIGNED);
    }
    Ok(address / PAGE_BYTES % width.pages())
}

/// The first address of the page of this number.
pub fn page_address(width: Width, page: u64) -> u64 {
    match page < width.half() {
        true => page * PAGE_BYTES,
        false => u64::MAX - (bytes(width) - 1) + page * PAGE_BYTES,
    }
}

/// How many pages have the indices down to this level in common.
pub fn span_pages(level: u32) -> u64 {
    span_bytes(level) / PAGE_BYTES
}

/// The bytes of both halves.
fn bytes(width: Width) -> u64 {
    width.pages() * PAGE_BYTES
}

/// Addresses below the gap and above it.
fn canonical(width: Width, address: u64) -> bool {
    let half = bytes(width) / 2;
    address < half || address > u64::MAX - half
}

/// The index at a level of an address modulo 2^48 or 2^57.
fn index(place: u64, level: u32) -> u64 {
    place / span_bytes(level) % TABLE as u64
}

/// Whether the 512 words from this address on are all in the image.
fn holds_table(image: &Image, address: u64) -> bool {
    let end = image.base + 8 * image.words.len() as u64;
    image.base <= address && address + PAGE_BYTES <= end
}

/// The state at an address modulo 2^48 or 2^57. Each width has a loop of its own: most of the time of
/// a comparison is spent here.
#[inline(always)]
fn state_at(image: &Image, place: u64) -> PageState {
    match image.width {
        Width::Bits48 => state_by(image, place, [4, 3, 2, 1]),
        Width::Bits57 => state_by(image, place, [5, 4, 3, 2, 1]),
    }
}

/// The same, level by level.
#[inline(always)]
fn state_by<const N: usize>(image: &Image, place: u64, levels: [u32; N]) -> PageState {
    let mut rights = Rights {
        writable: true,
        user: true,
        no_execute: false,
    };
    let mut table = image.root;
    for level in levels {
        let span = span_bytes(level);
        let entry = image.words[((table - image.base) / 8 + index(place, level)) as usize];
        rights.writable &= bit(entry, 1);
        rights.user &= bit(entry, 2);
        rights.no_execute |= bit(entry, 63);
        match Entry::read(image, entry, level) {
            Entry::Absent => return PageState::Absent { level },
            Entry::Reserved => return PageState::Reserved { level },
            Entry::Outside => return PageState::Outside { level },
            Entry::Table(lower) => table = lower,
            Entry::Page => {
                return PageState::Mapped {
                    physical: entry % PHYSICAL / span * span + place % span,
                    size: span,
                    rights,
                }
            }
        }
    }
    unreachable!("an entry of level 1 is absent or mapped")
}
