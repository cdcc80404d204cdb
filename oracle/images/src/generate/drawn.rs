//! What the families draw: places, frames, rights, and bits that are not read.

use generator::Generator;

use crate::draft::{self, Draft, LARGE, NO_EXECUTE, PRESENT, USER, WRITABLE};
use crate::image::{MOST_WORDS, PAGE_BYTES, TABLE};
use crate::reference::span_pages;
use crate::width::Width;

/// The most tables that a file has room for.
const MOST_TABLES: usize = MOST_WORDS / TABLE;

/// The number of frames.
pub const FRAMES: u64 = 1 << 40;

/// Bits 3 to 6, 8 to 11 and 52 to 62, unread in every entry.
const UNREAD: u64 = 0x7ff0_0000_0000_0f78;

/// Bit 12, unread in a large entry.
const UNREAD_IN_LARGE: u64 = 1 << 12;

/// Indices at which halves and tables begin and end.
const INDICES: [u64; 8] = [0, 1, 2, 254, 255, 256, 510, 511];

/// Free tables at a drawn base, in a drawn order.
pub fn draft(width: Width, tables: usize, generator: &mut Generator) -> Draft {
    let mut order: Vec<_> = (0..tables).collect();
    generator.shuffle(&mut order);
    Draft::with_order(width, base(tables, generator), &order)
}

/// A draft of as many tables as there may be.
pub fn full_draft(width: Width, generator: &mut Generator) -> Draft {
    draft(width, most_tables(width), generator)
}

/// As many tables as a file has room for; at five levels, which no file has, a few more, since each
/// way to a page takes one more.
pub fn most_tables(width: Width) -> usize {
    match width {
        Width::Bits48 => MOST_TABLES,
        Width::Bits57 => MOST_TABLES + 4,
    }
}

/// A level above 1 by the index, and what is left of the index to choose by.
pub fn upper(width: Width, index: u64) -> (u32, u64) {
    let count = u64::from(width.levels() - 1);
    (2 + (index % count) as u32, index / count)
}

/// A base such that so many tables end at 2^52 or below.
pub fn base(tables: usize, generator: &mut Generator) -> u64 {
    let last = FRAMES - tables as u64;
    PAGE_BYTES
        * match generator.below(8) {
            0 => 0,
            1 => 1,
            2 => last,
            3 => generator.below(last),
            _ => generator.below(1 << 20),
        }
}

pub fn index(generator: &mut Generator) -> u64 {
    match generator.below(2) {
        0 => *generator.pick(&INDICES),
        _ => generator.below(TABLE as u64),
    }
}

/// The number of a page at a drawn place.
pub fn page(width: Width, generator: &mut Generator) -> u64 {
    draft::page((0..width.levels()).map(|_| index(generator)))
}

/// The number of a frame that a page of this level's size can have.
pub fn frame(level: u32, generator: &mut Generator) -> u64 {
    let frame = match generator.below(4) {
        0 => generator.below(FRAMES),
        _ => generator.below(1 << 24),
    };
    frame / span_pages(level) * span_pages(level)
}

/// Rights, mostly one of few.
pub fn rights(generator: &mut Generator) -> u64 {
    match generator.below(4) {
        0 => WRITABLE,
        1 => WRITABLE | USER,
        _ => *generator.pick(&[
            0,
            USER,
            NO_EXECUTE,
            NO_EXECUTE | WRITABLE,
            NO_EXECUTE | USER,
            NO_EXECUTE | WRITABLE | USER,
        ]),
    }
}

/// An entry that maps a page of this level's size, its unread bits drawn.
pub fn leaf(level: u32, frame: u64, rights: u64, generator: &mut Generator) -> u64 {
    let noise = match (generator.below(2), level) {
        (0, _) => 0,
        (_, 1) => generator.number() & (UNREAD | LARGE),
        _ => generator.number() & (UNREAD | UNREAD_IN_LARGE),
    };
    let large = if level == 1 { 0 } else { LARGE };
    (frame * PAGE_BYTES) | PRESENT | large | rights | noise
}

/// Maps so many pages of a level's size, consecutive from this page and frame on.
pub fn stretch(
    draft: &mut Draft,
    (page, level, count): (u64, u32, u64),
    (frame, rights): (u64, u64),
    generator: &mut Generator,
) {
    let size = span_pages(level);
    for i in 0..count {
        let entry = leaf(level, (frame + i * size) % FRAMES, rights, generator);
        draft.put(page + i * size, level, entry);
    }
}

/// Sets unread bits in some images: in entries that are present, and all but bit 0 in others.
pub fn finish(draft: &mut Draft, generator: &mut Generator) {
    let (present, absent) = (generator.below(4) == 0, generator.below(4) == 0);
    for word in &mut draft.image.words {
        if *word & PRESENT == 1 && present {
            *word ^= generator.number() & UNREAD;
        } else if *word & PRESENT == 0 && absent && generator.below(8) == 0 {
            *word = generator.number() & !PRESENT;
        }
    }
}
