//! Entries that name no table of the image, and the last page.

use generator::Generator;

use super::drawn::{self, FRAMES};
use super::Case;
use crate::draft::{Draft, LARGE, OPEN, PRESENT};
use crate::image::{PAGE_BYTES, TABLE};
use crate::reference::span_pages;
use crate::width::Width;

/// Where a named table may lie.
const PLACES: u64 = 8;

/// Entries whose table lies before the image, behind it or is cut off, at the level and place of
/// the index; some have others beside them.
pub fn outside(width: Width, index: u64, generator: &mut Generator) -> Case {
    let (level, first) = drawn::upper(width, index);
    let mut draft = drawn::draft(width, 14, generator);
    if draft.image.base == 0 {
        draft.image.base += PAGE_BYTES;
        draft.image.root += PAGE_BYTES;
    }
    let cut = match generator.below(4) {
        0 => 0,
        1 => *generator.pick(&[1, 511]),
        _ => 1 + generator.below(TABLE as u64 - 1),
    };
    let page = drawn::page(width, generator);
    drawn::stretch(&mut draft, (page, 1, 1), (9, OPEN), generator);
    for i in 0..1 + generator.below(4) {
        let address = place(&draft, (first + i) % PLACES, generator);
        let beside = (page / span_pages(level) + i) * span_pages(level) % width.pages();
        // Reserved comes before outside: an entry of level 4 or 5 with bit 7 is that.
        let odd = match (generator.below(8), level) {
            (0, 4 | 5) => LARGE,
            _ => 0,
        };
        let rights = drawn::rights(generator);
        draft.put(beside, level, address | PRESENT | rights | odd);
    }
    drawn::finish(&mut draft, generator);
    let cut = (0..cut).map(|_| generator.number());
    draft.image.words.extend(cut);
    Case::Image(draft.image)
}

/// The address of a table; what is behind the draft is cut off or not there.
fn place(draft: &Draft, place: u64, generator: &mut Generator) -> u64 {
    let last = (FRAMES - 1) * PAGE_BYTES;
    match place {
        0 => draft.image.base - PAGE_BYTES,
        1 => draft.end().min(last),
        2 => (draft.end() + PAGE_BYTES).min(last),
        3 => generator.below(FRAMES) * PAGE_BYTES,
        4 => 0,
        5 => last,
        6 => draft.image.base,
        _ => draft.end() - PAGE_BYTES,
    }
}

/// The last page mapped in each size, broken at each level, or absent, by the index; and what is
/// before it.
pub fn last_page(width: Width, index: u64, generator: &mut Generator) -> Case {
    let mut draft = drawn::full_draft(width, generator);
    let last = width.pages() - 1;
    let upper =
        |generator: &mut Generator| 2 + generator.below(u64::from(width.levels()) - 1) as u32;
    let outside = (draft.image.base ^ 1 << 51) / PAGE_BYTES * PAGE_BYTES;
    let rights = drawn::rights(generator);
    let (level, entry) = match index % (5 + u64::from(width.levels())) {
        0..3 => {
            let level = 1 + (index % 3) as u32;
            let frame = drawn::frame(level, generator);
            (level, drawn::leaf(level, frame, rights, generator))
        }
        3 => (4, OPEN | LARGE),
        4 => (3, OPEN | LARGE | 1 << (13 + generator.below(17))),
        5 => (2, OPEN | LARGE | 1 << (13 + generator.below(8))),
        6 => (upper(generator), OPEN | outside),
        7 => (1, 0),
        8 => (upper(generator), 0),
        _ => (5, OPEN | LARGE),
    };
    // What is before it goes in first: a large or broken entry leaves no way.
    let size = span_pages(level.min(3));
    let count = generator.below(4);
    let before = width.pages() - span_pages(level) - count * size;
    let frame = match level {
        4 | 5 => drawn::frame(3, generator),
        _ => (entry % (FRAMES * PAGE_BYTES) / PAGE_BYTES).saturating_sub(count * size),
    };
    let row = (before, level.min(3), count);
    drawn::stretch(&mut draft, row, (frame / size * size, rights), generator);
    draft.put(last, level, entry);
    drawn::finish(&mut draft, generator);
    Case::Image(draft.image)
}
