//! About as many lines as the program prints, and more.

use generator::Generator;

use super::{drawn, Case};
use crate::draft::{Draft, LARGE, NO_EXECUTE, OPEN, PRESENT};
use crate::image::{PAGE_BYTES, TABLE};
use crate::reference::span_pages;
use crate::width::Width;

/// Up to how many lines are made around the limit.
const COUNTS: [u64; 8] = [4095, 4096, 4096, 4096, 4097, 4098, 4608, 6000];

/// A row of pages or of broken entries, each a line of its own, with nothing behind it, or a page
/// or a stop, or with the last page as its last.
pub fn many_lines(width: Width, index: u64, generator: &mut Generator) -> Case {
    let mut draft = drawn::full_draft(width, generator);
    let count = COUNTS[(index % 8) as usize];
    let stops = index / 8 % 4 == 3;
    let size = span_pages(if stops { 2 } else { 1 });
    let at_the_end = generator.below(3) == 0;
    let start = match at_the_end {
        true => width.pages() - count * size,
        // Within a level-3 table, so that the tables suffice.
        false => {
            let upper = drawn::page(width, generator) / span_pages(4) * span_pages(4);
            upper + generator.below(100) * span_pages(3) + generator.below(512) * size
        }
    };
    let row = start..start + count * size;
    match stops {
        true => row_of_stops(&mut draft, row.clone()),
        false => row_of_pages(&mut draft, row.clone(), generator),
    }
    // The next page is the one behind the row, also if what is found next is far behind it.
    let behind = match generator.below(3) {
        0 => row.end,
        _ => row.end + generator.below(1 << 20),
    };
    if !at_the_end && generator.below(2) == 0 {
        match generator.below(2) {
            0 => draft.put(behind, 1, (7 * PAGE_BYTES) | PRESENT),
            _ => draft.put(behind, 2, LARGE | PRESENT | 1 << 13),
        };
    }
    Case::Image(draft.image)
}

/// Pages none of which goes on with the one before: all of one frame, or with rights that change.
/// All whole tables of the row are one.
fn row_of_pages(draft: &mut Draft, row: std::ops::Range<u64>, generator: &mut Generator) {
    let one_frame = generator.below(2) == 0;
    let entry = |page: u64| match one_frame {
        true => (0x1234 * PAGE_BYTES) | PRESENT,
        false => (page % 512 * PAGE_BYTES) | PRESENT | (page % 2 * NO_EXECUTE),
    };
    let table = TABLE as u64;
    let whole = draft.take().expect("a free table");
    (0..table).for_each(|index| draft.set(whole, index, entry(index)));
    for block in row.start / table..=(row.end - 1) / table {
        let pages = row.start.max(block * table)..row.end.min((block + 1) * table);
        if pages.end - pages.start == table {
            draft.put(pages.start, 2, whole | OPEN);
        } else {
            pages.for_each(|page| {
                draft.put(page, 1, entry(page));
            });
        }
    }
}

/// Broken entries of level 2 side by side. All whole tables of the row are one.
fn row_of_stops(draft: &mut Draft, row: std::ops::Range<u64>) {
    let broken = PRESENT | LARGE | 1 << 20;
    let (size, table) = (span_pages(2), span_pages(3));
    let whole = draft.take().expect("a free table");
    (0..TABLE as u64).for_each(|index| draft.set(whole, index, broken));
    for block in row.start / table..=(row.end - 1) / table {
        let pages = row.start.max(block * table)..row.end.min((block + 1) * table);
        if pages.end - pages.start == table {
            draft.put(pages.start, 3, whole | OPEN);
        } else {
            for page in pages.step_by(size as usize) {
                draft.put(page, 2, broken);
            }
        }
    }
}
