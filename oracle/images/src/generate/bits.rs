//! Every bit of every kind of entry, and so every reserved one.

use generator::Generator;

use super::{drawn, Case};
use crate::draft::OPEN;
use crate::reference::span_pages;
use crate::width::Width;

/// The kinds of entries: the level, and whether the entry maps a page. The first is of five levels.
const KINDS: [(u32, bool); 7] = [
    (5, false),
    (4, false),
    (3, true),
    (2, true),
    (3, false),
    (2, false),
    (1, true),
];

/// Pages in a row, with the bit of the index changed in one entry on the way to the middle one.
pub fn each_bit(width: Width, index: u64, generator: &mut Generator) -> Case {
    // 53 and 64 have no common divisor: bits far apart come up early, and in the end each of them.
    let bit = index * 53 % 64;
    let kinds = match width {
        Width::Bits48 => &KINDS[1..],
        Width::Bits57 => &KINDS,
    };
    let (level, maps) = kinds[(index / 64) as usize % kinds.len()];
    let mut draft = drawn::full_draft(width, generator);
    let leaf = if maps { level } else { 1 };
    let size = span_pages(leaf);
    let page = drawn::page(width, generator) / size * size;
    let row = page - page % (4 * size);
    let frame = drawn::frame(3, generator);
    let rights = drawn::rights(generator);
    drawn::stretch(&mut draft, (row, leaf, 4), (frame, rights), generator);
    if !maps {
        // A page under the entry beside it.
        let beside = page ^ span_pages(level);
        drawn::stretch(&mut draft, (beside, 1, 1), (frame + 1, OPEN), generator);
    }
    drawn::finish(&mut draft, generator);
    if let Some(entry) = draft.at(page, level) {
        *entry ^= 1 << bit;
    }
    Case::Image(draft.image)
}
