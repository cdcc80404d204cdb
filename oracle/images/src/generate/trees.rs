//! Trees of all shapes, and words that are no tree.

use generator::Generator;

use super::{drawn, Case};
use crate::draft::{self, Draft, LARGE, PRESENT};
use crate::image::{PAGE_BYTES, TABLE};
use crate::reference::span_pages;
use crate::width::Width;

/// Stretches of all page sizes at a few places, many of them side by side.
pub fn trees(width: Width, _: u64, generator: &mut Generator) -> Case {
    let most = drawn::most_tables(width);
    let tables = match generator.below(4) {
        0 => 1 + generator.below(most as u64) as usize,
        _ => most,
    };
    let mut draft = drawn::draft(width, tables, generator);
    grow(&mut draft, &[1, 1, 1, 2, 2, 3], generator);
    drawn::finish(&mut draft, generator);
    Case::Image(draft.image)
}

/// Large pages only.
pub fn large_pages(width: Width, _: u64, generator: &mut Generator) -> Case {
    let mut draft = drawn::full_draft(width, generator);
    grow(&mut draft, &[2, 3], generator);
    drawn::finish(&mut draft, generator);
    Case::Image(draft.image)
}

/// Trees of more words than a file may have: the library answers, the program refuses. At five levels
/// there is no program, and they grow once: to look at each page of more takes long.
pub fn more_words(width: Width, _: u64, generator: &mut Generator) -> Case {
    let tables = drawn::most_tables(width) + 1 + generator.below(16) as usize;
    let mut draft = drawn::draft(width, tables, generator);
    let times = match width {
        Width::Bits48 => 3,
        Width::Bits57 => 1,
    };
    for _ in 0..times {
        grow(&mut draft, &[1, 1, 2], generator);
    }
    Case::Image(draft.image)
}

/// Words without a plan: in some images few are present, in some all.
pub fn random_words(width: Width, _: u64, generator: &mut Generator) -> Case {
    let tables = 1 + generator.below(4) as usize;
    let mut draft = drawn::draft(width, tables, generator);
    let one_in = 1 + generator.below(64);
    let (base, end) = (draft.image.base / PAGE_BYTES, draft.end() / PAGE_BYTES);
    for word in &mut draft.image.words {
        let present = u64::from(generator.below(one_in) == 0);
        let bits = generator.number() & !PRESENT;
        // Uniform addresses would hardly ever name a table, and large entries be reserved.
        let inside = base + generator.below(end - base);
        let address = match generator.below(8) {
            0 => bits & 0x000f_ffff_ffff_f000,
            1 => bits & 0x000f_ffff_c000_0000,
            _ => inside * PAGE_BYTES,
        };
        let others = bits & !0x000f_ffff_ffff_f000;
        let large = if generator.below(4) == 0 { LARGE } else { 0 };
        *word = others & !LARGE | address | large | present;
    }
    Case::Image(draft.image)
}

/// Puts stretches of the levels in places that share tables.
pub fn grow(draft: &mut Draft, levels: &[u32], generator: &mut Generator) {
    let width = draft.image.width;
    let places = [0; 3].map(|_| drawn::page(width, generator));
    let (mut page, mut frame) = (0, 0);
    for _ in 0..1 + generator.below(24) {
        let level = *generator.pick(levels);
        let size = span_pages(level);
        let count = match (generator.below(16), level) {
            (0, 2) | (0..4, 1) => 1 + generator.below(2 * TABLE as u64),
            (4..8, _) => 1,
            _ => 1 + generator.below(8),
        };
        // Half of them go on where the one before ended.
        if generator.below(2) == 0 {
            page = near(width, *generator.pick(&places), generator);
        }
        if generator.below(2) == 0 {
            frame = drawn::frame(level, generator);
        }
        page = page / size * size;
        frame = frame / size * size;
        let count = count.min((width.pages() - page) / size);
        let rights = drawn::rights(generator);
        drawn::stretch(draft, (page, level, count), (frame, rights), generator);
        page = (page + count * size) % width.pages();
        frame += count * size;
    }
}

/// How many of the lower indices are drawn anew; the first is at five levels only.
const ANEW: [u32; 6] = [4, 3, 2, 1, 1, 0];

/// The page, or one with some of its lower indices drawn.
fn near(width: Width, page: u64, generator: &mut Generator) -> u64 {
    let levels = width.levels();
    let anew = *generator.pick(&ANEW[5 - levels as usize..]);
    let index = |level| match level > anew {
        true => draft::index(page, level),
        false => drawn::index(generator),
    };
    draft::page((1..=levels).rev().map(index))
}
