//! Tables that more than one entry names, also their own.

use generator::Generator;

use super::{drawn, Case};
use crate::draft::{Draft, OPEN, PRESENT};
use crate::image::{PAGE_BYTES, TABLE};
use crate::reference::span_pages;
use crate::width::Width;

/// The root names itself, tables name each other in circles, or a table has nothing but its own
/// name.
pub fn self_naming(width: Width, index: u64, generator: &mut Generator) -> Case {
    let tables = 1 + generator.below(6) as usize;
    let mut draft = drawn::draft(width, tables, generator);
    let root = draft.image.root;
    match index % 4 {
        0 => {
            let own = drawn::index(generator);
            draft.set(root, own, root | OPEN);
        }
        1 => {
            let rights = drawn::rights(generator);
            for index in 0..TABLE as u64 {
                draft.set(root, index, root | PRESENT | rights);
            }
        }
        _ => circles(&mut draft, tables, generator),
    }
    if generator.below(2) == 0 {
        let (page, frame) = (drawn::page(width, generator), drawn::frame(1, generator));
        drawn::stretch(&mut draft, (page, 1, 4), (frame, OPEN), generator);
    }
    drawn::finish(&mut draft, generator);
    Case::Image(draft.image)
}

/// Each table has one to four entries that name drawn tables.
fn circles(draft: &mut Draft, tables: usize, generator: &mut Generator) {
    let base = draft.image.base;
    let address = |table: u64| base + table * PAGE_BYTES;
    for table in 0..tables as u64 {
        for _ in 0..1 + generator.below(4) {
            let named = address(generator.below(tables as u64));
            let rights = drawn::rights(generator);
            let index = drawn::index(generator);
            draft.set(address(table), index, named | PRESENT | rights);
        }
    }
}

/// One table below many entries at each level, with few pages or none in the last.
pub fn shared_tables(width: Width, index: u64, generator: &mut Generator) -> Case {
    let levels = width.levels() as usize;
    let mut draft = drawn::draft(width, levels, generator);
    let mut upper = draft.image.root;
    // The tables are tried once for each way to them: ways are kept to some hundreds.
    for &most in &[2, 4, 8, 16][5 - levels..] {
        let lower = draft.take().expect("a table for each level");
        for _ in 0..1 + generator.below(most) {
            let rights = match generator.below(4) {
                0 => drawn::rights(generator),
                _ => OPEN,
            };
            let index = drawn::index(generator);
            draft.set(upper, index, lower | PRESENT | rights);
        }
        upper = lower;
    }
    for _ in 0..index % 8 {
        let (frame, rights) = (drawn::frame(1, generator), drawn::rights(generator));
        let entry = drawn::leaf(1, frame, rights, generator);
        draft.set(upper, drawn::index(generator), entry);
    }
    drawn::finish(&mut draft, generator);
    Case::Image(draft.image)
}

/// Pages up to a border and pages some entries on, with entries between them that name a table with
/// nothing in it, at the level of the index. An entry before names it too, so that it is known by
/// then. Mostly the frames go on as if nothing were between.
pub fn empty_between(width: Width, index: u64, generator: &mut Generator) -> Case {
    let (level, left) = drawn::upper(width, index);
    let between = left % 4;
    let mut draft = drawn::full_draft(width, generator);
    let empty = draft.take().expect("a table");
    let span = span_pages(level);
    let border =
        (drawn::page(width, generator) / span * span).clamp(2 * span, width.pages() - 4 * span);
    let leaf = 1 + generator.below((level - 1).min(3).into()) as u32;
    let (size, count) = (span_pages(leaf), 1 + generator.below(4));
    let frame = drawn::frame(3, generator) + 4 * size;
    let rights = drawn::rights(generator);

    let row = (border - count * size, leaf, count);
    drawn::stretch(&mut draft, row, (frame - count * size, rights), generator);
    draft.put(border - 2 * span, level, empty | OPEN);
    for i in 0..between {
        draft.put(border + i * span, level, empty | OPEN);
    }
    let frame = match generator.below(4) {
        0 => frame + between * span,
        _ => frame,
    };
    let row = (border + between * span, leaf, count);
    drawn::stretch(&mut draft, row, (frame, rights), generator);
    drawn::finish(&mut draft, generator);
    Case::Image(draft.image)
}
