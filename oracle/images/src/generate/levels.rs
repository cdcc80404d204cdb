//! Tables that a walk which begins at the wrong level or place reads too, and answers otherwise.

use generator::Generator;

use super::{drawn, trees, Case};
use crate::draft::{Draft, LARGE, OPEN, PRESENT};
use crate::image::{Image, TABLE};
use crate::reference::span_pages;
use crate::width::Width;

/// The same words at both widths, the root a table of level 4 and of level 5: by the index trees of
/// four levels, of five, or tables that map pages at both.
pub fn either_width(width: Width, index: u64, generator: &mut Generator) -> Case {
    let made_for = Width::ALL[index as usize % 2];
    let tables = drawn::most_tables(Width::Bits48);
    let mut draft = drawn::draft(made_for, tables, generator);
    match index % 4 {
        0 | 1 => trees::grow(&mut draft, &[1, 1, 2, 3], generator),
        _ => net(&mut draft, generator),
    }
    drawn::finish(&mut draft, generator);
    Case::Image(Image {
        width,
        ..draft.image
    })
}

/// The tables of a layer of a net, and in how many entries each names some of the next.
const LAYER: usize = 3;
const ENTRIES: usize = 4;

/// Five layers with entries at the same few indices, the root as the first. A page that has these
/// indices is mapped also by a walk that reads only four of the tables on the way.
fn net(draft: &mut Draft, generator: &mut Generator) {
    let indices = [0; ENTRIES].map(|_| drawn::index(generator));
    let mut upper = vec![draft.image.root];
    for _ in 0..5 {
        let lower: Vec<_> = (0..LAYER).map_while(|_| draft.take()).collect();
        for table in upper {
            for index in indices {
                let rights = drawn::rights(generator);
                let entry = match generator.below(8) {
                    0 => drawn::leaf(3, drawn::frame(3, generator), rights, generator),
                    _ => *generator.pick(&lower) | PRESENT | rights,
                };
                draft.set(table, index, entry);
            }
        }
        upper = lower;
    }
}

/// Pages under an entry of the root. By the index, others lie where a walk finds them that takes the
/// root's index from a bit too low or too high, or the entry has bit 7, with the address of its table
/// or as if it mapped a page of its whole span.
pub fn root_entries(width: Width, index: u64, generator: &mut Generator) -> Case {
    let mut draft = drawn::full_draft(width, generator);
    let root = width.levels();
    let (span, table) = (span_pages(root), TABLE as u64);
    // The first and the last index would be the same from a bit too low or too high.
    let own = 1 + generator.below(table - 2);
    let page = own * span + drawn::page(width, generator) % span;
    let frame = drawn::frame(1, generator);
    drawn::stretch(&mut draft, (page, 1, 4), (frame, OPEN), generator);
    let other = match index % 4 {
        0 => Some(page / (span / 2) % table),
        1 => Some(own / 2 + own / (table / 2) * (table / 2)),
        _ => None,
    };
    if let Some(other) = other {
        let page = other * span + page % span;
        drawn::stretch(&mut draft, (page, 1, 4), (frame + 4, OPEN), generator);
    }
    drawn::finish(&mut draft, generator);
    let whole = drawn::leaf(root, drawn::frame(root, generator), OPEN, generator);
    let entry = draft.at(page, root).expect("the root has all entries");
    match index % 4 {
        2 => *entry |= LARGE,
        3 => *entry = whole,
        _ => {}
    }
    Case::Image(draft.image)
}
