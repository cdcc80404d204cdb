//! Few tables that stand for all pages, 2^36 at four levels, since all entries name them: a search
//! that reads a table once for each way to it takes minutes here, and a list hours; at five levels
//! both take 512 times as long. Case 0 of each family is its worst case, made by hand.

use generator::Generator;

use super::{drawn, Case};
use crate::draft::{Draft, LARGE, OPEN, PRESENT};
use crate::image::TABLE;
use crate::layers::{lay, spread};
use crate::width::Width;
use crate::worst;

/// The levels below that of the root: as many tables does a way of its own to a page take.
fn below_root(width: Width) -> usize {
    width.levels() as usize - 1
}

/// One table for each level, the empty one at the level of the index; in half of the images a page.
pub fn empty_tables(width: Width, index: u64, generator: &mut Generator) -> Case {
    if index == 0 {
        return Case::Image(worst::empty_tables(width));
    }
    let layers = below_root(width);
    let mut draft = drawn::draft(width, 1 + 2 * layers, generator);
    let (above, left) = drawn::upper(width, index);
    let levels = (1..width.levels()).rev();
    let counts: Vec<_> = levels
        .map(|level| usize::from(level + 1 >= above))
        .collect();
    lay_drawn(&mut draft, &counts, |lower, _, _| lower[0], generator);
    if left % 2 == 1 {
        map_apart(&mut draft, generator);
    }
    finished(draft, generator)
}

/// Two tables for each level, by turns of a drawn length; in half of the images a page.
pub fn alternating(width: Width, index: u64, generator: &mut Generator) -> Case {
    if index == 0 {
        return Case::Image(worst::alternating(width));
    }
    let layers = below_root(width);
    let mut draft = drawn::draft(width, 1 + 3 * layers, generator);
    let turn = *generator.pick(&[1, 1, 1, 2, 3, 64, 255]);
    let in_turn = |lower: &[u64], index, _: &mut _| lower[(index / turn % 2) as usize];
    lay_drawn(&mut draft, &vec![2; layers], in_turn, generator);
    if index % 2 == 1 {
        map_apart(&mut draft, generator);
    }
    finished(draft, generator)
}

/// All tables name drawn ones below them, of the next layer or of a lower one; a page is mapped,
/// mostly far behind.
pub fn each_other(width: Width, index: u64, generator: &mut Generator) -> Case {
    if index == 0 {
        return Case::Image(worst::each_other(width));
    }
    let mut draft = drawn::full_draft(width, generator);
    lay_many(&mut draft, generator);
    map_apart(&mut draft, generator);
    finished(draft, generator)
}

/// At four levels, the highest first, so many entries lead to a page: as many lines as the program
/// prints, and more.
const MANY: [[u64; 4]; 4] = [
    [8, 8, 8, 8],
    [64, 64, 1, 1],
    [17, 16, 16, 1],
    [512, 512, 512, 1],
];

/// In the other images, which have fewer lines.
const COUNTS: [u64; 8] = [1, 1, 1, 2, 3, 4, 5, 8];

/// Single pages spread over all there are; between them entries are absent, or name tables that hold
/// nothing. In some images something more comes behind the last. Of five levels one has one entry on
/// the way, so that there are not more pages than at four.
pub fn spread_pages(width: Width, index: u64, generator: &mut Generator) -> Case {
    if index == 0 {
        return Case::Image(worst::spread_pages(width));
    }
    let mut draft = drawn::full_draft(width, generator);
    lay_between(&mut draft, generator);
    let counts = match index % 8 {
        1 => MANY[(index / 8 % 4) as usize],
        _ => [0; 4].map(|_| *generator.pick(&COUNTS)),
    };
    let mut counts = counts.to_vec();
    if width == Width::Bits57 {
        counts.insert(generator.below(5) as usize, 1);
    }
    let first = counts
        .iter()
        .map(|count| generator.below(TABLE as u64 / count));
    let first: Vec<_> = first.collect();
    let (frame, rights) = (drawn::frame(1, generator), drawn::rights(generator));
    let entry = drawn::leaf(1, frame, rights, generator);
    spread(&mut draft, &counts, &first, entry).expect("tables enough");
    match generator.below(4) {
        0 => map_apart(&mut draft, generator),
        1 => break_apart(&mut draft, index, generator),
        _ => {}
    }
    finished(draft, generator)
}

/// Tables that hold nothing between the pages, one for each level or two by turns; or none.
fn lay_between(draft: &mut Draft, generator: &mut Generator) {
    let layers = below_root(draft.image.width);
    match generator.below(4) {
        0 => {}
        1 => {
            let counts = [&vec![2; layers - 1][..], &[1]].concat();
            let in_turn = |lower: &[u64], i, _: &mut _| lower[i as usize % lower.len().min(2)];
            lay_drawn(draft, &counts, in_turn, generator);
        }
        _ => lay_drawn(draft, &vec![1; layers], |lower, _, _| lower[0], generator),
    }
}

/// Nothing but a broken entry, mostly far behind, at the level of the index.
pub fn far_stops(width: Width, index: u64, generator: &mut Generator) -> Case {
    if index == 0 {
        return Case::Image(worst::far_stops(width));
    }
    let mut draft = drawn::full_draft(width, generator);
    let (_, left) = drawn::upper(width, index);
    match left / 2 % 2 {
        0 => {
            let counts = vec![1; below_root(width)];
            lay_drawn(&mut draft, &counts, |lower, _, _| lower[0], generator);
        }
        _ => lay_many(&mut draft, generator),
    }
    break_apart(&mut draft, index, generator);
    finished(draft, generator)
}

/// Tables in layers, with the rights of the entries drawn and in some images an absent one here and
/// there. `choose` gives the table that the entry of an index names.
fn lay_drawn(
    draft: &mut Draft,
    counts: &[usize],
    choose: impl Fn(&[u64], u64, &mut Generator) -> u64,
    generator: &mut Generator,
) {
    let holes = generator.below(2) == 0;
    lay(draft, counts, |lower, index| {
        if lower.is_empty() || holes && generator.below(64) == 0 {
            return 0;
        }
        let rights = match generator.below(8) {
            0 => drawn::rights(generator),
            _ => OPEN,
        };
        choose(lower, index, generator) | PRESENT | rights
    });
}

/// As many tables as leave a way of its own, in layers of drawn sizes, that name any below them.
fn lay_many(draft: &mut Draft, generator: &mut Generator) {
    let width = draft.image.width;
    let layers = below_root(width);
    let mut left = drawn::most_tables(width) - 1 - layers;
    let mut counts = Vec::new();
    for lower in (1..layers).rev() {
        let count = 1 + generator.below((left - lower) as u64) as usize;
        counts.push(count);
        left -= count;
    }
    counts.push(left);
    let any = |lower: &[u64], _, generator: &mut Generator| *generator.pick(lower);
    lay_drawn(draft, &counts, any, generator);
}

/// Maps a page that has a way of its own, if there are tables for it.
fn map_apart(draft: &mut Draft, generator: &mut Generator) {
    let (frame, rights) = (drawn::frame(1, generator), drawn::rights(generator));
    let entry = drawn::leaf(1, frame, rights, generator);
    if let Some(place) = draft.apart(far(draft.image.width, generator), 1) {
        *place = entry;
    }
}

/// Breaks an entry that has a way of its own, if there are tables for it.
fn break_apart(draft: &mut Draft, index: u64, generator: &mut Generator) {
    let (level, left) = drawn::upper(draft.image.width, index);
    let outside = (draft.image.base ^ 1 << 51) | OPEN;
    let entry = match (left % 2, level) {
        (0, _) => outside,
        (_, 4 | 5) => OPEN | LARGE,
        (_, 3) => OPEN | LARGE | 1 << (13 + generator.below(17)),
        _ => OPEN | LARGE | 1 << (13 + generator.below(8)),
    };
    if let Some(place) = draft.apart(far(draft.image.width, generator), level) {
        *place = entry;
    }
}

/// The last page, one with the last index of the root, or a drawn one.
fn far(width: Width, generator: &mut Generator) -> u64 {
    let drawn = drawn::page(width, generator);
    match generator.below(4) {
        0 => drawn,
        1 => width.pages() - 1 - drawn % (width.pages() / TABLE as u64),
        _ => width.pages() - 1,
    }
}

fn finished(mut draft: Draft, generator: &mut Generator) -> Case {
    drawn::finish(&mut draft, generator);
    Case::Image(draft.image)
}
