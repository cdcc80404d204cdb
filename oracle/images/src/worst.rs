//! Images that take longest, made by hand at both widths: one for each family of
//! `generate/bounded.rs`, and two whose runs are long, which have no family since the reference looks
//! at each of their pages.

use std::iter;

use crate::draft::{Draft, LARGE, OPEN, PRESENT};
use crate::image::{Image, PAGE_BYTES, TABLE};
use crate::layers::{lay, spread};
use crate::reference::span_pages;
use crate::width::Width;

pub struct Worst {
    pub name: &'static str,
    pub image: Image,
}

pub fn all(width: Width) -> [Worst; 7] {
    [
        ("empty_tables", empty_tables(width)),
        ("alternating", alternating(width)),
        ("each_other", each_other(width)),
        ("spread_pages", spread_pages(width)),
        ("far_stops", far_stops(width)),
        ("long_runs", long_runs(width)),
        ("large_runs", large_runs(width)),
    ]
    .map(|(name, image)| Worst { name, image })
}

const BASE: u64 = 0x10_0000;

/// The levels below that of the root.
fn below_root(width: Width) -> usize {
    width.levels() as usize - 1
}

/// As many tables as a file has room for; at five levels one more, for the further level of a way.
fn full_draft(width: Width) -> Draft {
    Draft::new(width, BASE, 12 + below_root(width))
}

/// One table for each level, which all entries above it name, the lowest empty.
pub fn empty_tables(width: Width) -> Image {
    let layers = below_root(width);
    let mut draft = Draft::new(width, BASE, 1 + layers);
    lay(&mut draft, &vec![1; layers], |lower, _| lower[0] | OPEN);
    draft.image
}

/// Two tables for each level, in turn.
pub fn alternating(width: Width) -> Image {
    let layers = below_root(width);
    let mut draft = Draft::new(width, BASE, 1 + 2 * layers);
    lay(&mut draft, &vec![2; layers], |lower, index| {
        lower[index as usize % 2] | OPEN
    });
    draft.image
}

/// As many tables as there may be, each naming all below it, and the last page mapped.
pub fn each_other(width: Width) -> Image {
    let mut draft = many(width);
    put_last(&mut draft, 1, 0x77_7000 | PRESENT);
    draft.image
}

/// As many single pages as the program prints lines, with most of two tables to pass between two of
/// them, and of one more at five levels.
pub fn spread_pages(width: Width) -> Image {
    let layers = below_root(width);
    let mut draft = full_draft(width);
    lay(&mut draft, &vec![1; layers], |lower, _| lower[0] | OPEN);
    let counts = &[512, 8, 1, 1, 1][..=layers];
    let first = &[0, 63, 511, 511, 511][..=layers];
    spread(&mut draft, counts, first, 0x77_7000 | OPEN).expect("tables enough");
    draft.image
}

/// As `each_other`, with a reserved entry over the last page.
pub fn far_stops(width: Width) -> Image {
    let mut draft = many(width);
    put_last(&mut draft, 2, PRESENT | LARGE | 1 << 13);
    draft.image
}

/// Runs of twelve tables of 4 KiB pages.
pub fn long_runs(width: Width) -> Image {
    in_a_row(width, 1)
}

/// Runs of thirteen tables of 2 MiB pages.
pub fn large_runs(width: Width) -> Image {
    in_a_row(width, 2)
}

/// As many tables of a level as there may be, full of pages that are one run. The entries above name
/// them in turn, and so each run follows the one before.
fn in_a_row(width: Width, level: u32) -> Image {
    let mut draft = full_draft(width);
    let mut upper = draft.image.root;
    for _ in level + 1..width.levels() {
        let lower = draft.take().expect("tables enough");
        draft.fill(upper, |_| lower | OPEN);
        upper = lower;
    }
    let tables: Vec<_> = iter::from_fn(|| draft.take()).collect();
    draft.fill(upper, |index| in_turn(&tables, index));
    let large = if level == 1 { 0 } else { LARGE };
    for (table, before) in tables
        .into_iter()
        .zip((1..).map(|number| number * TABLE as u64))
    {
        let frame = |index| (before + index) * span_pages(level);
        draft.fill(table, |index| (frame(index) * PAGE_BYTES) | OPEN | large);
    }
    draft.image
}

/// Eleven tables below the root, which leaves those for a way of its own.
fn many(width: Width) -> Draft {
    let mut draft = full_draft(width);
    let counts: &[usize] = match width {
        Width::Bits48 => &[4, 4, 3],
        Width::Bits57 => &[5, 3, 2, 1],
    };
    lay(&mut draft, counts, in_turn);
    draft
}

/// Names tables in turn.
fn in_turn(lower: &[u64], index: u64) -> u64 {
    lower[index as usize % lower.len()] | OPEN
}

fn put_last(draft: &mut Draft, level: u32, entry: u64) {
    let last = draft.image.width.pages() - 1;
    *draft.apart(last, level).expect("tables enough") = entry;
}

#[cfg(test)]
mod tests {
    use super::*;
    use crate::generate::{Case, FAMILIES};
    use crate::reference::runs::MOST_LINES;
    use crate::reference::search::{Found, Lines};
    use crate::reference::survey::Survey;
    use crate::reference::tests::printed;

    #[test]
    fn what_they_hold() {
        for width in Width::ALL {
            assert_eq!(printed(&empty_tables(width)), "end\n");
            assert_eq!(printed(&alternating(width)), "end\n");
            let text = "run fffffffffffff000 0000000000777000 1 --x\nend\n";
            assert_eq!(printed(&each_other(width)), text);
            let text = "stop ffffffffffe00000 2 reserved\nend\n";
            assert_eq!(printed(&far_stops(width)), text);
            let text = printed(&spread_pages(width));
            let single = |line: &&str| line.ends_with(" 0000000000777000 1 wux");
            assert_eq!(text.lines().filter(single).count(), MOST_LINES);
            assert!(text.ends_with("\nend\n"));
        }
    }

    #[test]
    fn what_the_runs_are() {
        let both = |width| {
            [
                (long_runs(width), 12 * 512),
                (large_runs(width), 13 * 512 * 512),
            ]
        };
        for (image, pages) in Width::ALL.into_iter().flat_map(both) {
            let survey = Survey::of(&image);
            for (number, line) in (0..).zip(Lines::from(&survey, 0).take(3)) {
                let Found::Run { page, count, .. } = line else {
                    panic!("a stop");
                };
                assert_eq!((page, count), (number * pages, pages));
            }
        }
    }

    /// If nothing were remembered, a good part of all pages would be passed one by one.
    #[test]
    fn those_of_families_are_their_first_cases_and_long() {
        let families = |width| all(width).into_iter().take(5);
        for Worst { name, image } in Width::ALL.into_iter().flat_map(families) {
            let survey = Survey::of(&image);
            let mut lines = Lines::from(&survey, 0);
            lines.by_ref().for_each(drop);
            assert!(lines.passed().1 > image.width.pages() / 8, "{name}");
            let family = FAMILIES.iter().find(|family| family.name == name);
            let case = family.expect("a family").case(image.width, 1, 0);
            assert!(
                matches!(case, Case::Image(first) if first == image),
                "{name}"
            );
        }
    }
}
