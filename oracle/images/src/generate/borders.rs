//! Runs over the borders of tables, page sizes, halves, rights and frames.

use generator::Generator;

use super::drawn::{self, FRAMES};
use super::Case;
use crate::draft::{Draft, NO_EXECUTE, USER, WRITABLE};
use crate::image::TABLE;
use crate::reference::span_pages;
use crate::width::Width;

/// A run up to the border of two tables and one from it, mostly one run.
pub fn table_borders(width: Width, index: u64, generator: &mut Generator) -> Case {
    let (level, _) = drawn::upper(width, index);
    let mut draft = drawn::full_draft(width, generator);
    let border = drawn::page(width, generator) / span_pages(level) * span_pages(level);
    across(&mut draft, border.max(span_pages(level)), level, generator);
    drawn::finish(&mut draft, generator);
    Case::Image(draft.image)
}

/// The same where the halves meet: the frames are consecutive, the runs are two. At five levels some
/// are where they meet at four, on either side of the gap, and are mostly one run.
pub fn half_border(width: Width, index: u64, generator: &mut Generator) -> Case {
    let mut draft = drawn::full_draft(width, generator);
    let of_four = Width::Bits48.half();
    let border = match (width, index % 4) {
        (Width::Bits57, 2) => of_four,
        (Width::Bits57, 3) => width.pages() - of_four,
        _ => width.half(),
    };
    across(&mut draft, border, width.levels(), generator);
    drawn::finish(&mut draft, generator);
    Case::Image(draft.image)
}

/// Pages of some size before the border and of some size from it on; sometimes a frame or a right
/// is another there.
fn across(draft: &mut Draft, border: u64, level: u32, generator: &mut Generator) {
    let [before, after] = [0; 2].map(|_| 1 + generator.below(level.min(3).into()) as u32);
    let counts = [0; 2].map(|_| match generator.below(12) {
        0 => 1 + generator.below(512),
        _ => 1 + generator.below(4),
    });
    let frame = drawn::frame(3, generator).max(TABLE as u64 * span_pages(3)) % FRAMES;
    let rights = drawn::rights(generator);

    let count = counts[0].min(border / span_pages(before));
    let first = border - count * span_pages(before);
    let first_frame = frame - count * span_pages(before);
    drawn::stretch(
        draft,
        (first, before, count),
        (first_frame, rights),
        generator,
    );

    let (frame, rights) = match generator.below(8) {
        0 => (frame + span_pages(after), rights),
        1 => (frame - span_pages(after), rights),
        2 => (
            frame,
            rights ^ *generator.pick(&[WRITABLE, USER, NO_EXECUTE]),
        ),
        _ => (frame, rights),
    };
    let pages = draft.image.width.pages();
    let count = counts[1].min((pages - border) / span_pages(after));
    drawn::stretch(draft, (border, after, count), (frame, rights), generator);
}

/// One run that goes up from 4 KiB pages to 1 GiB pages and down again; sometimes a part is
/// missing, or has other rights.
pub fn page_sizes(width: Width, _: u64, generator: &mut Generator) -> Case {
    let mut draft = drawn::full_draft(width, generator);
    let gib = span_pages(3);
    let border = (drawn::page(width, generator) / gib * gib).clamp(gib, width.pages() - 8 * gib);
    let frame = drawn::frame(3, generator).clamp(gib, FRAMES - 8 * gib);
    let rights = drawn::rights(generator);
    let most = [512, 511, 4, 511, 512];
    let levels = [1, 2, 3, 2, 1];
    let mut counts = [0; 5];
    for (count, most) in counts.iter_mut().zip(most) {
        *count = match generator.below(12) {
            0 => most,
            1 => 1 + generator.below(most),
            _ => 1 + generator.below(4),
        };
    }
    let odd = generator.below(10) as usize;
    let ahead = counts[0] + counts[1] * span_pages(2);
    let (mut page, mut frame) = (border - ahead, frame - ahead);
    for (part, (count, level)) in counts.into_iter().zip(levels).enumerate() {
        let rights = match part == odd {
            true => drawn::rights(generator),
            false => rights,
        };
        if part + 5 != odd {
            drawn::stretch(&mut draft, (page, level, count), (frame, rights), generator);
        }
        page += count * span_pages(level);
        frame += count * span_pages(level);
    }
    drawn::finish(&mut draft, generator);
    Case::Image(draft.image)
}

/// Frames go on over a border, and the rights change above the last entry only: by the bit and
/// the level of the index.
pub fn upper_rights(width: Width, index: u64, generator: &mut Generator) -> Case {
    let bit = [WRITABLE, USER, NO_EXECUTE][index as usize % 3];
    let (level, _) = drawn::upper(width, index / 3);
    let mut draft = drawn::full_draft(width, generator);
    let span = span_pages(level);
    let border = (drawn::page(width, generator) / span * span).clamp(span, width.pages() - span);
    let leaf = 1 + generator.below((level - 1).min(3).into()) as u32;
    let frame = drawn::frame(3, generator).max(4 * span_pages(3));
    let rights = drawn::rights(generator);
    let count = 1 + generator.below(4);
    let first = border - count * span_pages(leaf);
    let first_frame = frame - count * span_pages(leaf);
    let both = (first, leaf, 2 * count);
    drawn::stretch(&mut draft, both, (first_frame, rights), generator);
    if let Some(entry) = draft.at(border, level) {
        *entry ^= bit;
    }
    // Further changes, sometimes such that both sides are alike again.
    for _ in 0..generator.below(3) {
        let upper = leaf + 1 + generator.below(u64::from(width.levels() - leaf)) as u32;
        let side = border - generator.below(2);
        let bit = *generator.pick(&[bit, bit, WRITABLE, USER, NO_EXECUTE]);
        if let Some(entry) = draft.at(side, upper) {
            *entry ^= bit;
        }
    }
    drawn::finish(&mut draft, generator);
    Case::Image(draft.image)
}

/// Runs up to the last frame, and pages from frame 0 on just after them.
pub fn last_frame(width: Width, index: u64, generator: &mut Generator) -> Case {
    let mut draft = drawn::full_draft(width, generator);
    let [before, after] = [1 + index % 3, 1 + index / 3 % 3].map(|level| level as u32);
    let gib = span_pages(3);
    let border =
        (drawn::page(width, generator) / gib * gib).clamp(4 * gib, width.pages() - 4 * gib);
    let rights = drawn::rights(generator);
    let count = 1 + generator.below(4);
    let first = border - count * span_pages(before);
    let first_frame = FRAMES - count * span_pages(before);
    drawn::stretch(
        &mut draft,
        (first, before, count),
        (first_frame, rights),
        generator,
    );
    let frame = match generator.below(4) {
        0 => FRAMES - span_pages(after),
        _ => 0,
    };
    let count = 1 + generator.below(4);
    drawn::stretch(
        &mut draft,
        (border, after, count),
        (frame, rights),
        generator,
    );
    drawn::finish(&mut draft, generator);
    Case::Image(draft.image)
}
