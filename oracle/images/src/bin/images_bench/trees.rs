//! The images that are timed. Their tables lie in a drawn order, as those of a running system do.

use generator::Generator;
use images::draft::{Draft, USER, WRITABLE};
use images::image::{Image, PAGE_BYTES, TABLE};
use images::width::Width;

const BASE: u64 = 0x10_0000;
const FLAGS: u64 = WRITABLE | USER;

/// Frames between two runs, so that they are two.
const APART: u64 = 7;

/// Of so many pages the last is absent in `holed`.
const HOLE: u64 = 16;

/// Free tables for so many of level 1.
fn draft(width: Width, lowest: u64) -> Draft {
    let uppers = u64::from(width.levels()) - 2 + lowest.div_ceil(TABLE as u64);
    let mut order: Vec<_> = (0..(lowest + uppers) as usize).collect();
    Generator::new(lowest).shuffle(&mut order);
    Draft::with_order(width, BASE, &order)
}

/// Mapped throughout, in runs of so many pages.
pub fn full(width: Width, lowest: u64, run: u64) -> Image {
    let mut draft = draft(width, lowest);
    let pages = lowest * TABLE as u64;
    for first in (0..pages).step_by(run as usize) {
        let frame = first + first / run * APART;
        draft.map(first, 1, run.min(pages - first), frame, FLAGS);
    }
    draft.image
}

/// The same with 2 MiB pages, so many tables of level 2.
pub fn large(width: Width, tables: u64, run: u64) -> Image {
    let mut draft = draft(width, tables);
    let span = TABLE as u64;
    for first in (0..tables * span).step_by(run as usize) {
        let frame = (first + first / run * APART) * span;
        draft.map(first * span, 2, run, frame, FLAGS);
    }
    draft.image
}

/// One page in each table, at a drawn place.
pub fn sparse(width: Width, lowest: u64) -> Image {
    let mut draft = draft(width, lowest);
    let mut generator = Generator::new(lowest);
    for table in 0..lowest {
        let page = table * TABLE as u64 + generator.below(TABLE as u64);
        draft.map(page, 1, 1, generator.below(1 << 30), FLAGS);
    }
    draft.image
}

/// Mapped but for the last of every 16 pages.
pub fn holed(width: Width, lowest: u64) -> Image {
    let mut draft = draft(width, lowest);
    for first in (0..lowest * TABLE as u64).step_by(HOLE as usize) {
        draft.map(first, 1, HOLE - 1, first, FLAGS);
    }
    draft.image
}

/// Addresses in `holed`, of mapped pages, or with one of eight absent at a drawn level.
pub fn addresses(width: Width, lowest: u64, count: usize, with_absent: bool) -> Vec<u64> {
    let mut generator = Generator::new(lowest);
    let pages = lowest * TABLE as u64;
    let address = |_| {
        let first = generator.below(pages / HOLE) * HOLE;
        let page = match (with_absent, generator.below(16)) {
            (true, 0) => first + HOLE - 1,
            (true, 1) => generator.below(width.half()),
            _ => first + generator.below(HOLE - 1),
        };
        page * PAGE_BYTES + generator.below(PAGE_BYTES)
    };
    (0..count).map(address).collect()
}
