//! Few tables for many pages: tables in layers, whose entries name tables of the layers below, and
//! a page that is found in many places.

use crate::draft::{index, page, Draft, ADDRESS};
use crate::image::TABLE;

/// Puts so many tables below the root for each level under its own, those of level 1 without any
/// entry, so that all pages are absent. `entry` gives the entry of an index, from the addresses of
/// the tables in all lower layers, the next layer first. A table of a lower layer holds nothing at a
/// higher level too.
pub fn lay(draft: &mut Draft, counts: &[usize], mut entry: impl FnMut(&[u64], u64) -> u64) {
    let taken = (0..counts.iter().sum()).map(|_| draft.take().expect("tables enough"));
    let taken: Vec<_> = taken.collect();
    let (mut layer, mut lower) = (vec![draft.image.root], taken.as_slice());
    for &count in counts {
        for &table in &layer {
            draft.fill(table, |index| entry(lower, index));
        }
        layer = lower[..count].to_vec();
        lower = &lower[count..];
    }
}

/// Puts an entry of level 1 in many places: at each level, the highest first, so many entries name
/// the same, spread evenly from this index on. The places have ways apart from all others.
pub fn spread(draft: &mut Draft, counts: &[u64], first: &[u64], entry: u64) -> Option<()> {
    let place = page(first.iter().copied());
    *draft.apart(place, 1)? = entry;
    let mut table = draft.image.root;
    let levels = (1..=draft.image.width.levels()).rev();
    for (level, &count) in levels.zip(counts) {
        let (own, step) = (index(place, level), TABLE as u64 / count);
        let named = *draft.word(table, own)?;
        for i in 1..count {
            draft.set(table, (own + i * step) % TABLE as u64, named);
        }
        table = named & ADDRESS;
    }
    Some(())
}
