//! Ranges at whose ends an answer may change, and how many items draws pass over.

use super::sizes::{NO_SIZES, SIZES};
use super::widths::{first_high, highest_span, low_end, sign_extended};
use crate::kind::Kind;
use generator::Generator;

const PHYSICAL_END: u64 = 1 << 52;

/// Ranges of one size, from and to every start; of sizes that differ or are none from and to a few.
pub fn boundary(kind: Kind, width: u64) -> Vec<Vec<u64>> {
    let mut values = Vec::new();
    for size in SIZES {
        cross(&starts(kind, width, size), size, size, &mut values);
    }
    let few_no_sizes = [NO_SIZES[0], NO_SIZES[2], NO_SIZES[7], NO_SIZES[9]];
    let sizes: Vec<_> = SIZES.into_iter().chain(few_no_sizes).collect();
    for &size in &sizes {
        let others = sizes.iter().filter(|&&end_size| end_size != size);
        let starts = few_starts(kind, width);
        others.for_each(|&end_size| cross(&starts, size, end_size, &mut values));
    }
    values
}

fn cross(starts: &[u64], size: u64, end_size: u64, values: &mut Vec<Vec<u64>>) {
    for &start in starts {
        values.extend(starts.iter().map(|&end| vec![start, size, end, end_size]));
    }
}

/// Starts of the items around the ends of the address space, and what is none: outside of it, or
/// no multiple of the size.
fn starts(kind: Kind, width: u64, size: u64) -> Vec<u64> {
    let [first_high, low_end, entry] = [first_high, low_end, highest_span].map(|of| of(width));
    let mut values = vec![1, size / 2, 4096, entry, low_end / 2, 1 << 63, u64::MAX];
    values.extend([1 << 51, first_high + entry, first_high + low_end / 2]);
    for place in places(kind, width) {
        let near = (0..8).map(|i| i * size).map(|d| d.wrapping_sub(4 * size));
        values.extend(near.map(|distance| place.wrapping_add(distance)));
    }
    values.sort_unstable();
    values.dedup();
    values
}

fn few_starts(kind: Kind, width: u64) -> Vec<u64> {
    let mut values = vec![1, 4096];
    for place in places(kind, width) {
        values.extend([place, place.wrapping_sub(1 << 30)]);
    }
    values
}

/// Where the space and its halves begin and end, 2^64 as 0.
fn places(kind: Kind, width: u64) -> [u64; 3] {
    let upper = match kind {
        Kind::PageRange => first_high(width),
        _ => PHYSICAL_END,
    };
    [0, low_end(width), upper]
}

/// What a draw passes over on this range: around each number at which the answer changes at this width.
/// Few, if the range is refused.
pub fn draws(kind: Kind, width: u64, range: &[u64]) -> Vec<u64> {
    let &[start, size, end, end_size] = range else {
        unreachable!("a range has four numbers")
    };
    let of_one_size = size == end_size && SIZES.contains(&size);
    let is_item = |number| in_space(kind, width, number) == number && number.is_multiple_of(size);
    if !of_one_size || !is_item(start) || !is_item(end) {
        return vec![0, 1, u64::MAX];
    }
    let around = |place: u64| (0..4).map(move |i| place.wrapping_add(i).wrapping_sub(2));
    let places = ends(width, start, size, end).into_iter();
    let mut values: Vec<_> = places.flat_map(around).collect();
    values.extend([2, 1 << 32, 1 << 63]);
    values.sort_unstable();
    values.dedup();
    values
}

/// The number itself if it is an address, else one made from it.
fn in_space(kind: Kind, width: u64, number: u64) -> u64 {
    match kind {
        Kind::PageRange => sign_extended(width, number),
        _ => number % PHYSICAL_END,
    }
}

/// 0, the items from start up to the gap, those from the first high page up to end, as many as have room
/// from start to end, as many without the gap, and as many as have 2^64 bytes.
fn ends(width: u64, start: u64, size: u64, end: u64) -> [u64; 6] {
    let distance = end.wrapping_sub(start);
    [
        0,
        low_end(width).wrapping_sub(start) / size,
        end.wrapping_sub(first_high(width)) / size,
        distance / size,
        distance % (1 << width) / size,
        u64::MAX / size,
    ]
}

/// Mostly a range of items of one size, near a place or near each other, seldom empty; else none.
pub fn drawn(kind: Kind, width: u64, generator: &mut Generator) -> Option<[u64; 4]> {
    let size = *generator.pick(&SIZES);
    let few_from = |place: u64, generator: &mut Generator| {
        let items = generator.number() >> (48 + generator.below(16));
        let distance = items.wrapping_mul(size);
        let number = match generator.below(2) {
            0 => place.wrapping_add(distance),
            _ => place.wrapping_sub(distance),
        };
        match generator.below(32) {
            0 => number,
            _ => in_space(kind, width, number),
        }
    };
    let places = places(kind, width);
    let shape = generator.below(8);
    if shape >= 6 {
        return None;
    }
    let start = few_from(*generator.pick(&places), generator);
    let end = match shape {
        0..3 => few_from(*generator.pick(&places), generator),
        _ => few_from(start, generator),
    };
    let (start, end) = match generator.below(8) {
        0 => (start, end),
        _ => (start.min(end), start.max(end)),
    };
    Some([start, size, end, size])
}

/// What a draw passes over, near a number at which the answer changes at this width.
pub fn near_end(width: u64, range: &[u64], size: u64, generator: &mut Generator) -> u64 {
    let place = *generator.pick(&ends(width, range[0], size, range[2]));
    let distance = generator.number() >> (56 + generator.below(8));
    match generator.below(2) {
        0 => place.wrapping_add(distance),
        _ => place.wrapping_sub(distance),
    }
}
