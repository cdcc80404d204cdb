//! The numbers at which an answer may change, with their neighbours.

use super::ranges;
use super::sizes::{NO_SIZES, SIZES};
use super::widths::{first_high, gap, highest_span, low_end, NO_WIDTHS};
use crate::kind::Kind;

/// Where the sizes, the halves, the gap and the address spaces of a width begin or end, 2^64 as 0.
pub fn places(width: u64) -> &'static [u64] {
    match width {
        57 => &PLACES_57,
        _ => &PLACES_48,
    }
}

const PLACES_48: [u64; 10] = [
    0,
    1 << 12,
    1 << 21,
    1 << 30,
    1 << 39,
    1 << 47,
    1 << 48,
    0xffff_8000_0000_0000,
    1 << 52,
    1 << 63,
];

const PLACES_57: [u64; 11] = [
    0,
    1 << 12,
    1 << 21,
    1 << 30,
    1 << 39,
    1 << 48,
    1 << 52,
    1 << 56,
    1 << 57,
    0xff00_0000_0000_0000,
    1 << 63,
];

const NEAR: [u64; 9] = [1, 2, 4095, 4096, 4097, 8192, 1 << 21, 1 << 30, 1 << 39];

/// Indices, and what is none or is one to whoever drops upper bits.
const INDICES: [u64; 17] = [
    0,
    1,
    2,
    255,
    256,
    257,
    510,
    511,
    512,
    513,
    1023,
    65_535,
    65_536,
    65_537,
    (1 << 32) + 5,
    (1 << 63) + 511,
    u64::MAX,
];

/// Levels, and what is none or is one to whoever drops upper bits.
pub const LEVELS: [u64; 16] = [
    1,
    2,
    3,
    4,
    0,
    5,
    6,
    8,
    255,
    256,
    257,
    (1 << 16) + 4,
    (1 << 32) + 1,
    (1 << 63) + 2,
    1 << 12,
    u64::MAX,
];

/// All values to be crossed for an argument of this kind, each once, each with all its numbers: around
/// the boundaries of this width. Of widths those that are none, since each that is one is asked apart.
pub fn of(kind: Kind, width: u64) -> Vec<Vec<u64>> {
    let mut values = match kind {
        Kind::Width => each(NO_WIDTHS),
        Kind::Number | Kind::Virtual | Kind::Physical | Kind::Count => each(numbers(width)),
        Kind::Displacement => each(displacements()),
        Kind::Small => each(small_numbers()),
        Kind::Alignment => each(alignments(width)),
        Kind::Items => each(counts(width)),
        Kind::Index => each(INDICES),
        Kind::Index5 if width == 48 => each([0]),
        Kind::Index5 => each(INDICES),
        Kind::Offset => each(offsets()),
        Kind::Level => each(LEVELS),
        Kind::VirtualAndSize | Kind::PhysicalAndSize => {
            with_sizes(width, |size| addresses(size, width))
        }
        Kind::FrameNumber => with_sizes(width, |_| counts(width)),
        Kind::Frame => with_sizes(width, |size| starts(size, &FRAME_PLACES)),
        Kind::Page => with_sizes(width, |size| starts(size, &page_places(width))),
        Kind::FrameRange | Kind::PageRange => ranges::boundary(kind, width),
        Kind::Draws => each(counts(width)),
    };
    values.sort_unstable();
    values.dedup();
    values
}

/// The few numbers at which an index, an offset or a sum with one ends, at this width; none for other
/// kinds.
pub fn edges(kind: Kind, width: u64) -> Vec<Vec<u64>> {
    match kind {
        Kind::Width => each([width]),
        Kind::Index => each([511, 512]),
        Kind::Index5 if width == 48 => each([0]),
        Kind::Index5 => each([511, 512]),
        Kind::Offset => each([4095, 4096]),
        Kind::Small => each([0, 1, 511, 512, 4095, 4096, u64::MAX]),
        _ => Vec::new(),
    }
}

fn each(numbers: impl IntoIterator<Item = u64>) -> Vec<Vec<u64>> {
    numbers.into_iter().map(|number| vec![number]).collect()
}

fn numbers(width: u64) -> Vec<u64> {
    let mut values = places_and_neighbours(width);
    values.extend(powers_of_two());
    values
}

fn places_and_neighbours(width: u64) -> Vec<u64> {
    let mut values = Vec::new();
    for &place in places(width) {
        values.push(place);
        for distance in NEAR {
            values.push(place.wrapping_sub(distance));
            values.push(place.wrapping_add(distance));
        }
    }
    values
}

fn powers_of_two() -> impl Iterator<Item = u64> {
    (0..64).map(|n| 1 << n)
}

fn alignments(width: u64) -> Vec<u64> {
    let around = |power: u64| [power.wrapping_sub(1), power, power + 1];
    let mut values: Vec<_> = powers_of_two().flat_map(around).collect();
    values.extend([3 << 12, 3 << (width - 1), first_high(width), u64::MAX]);
    values
}

/// Powers of two and their neighbours with either sign, the ends of an i32, and numbers of more bits.
fn displacements() -> Vec<u64> {
    let powers = (0..31).map(|n| 1i32 << n);
    let around = |power: i32| [power - 1, power, power + 1];
    let sizes: Vec<_> = powers.flat_map(around).chain([i32::MAX]).collect();
    let opposites = sizes.iter().map(|size| -size);
    let all = sizes.iter().copied().chain(opposites).chain([i32::MIN]);
    let mut values: Vec<_> = all.map(|displacement| displacement as u64).collect();
    // Negative ones with the bits above clear, and numbers of which only the low bits count.
    values.extend([1 << 31, (1 << 31) + 1, (1 << 32) - 4096, (1 << 32) - 1]);
    values.extend([1 << 32, (1 << 32) + 1, (1 << 63) + 4096, u64::MAX << 33]);
    values
}

/// All indices and some more, and what is next to the ends of offsets and of shorter words.
fn small_numbers() -> Vec<u64> {
    let mut values: Vec<_> = (0..=1024).collect();
    values.extend(INDICES);
    values.extend(offsets());
    values.extend(powers_of_two());
    values
}

fn offsets() -> Vec<u64> {
    let ends = [8, 11, 12, 13, 16, 32, 63].map(|n| 1u64 << n);
    let near = |end: u64| (0..5).map(move |i| end.wrapping_add(i).wrapping_sub(2));
    [0].into_iter().chain(ends).flat_map(near).collect()
}

/// Addresses whose page or frame of this size is looked for.
fn addresses(size: u64, width: u64) -> Vec<u64> {
    let mut values = numbers(width);
    values.extend(starts(size, places(width)));
    values
}

/// Where pages lie at a boundary: the ends of the halves, what is in the gap, and places between.
fn page_places(width: u64) -> [u64; 7] {
    [
        0,
        highest_span(width),
        low_end(width),
        1 << width,
        first_high(width),
        highest_span(width).wrapping_neg(),
        1 << 63,
    ]
}

/// Where frames lie at a boundary: the ends, what is beyond them, and places between.
const FRAME_PLACES: [u64; 6] = [0, 1 << 39, 1 << 47, 1 << 51, 1 << 52, 1 << 63];

/// Starts of the items of this size around the places, and numbers that start none: beside the
/// place by a byte or by an item of another size.
fn starts(size: u64, places: &[u64]) -> Vec<u64> {
    let distances = [1, size / 2, 4096, 1 << 21, size - 4096, size, 2 * size];
    let mut values = Vec::new();
    for place in places {
        values.push(*place);
        for distance in distances {
            values.push(place.wrapping_sub(distance));
            values.push(place.wrapping_add(distance));
        }
    }
    values
}

/// Numbers of items: few, and around those whose product with a size is where something ends.
fn counts(width: u64) -> Vec<u64> {
    let [gap, low_end, entry] = [gap, low_end, highest_span].map(|of| u128::from(of(width)));
    let ends = [39, width - 1, width, 52, 63, 64].map(|n| 1 << n);
    let mut values = vec![0, 1, 2, 3, 511, 512, 513, 1 << 62, 1 << 63, u64::MAX];
    for end in ends.into_iter().chain([entry, gap, gap + low_end]) {
        for size in SIZES {
            let count = (end / u128::from(size)) as u64;
            values.extend((0..5).map(|i| count.wrapping_add(i).wrapping_sub(2)));
        }
    }
    values
}

/// The numbers for each size, and with what is no size a few of them.
fn with_sizes(width: u64, numbers: impl Fn(u64) -> Vec<u64>) -> Vec<Vec<u64>> {
    let mut values = Vec::new();
    for size in SIZES {
        values.extend(numbers(size).into_iter().map(|number| vec![number, size]));
    }
    for no_size in NO_SIZES {
        values.extend([0, 1, low_end(width), u64::MAX].map(|number| vec![number, no_size]));
    }
    values
}
