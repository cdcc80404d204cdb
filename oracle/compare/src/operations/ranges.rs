//! The ranges of src/structures/paging/page.rs and frame.rs.

// `nth(0)` is asked beside `next`: the files have own code for each.
#![allow(clippy::iter_nth_zero)]

use x86_64::structures::paging::frame::{PhysFrameRange, PhysFrameRangeInclusive};
use x86_64::structures::paging::page::{PageRange, PageRangeInclusive};
use x86_64::structures::paging::{Size1GiB, Size2MiB, Size4KiB};

use crate::model::ranges;
use crate::operation;
use crate::operation::Operation;
use crate::rust::{drawn, refusal_of_draw};

pub const PAGE_RANGE: &[Operation] = &[
    operation! {
        0x80 page_range_new(width: Width, start start_size end end_size: PageRange)
        port wuohtan_page_range_new,
        sizes (start_size: Size4KiB Size2MiB Size1GiB),
        rust [|range: PageRange<S>| range],
        model ranges::page_range::new
    },
    operation! {
        0x81 page_range_is_empty(width: Width, start start_size end end_size: PageRange)
        port wuohtan_page_range_is_empty,
        sizes (start_size: Size4KiB Size2MiB Size1GiB),
        rust [|range: PageRange<S>| range.is_empty()],
        model ranges::page_range::is_empty
    },
    operation! {
        0x82 page_range_len(width: Width, start start_size end end_size: PageRange)
        port wuohtan_page_range_len,
        sizes (start_size: Size4KiB Size2MiB Size1GiB),
        rust [
            |range: PageRange<S>| range.len(),
            |range: PageRange<S>| range.size_hint().0
        ],
        before pages_of_gap_were_counted ranges::page_range_before::len,
        model ranges::page_range::len
    },
    operation! {
        0x83 page_range_size(width: Width, start start_size end end_size: PageRange)
        port wuohtan_page_range_size,
        sizes (start_size: Size4KiB Size2MiB Size1GiB),
        rust [|range: PageRange<S>| range.size()],
        before gap_was_counted ranges::page_range_before::size,
        model ranges::page_range::size
    },
    operation! {
        0x84 page_range_next(width: Width, start start_size end end_size: PageRange)
        port wuohtan_page_range_next,
        sizes (start_size: Size4KiB Size2MiB Size1GiB),
        rust [
            |range: PageRange<S>| drawn(range, |range| range.next()),
            |range: PageRange<S>| drawn(range, |range| range.nth(0))
        ],
        panics refusal_of_draw,
        model ranges::page_range::next
    },
    operation! {
        0x85 page_range_nth(width: Width, start start_size end end_size: PageRange, n: Draws)
        port wuohtan_page_range_nth,
        sizes (start_size: Size4KiB Size2MiB Size1GiB),
        rust [|range: PageRange<S>, n| drawn(range, |range| range.nth(n))],
        panics refusal_of_draw,
        model ranges::page_range::nth
    },
    operation! {
        0x86 page_range_next_back(width: Width, start start_size end end_size: PageRange)
        port wuohtan_page_range_next_back,
        sizes (start_size: Size4KiB Size2MiB Size1GiB),
        rust [
            |range: PageRange<S>| drawn(range, |range| range.next_back()),
            |range: PageRange<S>| drawn(range, |range| range.nth_back(0))
        ],
        panics refusal_of_draw,
        model ranges::page_range::next_back
    },
    operation! {
        0x87 page_range_nth_back(width: Width, start start_size end end_size: PageRange, n: Draws)
        port wuohtan_page_range_nth_back,
        sizes (start_size: Size4KiB Size2MiB Size1GiB),
        rust [|range: PageRange<S>, n| drawn(range, |range| range.nth_back(n))],
        panics refusal_of_draw,
        model ranges::page_range::nth_back
    },
    operation! {
        0x88 page_range_as_4kib_page_range(width: Width, start start_size end end_size: PageRange)
        port wuohtan_page_range_as_4kib_page_range,
        sizes (start_size: Size2MiB),
        rust [PageRange::<S>::as_4kib_page_range],
        model ranges::as_4kib_page_range
    },
];

pub const PAGE_RANGE_INCLUSIVE: &[Operation] = &[
    operation! {
        0x90 page_range_inclusive_new(width: Width, start start_size end end_size: PageRange)
        port wuohtan_page_range_inclusive_new,
        sizes (start_size: Size4KiB Size2MiB Size1GiB),
        rust [|range: PageRangeInclusive<S>| range],
        model ranges::page_range_inclusive::new
    },
    operation! {
        0x91 page_range_inclusive_is_empty(width: Width, start start_size end end_size: PageRange)
        port wuohtan_page_range_inclusive_is_empty,
        sizes (start_size: Size4KiB Size2MiB Size1GiB),
        rust [|range: PageRangeInclusive<S>| range.is_empty()],
        model ranges::page_range_inclusive::is_empty
    },
    operation! {
        0x92 page_range_inclusive_len(width: Width, start start_size end end_size: PageRange)
        port wuohtan_page_range_inclusive_len,
        sizes (start_size: Size4KiB Size2MiB Size1GiB),
        rust [
            |range: PageRangeInclusive<S>| range.len(),
            |range: PageRangeInclusive<S>| range.size_hint().0
        ],
        before pages_of_gap_were_counted ranges::page_range_inclusive_before::len,
        model ranges::page_range_inclusive::len
    },
    operation! {
        0x93 page_range_inclusive_size(width: Width, start start_size end end_size: PageRange)
        port wuohtan_page_range_inclusive_size,
        sizes (start_size: Size4KiB Size2MiB Size1GiB),
        rust [|range: PageRangeInclusive<S>| range.size()],
        before gap_was_counted ranges::page_range_inclusive_before::size,
        model ranges::page_range_inclusive::size
    },
    operation! {
        0x94 page_range_inclusive_next(width: Width, start start_size end end_size: PageRange)
        port wuohtan_page_range_inclusive_next,
        sizes (start_size: Size4KiB Size2MiB Size1GiB),
        rust [
            |range: PageRangeInclusive<S>| drawn(range, |range| range.next()),
            |range: PageRangeInclusive<S>| drawn(range, |range| range.nth(0))
        ],
        panics refusal_of_draw,
        before gap_was_met ranges::page_range_inclusive_before::next,
        model ranges::page_range_inclusive::next
    },
    operation! {
        0x95 page_range_inclusive_nth(width: Width, start start_size end end_size: PageRange, n: Draws)
        port wuohtan_page_range_inclusive_nth,
        sizes (start_size: Size4KiB Size2MiB Size1GiB),
        rust [|range: PageRangeInclusive<S>, n| drawn(range, |range| range.nth(n))],
        panics refusal_of_draw,
        before gap_was_met ranges::page_range_inclusive_before::nth,
        model ranges::page_range_inclusive::nth
    },
    operation! {
        0x96 page_range_inclusive_next_back(width: Width, start start_size end end_size: PageRange)
        port wuohtan_page_range_inclusive_next_back,
        sizes (start_size: Size4KiB Size2MiB Size1GiB),
        rust [
            |range: PageRangeInclusive<S>| drawn(range, |range| range.next_back()),
            |range: PageRangeInclusive<S>| drawn(range, |range| range.nth_back(0))
        ],
        panics refusal_of_draw,
        before gap_was_met ranges::page_range_inclusive_before::next_back,
        model ranges::page_range_inclusive::next_back
    },
    operation! {
        0x97 page_range_inclusive_nth_back(width: Width, start start_size end end_size: PageRange, n: Draws)
        port wuohtan_page_range_inclusive_nth_back,
        sizes (start_size: Size4KiB Size2MiB Size1GiB),
        rust [|range: PageRangeInclusive<S>, n| drawn(range, |range| range.nth_back(n))],
        panics refusal_of_draw,
        before gap_was_met ranges::page_range_inclusive_before::nth_back,
        model ranges::page_range_inclusive::nth_back
    },
];

pub const PHYS_FRAME_RANGE: &[Operation] = &[
    operation! {
        0xa0 phys_frame_range_new(start start_size end end_size: FrameRange)
        port wuohtan_phys_frame_range_new,
        sizes (start_size: Size4KiB Size2MiB Size1GiB),
        rust [|range: PhysFrameRange<S>| range],
        model ranges::phys_frame_range::new
    },
    operation! {
        0xa1 phys_frame_range_is_empty(start start_size end end_size: FrameRange)
        port wuohtan_phys_frame_range_is_empty,
        sizes (start_size: Size4KiB Size2MiB Size1GiB),
        rust [|range: PhysFrameRange<S>| range.is_empty()],
        model ranges::phys_frame_range::is_empty
    },
    operation! {
        0xa2 phys_frame_range_len(start start_size end end_size: FrameRange)
        port wuohtan_phys_frame_range_len,
        sizes (start_size: Size4KiB Size2MiB Size1GiB),
        rust [
            |range: PhysFrameRange<S>| range.len(),
            |range: PhysFrameRange<S>| range.size_hint().0
        ],
        model ranges::phys_frame_range::len
    },
    operation! {
        0xa3 phys_frame_range_size(start start_size end end_size: FrameRange)
        port wuohtan_phys_frame_range_size,
        sizes (start_size: Size4KiB Size2MiB Size1GiB),
        rust [|range: PhysFrameRange<S>| range.size()],
        model ranges::phys_frame_range::size
    },
    operation! {
        0xa4 phys_frame_range_next(start start_size end end_size: FrameRange)
        port wuohtan_phys_frame_range_next,
        sizes (start_size: Size4KiB Size2MiB Size1GiB),
        rust [
            |range: PhysFrameRange<S>| drawn(range, |range| range.next()),
            |range: PhysFrameRange<S>| drawn(range, |range| range.nth(0))
        ],
        model ranges::phys_frame_range::next
    },
    operation! {
        0xa5 phys_frame_range_nth(start start_size end end_size: FrameRange, n: Draws)
        port wuohtan_phys_frame_range_nth,
        sizes (start_size: Size4KiB Size2MiB Size1GiB),
        rust [|range: PhysFrameRange<S>, n| drawn(range, |range| range.nth(n))],
        model ranges::phys_frame_range::nth
    },
    operation! {
        0xa6 phys_frame_range_next_back(start start_size end end_size: FrameRange)
        port wuohtan_phys_frame_range_next_back,
        sizes (start_size: Size4KiB Size2MiB Size1GiB),
        rust [
            |range: PhysFrameRange<S>| drawn(range, |range| range.next_back()),
            |range: PhysFrameRange<S>| drawn(range, |range| range.nth_back(0))
        ],
        model ranges::phys_frame_range::next_back
    },
    operation! {
        0xa7 phys_frame_range_nth_back(start start_size end end_size: FrameRange, n: Draws)
        port wuohtan_phys_frame_range_nth_back,
        sizes (start_size: Size4KiB Size2MiB Size1GiB),
        rust [|range: PhysFrameRange<S>, n| drawn(range, |range| range.nth_back(n))],
        model ranges::phys_frame_range::nth_back
    },
];

pub const PHYS_FRAME_RANGE_INCLUSIVE: &[Operation] = &[
    operation! {
        0xb0 phys_frame_range_inclusive_new(start start_size end end_size: FrameRange)
        port wuohtan_phys_frame_range_inclusive_new,
        sizes (start_size: Size4KiB Size2MiB Size1GiB),
        rust [|range: PhysFrameRangeInclusive<S>| range],
        model ranges::phys_frame_range_inclusive::new
    },
    operation! {
        0xb1 phys_frame_range_inclusive_is_empty(start start_size end end_size: FrameRange)
        port wuohtan_phys_frame_range_inclusive_is_empty,
        sizes (start_size: Size4KiB Size2MiB Size1GiB),
        rust [|range: PhysFrameRangeInclusive<S>| range.is_empty()],
        model ranges::phys_frame_range_inclusive::is_empty
    },
    operation! {
        0xb2 phys_frame_range_inclusive_len(start start_size end end_size: FrameRange)
        port wuohtan_phys_frame_range_inclusive_len,
        sizes (start_size: Size4KiB Size2MiB Size1GiB),
        rust [
            |range: PhysFrameRangeInclusive<S>| range.len(),
            |range: PhysFrameRangeInclusive<S>| range.size_hint().0
        ],
        model ranges::phys_frame_range_inclusive::len
    },
    operation! {
        0xb3 phys_frame_range_inclusive_size(start start_size end end_size: FrameRange)
        port wuohtan_phys_frame_range_inclusive_size,
        sizes (start_size: Size4KiB Size2MiB Size1GiB),
        rust [|range: PhysFrameRangeInclusive<S>| range.size()],
        model ranges::phys_frame_range_inclusive::size
    },
    operation! {
        0xb4 phys_frame_range_inclusive_next(start start_size end end_size: FrameRange)
        port wuohtan_phys_frame_range_inclusive_next,
        sizes (start_size: Size4KiB Size2MiB Size1GiB),
        rust [
            |range: PhysFrameRangeInclusive<S>| drawn(range, |range| range.next()),
            |range: PhysFrameRangeInclusive<S>| drawn(range, |range| range.nth(0))
        ],
        model ranges::phys_frame_range_inclusive::next
    },
    operation! {
        0xb5 phys_frame_range_inclusive_nth(start start_size end end_size: FrameRange, n: Draws)
        port wuohtan_phys_frame_range_inclusive_nth,
        sizes (start_size: Size4KiB Size2MiB Size1GiB),
        rust [|range: PhysFrameRangeInclusive<S>, n| drawn(range, |range| range.nth(n))],
        model ranges::phys_frame_range_inclusive::nth
    },
    operation! {
        0xb6 phys_frame_range_inclusive_next_back(start start_size end end_size: FrameRange)
        port wuohtan_phys_frame_range_inclusive_next_back,
        sizes (start_size: Size4KiB Size2MiB Size1GiB),
        rust [
            |range: PhysFrameRangeInclusive<S>| drawn(range, |range| range.next_back()),
            |range: PhysFrameRangeInclusive<S>| drawn(range, |range| range.nth_back(0))
        ],
        model ranges::phys_frame_range_inclusive::next_back
    },
    operation! {
        0xb7 phys_frame_range_inclusive_nth_back(start start_size end end_size: FrameRange, n: Draws)
        port wuohtan_phys_frame_range_inclusive_nth_back,
        sizes (start_size: Size4KiB Size2MiB Size1GiB),
        rust [|range: PhysFrameRangeInclusive<S>, n| drawn(range, |range| range.nth_back(n))],
        model ranges::phys_frame_range_inclusive::nth_back
    },
];
