//! The cases at 57 bits, and those at numbers that are no width.

use super::each_width::cases;
use super::*;

const WIDTH: u64 = 57;
const LAST_LOW: u64 = 0xff_ffff_ffff_ffff;
const FIRST_HIGH: u64 = 0xff00_0000_0000_0000;
const LAST_LOW_PAGE: u64 = 0xff_ffff_ffff_f000;
const IN_CASE_E: u64 = 0xff_ffff_ffff_f001;
const IN_CASE_F: u64 = 0xff00_0000_0020_3456;
const START_IN_CASE_K: u64 = 0xff_ffff_ffff_e000;
const END_IN_CASE_K: u64 = 0xff00_0000_0000_1000;

const LOW_HALF: [u64; 5] = pages(57, 0, LAST_LOW_PAGE);
const HIGH_HALF: [u64; 5] = pages(57, FIRST_HIGH, LAST_PAGE);
/// From the last low page of 48 bits to the first one of their gap.
const UP_TO_GAP_OF_48: [u64; 5] = pages(57, 0x7fff_ffff_f000, 0x8000_0000_0000);
const NEXT_OF_THESE: &[u64] = &[1, 0x7fff_ffff_f000, 0x8000_0000_0000, 0x8000_0000_0000];
const NEXT_BACK_OF_THESE: &[u64] = &[1, 0x8000_0000_0000, 0x7fff_ffff_f000, 0x7fff_ffff_f000];

cases! {
    gives("F", INDEX, &[57, IN_CASE_F, 5], &[256]),
    gives("F", INDEX, &[57, IN_CASE_F, 4], &[0]),
    gives("F", "virt_addr_p4_index", &[57, IN_CASE_F], &[0]),
    counted(INCLUSIVE_LEN, &LOW_HALF, &[1 << 44]),
    counted(INCLUSIVE_LEN, &HIGH_HALF, &[1 << 44]),
    // The gap lies elsewhere: where 48 bits have it there are addresses.
    has(TRY_NEW, &[57, 0x00ff_ffff_ffff_ffff], &[LAST_LOW]),
    has_not(TRY_NEW, &[57, 0x0100_0000_0000_0000], NOT_CANONICAL),
    has_not(TRY_NEW, &[57, 0xfeff_ffff_ffff_ffff], NOT_CANONICAL),
    has(TRY_NEW, &[57, 0xff00_0000_0000_0000], &[FIRST_HIGH]),
    has(TRUNCATE, &[57, 0x8000_0000_0000], &[0x8000_0000_0000]),
    has(FORWARD, &[57, 0x7fff_ffff_ffff, 1], &[0x8000_0000_0000]),
    has(ADD, &[57, 0x7fff_ffff_ffff, 1], &[0x8000_0000_0000]),
    has(ALIGN_UP, &[57, 1, 1 << 48], &[1 << 48]),
    has(ALIGN_DOWN, &[57, LAST, 1 << 48], &[0xffff_0000_0000_0000]),
    has(ALIGN_DOWN, &[57, FIRST_HIGH, 1 << 57], &[0]),
    has(LEN, &UP_TO_GAP_OF_48, &[1]),
    has(NEXT, &UP_TO_GAP_OF_48, NEXT_OF_THESE),
    has(INCLUSIVE_NEXT_BACK, &UP_TO_GAP_OF_48, NEXT_BACK_OF_THESE),
    // Level 5.
    has(LOWER, &[57, 5], &[4]),
    has(HIGHER, &[57, 4], &[5]),
    has_not(HIGHER, &[57, 5], NONE),
    has_not(HIGHER, &[57, 6], NO_SUCH_CHOICE),
    has(TABLE_SPAN, &[57, 5], &[1 << 57]),
    has(TABLE_SPAN, &[57, 4], &[1 << 48]),
    has(ENTRY_SPAN, &[57, 5], &[1 << 48]),
    has_not(INDEX, &[57, FIRST_HIGH, 6], NO_SUCH_CHOICE),
    has(INDICES, &[57, 256, 0, 0, 1, 3], &[0xff00_0000_0020_3000]),
    has(INDICES_2MIB, &[57, 256, 0, 0, 1], &[0xff00_0000_0020_0000]),
    has(INDICES_1GIB, &[57, 256, 0, 1], &[0xff00_0000_4000_0000]),
    has(INDICES, &[57, 255, 511, 511, 511, 511], &[LAST_LOW_PAGE]),
    has(INDICES, &[57, 511, 511, 511, 511, 511], &[LAST_PAGE]),
    has(INDICES, &[57, 0, 256, 0, 0, 0], &[0x8000_0000_0000]),
    has(INDICES, &[57, 1, 0, 0, 0, 0], &[1 << 48]),
    has_not(INDICES, &[57, 512, 0, 0, 0, 0], INDEX_TOO_LARGE),
    has_not(INDICES, &[57, 0, 512, 0, 0, 0], INDEX_TOO_LARGE),
    // A number that is no width is told before whatever else is wrong.
    has_not(TRY_NEW, &[0, 0], NO_SUCH_CHOICE),
    has_not(TRY_NEW, &[56, 1 << 56], NO_SUCH_CHOICE),
    has_not(TRUNCATE, &[64, 1 << 56], NO_SUCH_CHOICE),
    has_not(HIGHER, &[5, 5], NO_SUCH_CHOICE),
    has_not(INDICES, &[47, 512, 512, 512, 512, 512], NO_SUCH_CHOICE),
    has_not(LEN, &[58, 1, SIZE_4KIB, LAST, SIZE_2MIB], NO_SUCH_CHOICE),
}
