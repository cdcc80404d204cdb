//! The cases at 48 bits.

use super::each_width::cases;
use super::*;

const WIDTH: u64 = 48;
const LAST_LOW: u64 = 0x7fff_ffff_ffff;
const FIRST_HIGH: u64 = 0xffff_8000_0000_0000;
const LAST_LOW_PAGE: u64 = 0x7fff_ffff_f000;
const IN_CASE_E: u64 = 0x7fff_ffff_f001;
const IN_CASE_F: u64 = 0xffff_8000_0020_3456;
const START_IN_CASE_K: u64 = 0x7fff_ffff_e000;
const END_IN_CASE_K: u64 = 0xffff_8000_0000_1000;

cases! {
    gives("F", "virt_addr_p4_index", &[48, IN_CASE_F], &[256]),
    gives("F", INDEX, &[48, IN_CASE_F, 4], &[256]),
    // What 57 bits have and 48 do not.
    has_not(TRY_NEW, &[48, 1 << 48], NOT_CANONICAL),
    has_not(TRY_NEW, &[48, 0xff00_0000_0000_0000], NOT_CANONICAL),
    has_not(HIGHER, &[48, 4], NONE),
    has_not(HIGHER, &[48, 5], NO_SUCH_CHOICE),
    has(TABLE_SPAN, &[48, 4], &[1 << 48]),
    has_not(TABLE_SPAN, &[48, 5], NO_SUCH_CHOICE),
    has(ENTRY_SPAN, &[48, 4], &[1 << 39]),
    has_not(ENTRY_SPAN, &[48, 5], NO_SUCH_CHOICE),
    has_not(INDEX, &[48, FIRST_HIGH, 5], NO_SUCH_CHOICE),
    has(INDICES, &[48, 0, 256, 0, 1, 3], &[0xffff_8000_0020_3000]),
    has(INDICES_2MIB, &[48, 0, 256, 0, 1], &[0xffff_8000_0020_0000]),
    has(INDICES_1GIB, &[48, 0, 255, 511], &[0x7fff_c000_0000]),
    has_not(INDICES, &[48, 1, 0, 0, 0, 0], NONE),
    has_not(INDICES, &[48, 511, 511, 511, 511, 511], NONE),
    has_not(INDICES_2MIB, &[48, 1, 0, 0, 0], NONE),
    has_not(INDICES_1GIB, &[48, 511, 511, 511], NONE),
    // Every index is tested before.
    has_not(INDICES, &[48, 512, 0, 0, 0, 0], INDEX_TOO_LARGE),
    has_not(INDICES, &[48, 1, 0, 0, 0, 512], INDEX_TOO_LARGE),
    has_not(INDICES_2MIB, &[48, 1, 0, 0, 512], INDEX_TOO_LARGE),
    has_not(INDICES_1GIB, &[48, 1, 512, 0], INDEX_TOO_LARGE),
}
