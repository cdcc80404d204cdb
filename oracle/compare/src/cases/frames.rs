//! The cases of frames, which no width of virtual addresses concerns.

use super::{counted, ends, gives, Case, SIZE_1GIB, SIZE_2MIB, SIZE_4KIB};
use crate::answer::PFN_TOO_LARGE;

const IN_CASE_G: u64 = 0xc000_0000;
const LAST_FRAME: u64 = 0xf_ffff_ffff_f000;
const ALL_FRAMES: [u64; 4] = [0, SIZE_4KIB, LAST_FRAME, SIZE_4KIB];

const PFN: &str = "phys_frame_pfn";
const FROM_PFN: &str = "phys_frame_from_pfn";
const TRY_FROM_PFN: &str = "phys_frame_try_from_pfn";

pub const CASES: &[Case] = &[
    gives("G", PFN, &[IN_CASE_G, SIZE_4KIB], &[0xc0000]),
    gives("G", PFN, &[IN_CASE_G, SIZE_2MIB], &[0x600]),
    gives("G", PFN, &[IN_CASE_G, SIZE_1GIB], &[3]),
    gives("G", FROM_PFN, &[0xc0000, SIZE_4KIB], &[IN_CASE_G]),
    gives("G", FROM_PFN, &[0x600, SIZE_2MIB], &[IN_CASE_G]),
    gives("G", FROM_PFN, &[3, SIZE_1GIB], &[IN_CASE_G]),
    gives(
        "edges",
        FROM_PFN,
        &[(1 << 40) - 1, SIZE_4KIB],
        &[LAST_FRAME],
    ),
    ends("edges", FROM_PFN, &[1 << 40, SIZE_4KIB], PFN_TOO_LARGE),
    gives(
        "edges",
        TRY_FROM_PFN,
        &[(1 << 40) - 1, SIZE_4KIB],
        &[LAST_FRAME],
    ),
    ends("edges", TRY_FROM_PFN, &[1 << 40, SIZE_4KIB], PFN_TOO_LARGE),
    counted("phys_frame_range_inclusive_size", &ALL_FRAMES, &[1 << 52]),
];
