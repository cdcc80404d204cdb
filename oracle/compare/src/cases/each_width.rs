//! The cases that both widths have, each in the numbers of its own: one list, and one more for each
//! width.

/// `CASES` of the module that it stands in, whose `WIDTH`, `LAST_LOW`, `FIRST_HIGH` and so on it takes:
/// those of both widths and those that are given.
macro_rules! cases {
    ($($own:expr),* $(,)?) => {
        const LAST: u64 = 0xffff_ffff_ffff_ffff;
        const LAST_PAGE: u64 = 0xffff_ffff_ffff_f000;

        /// From where the ends of displacements just lead to an end of the halves.
        const TO_LAST: u64 = LAST - GREATEST;
        const TO_LAST_LOW: u64 = LAST_LOW - GREATEST;
        const TO_FIRST_HIGH: u64 = FIRST_HIGH + (1 << 31);

        const IN_CASE_H: [u64; 5] = pages(WIDTH, LAST_PAGE, LAST_PAGE);
        const LEFT_IN_CASE_H: &[u64] = &[1, LAST_PAGE, LAST_PAGE, 0xffff_ffff_ffff_e000];
        const IN_CASE_I: [u64; 5] = pages(WIDTH, 0, 0);
        const LEFT_IN_CASE_I: &[u64] = &[1, 0, 0x1000, 0];
        const IN_CASE_J: [u64; 5] = pages(WIDTH, LAST_LOW_PAGE, LAST_LOW_PAGE);
        const LEFT_IN_CASE_J: &[u64] = &[1, LAST_LOW_PAGE, LAST_LOW_PAGE, START_IN_CASE_K];
        const HIGH_PAGE: [u64; 5] = pages(WIDTH, FIRST_HIGH, FIRST_HIGH);
        const LEFT_OF_HIGH_PAGE: &[u64] = &[1, FIRST_HIGH, END_IN_CASE_K, FIRST_HIGH];
        const OVER_THE_GAP: [u64; 5] = pages(WIDTH, LAST_LOW_PAGE, FIRST_HIGH);
        const FROM_HIGH_TO_LOW: [u64; 5] = pages(WIDTH, FIRST_HIGH, LAST_LOW_PAGE);
        const WHOLE: [u64; 5] = pages(WIDTH, 0, LAST_PAGE);
        const WHOLE_2MIB: [u64; 5] = [WIDTH, 0, SIZE_2MIB, SIZE_2MIB.wrapping_neg(), SIZE_2MIB];
        const WHOLE_1GIB: [u64; 5] = [WIDTH, 0, SIZE_1GIB, SIZE_1GIB.wrapping_neg(), SIZE_1GIB];
        const IN_CASE_K: [u64; 5] = pages(WIDTH, START_IN_CASE_K, END_IN_CASE_K);
        /// With n as long as the range, which request Three counts.
        const PAST_CASE_K: [u64; 6] = with(IN_CASE_K, 3);
        const FRONT_IN_CASE_K: &[u64] = &[1, START_IN_CASE_K, LAST_LOW_PAGE, END_IN_CASE_K];
        const BACK_IN_CASE_K: &[u64] = &[1, FIRST_HIGH, START_IN_CASE_K, FIRST_HIGH];

        pub const CASES: &[Case] = &[
            gives("A", TRUNCATE, &[WIDTH, 1 << (WIDTH - 1)], &[FIRST_HIGH]),
            gives("B", FORWARD, &[WIDTH, LAST_LOW, 1], &[FIRST_HIGH]),
            ends("B", ADD, &[WIDTH, LAST_LOW, 1], RESULT_NOT_CANONICAL),
            gives("C", FORWARD, &[WIDTH, 0, (1 << WIDTH) - 1], &[LAST]),
            ends("C", FORWARD, &[WIDTH, 0, 1 << WIDTH], NONE),
            gives("D", STEPS, &[WIDTH, LAST_LOW_PAGE, FIRST_HIGH], &[0x1000]),
            ends("D", STEPS, &[WIDTH, FIRST_HIGH, LAST_LOW_PAGE], NONE),
            gives("E", ALIGN_UP, &[WIDTH, IN_CASE_E, 0x1000], &[FIRST_HIGH]),
            gives("E", ALIGN_UP, &[WIDTH, 1, 1 << WIDTH], &[0]),
            gives("F", "virt_addr_p3_index", &[WIDTH, IN_CASE_F], &[0]),
            gives("F", "virt_addr_p2_index", &[WIDTH, IN_CASE_F], &[1]),
            gives("F", "virt_addr_p1_index", &[WIDTH, IN_CASE_F], &[3]),
            gives("F", INDEX, &[WIDTH, IN_CASE_F, 3], &[0]),
            gives("F", INDEX, &[WIDTH, IN_CASE_F, 2], &[1]),
            gives("F", INDEX, &[WIDTH, IN_CASE_F, 1], &[3]),
            gives("F", OFFSET, &[WIDTH, IN_CASE_F], &[0x456]),
            gives("H", INCLUSIVE_NEXT, &IN_CASE_H, LEFT_IN_CASE_H),
            gives("H", INCLUSIVE_NTH, &with(IN_CASE_H, 0), LEFT_IN_CASE_H),
            gives("I", INCLUSIVE_NEXT_BACK, &IN_CASE_I, LEFT_IN_CASE_I),
            gives("I", INCLUSIVE_NTH_BACK, &with(IN_CASE_I, 0), LEFT_IN_CASE_I),
            gives("J", INCLUSIVE_LEN, &IN_CASE_J, &[1]),
            gives("J", INCLUSIVE_NEXT, &IN_CASE_J, LEFT_IN_CASE_J),
            gives("J", INCLUSIVE_NTH, &with(IN_CASE_J, 0), LEFT_IN_CASE_J),
            drawn(INCLUSIVE_NEXT_BACK, &HIGH_PAGE, LEFT_OF_HIGH_PAGE),
            drawn(INCLUSIVE_NTH_BACK, &with(HIGH_PAGE, 0), LEFT_OF_HIGH_PAGE),
            not_drawn(INCLUSIVE_NEXT, &OVER_THE_GAP),
            not_drawn(INCLUSIVE_NEXT_BACK, &OVER_THE_GAP),
            gives("K", LEN, &IN_CASE_K, &[3]),
            gives("K", NEXT, &IN_CASE_K, FRONT_IN_CASE_K),
            gives("K", NTH, &with(IN_CASE_K, 0), FRONT_IN_CASE_K),
            ends("K", NTH, &with(IN_CASE_K, 1), DRAW_MEETS_GAP),
            gives("K", NEXT_BACK, &IN_CASE_K, BACK_IN_CASE_K),
            gives("K", NTH_BACK, &with(IN_CASE_K, 0), BACK_IN_CASE_K),
            ends("K", NTH_BACK, &with(IN_CASE_K, 1), DRAW_MEETS_GAP),
            not_displaced(&[WIDTH, 0, LEAST], OVERFLOW),
            not_displaced(&[WIDTH, 0, MINUS_1], OVERFLOW),
            displaced(&[WIDTH, 0, 0], &[0]),
            displaced(&[WIDTH, 0, GREATEST], &[0x7fff_ffff]),
            displaced(&[WIDTH, 1 << 31, LEAST], &[0]),
            displaced(&[WIDTH, 1 << 31, MINUS_1], &[0x7fff_ffff]),
            displaced(&[WIDTH, 1 << 31, 0], &[0x8000_0000]),
            displaced(&[WIDTH, 1 << 31, GREATEST], &[0xffff_ffff]),
            displaced(&[WIDTH, LAST_LOW, LEAST], &[LAST_LOW - (1 << 31)]),
            displaced(&[WIDTH, LAST_LOW, MINUS_1], &[LAST_LOW - 1]),
            displaced(&[WIDTH, LAST_LOW, 0], &[LAST_LOW]),
            not_displaced(&[WIDTH, LAST_LOW, GREATEST], RESULT_NOT_CANONICAL),
            not_displaced(&[WIDTH, FIRST_HIGH, LEAST], RESULT_NOT_CANONICAL),
            not_displaced(&[WIDTH, FIRST_HIGH, MINUS_1], RESULT_NOT_CANONICAL),
            displaced(&[WIDTH, FIRST_HIGH, 0], &[FIRST_HIGH]),
            displaced(&[WIDTH, FIRST_HIGH, GREATEST], &[FIRST_HIGH + GREATEST]),
            displaced(&[WIDTH, LAST, LEAST], &[0xffff_ffff_7fff_ffff]),
            displaced(&[WIDTH, LAST, MINUS_1], &[0xffff_ffff_ffff_fffe]),
            displaced(&[WIDTH, LAST, 0], &[0xffff_ffff_ffff_ffff]),
            not_displaced(&[WIDTH, LAST, GREATEST], OVERFLOW),
            not_displaced(&[WIDTH, 1 << (WIDTH - 1), MINUS_1], NOT_CANONICAL),
            // The ends of displacements that just reach an end of the halves, and that just miss it.
            not_displaced(&[WIDTH, (1 << 31) - 1, LEAST], OVERFLOW),
            displaced(&[WIDTH, TO_LAST, GREATEST], &[LAST]),
            not_displaced(&[WIDTH, TO_LAST + 1, GREATEST], OVERFLOW),
            displaced(&[WIDTH, TO_LAST_LOW, GREATEST], &[LAST_LOW]),
            not_displaced(&[WIDTH, TO_LAST_LOW + 1, GREATEST], RESULT_NOT_CANONICAL),
            displaced(&[WIDTH, TO_FIRST_HIGH, LEAST], &[FIRST_HIGH]),
            not_displaced(&[WIDTH, TO_FIRST_HIGH - 1, LEAST], RESULT_NOT_CANONICAL),
            counted(SIZE, &IN_CASE_K, &[0x3000]),
            counted(INCLUSIVE_LEN, &WHOLE, &[1 << (WIDTH - 12)]),
            counted(INCLUSIVE_SIZE, &WHOLE, &[1 << WIDTH]),
            counted(INCLUSIVE_SIZE, &WHOLE_2MIB, &[1 << WIDTH]),
            counted(INCLUSIVE_SIZE, &WHOLE_1GIB, &[1 << WIDTH]),
            counted(LEN, &WHOLE, &[(1 << (WIDTH - 12)) - 1]),
            counted(SIZE, &WHOLE, &[(1 << WIDTH) - 0x1000]),
            counted(LEN, &OVER_THE_GAP, &[1]),
            counted(SIZE, &OVER_THE_GAP, &[0x1000]),
            counted(INCLUSIVE_LEN, &OVER_THE_GAP, &[2]),
            counted(INCLUSIVE_SIZE, &OVER_THE_GAP, &[0x2000]),
            counted(LEN, &FROM_HIGH_TO_LOW, &[0]),
            counted(INCLUSIVE_LEN, &FROM_HIGH_TO_LOW, &[0]),
            ends("K", NTH, &PAST_CASE_K, DRAW_MEETS_GAP),
            ends("K", NTH_BACK, &PAST_CASE_K, DRAW_MEETS_GAP),
            // All bits set but the one that is copied; those above it alone; it and those below; it and bit 63;
            // all.
            extended(&[WIDTH, LAST - (1 << (WIDTH - 1))], &[LAST_LOW]),
            extended(&[WIDTH, LAST << WIDTH], &[0]),
            extended(&[WIDTH, (1 << WIDTH) - 1], &[LAST]),
            extended(&[WIDTH, (1 << 63) + (1 << (WIDTH - 1))], &[FIRST_HIGH]),
            extended(&[WIDTH, LAST], &[LAST]),
            $($own),*
        ];
    };
}

pub(super) use cases;
