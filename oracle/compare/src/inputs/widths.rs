//! Widths of virtual addresses, and numbers that are none.

/// The widths that there are.
pub const WIDTHS: [u64; 2] = [48, 57];

/// Numbers that are no width: few, near one, numbers of levels, and what is one to whoever drops
/// upper bits.
pub const NO_WIDTHS: [u64; 24] = [
    0,
    1,
    4,
    5,
    12,
    39,
    47,
    49,
    52,
    56,
    58,
    63,
    64,
    (1 << 8) + 48,
    (1 << 8) + 57,
    (1 << 16) + 48,
    (1 << 16) + 57,
    (1 << 32) + 48,
    (1 << 32) + 57,
    (1 << 63) + 48,
    (1 << 63) + 57,
    1 << 48,
    1 << 57,
    u64::MAX,
];

/// Where the low half ends.
pub fn low_end(width: u64) -> u64 {
    1 << (width - 1)
}

/// The first address of the high half.
pub fn first_high(width: u64) -> u64 {
    low_end(width).wrapping_neg()
}

/// How many levels of tables there are.
pub fn levels(width: u64) -> u64 {
    (width - 12) / 9
}

/// How much one entry of the highest level spans.
pub fn highest_span(width: u64) -> u64 {
    1 << (width - 9)
}

/// How many numbers are between the halves.
pub fn gap(width: u64) -> u64 {
    first_high(width) - low_end(width)
}

/// The number with its upmost bit of this width copied upward.
pub fn sign_extended(width: u64, number: u64) -> u64 {
    if number & low_end(width) == 0 {
        number % low_end(width)
    } else {
        number | first_high(width)
    }
}
