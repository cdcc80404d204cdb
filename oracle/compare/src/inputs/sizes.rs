//! Page sizes, and numbers that are none.

/// The sizes that there are.
pub const SIZES: [u64; 3] = [1 << 12, 1 << 21, 1 << 30];

/// Numbers that are no size: near one, with a bit too many or taken for one by a shorter word,
/// other powers of two, and a level.
pub const NO_SIZES: [u64; 14] = [
    0,
    1,
    4095,
    4097,
    1 << 11,
    1 << 20,
    1 << 22,
    1 << 39,
    1 << 48,
    (1 << 32) + (1 << 12),
    (1 << 21) + (1 << 12),
    (1 << 63) + (1 << 30),
    1 << 63,
    u64::MAX,
];

/// The size that was last named among the arguments before, if one was.
pub fn last_named(earlier: &[u64]) -> Option<u64> {
    earlier.iter().copied().rfind(|word| SIZES.contains(word))
}
