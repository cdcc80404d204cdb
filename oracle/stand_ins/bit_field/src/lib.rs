//! Stands in for the crate `bit_field`: `get_bits` and `set_bits` on u64, from their documentation.

use std::ops::{Bound, Range, RangeBounds};

pub trait BitField {
    /// The bits in the range, moved down to bit 0. Panics if the range is empty or passes bit 63.
    fn get_bits<R: RangeBounds<usize>>(&self, range: R) -> Self;

    /// Sets the bits in the range to the lowest bits of `value`. Panics as `get_bits` does, and if
    /// `value` does not fit the range.
    fn set_bits<R: RangeBounds<usize>>(&mut self, range: R, value: Self) -> &mut Self;
}

const BITS: usize = u64::BITS as usize;

/// The range with both bounds written out; no lower bound means bit 0, no upper one bit 63.
#[inline]
fn bounds<R: RangeBounds<usize>>(range: &R) -> Range<usize> {
    let start = match range.start_bound() {
        Bound::Included(&start) => start,
        Bound::Excluded(&start) => start + 1,
        Bound::Unbounded => 0,
    };
    let end = match range.end_bound() {
        Bound::Included(&end) => end + 1,
        Bound::Excluded(&end) => end,
        Bound::Unbounded => BITS,
    };
    assert!(start < end, "the range of bits is empty");
    assert!(end <= BITS, "the range of bits is too long");
    start..end
}

/// The lowest `count` bits set, for 1 to 64 of them.
#[inline]
fn lowest(count: usize) -> u64 {
    u64::MAX >> (BITS - count)
}

impl BitField for u64 {
    #[inline]
    fn get_bits<R: RangeBounds<usize>>(&self, range: R) -> u64 {
        let range = bounds(&range);
        (self >> range.start) & lowest(range.len())
    }

    #[inline]
    fn set_bits<R: RangeBounds<usize>>(&mut self, range: R, value: u64) -> &mut u64 {
        let range = bounds(&range);
        let mask = lowest(range.len());
        assert!(value <= mask, "the value does not fit the range of bits");
        *self = (*self & !(mask << range.start)) | (value << range.start);
        self
    }
}

#[cfg(test)]
mod tests {
    use super::BitField;

    #[test]
    fn bits_are_read_and_set() {
        let number: u64 = 0xffff_8000_0000_1234;
        assert_eq!(number.get_bits(47..), 0x1_ffff);
        assert_eq!(number.get_bits(4..=11), 0x23);
        assert_eq!(number.get_bits(..), number);
        let mut number: u64 = 0xffff_0000_0000_1234;
        assert_eq!(*number.set_bits(47.., 0), 0x1234);
        assert_eq!(*number.set_bits(47.., 0x1_ffff), 0xffff_8000_0000_1234);
        assert_eq!(*number.set_bits(0..64, 7), 7);
    }

    #[test]
    #[should_panic]
    fn a_value_too_wide_is_refused() {
        0u64.set_bits(4..8, 16);
    }
}
