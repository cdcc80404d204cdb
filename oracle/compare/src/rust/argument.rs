//! Numbers as the Rust's arguments, made by its own constructors.

use x86_64::structures::paging::page_table::PageTableLevel;
use x86_64::structures::paging::{
    Page, PageOffset, PageSize, PageTableIndex, PhysFrame, Size1GiB, Size2MiB, Size4KiB,
};
use x86_64::{PhysAddr, VirtAddr};

use super::Unasked;
use crate::kind::{self, Kind};

/// Whether the Rust has the width, every level and every page size. It has no index of level 5: one of
/// 0 is said by leaving it out.
pub fn can_say(kinds: &[Kind], args: &[u64]) -> bool {
    kind::split(kinds, args).all(|(kind, words)| match kind {
        Kind::Width => words == [WIDTH],
        Kind::Index5 => words == [0],
        _ => {
            let choices = kind.choices(words);
            choices.level.is_none_or(|number| level(number).is_some())
                && choices.sizes().all(|size| SIZES.contains(&size))
        }
    })
}

const WIDTH: u64 = 48;

const SIZES: [u64; 3] = [Size4KiB::SIZE, Size2MiB::SIZE, Size1GiB::SIZE];

#[inline]
fn level(number: u64) -> Option<PageTableLevel> {
    use PageTableLevel::{Four, One, Three, Two};
    let mut levels = [One, Two, Three, Four].into_iter();
    levels.find(|&level| level as u64 == number)
}

/// A type that the Rust takes, made from N numbers. A constructor that panics says its refusal so.
pub trait Argument<const N: usize>: Sized {
    fn made(numbers: [u64; N]) -> Result<Self, Unasked>;
}

impl Argument<1> for u64 {
    #[inline]
    fn made([number]: [u64; 1]) -> Result<u64, Unasked> {
        Ok(number)
    }
}

impl Argument<1> for usize {
    #[inline]
    fn made([number]: [u64; 1]) -> Result<usize, Unasked> {
        usize::try_from(number).map_err(|_| Unasked::NoWay)
    }
}

/// A displacement, by its low 32 bits.
impl Argument<1> for i32 {
    #[inline]
    fn made([number]: [u64; 1]) -> Result<i32, Unasked> {
        Ok(number as i32)
    }
}

impl Argument<1> for u16 {
    #[inline]
    fn made([number]: [u64; 1]) -> Result<u16, Unasked> {
        u16::try_from(number).map_err(|_| Unasked::NoWay)
    }
}

impl Argument<1> for VirtAddr {
    #[inline]
    fn made([number]: [u64; 1]) -> Result<VirtAddr, Unasked> {
        Ok(VirtAddr::try_new(number)?)
    }
}

impl Argument<1> for PhysAddr {
    #[inline]
    fn made([number]: [u64; 1]) -> Result<PhysAddr, Unasked> {
        Ok(PhysAddr::try_new(number)?)
    }
}

impl Argument<1> for PageTableIndex {
    #[inline]
    fn made(number: [u64; 1]) -> Result<PageTableIndex, Unasked> {
        u16::made(number).map(PageTableIndex::new)
    }
}

impl Argument<1> for PageOffset {
    #[inline]
    fn made(number: [u64; 1]) -> Result<PageOffset, Unasked> {
        u16::made(number).map(PageOffset::new)
    }
}

impl Argument<1> for PageTableLevel {
    #[inline]
    fn made([number]: [u64; 1]) -> Result<PageTableLevel, Unasked> {
        level(number).ok_or(Unasked::NoWay)
    }
}

// A number with a page size: the size has chosen the function's type and is no argument of it.

impl Argument<2> for u64 {
    #[inline]
    fn made([number, _]: [u64; 2]) -> Result<u64, Unasked> {
        Ok(number)
    }
}

impl Argument<2> for VirtAddr {
    #[inline]
    fn made([number, _]: [u64; 2]) -> Result<VirtAddr, Unasked> {
        VirtAddr::made([number])
    }
}

impl Argument<2> for PhysAddr {
    #[inline]
    fn made([number, _]: [u64; 2]) -> Result<PhysAddr, Unasked> {
        PhysAddr::made([number])
    }
}

// Pages and frames: one of another size than the function has is of another type.

impl<S: PageSize> Argument<2> for Page<S> {
    #[inline]
    fn made([start, size]: [u64; 2]) -> Result<Page<S>, Unasked> {
        if size != S::SIZE {
            return Err(Unasked::NoWay);
        }
        Ok(Page::from_start_address(VirtAddr::made([start])?)?)
    }
}

impl<S: PageSize> Argument<2> for PhysFrame<S> {
    #[inline]
    fn made([start, size]: [u64; 2]) -> Result<PhysFrame<S>, Unasked> {
        if size != S::SIZE {
            return Err(Unasked::NoWay);
        }
        Ok(PhysFrame::from_start_address(PhysAddr::made([start])?)?)
    }
}
