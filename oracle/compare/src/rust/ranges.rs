//! The four types of ranges: made from a start and an end, drawn from, and answered.

use x86_64::structures::paging::frame::{PhysFrameRange, PhysFrameRangeInclusive};
use x86_64::structures::paging::page::{PageRange, PageRangeInclusive};
use x86_64::structures::paging::{Page, PageSize, PhysFrame};

use super::{Answers, Argument, Unasked};
use crate::answer::{ANSWERED, NO_ROOM};

/// A range, seen as the numbers at which it starts and ends.
pub trait Ends {
    fn ends(&self) -> [u64; 2];
}

/// An item, seen as the number at which it starts.
pub trait Starts {
    fn start(&self) -> u64;
}

impl<S: PageSize> Starts for Page<S> {
    #[inline]
    fn start(&self) -> u64 {
        self.start_address().as_u64()
    }
}

impl<S: PageSize> Starts for PhysFrame<S> {
    #[inline]
    fn start(&self) -> u64 {
        self.start_address().as_u64()
    }
}

/// What a draw comes to: the item, if there is one, and the range left.
pub struct Drawn {
    item: Option<u64>,
    left: [u64; 2],
}

/// Draws from the range.
#[inline]
pub fn drawn<R: Ends, I: Starts>(mut range: R, draw: impl FnOnce(&mut R) -> Option<I>) -> Drawn {
    let item = draw(&mut range).map(|item| item.start());
    Drawn {
        item,
        left: range.ends(),
    }
}

impl Answers for Drawn {
    const WORDS: usize = 4;

    #[inline]
    fn give(self, out: &mut [u64]) -> Option<u8> {
        let [start, end] = self.left;
        let words = match self.item {
            Some(item) => [1, item, start, end],
            None => [0, 0, start, end],
        };
        Some(give_words(words, out))
    }
}

#[inline]
fn give_words<const N: usize>(words: [u64; N], out: &mut [u64]) -> u8 {
    match out.first_chunk_mut() {
        Some(first) => {
            *first = words;
            ANSWERED
        }
        None => NO_ROOM,
    }
}

macro_rules! ranges {
    ($($range:ident of $item:ident by $new:ident;)*) => {$(
        impl<S: PageSize> Ends for $range<S> {
            #[inline]
            fn ends(&self) -> [u64; 2] {
                [self.start.start(), self.end.start()]
            }
        }

        impl<S: PageSize> Answers for $range<S> {
            const WORDS: usize = 2;

            #[inline]
            fn give(self, out: &mut [u64]) -> Option<u8> {
                Some(give_words(self.ends(), out))
            }
        }

        impl<S: PageSize> Argument<4> for $range<S> {
            #[inline]
            fn made([start, start_size, end, end_size]: [u64; 4]) -> Result<$range<S>, Unasked> {
                let start = $item::made([start, start_size])?;
                let end = $item::made([end, end_size])?;
                Ok($item::$new(start, end))
            }
        }
    )*};
}

ranges! {
    PageRange of Page by range;
    PageRangeInclusive of Page by range_inclusive;
    PhysFrameRange of PhysFrame by range;
    PhysFrameRangeInclusive of PhysFrame by range_inclusive;
}
