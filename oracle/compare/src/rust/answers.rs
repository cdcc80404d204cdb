//! What the Rust gives, as answers.

use x86_64::structures::paging::page_table::PageTableLevel;
use x86_64::structures::paging::{Page, PageOffset, PageSize, PageTableIndex, PhysFrame};
use x86_64::{PhysAddr, VirtAddr};

use super::Unasked;
use crate::answer::{Answer, ANSWERED, MOST_WORDS, NONE, NO_ROOM};

/// A type that the Rust gives, as an answer.
pub trait Answers: Sized {
    /// How many words the answer has.
    const WORDS: usize;

    /// Hands the answer over as the port does: by a status, and words only if all have room.
    /// `None` where the Rust has no way to say the question.
    fn give(self, out: &mut [u64]) -> Option<u8>;

    fn reply(self) -> Option<Answer> {
        let mut out = [0; MOST_WORDS];
        let status = self.give(&mut out)?;
        Some(match status {
            ANSWERED => Answer::words(&out[..Self::WORDS]),
            status => Answer::refused(status),
        })
    }
}

impl Answers for u64 {
    const WORDS: usize = 1;

    #[inline]
    fn give(self, out: &mut [u64]) -> Option<u8> {
        match out {
            [word, ..] => {
                *word = self;
                Some(ANSWERED)
            }
            [] => Some(NO_ROOM),
        }
    }
}

impl<T: Answers> Answers for Option<T> {
    const WORDS: usize = T::WORDS;

    #[inline]
    fn give(self, out: &mut [u64]) -> Option<u8> {
        match self {
            Some(given) => given.give(out),
            None => Some(NONE),
        }
    }
}

impl<T: Answers, E: Into<Unasked>> Answers for Result<T, E> {
    const WORDS: usize = T::WORDS;

    #[inline]
    fn give(self, out: &mut [u64]) -> Option<u8> {
        match self.map_err(E::into) {
            Ok(given) => given.give(out),
            Err(Unasked::Refused(number)) => Some(number),
            Err(Unasked::NoWay) => None,
        }
    }
}

impl<S: PageSize> Answers for Page<S> {
    const WORDS: usize = 1;

    #[inline]
    fn give(self, out: &mut [u64]) -> Option<u8> {
        self.start_address().give(out)
    }
}

impl<S: PageSize> Answers for PhysFrame<S> {
    const WORDS: usize = 1;

    #[inline]
    fn give(self, out: &mut [u64]) -> Option<u8> {
        self.start_address().give(out)
    }
}

/// Types that are answered as a number.
macro_rules! answered_as {
    ($($type:ty: |$given:ident| $number:expr;)*) => {$(
        impl Answers for $type {
            const WORDS: usize = 1;

            #[inline]
            fn give(self, out: &mut [u64]) -> Option<u8> {
                let $given = self;
                u64::give($number, out)
            }
        }
    )*};
}

answered_as! {
    bool: |truth| u64::from(truth);
    u16: |number| u64::from(number);
    u32: |number| u64::from(number);
    usize: |number| number as u64;
    VirtAddr: |addr| addr.as_u64();
    PhysAddr: |addr| addr.as_u64();
    PageTableIndex: |index| u64::from(index);
    PageOffset: |offset| u64::from(offset);
    PageTableLevel: |level| level as u64;
}
