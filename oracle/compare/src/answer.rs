//! What an operation answers: a status, as include/wuohtan.h has it, and words.

use std::fmt;

pub const ANSWERED: u8 = 0;
pub const NO_SUCH_CHOICE: u8 = 253;
pub const NO_ROOM: u8 = 254;
pub const NONE: u8 = 255;

/// The refusals by their numbers in document 01.
pub const NOT_CANONICAL: u8 = 1;
pub const NOT_PHYSICAL: u8 = 2;
pub const NOT_ALIGNED: u8 = 3;
pub const NOT_POWER_OF_TWO: u8 = 4;
pub const OVERFLOW: u8 = 5;
pub const RESULT_NOT_CANONICAL: u8 = 6;
pub const SIZES_DIFFER: u8 = 7;
pub const RESULT_NOT_PHYSICAL: u8 = 8;
pub const INDEX_TOO_LARGE: u8 = 9;
pub const DRAW_MEETS_GAP: u8 = 10;
pub const PFN_TOO_LARGE: u8 = 12;

/// The most words that an answer has.
pub const MOST_WORDS: usize = 8;

/// Words behind the answer's are 0, so that equal answers are equal here.
#[derive(Clone, Copy, PartialEq, Eq)]
pub struct Answer {
    pub status: u8,
    words: [u64; MOST_WORDS],
    count: usize,
}

impl Answer {
    #[inline]
    pub fn words(given: &[u64]) -> Answer {
        let mut words = [0; MOST_WORDS];
        words[..given.len()].copy_from_slice(given);
        let count = given.len();
        Answer {
            status: ANSWERED,
            words,
            count,
        }
    }

    #[inline]
    pub fn none() -> Answer {
        Answer::refused(NONE)
    }

    #[inline]
    pub fn refused(status: u8) -> Answer {
        Answer {
            status,
            words: [0; MOST_WORDS],
            count: 0,
        }
    }

    #[inline]
    pub fn as_words(&self) -> &[u64] {
        &self.words[..self.count]
    }
}

impl fmt::Display for Answer {
    fn fmt(&self, f: &mut fmt::Formatter) -> fmt::Result {
        match self.status {
            ANSWERED => {
                write!(f, "answered")?;
                self.as_words().iter().try_for_each(|w| write!(f, " {w:x}"))
            }
            NONE => write!(f, "none"),
            NO_ROOM => write!(f, "no room"),
            NO_SUCH_CHOICE => write!(f, "no such choice"),
            number => write!(f, "refused {number}"),
        }
    }
}
