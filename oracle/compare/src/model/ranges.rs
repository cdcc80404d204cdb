//! Ranges. Each is a start and an end, both multiples of one size.

use super::virt_addr::{canonical_of, first_high, low, low_end};
use super::{answered, power, truth};
use crate::answer::{Answer, DRAW_MEETS_GAP, OVERFLOW, SIZES_DIFFER};

/// What items there are, pages with the width of their addresses.
#[derive(Clone, Copy, PartialEq, Eq)]
enum Items {
    Pages { width: u128 },
    Frames,
}

/// Whether a range holds its end.
#[derive(Clone, Copy, PartialEq, Eq)]
enum Bound {
    Exclusive,
    Inclusive,
}

/// Whose rules: those of document 01 alone, which are the Rust's, or today's, with what document 02
/// has changed.
#[derive(Clone, Copy, PartialEq, Eq)]
enum Rules {
    Document01,
    Today,
}

#[derive(Clone, Copy)]
struct Range {
    rules: Rules,
    items: Items,
    bound: Bound,
    size: u128,
    start: u128,
    end: u128,
}

impl Range {
    fn is_empty(self) -> bool {
        match self.bound {
            Bound::Exclusive => self.start >= self.end,
            Bound::Inclusive => self.start > self.end,
        }
    }

    fn in_low_half(self, width: u128) -> bool {
        self.start < low_end(width) && self.end < low_end(width)
    }

    fn in_high_half(self, width: u128) -> bool {
        self.start >= first_high(width) && self.end >= first_high(width)
    }

    /// Of document 01 on the raw numbers: across the gap it counts the gap. Document 02, request Three: of
    /// pages by low48, at 57 bits by the low 57.
    fn len(self) -> u128 {
        if self.is_empty() {
            return 0;
        }
        let between = (self.position(self.end) - self.position(self.start)) / self.size;
        match self.bound {
            Bound::Exclusive => between,
            Bound::Inclusive => between + 1,
        }
    }

    /// How many addresses are below this one, as lengths count them.
    fn position(self, address: u128) -> u128 {
        match (self.items, self.rules) {
            (Items::Pages { width }, Rules::Today) => low(width, address),
            _ => address,
        }
    }

    /// The item so many on from the start.
    fn item(self, n: u128) -> u128 {
        let position = self.position(self.start) + n * self.size;
        match (self.items, self.rules) {
            (Items::Pages { width }, Rules::Today) => canonical_of(width, position),
            _ => position,
        }
    }

    /// The item that counts as the topmost of this size. Document 02, request One: of pages in the low
    /// half, the last one of that half.
    fn topmost(self) -> u128 {
        let end = match (self.items, self.rules) {
            (Items::Pages { width }, Rules::Today) if self.in_low_half(width) => low_end(width),
            (Items::Pages { .. }, _) => power(64),
            (Items::Frames, _) => power(52),
        };
        end - self.size
    }

    /// The item that counts as the one at address 0. Document 02, request One: of pages in the high
    /// half, the first one of that half.
    fn lowest(self) -> u128 {
        match (self.items, self.rules) {
            (Items::Pages { width }, Rules::Today) if self.in_high_half(width) => first_high(width),
            _ => 0,
        }
    }

    /// The conditions of 10 for a draw from the front, on a range that is not empty.
    fn front_meets_gap(self, n: u128) -> bool {
        let Items::Pages { width } = self.items else {
            return false;
        };
        if self.start >= low_end(width) {
            return false;
        }
        let up_to_gap = (low_end(width) - self.start) / self.size;
        let last_low = low_end(width) - self.size;
        let end_reaches = match (self.bound, self.rules) {
            (Bound::Inclusive, Rules::Document01) => self.end >= last_low,
            (Bound::Exclusive, _) | (_, Rules::Today) => self.end >= first_high(width),
        };
        n >= up_to_gap - 1 && end_reaches
    }

    /// The conditions of 10 for a draw from the back, on a range that is not empty.
    fn back_meets_gap(self, n: u128) -> bool {
        let Items::Pages { width } = self.items else {
            return false;
        };
        if self.end < first_high(width) {
            return false;
        }
        let down_to_gap = (self.end - first_high(width)) / self.size;
        let start_reaches = match (self.bound, self.rules) {
            (Bound::Inclusive, Rules::Document01) => self.start <= first_high(width),
            (Bound::Exclusive, _) | (_, Rules::Today) => self.start < low_end(width),
        };
        n >= down_to_gap && start_reaches
    }

    /// The range left by a draw from the front that gives this item.
    fn past(self, item: u128) -> Range {
        if self.bound == Bound::Inclusive && item == self.topmost() {
            let end = self.end - self.size;
            return Range {
                start: item,
                end,
                ..self
            };
        }
        Range {
            start: item + self.size,
            ..self
        }
    }

    /// The range left by a draw from the back that gives this item.
    fn below(self, item: u128) -> Range {
        match self.bound {
            Bound::Exclusive => Range { end: item, ..self },
            Bound::Inclusive if item == self.lowest() => Range {
                start: self.start + self.size,
                end: item,
                ..self
            },
            Bound::Inclusive => Range {
                end: item - self.size,
                ..self
            },
        }
    }

    fn nth(self, n: u128) -> Answer {
        if self.is_empty() {
            return drawn(None, self);
        }
        if self.front_meets_gap(n) {
            return Answer::refused(DRAW_MEETS_GAP);
        }
        if n >= self.len() {
            return drawn(None, self.past(self.item(self.len() - 1)));
        }
        let item = self.item(n);
        drawn(Some(item), self.past(item))
    }

    fn nth_back(self, n: u128) -> Answer {
        if self.is_empty() {
            return drawn(None, self);
        }
        if self.back_meets_gap(n) {
            return Answer::refused(DRAW_MEETS_GAP);
        }
        if n >= self.len() {
            return drawn(None, self.below(self.start));
        }
        let item = self.item(self.len() - 1 - n);
        drawn(Some(item), self.below(item))
    }

    fn size(self) -> Answer {
        let bytes = self.len() * self.size;
        match self.rules {
            Rules::Document01 if bytes >= power(64) => Answer::refused(OVERFLOW),
            _ => answered(bytes),
        }
    }

    fn ends(self) -> [u64; 2] {
        [word(self.start), word(self.end)]
    }
}

/// The answer of a draw: whether there is an item, its start, and the range left.
fn drawn(item: Option<u128>, left: Range) -> Answer {
    let [start, end] = left.ends();
    let is_item = u64::from(item.is_some());
    let item = item.map_or(0, word);
    Answer::words(&[is_item, item, start, end])
}

fn word(number: u128) -> u64 {
    u64::try_from(number).expect("an answered number has 64 bits")
}

/// The functions on ranges of one type, those of pages at a width.
macro_rules! functions {
    ($($module:ident: $bound:ident $items:ident$(($width:ident))? $rules:ident;)*) => {$(
        pub mod $module {
            use super::{answered, truth, Bound, Items, Range, Rules};
            use crate::answer::Answer;

            fn range($($width: u128,)? start: u128, size: u128, end: u128) -> Range {
                Range {
                    rules: Rules::$rules,
                    items: Items::$items $({ $width })?,
                    bound: Bound::$bound,
                    size,
                    start,
                    end,
                }
            }

            pub fn new($($width: u128,)? start: u128, size: u128, end: u128, _: u128) -> Answer {
                Answer::words(&range($($width,)? start, size, end).ends())
            }

            pub fn is_empty($($width: u128,)? start: u128, size: u128, end: u128, _: u128) -> Answer {
                truth(range($($width,)? start, size, end).is_empty())
            }

            pub fn len($($width: u128,)? start: u128, size: u128, end: u128, _: u128) -> Answer {
                answered(range($($width,)? start, size, end).len())
            }

            pub fn size($($width: u128,)? start: u128, size: u128, end: u128, _: u128) -> Answer {
                range($($width,)? start, size, end).size()
            }

            pub fn next($($width: u128,)? start: u128, size: u128, end: u128, _: u128) -> Answer {
                range($($width,)? start, size, end).nth(0)
            }

            pub fn nth(
                $($width: u128,)? start: u128, size: u128, end: u128, _: u128, n: u128
            ) -> Answer {
                range($($width,)? start, size, end).nth(n)
            }

            pub fn next_back($($width: u128,)? start: u128, size: u128, end: u128, _: u128) -> Answer {
                range($($width,)? start, size, end).nth_back(0)
            }

            pub fn nth_back(
                $($width: u128,)? start: u128, size: u128, end: u128, _: u128, n: u128
            ) -> Answer {
                range($($width,)? start, size, end).nth_back(n)
            }
        }
    )*};
}

functions! {
    page_range: Exclusive Pages(width) Today;
    page_range_before: Exclusive Pages(width) Document01;
    page_range_inclusive: Inclusive Pages(width) Today;
    page_range_inclusive_before: Inclusive Pages(width) Document01;
    phys_frame_range: Exclusive Frames Today;
    phys_frame_range_inclusive: Inclusive Frames Today;
}

/// Only a range of 2 MiB pages has one.
pub fn as_4kib_page_range(_width: u128, start: u128, size: u128, end: u128, _: u128) -> Answer {
    if size == power(21) {
        Answer::words(&[word(start), word(end)])
    } else {
        Answer::refused(SIZES_DIFFER)
    }
}
