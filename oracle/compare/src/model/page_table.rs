//! Table indices, offsets and levels.

use super::{answered, power};
use crate::answer::{Answer, INDEX_TOO_LARGE};

/// The spans of the levels: of one entry at level 1 to 5, and of the whole level-5 table.
const SPANS: [u128; 6] = [
    power(12),
    power(21),
    power(30),
    power(39),
    power(48),
    power(57),
];

/// How many levels of tables there are at this width, if it is one.
pub fn levels(width: u128) -> Option<u128> {
    match width {
        48 => Some(4),
        57 => Some(5),
        _ => None,
    }
}

pub fn index(number: u128) -> bool {
    number < 512
}

pub fn offset(number: u128) -> bool {
    number < 4096
}

/// The index at a level: nine bits from bit 12 + 9 × (level − 1).
pub fn index_at(addr: u128, level: u128) -> u128 {
    addr / entry_span(level) % 512
}

fn entry_span(level: u128) -> u128 {
    SPANS[level as usize - 1]
}

fn table_span(level: u128) -> u128 {
    SPANS[level as usize]
}

pub fn new_index(number: u128) -> Answer {
    if index(number) {
        answered(number)
    } else {
        Answer::refused(INDEX_TOO_LARGE)
    }
}

pub fn new_index_truncate(number: u128) -> Answer {
    answered(number % 512)
}

/// Of an index or an offset.
pub fn into_u64(number: u128) -> Answer {
    answered(number)
}

pub fn index_forward_checked(start: u128, count: u128) -> Answer {
    if index(start + count) {
        answered(start + count)
    } else {
        Answer::none()
    }
}

pub fn index_backward_checked(start: u128, count: u128) -> Answer {
    start.checked_sub(count).map_or(Answer::none(), answered)
}

pub fn index_steps_between(start: u128, end: u128) -> Answer {
    end.checked_sub(start).map_or(Answer::none(), answered)
}

pub fn new_offset(number: u128) -> Answer {
    if offset(number) {
        answered(number)
    } else {
        Answer::refused(INDEX_TOO_LARGE)
    }
}

pub fn new_offset_truncate(number: u128) -> Answer {
    answered(number % 4096)
}

pub fn next_lower_level(_width: u128, level: u128) -> Answer {
    if level > 1 {
        answered(level - 1)
    } else {
        Answer::none()
    }
}

pub fn next_higher_level(width: u128, level: u128) -> Answer {
    if levels(width).is_some_and(|levels| level < levels) {
        answered(level + 1)
    } else {
        Answer::none()
    }
}

pub fn table_address_space_alignment(_width: u128, level: u128) -> Answer {
    answered(table_span(level))
}

pub fn entry_address_space_alignment(_width: u128, level: u128) -> Answer {
    answered(entry_span(level))
}

// Of a virtual address.

pub fn page_offset(_width: u128, addr: u128) -> Answer {
    answered(addr % 4096)
}

pub fn p1_index(width: u128, addr: u128) -> Answer {
    page_table_index(width, addr, 1)
}

pub fn p2_index(width: u128, addr: u128) -> Answer {
    page_table_index(width, addr, 2)
}

pub fn p3_index(width: u128, addr: u128) -> Answer {
    page_table_index(width, addr, 3)
}

pub fn p4_index(width: u128, addr: u128) -> Answer {
    page_table_index(width, addr, 4)
}

pub fn page_table_index(_width: u128, addr: u128, level: u128) -> Answer {
    answered(index_at(addr, level))
}
