//! Pages. Each is a start and a size.

use super::virt_addr::{self, canonical_of};
use super::{answered, page_table, power};
use crate::answer::{Answer, NOT_ALIGNED, OVERFLOW, SIZES_DIFFER};

pub fn from_start_address(_width: u128, address: u128, size: u128) -> Answer {
    if address.is_multiple_of(size) {
        answered(address)
    } else {
        Answer::refused(NOT_ALIGNED)
    }
}

pub fn containing_address(_width: u128, address: u128, size: u128) -> Answer {
    answered(address - address % size)
}

pub fn start_address(_width: u128, start: u128, _size: u128) -> Answer {
    answered(start)
}

pub fn size(_width: u128, _start: u128, size: u128) -> Answer {
    answered(size)
}

/// Only a 4 KiB page has an index at level 1.
pub fn p1_index(width: u128, start: u128, size: u128) -> Answer {
    if size == power(12) {
        page_table::p1_index(width, start)
    } else {
        Answer::refused(SIZES_DIFFER)
    }
}

/// A 1 GiB page has no index at level 2.
pub fn p2_index(width: u128, start: u128, size: u128) -> Answer {
    if size == power(30) {
        Answer::refused(SIZES_DIFFER)
    } else {
        page_table::p2_index(width, start)
    }
}

pub fn p3_index(width: u128, start: u128, _size: u128) -> Answer {
    page_table::p3_index(width, start)
}

pub fn p4_index(width: u128, start: u128, _size: u128) -> Answer {
    page_table::p4_index(width, start)
}

/// As for the start address, also below the level of the page.
pub fn page_table_index(width: u128, start: u128, _size: u128, level: u128) -> Answer {
    page_table::page_table_index(width, start, level)
}

/// There is no such page where the indices have more bits than the width.
pub fn from_page_table_indices(
    width: u128,
    p5: u128,
    p4: u128,
    p3: u128,
    p2: u128,
    p1: u128,
) -> Answer {
    let upper = p5 * power(48) + p4 * power(39) + p3 * power(30);
    let assembled = upper + p2 * power(21) + p1 * power(12);
    if assembled < power(width) {
        answered(canonical_of(width, assembled))
    } else {
        Answer::none()
    }
}

pub fn from_page_table_indices_2mib(width: u128, p5: u128, p4: u128, p3: u128, p2: u128) -> Answer {
    from_page_table_indices(width, p5, p4, p3, p2, 0)
}

pub fn from_page_table_indices_1gib(width: u128, p5: u128, p4: u128, p3: u128) -> Answer {
    from_page_table_indices(width, p5, p4, p3, 0, 0)
}

/// A product that passes 64 bits is refused as the sum that passes them.
pub fn add(width: u128, start: u128, size: u128, count: u128) -> Answer {
    virt_addr::add(width, start, count * size)
}

/// A product that passes 64 bits is refused as the difference below zero.
pub fn sub(width: u128, start: u128, size: u128, count: u128) -> Answer {
    virt_addr::sub(width, start, count * size)
}

pub fn sub_page(_width: u128, start: u128, size: u128, other: u128, other_size: u128) -> Answer {
    if size != other_size {
        Answer::refused(SIZES_DIFFER)
    } else if start < other {
        Answer::refused(OVERFLOW)
    } else {
        answered((start - other) / size)
    }
}

/// A product that passes 64 bits passes those of the address steps.
pub fn forward_checked(width: u128, start: u128, size: u128, count: u128) -> Answer {
    virt_addr::forward_checked_u64(width, start, count * size)
}

pub fn backward_checked(width: u128, start: u128, size: u128, count: u128) -> Answer {
    virt_addr::backward_checked_u64(width, start, count * size)
}

pub fn steps_between_u64(
    width: u128,
    start: u128,
    size: u128,
    end: u128,
    end_size: u128,
) -> Answer {
    if size != end_size {
        return Answer::refused(SIZES_DIFFER);
    }
    match virt_addr::steps(width, start, end) {
        Some(steps) => answered(steps / size),
        None => Answer::none(),
    }
}
