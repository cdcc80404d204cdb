//! Frames. Each is a start and a size.

use super::{answered, phys_addr};
use crate::answer::{Answer, NOT_ALIGNED, OVERFLOW, PFN_TOO_LARGE, SIZES_DIFFER};

pub fn from_start_address(address: u128, size: u128) -> Answer {
    if address.is_multiple_of(size) {
        answered(address)
    } else {
        Answer::refused(NOT_ALIGNED)
    }
}

pub fn try_from_pfn(pfn: u128, size: u128) -> Answer {
    if phys_addr::physical(pfn * size) {
        answered(pfn * size)
    } else {
        Answer::refused(PFN_TOO_LARGE)
    }
}

pub fn containing_address(address: u128, size: u128) -> Answer {
    answered(address - address % size)
}

pub fn start_address(start: u128, _size: u128) -> Answer {
    answered(start)
}

pub fn size(_start: u128, size: u128) -> Answer {
    answered(size)
}

pub fn pfn(start: u128, size: u128) -> Answer {
    answered(start / size)
}

/// A product that passes 64 bits is refused as the sum that passes them.
pub fn add(start: u128, size: u128, count: u128) -> Answer {
    phys_addr::add(start, count * size)
}

/// A product that passes 64 bits is refused as the difference below zero.
pub fn sub(start: u128, size: u128, count: u128) -> Answer {
    phys_addr::sub(start, count * size)
}

pub fn sub_frame(start: u128, size: u128, other: u128, other_size: u128) -> Answer {
    if size != other_size {
        Answer::refused(SIZES_DIFFER)
    } else if start < other {
        Answer::refused(OVERFLOW)
    } else {
        answered((start - other) / size)
    }
}
