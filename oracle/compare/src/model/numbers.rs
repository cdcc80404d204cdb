//! The free functions on numbers: 4, then 5.

use super::{answered, power};
use crate::answer::{Answer, NOT_POWER_OF_TWO, OVERFLOW};

pub fn align_down(addr: u128, align: u128) -> Answer {
    match rounded_down(addr, align) {
        Ok(rounded) => answered(rounded),
        Err(number) => Answer::refused(number),
    }
}

pub fn align_up(addr: u128, align: u128) -> Answer {
    match rounded_up(addr, align) {
        Ok(rounded) if rounded >= power(64) => Answer::refused(OVERFLOW),
        Ok(rounded) => answered(rounded),
        Err(number) => Answer::refused(number),
    }
}

/// The greatest multiple of the alignment that is not above the number, or 4.
pub fn rounded_down(number: u128, align: u128) -> Result<u128, u8> {
    if !power_of_two(align) {
        return Err(NOT_POWER_OF_TWO);
    }
    Ok(number / align * align)
}

/// The least multiple of the alignment that is not below the number, or 4.
pub fn rounded_up(number: u128, align: u128) -> Result<u128, u8> {
    if !power_of_two(align) {
        return Err(NOT_POWER_OF_TWO);
    }
    Ok(number.div_ceil(align) * align)
}

/// Whether the number is a multiple of the alignment, or 4.
pub fn multiple(number: u128, align: u128) -> Result<bool, u8> {
    if !power_of_two(align) {
        return Err(NOT_POWER_OF_TWO);
    }
    Ok(number.is_multiple_of(align))
}

fn power_of_two(align: u128) -> bool {
    (0..64).any(|n| align == power(n))
}
