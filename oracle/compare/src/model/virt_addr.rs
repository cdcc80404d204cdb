//! Virtual addresses of a width.

use super::numbers::{multiple, rounded_down, rounded_up};
use super::{answered, power, truth};
use crate::answer::{Answer, NOT_CANONICAL, OVERFLOW, RESULT_NOT_CANONICAL};

/// Where the low half ends and the gap begins.
pub fn low_end(width: u128) -> u128 {
    power(width - 1)
}

/// The first address above the gap.
pub fn first_high(width: u128) -> u128 {
    power(64) - power(width - 1)
}

pub fn canonical(width: u128, number: u128) -> bool {
    number < low_end(width) || number >= first_high(width)
}

/// The number modulo 2 to the power of the width, low48 in document 01.
pub fn low(width: u128, number: u128) -> u128 {
    number % power(width)
}

/// The canonical address with these low bits.
pub fn canonical_of(width: u128, low: u128) -> u128 {
    if low < low_end(width) {
        low
    } else {
        low - low_end(width) + first_high(width)
    }
}

pub fn try_new(width: u128, addr: u128) -> Answer {
    if canonical(width, addr) {
        answered(addr)
    } else {
        Answer::refused(NOT_CANONICAL)
    }
}

pub fn new_truncate(width: u128, addr: u128) -> Answer {
    answered(canonical_of(width, low(width, addr)))
}

pub fn zero() -> Answer {
    answered(0)
}

pub fn as_u64(_width: u128, addr: u128) -> Answer {
    answered(addr)
}

pub fn is_null(_width: u128, addr: u128) -> Answer {
    truth(addr == 0)
}

pub fn align_up(width: u128, addr: u128, align: u128) -> Answer {
    match rounded_up(addr, align) {
        Ok(rounded) if rounded == power(64) => Answer::refused(OVERFLOW),
        Ok(rounded) => new_truncate(width, rounded),
        Err(number) => Answer::refused(number),
    }
}

pub fn align_down(width: u128, addr: u128, align: u128) -> Answer {
    match rounded_down(addr, align) {
        Ok(rounded) => new_truncate(width, rounded),
        Err(number) => Answer::refused(number),
    }
}

pub fn is_aligned(_width: u128, addr: u128, align: u128) -> Answer {
    match multiple(addr, align) {
        Ok(value) => truth(value),
        Err(number) => Answer::refused(number),
    }
}

pub fn add(width: u128, addr: u128, count: u128) -> Answer {
    let sum = addr + count;
    if sum >= power(64) {
        Answer::refused(OVERFLOW)
    } else {
        result(width, sum)
    }
}

pub fn sub(width: u128, addr: u128, count: u128) -> Answer {
    if addr < count {
        Answer::refused(OVERFLOW)
    } else {
        result(width, addr - count)
    }
}

/// A number of 64 bits as the result of `+` or `-`.
fn result(width: u128, number: u128) -> Answer {
    if canonical(width, number) {
        answered(number)
    } else {
        Answer::refused(RESULT_NOT_CANONICAL)
    }
}

/// The exact sum of an address and a displacement.
pub fn add_signed(width: u128, addr: u128, displacement: u128) -> Answer {
    let sum = addr as i128 + signed(displacement);
    match u128::try_from(sum) {
        Ok(sum) if sum < power(64) => result(width, sum),
        _ => Answer::refused(OVERFLOW),
    }
}

/// The signed number that the low 32 bits say.
fn signed(number: u128) -> i128 {
    let low = number % power(32);
    if low < power(31) {
        low as i128
    } else {
        low as i128 - power(32) as i128
    }
}

pub fn sub_addr(_width: u128, addr: u128, other: u128) -> Answer {
    if addr < other {
        Answer::refused(OVERFLOW)
    } else {
        answered(addr - other)
    }
}

pub fn forward_checked_u64(width: u128, start: u128, count: u128) -> Answer {
    let sum = low(width, start) + count;
    if sum < power(width) {
        answered(canonical_of(width, sum))
    } else {
        Answer::none()
    }
}

pub fn backward_checked_u64(width: u128, start: u128, count: u128) -> Answer {
    if low(width, start) >= count {
        answered(canonical_of(width, low(width, start) - count))
    } else {
        Answer::none()
    }
}

/// How far the end lies above the start, in the low bits.
pub fn steps(width: u128, start: u128, end: u128) -> Option<u128> {
    low(width, end).checked_sub(low(width, start))
}

pub fn steps_between_u64(width: u128, start: u128, end: u128) -> Answer {
    steps(width, start, end).map_or(Answer::none(), answered)
}
