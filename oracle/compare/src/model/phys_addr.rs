//! Physical addresses.

use super::numbers::{multiple, rounded_down, rounded_up};
use super::{answered, power, truth};
use crate::answer::{Answer, NOT_PHYSICAL, OVERFLOW, RESULT_NOT_PHYSICAL};

pub fn physical(number: u128) -> bool {
    number < power(52)
}

pub fn try_new(addr: u128) -> Answer {
    if physical(addr) {
        answered(addr)
    } else {
        Answer::refused(NOT_PHYSICAL)
    }
}

pub fn new_truncate(addr: u128) -> Answer {
    answered(addr % power(52))
}

pub fn zero() -> Answer {
    answered(0)
}

pub fn as_u64(addr: u128) -> Answer {
    answered(addr)
}

pub fn is_null(addr: u128) -> Answer {
    truth(addr == 0)
}

pub fn align_up(addr: u128, align: u128) -> Answer {
    match rounded_up(addr, align) {
        Ok(rounded) => result(rounded),
        Err(number) => Answer::refused(number),
    }
}

pub fn align_down(addr: u128, align: u128) -> Answer {
    match rounded_down(addr, align) {
        Ok(rounded) => answered(rounded),
        Err(number) => Answer::refused(number),
    }
}

pub fn is_aligned(addr: u128, align: u128) -> Answer {
    match multiple(addr, align) {
        Ok(value) => truth(value),
        Err(number) => Answer::refused(number),
    }
}

pub fn add(addr: u128, count: u128) -> Answer {
    let sum = addr + count;
    if sum >= power(64) {
        Answer::refused(OVERFLOW)
    } else {
        result(sum)
    }
}

pub fn sub(addr: u128, count: u128) -> Answer {
    if addr < count {
        Answer::refused(OVERFLOW)
    } else {
        result(addr - count)
    }
}

/// A number as the result of an operation on an address.
fn result(number: u128) -> Answer {
    if physical(number) {
        answered(number)
    } else {
        Answer::refused(RESULT_NOT_PHYSICAL)
    }
}

pub fn sub_addr(addr: u128, other: u128) -> Answer {
    if addr < other {
        Answer::refused(OVERFLOW)
    } else {
        answered(addr - other)
    }
}
