//! The cases that document 01 writes out, as document 02 has amended them, and those that document 02
//! names beside them, for the operations that are here. They hold the model to the documents, before it
//! is held against the Rust and the port.

mod each_width;
mod frames;
mod width_48;
mod width_57;

use crate::answer::{
    Answer, ANSWERED, DRAW_MEETS_GAP, INDEX_TOO_LARGE, NONE, NOT_CANONICAL, NO_SUCH_CHOICE,
    OVERFLOW, RESULT_NOT_CANONICAL,
};
use crate::operation::Operation;

/// The case, the operation, its arguments and the answer.
pub struct Case {
    pub name: &'static str,
    pub operation: &'static str,
    pub args: &'static [u64],
    status: u8,
    words: &'static [u64],
}

impl Case {
    pub fn answer(&self) -> Answer {
        match self.status {
            ANSWERED => Answer::words(self.words),
            status => Answer::refused(status),
        }
    }
}

fn all() -> impl Iterator<Item = &'static Case> {
    let lists = [frames::CASES, width_48::CASES, width_57::CASES];
    lists.into_iter().flatten()
}

/// The cases of this operation.
pub fn of(operation: &Operation) -> impl Iterator<Item = &'static Case> + '_ {
    all().filter(|case| case.operation == operation.name)
}

const SIZE_4KIB: u64 = 1 << 12;
const SIZE_2MIB: u64 = 1 << 21;
const SIZE_1GIB: u64 = 1 << 30;

const LEAST: u64 = -(1i64 << 31) as u64;
const MINUS_1: u64 = -1i64 as u64;
const GREATEST: u64 = (1 << 31) - 1;

const TRY_NEW: &str = "virt_addr_try_new";
const TRUNCATE: &str = "virt_addr_new_truncate";
const ADD: &str = "virt_addr_add";
const ADD_SIGNED: &str = "virt_addr_add_signed";
const FORWARD: &str = "virt_addr_forward_checked_u64";
const STEPS: &str = "virt_addr_steps_between_u64";
const ALIGN_UP: &str = "virt_addr_align_up";
const ALIGN_DOWN: &str = "virt_addr_align_down";
const OFFSET: &str = "virt_addr_page_offset";
const INDEX: &str = "virt_addr_page_table_index";
const LOWER: &str = "page_table_level_next_lower_level";
const HIGHER: &str = "page_table_level_next_higher_level";
const TABLE_SPAN: &str = "page_table_level_table_address_space_alignment";
const ENTRY_SPAN: &str = "page_table_level_entry_address_space_alignment";
const INDICES: &str = "page_from_page_table_indices";
const INDICES_2MIB: &str = "page_from_page_table_indices_2mib";
const INDICES_1GIB: &str = "page_from_page_table_indices_1gib";
const LEN: &str = "page_range_len";
const SIZE: &str = "page_range_size";
const NEXT: &str = "page_range_next";
const NTH: &str = "page_range_nth";
const NEXT_BACK: &str = "page_range_next_back";
const NTH_BACK: &str = "page_range_nth_back";
const INCLUSIVE_LEN: &str = "page_range_inclusive_len";
const INCLUSIVE_SIZE: &str = "page_range_inclusive_size";
const INCLUSIVE_NEXT: &str = "page_range_inclusive_next";
const INCLUSIVE_NTH: &str = "page_range_inclusive_nth";
const INCLUSIVE_NEXT_BACK: &str = "page_range_inclusive_next_back";
const INCLUSIVE_NTH_BACK: &str = "page_range_inclusive_nth_back";

/// A range of 4 KiB pages behind its width.
const fn pages(width: u64, start: u64, end: u64) -> [u64; 5] {
    [width, start, SIZE_4KIB, end, SIZE_4KIB]
}

/// A range behind its width, and how many items a draw passes over.
const fn with([width, start, start_size, end, end_size]: [u64; 5], n: u64) -> [u64; 6] {
    [width, start, start_size, end, end_size, n]
}

/// A case that is answered with these words.
const fn gives(
    name: &'static str,
    operation: &'static str,
    args: &'static [u64],
    words: &'static [u64],
) -> Case {
    Case {
        name,
        operation,
        args,
        status: ANSWERED,
        words,
    }
}

/// A case that is none or is refused.
const fn ends(
    name: &'static str,
    operation: &'static str,
    args: &'static [u64],
    status: u8,
) -> Case {
    Case {
        name,
        operation,
        args,
        status,
        words: &[],
    }
}

/// A draw of request One, with its item and the range left.
const fn drawn(operation: &'static str, args: &'static [u64], words: &'static [u64]) -> Case {
    gives("request One", operation, args, words)
}

/// A draw over the gap, which request One leaves refused.
const fn not_drawn(operation: &'static str, args: &'static [u64]) -> Case {
    ends("request One", operation, args, DRAW_MEETS_GAP)
}

/// A width, an address and a displacement of request Two, with their sum.
const fn displaced(args: &'static [u64], sum: &'static [u64]) -> Case {
    gives("request Two", ADD_SIGNED, args, sum)
}

/// A width, an address and a displacement of request Two that are refused.
const fn not_displaced(args: &'static [u64], status: u8) -> Case {
    ends("request Two", ADD_SIGNED, args, status)
}

/// A range of request Three, with its length or its size.
const fn counted(operation: &'static str, range: &'static [u64], count: &'static [u64]) -> Case {
    gives("request Three", operation, range, count)
}

/// What there is at a width, which request Four tells from the other.
const fn has(operation: &'static str, args: &'static [u64], words: &'static [u64]) -> Case {
    gives("request Four", operation, args, words)
}

/// What there is not at a width, or at a number that is none.
const fn has_not(operation: &'static str, args: &'static [u64], status: u8) -> Case {
    ends("request Four", operation, args, status)
}

/// A width and a number of request Five, with its sign extension.
const fn extended(args: &'static [u64], address: &'static [u64]) -> Case {
    gives("request Five", TRUNCATE, args, address)
}

#[cfg(test)]
mod tests {
    use super::all;
    use crate::operations;

    #[test]
    fn every_case_has_its_operation() {
        for case in all() {
            assert!(
                operations::all().any(|o| o.name == case.operation),
                "{}",
                case.operation
            );
        }
    }

    #[test]
    fn the_model_gives_every_case() {
        for operation in operations::all() {
            for case in super::of(operation) {
                assert!(
                    operation.ask_model(case.args) == case.answer(),
                    "{} {:x?}: {} in case {}",
                    case.operation,
                    case.args,
                    operation.ask_model(case.args),
                    case.name
                );
            }
        }
    }
}
