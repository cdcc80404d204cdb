//! The rows of the comparison.

mod addresses;
mod frames;
mod page_table;
mod pages;
mod ranges;

use std::ops::{AddAssign, SubAssign};

use x86_64::VirtAddr;

use crate::operation::Operation;

pub fn all() -> impl Iterator<Item = &'static Operation> {
    let lists = [
        addresses::NUMBERS,
        addresses::VIRT_ADDR,
        addresses::PHYS_ADDR,
        page_table::PAGE_TABLE,
        page_table::VIRT_ADDR,
        frames::PHYS_FRAME,
        pages::PAGE,
        ranges::PAGE_RANGE,
        ranges::PAGE_RANGE_INCLUSIVE,
        ranges::PHYS_FRAME_RANGE,
        ranges::PHYS_FRAME_RANGE_INCLUSIVE,
    ];
    lists.into_iter().flatten()
}

fn add_assign<T: AddAssign<u64>>(mut item: T, count: u64) -> T {
    item += count;
    item
}

fn sub_assign<T: SubAssign<u64>>(mut item: T, count: u64) -> T {
    item -= count;
    item
}

/// What a displacement comes to by the Rust's `+` and `-`, which take its size.
#[inline]
fn add_signed(addr: VirtAddr, displacement: i32) -> VirtAddr {
    let size = u64::from(displacement.unsigned_abs());
    if displacement < 0 {
        addr - size
    } else {
        addr + size
    }
}

#[cfg(test)]
mod tests {
    use super::all;
    use crate::kind::Kind;
    use crate::operation::Operation;
    use std::collections::BTreeSet;

    const HEADER: &str = include_str!("../../../include/wuohtan.h");

    /// The header's functions with the types of their arguments. The functions on images have no
    /// counterpart in the Rust; the crate `images` compares them.
    fn declared() -> BTreeSet<(String, Vec<&'static str>)> {
        let declarations = HEADER.split("uint8_t wuohtan_").skip(1);
        let declarations = declarations.filter_map(|text| {
            let (name, rest) = text.split_once('(').expect("a declaration");
            let (arguments, _) = rest.split_once(')').expect("a declaration");
            let types = arguments.split(',').map(|a| a.split_whitespace().next());
            let types = types.collect::<Option<Vec<_>>>().expect("types");
            (!arguments.contains("*image")).then(|| (name.to_string(), types))
        });
        declarations.collect()
    }

    /// The types that the header has for the row.
    fn types(operation: &Operation) -> Vec<&'static str> {
        let numbers = operation.kinds.iter().flat_map(|&kind| match kind {
            Kind::Displacement => vec!["int32_t"],
            _ => vec!["uint64_t"; kind.words()],
        });
        numbers.chain(["uint64_t", "size_t"]).collect()
    }

    #[test]
    fn the_rows_are_the_functions_of_the_header() {
        let rows: BTreeSet<_> = all().map(|o| (o.name.to_string(), types(o))).collect();
        assert_eq!(rows, declared());
    }

    #[test]
    fn every_row_has_a_number_of_its_own() {
        let numbers: BTreeSet<_> = all().map(|o| o.number).collect();
        assert_eq!(numbers.len(), all().count());
    }
}
