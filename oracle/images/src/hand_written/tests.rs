//! The hand-written functions, held against the reference as the port's are.

use generator::Generator;

use super::*;
use crate::generate::{Case, FAMILIES};
use crate::library::{compare, Library};
use crate::width::Width;

const CASES: u64 = 24;

fn cases(width: Width) -> impl Iterator<Item = (Width, u64)> {
    (0..CASES).map(move |index| (width, index))
}

fn hold(library: Library) {
    for family in FAMILIES {
        for (width, index) in Width::ALL.into_iter().flat_map(cases) {
            if let Case::Image(image) = family.case(width, 1, index) {
                let compared = compare(library, &image, &mut Generator::new(index));
                if let Err(difference) = compared {
                    panic!("{}, case {index}: {difference}", family.name);
                }
            }
        }
    }
}

#[test]
fn no_difference_from_the_reference() {
    hold(HAND_WRITTEN);
}

#[test]
fn no_difference_of_a_list_by_searches() {
    hold(Library {
        list: LIST_BY_SEARCHES,
        ..HAND_WRITTEN
    });
}
