//! The comparison, tried with the reference in the place of the port, and with such that are wrong.

use super::*;
use crate::draft::{LARGE, PRESENT};
use crate::generate::{Case, FAMILIES};
use crate::image::TABLE;
use crate::reference::span_pages;
use crate::worked::{self, five_levels};

type Asked = fn(&Image, u64) -> Answer;

/// What is asked for under the convention of the library.
unsafe fn stand_in(
    asked: Asked,
    width: u64,
    (image, words, base, root): (*const u64, usize, u64, u64),
    place: u64,
    (out, room): (*mut u64, usize),
) -> u8 {
    let Some(width) = Width::of(width) else {
        return NO_SUCH_CHOICE;
    };
    let image = Image {
        width,
        words: lent(image, words).to_vec(),
        base,
        root,
    };
    let answer = asked(&image, place);
    if answer.words.len() > room {
        return NO_ROOM;
    }
    lent_to_write(out, answer.words.len()).copy_from_slice(&answer.words);
    answer.status
}

macro_rules! stand_ins {
    ($($name:ident $asked:expr;)*) => {
        $(unsafe extern "C" fn $name(
            width: u64,
            image: *const u64,
            words: usize,
            base: u64,
            root: u64,
            place: u64,
            out: *mut u64,
            room: usize,
        ) -> u8 {
            stand_in($asked, width, (image, words, base, root), place, (out, room))
        })*
    };
}

stand_ins! {
    own_translate translated;
    own_search |image, page| searched(&Survey::of(image), page);
    always_end |_, _| Answer { status: ANSWERED, words: vec![0; 5] };
    from_level_4 |image, address| walked_at(Width::Bits48, image, address);
    from_level_5 |image, address| walked_at(Width::Bits57, image, address);
    root_index_a_bit_low |image, address| root_index_from(image.width.bits() - 10, image, address);
    root_index_a_bit_high |image, address| root_index_from(image.width.bits() - 8, image, address);
    root_bit_7_unread without_root_bit_7;
    root_bit_7_maps mapped_by_root_bit_7;
    gap_of_48_bits |image, address| match page_at(Width::Bits48, address - address % PAGE_BYTES) {
        Ok(_) => translated(image, address),
        Err(number) => answer(Err(number)),
    };
}

const OWN: Library = Library {
    translate: own_translate,
    search: own_search,
    list: list::tests::own_list,
};

/// The number of the page of an address, and the pages under an entry of the root.
fn page_of(image: &Image, address: u64) -> (u64, u64) {
    let page = address / PAGE_BYTES % image.width.pages();
    (page, span_pages(image.width.levels()))
}

/// The walk at a width that need not be the image's.
fn walked_at(width: Width, image: &Image, address: u64) -> Answer {
    let own = translated(image, address);
    if own.status != ANSWERED {
        return own;
    }
    let image = Image {
        width,
        ..image.clone()
    };
    let (page, _) = page_of(&image, address);
    translated(&image, page_address(width, page) + address % PAGE_BYTES)
}

/// The walk with the index at the root taken from this bit of the address on.
fn root_index_from(bit: u64, image: &Image, address: u64) -> Answer {
    let own = translated(image, address);
    if own.status != ANSWERED {
        return own;
    }
    let (page, span) = page_of(image, address);
    let page = (address >> bit) % TABLE as u64 * span + page % span;
    translated(
        image,
        page_address(image.width, page) + address % PAGE_BYTES,
    )
}

/// The entry of the root on the way to an address, if neither is refused.
fn root_entry<'a>(image: &'a mut Image, address: u64) -> Option<&'a mut u64> {
    translate(image, address).ok()?;
    let (page, span) = page_of(image, address);
    let root = (image.root - image.base) / 8;
    Some(&mut image.words[(root + page / span) as usize])
}

fn without_root_bit_7(image: &Image, address: u64) -> Answer {
    let mut image = image.clone();
    if let Some(entry) = root_entry(&mut image, address) {
        *entry &= !LARGE;
    }
    translated(&image, address)
}

fn mapped_by_root_bit_7(image: &Image, address: u64) -> Answer {
    let (_, span) = page_of(image, address);
    let size = span * PAGE_BYTES;
    match root_entry(&mut image.clone(), address) {
        Some(entry) if *entry & (PRESENT | LARGE) == PRESENT | LARGE => {
            let physical = *entry % (1 << 52) / size * size + address % size;
            let rights = (*entry >> 1 & 3) | (*entry >> 63 << 2);
            answer(Ok(vec![0, physical, size, rights]))
        }
        _ => translated(image, address),
    }
}

#[test]
fn the_reference_agrees_with_itself() {
    for family in FAMILIES {
        let four = [0, 1, 2, 3].map(|index| (Width::Bits48, index));
        let five = [0, 1].map(|index| (Width::Bits57, index));
        for (width, index) in four.into_iter().chain(five) {
            let mut generator = Generator::new(index);
            if let Case::Image(image) = family.case(width, 1, index) {
                assert_eq!(image.width, width);
                let questions = compare(OWN, &image, &mut generator).expect("agreement");
                assert!(questions > 0);
            }
        }
    }
}

fn difference(library: Library, image: &Image) -> Difference {
    compare(library, image, &mut Generator::new(1)).expect_err("a difference")
}

#[test]
fn a_search_that_always_ends_differs() {
    let wrong = Library {
        search: always_end,
        ..OWN
    };
    for image in [worked::case_l(), five_levels::case_l()] {
        assert_eq!(difference(wrong, &image).function, "search");
    }
}

/// Walks that go wrong at the root: the width, and the indices, modulo 4, of the cases of a family
/// that show it.
const WRONG_AT_THE_ROOT: [(Function, Width, &str, &[u64]); 13] = [
    (from_level_4, Width::Bits57, "either_width", &[0, 1, 2, 3]),
    (from_level_5, Width::Bits48, "either_width", &[0, 1, 2, 3]),
    (from_level_4, Width::Bits57, "root_entries", &[0, 1, 2, 3]),
    (from_level_5, Width::Bits48, "root_entries", &[0, 1, 2, 3]),
    (root_index_a_bit_low, Width::Bits48, "root_entries", &[0]),
    (root_index_a_bit_low, Width::Bits57, "root_entries", &[0]),
    (root_index_a_bit_high, Width::Bits48, "root_entries", &[1]),
    (root_index_a_bit_high, Width::Bits57, "root_entries", &[1]),
    (root_bit_7_unread, Width::Bits48, "root_entries", &[2]),
    (root_bit_7_unread, Width::Bits57, "root_entries", &[2]),
    (root_bit_7_maps, Width::Bits48, "root_entries", &[2, 3]),
    (root_bit_7_maps, Width::Bits57, "root_entries", &[2, 3]),
    (gap_of_48_bits, Width::Bits57, "half_border", &[0, 1, 2, 3]),
];

/// Not each of these cases shows it: of some images only what lies behind a drawn page is looked for.
#[test]
fn a_walk_that_goes_wrong_at_the_root_differs() {
    for (translate, width, name, indices) in WRONG_AT_THE_ROOT {
        let wrong = Library { translate, ..OWN };
        let family = FAMILIES.iter().find(|family| family.name == name);
        let family = family.expect("a family");
        let cases = (0..32).filter(|index| indices.contains(&(index % 4)));
        let (mut asked, mut differing) = (0, 0);
        for index in cases {
            if let Case::Image(image) = family.case(width, 1, index) {
                asked += 1;
                let compared = compare(wrong, &image, &mut Generator::new(index));
                let differs = |difference: Difference| difference.function == "translate";
                differing += u64::from(compared.is_err_and(differs));
            }
        }
        assert!(2 * differing >= asked, "{name}: {differing} of {asked}");
    }
}

macro_rules! wrong_at_widths {
    ($($name:ident |$width:ident, $own:ident, $out:pat_param| $status:expr;)*) => {
        $(unsafe extern "C" fn $name(
            $width: u64,
            image: *const u64,
            words: usize,
            base: u64,
            root: u64,
            place: u64,
            out: *mut u64,
            room: usize,
        ) -> u8 {
            let $own = |width| own_translate(width, image, words, base, root, place, out, room);
            let $out = lent_to_write(out, room);
            $status
        })*
    };
}

wrong_at_widths! {
    half_of_the_width |width, own, _| own(width % (1 << 32));
    refusals_before_the_width |width, own, _| match (Width::of(width), own(48)) {
        (None, number) if ![ANSWERED, NO_ROOM].contains(&number) => number,
        _ => own(width),
    };
    room_before_the_width |width, own, out| match (Width::of(width), out.len()) {
        (None, 0..4) => NO_ROOM,
        _ => own(width),
    };
    writing_before_the_width |width, own, out| {
        if Width::of(width).is_none() {
            out.fill(0);
        }
        own(width)
    };
}

#[test]
fn a_number_that_is_no_width_must_be_refused_first() {
    for translate in [
        half_of_the_width,
        refusals_before_the_width,
        room_before_the_width,
        writing_before_the_width,
    ] {
        let wrong = Library { translate, ..OWN };
        for image in [worked::case_l(), five_levels::case_l()] {
            let difference = difference(wrong, &image);
            assert!(Width::of(difference.width).is_none());
        }
    }
}
