//! What is known of tables, held against looks at their pages.

use super::*;
use crate::draft::{Draft, LARGE, OPEN, PRESENT};
use crate::reference::looks::Looks;
use crate::reference::search::Lines;
use crate::reference::tests::some_images;

/// So many looks may be spared if each page is to be looked at.
const FEW: u64 = 1 << 20;

/// Of each table and level, of which there are five at 57 bits, whether it is known to hold nothing.
fn known(image: &Image) -> Vec<[bool; 5]> {
    let survey = Survey::of(image);
    let tables = 0..image.words.len() / TABLE;
    let levels = |table| [1, 2, 3, 4, 5].map(|level| survey.holds_nothing(table, level));
    tables.map(levels).collect()
}

#[test]
fn lines_are_the_same_if_nothing_is_known() {
    let mut compared = 0;
    for image in some_images() {
        let (survey, unknown) = (Survey::of(&image), Survey::unknown(&image));
        let mut lines = Lines::from(&survey, 0);
        let known: Vec<_> = lines.by_ref().take(300).collect();
        if lines.passed().1 <= FEW {
            assert!(Lines::from(&unknown, 0).take(300).eq(known));
            compared += 1;
        }
    }
    assert!(compared > 300, "only {compared} images");
}

/// A table holds nothing exactly if there is no look under it: as the root, or with further tables
/// that lead to it from the first entry of each level above.
#[test]
fn tables_that_hold_nothing_are_those_without_a_look() {
    let room = |image: &Image| image.base + 8 * image.words.len() as u64 + (1 << 15) <= 1 << 52;
    // An image is surveyed for each table and level: of five levels, which take more, a third.
    let few =
        |&(number, ref image): &(usize, Image)| image.width == Width::Bits48 || number % 3 == 0;
    let images = some_images()
        .enumerate()
        .filter(few)
        .map(|(_, image)| image);
    let mut empty = 0;
    for mut image in images.filter(room) {
        let tables = image.words.len() / TABLE;
        image.words.truncate(TABLE * tables);
        // The further tables, of which number 0 leads to the table itself, 1 to number 0, and so on.
        let levels = image.width.levels();
        image.words.extend(vec![0; TABLE * (levels as usize - 1)]);
        let address = |table: usize| image.base + table as u64 * PAGE_BYTES;
        for (table, level) in (0..tables).flat_map(|table| (1..=levels).map(move |l| (table, l))) {
            image.root = address(table);
            for further in tables..tables + (levels - level) as usize {
                image.words[TABLE * further] = image.root | OPEN;
                image.root = address(further);
            }
            empty += u64::from(is_as_looked_at(&image, table, level));
        }
    }
    assert!(empty > 300, "only {empty} tables that hold nothing");
}

/// Whether the table holds nothing, which must be what looks without a survey say, unless they would
/// be too many.
fn is_as_looked_at(image: &Image, table: usize, level: u32) -> bool {
    let survey = Survey::of(image);
    let mut looks = Looks::from(&survey, 0);
    let nothing = looks.next().is_none();
    if looks.spared <= FEW {
        assert_eq!(
            Looks::from(&Survey::unknown(image), 0).next().is_none(),
            nothing
        );
        assert_eq!(survey.holds_nothing(table, level), nothing);
    }
    nothing
}

/// The levels that there are at a width.
fn all(width: Width) -> [bool; 5] {
    [1, 2, 3, 4, 5].map(|level| level <= width.levels())
}

#[test]
fn a_table_without_entries_holds_nothing_at_any_level() {
    for width in Width::ALL {
        let mut draft = Draft::new(width, 0x1000, 2);
        let (table, below) = (draft.image.root, draft.take().expect("a table"));
        assert_eq!(known(&draft.image), [all(width); 2]);
        // What is not present says nothing.
        draft.set(table, 3, u64::MAX - PRESENT);
        assert_eq!(known(&draft.image), [all(width); 2]);
        // At level 1 an entry maps a page, above it this one names a table.
        draft.set(table, 511, below | OPEN);
        let mut named = all(width);
        named[0] = false;
        assert_eq!(known(&draft.image), [named, all(width)]);
        draft.set(below, 0, table | OPEN);
        assert_eq!(known(&draft.image), [[false; 5]; 2]);
    }
}

#[test]
fn broken_entries_and_large_pages_are_something() {
    let outside = 0x5000 | OPEN;
    for width in Width::ALL {
        for entry in [outside, OPEN | LARGE, OPEN | LARGE | 1 << 13] {
            let mut draft = Draft::new(width, 0x1000, 1);
            let table = draft.image.root;
            draft.set(table, 7, entry);
            assert_eq!(known(&draft.image), [[false; 5]]);
        }
    }
}

#[test]
fn nothing_is_known_of_a_refused_image_and_of_a_part_of_a_table() {
    for width in Width::ALL {
        let mut image = Draft::new(width, 0x1000, 2).image;
        image.words.truncate(2 * TABLE - 1);
        let (survey, root) = (Survey::of(&image), width.levels());
        assert!(survey.holds_nothing(0, root) && !survey.holds_nothing(1, root));
        assert!(!survey.holds_nothing(0, root + 1));
        let root = image.base + 8;
        assert!(!Survey::of(&Image { root, ..image }).holds_nothing(0, 1));
    }
}

#[test]
fn an_empty_table_is_passed_at_once_also_from_within() {
    for width in Width::ALL {
        let image = crate::worst::empty_tables(width);
        let (survey, pages) = (Survey::of(&image), width.pages());
        for page in [0, 1, pages / 3, pages - 1] {
            let mut looks = Looks::from(&survey, page);
            assert_eq!(looks.next(), None);
            assert_eq!((looks.absent, looks.spared), (1, pages));
        }
    }
}
