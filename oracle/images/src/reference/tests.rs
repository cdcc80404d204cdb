//! The reference on cases whose answers documents 01 and 02 say or a reader can see.

use super::looks::Looks;
use super::runs::{listing, output};
use super::search::{search, Found, Lines, Reason};
use super::survey::Survey;
use super::*;
use crate::draft::{page, Draft, LARGE, NO_EXECUTE, OPEN, PRESENT, USER, WRITABLE};
use crate::generate::{Case, FAMILIES};
use crate::worked::{self, five_levels};

const BASE: u64 = 0x1000;

fn draft(width: Width, tables: usize) -> Draft {
    Draft::new(width, BASE, tables)
}

/// As many tables as a way to a page has, the root among them.
fn way(width: Width) -> Draft {
    draft(width, width.levels() as usize)
}

/// What is listed of an image; at 48 bits it is what the program should print for its file.
pub fn printed(image: &Image) -> String {
    let text = listing(image).expect("not refused");
    if image.width == Width::Bits48 {
        assert_eq!(output(&image.file()), text);
    }
    text
}

/// The state of the first page when the entry of this level, on the way to it, is this.
fn state_with(width: Width, level: u32, entry: u64) -> PageState {
    let mut draft = way(width);
    draft.put(0, level, entry);
    translate_page(&draft.image, 0)
}

fn is_mapped(state: PageState) -> bool {
    matches!(state, PageState::Mapped { .. })
}

#[test]
fn case_l() {
    let text = "run 0000000000000000 0000000000400000 513 w-x\nend\n";
    assert_eq!(printed(&worked::case_l()), text);
    assert_eq!(printed(&five_levels::case_l()), text);
}

#[test]
fn translations_of_case_l() {
    let rights = Rights {
        writable: true,
        user: false,
        no_execute: false,
    };
    let mapped = |physical, size| {
        Ok(PageState::Mapped {
            physical,
            size,
            rights,
        })
    };
    let absent = |level| Ok(PageState::Absent { level });
    for image in [worked::case_l(), five_levels::case_l()] {
        assert_eq!(translate(&image, 0x12_3456), mapped(0x52_3456, 1 << 21));
        assert_eq!(translate(&image, 0x20_0fff), mapped(0x60_0fff, 1 << 12));
        assert_eq!(translate(&image, 0x20_1000), absent(1));
        assert_eq!(translate(&image, 0x40_0000), absent(2));
        assert_eq!(translate(&image, 0x4000_0000), absent(3));
        assert_eq!(translate(&image, u64::MAX), absent(image.width.levels()));
        let sign = image.width.bits() - 1;
        assert_eq!(translate(&image, 1 << sign), Err(1));
        assert_eq!(translate(&image, (u64::MAX << sign) - 1), Err(1));
    }
    let image = five_levels::case_l();
    assert_eq!(translate(&image, (1 << 48) - 1), absent(4));
    assert_eq!(translate(&image, 1 << 48), absent(5));
}

#[test]
fn each_reserved_bit_and_no_other() {
    let reserved = |level| PageState::Reserved { level };
    for width in Width::ALL {
        let state_with = |level, entry| state_with(width, level, entry);
        for bit in 12..52 {
            let entry = OPEN | LARGE | 1 << bit;
            for level in 4..=width.levels() {
                for entry in [OPEN | LARGE, entry] {
                    assert_eq!(state_with(level, entry), reserved(level), "bit {bit}");
                }
            }
            for (level, first) in [(3, 30), (2, 21)] {
                match (13..first).contains(&bit) {
                    true => assert_eq!(state_with(level, entry), reserved(level), "bit {bit}"),
                    false => assert!(is_mapped(state_with(level, entry)), "bit {bit}"),
                }
            }
            assert!(is_mapped(state_with(1, entry)), "bit {bit}");
        }
    }
}

#[test]
fn bits_that_are_not_read() {
    for case_l in [worked::case_l(), five_levels::case_l()] {
        let width = case_l.width;
        let state_with = |level, entry| state_with(width, level, entry);
        for bit in [3, 4, 5, 6, 8, 9, 10, 11].into_iter().chain(52..63) {
            for (level, large) in [(1, 0), (2, LARGE), (3, LARGE)] {
                let entry = OPEN | large | 1 << 30;
                assert_eq!(
                    state_with(level, entry | 1 << bit),
                    state_with(level, entry),
                    "bit {bit}"
                );
            }
            let mut image = case_l.clone();
            image.words[0] |= 1 << bit;
            assert_eq!(printed(&image), printed(&case_l), "bit {bit}");
        }
        let entry = OPEN | 1 << 30;
        assert_eq!(state_with(1, entry | LARGE), state_with(1, entry));
        let large = entry | LARGE;
        assert_eq!(state_with(2, large | 1 << 12), state_with(2, large));
        for level in 1..=width.levels() {
            assert_eq!(state_with(level, !PRESENT), PageState::Absent { level });
        }
    }
}

#[test]
fn tables_outside_before_behind_and_cut_off() {
    let outside = |level| PageState::Outside { level };
    let levels = |width: Width| (2..=width.levels()).map(move |level| (width, level));
    for (width, level) in Width::ALL.into_iter().flat_map(levels) {
        for cut in [0, 1, 511] {
            let mut draft = way(width);
            let (before, behind) = (BASE - 0x1000, draft.end());
            for table in [before, behind, behind + 0x1000, (1 << 52) - 0x1000] {
                draft.put(0, level, table | OPEN);
                let mut image = draft.image.clone();
                image.words.extend(vec![1; cut]);
                assert_eq!(translate_page(&image, 0), outside(level));
            }
            // The last table that is whole.
            draft.put(0, level, (behind - 0x1000) | OPEN);
            let inside = translate_page(&draft.image, 0);
            assert_eq!(inside, PageState::Absent { level: level - 1 });
        }
    }
    for width in Width::ALL {
        let level = width.levels();
        let state = state_with(width, level, (1 << 51) | LARGE | OPEN);
        assert_eq!(state, PageState::Reserved { level });
    }
}

#[test]
fn words_behind_the_last_physical_address_are_no_table() {
    for width in Width::ALL {
        let base = (1 << 52) - 0x1000;
        let words = vec![base | OPEN; 1024];
        let image = Image {
            width,
            words,
            base,
            root: base,
        };
        assert!(is_mapped(translate_page(&image, 0)));
        let root = 1 << 52;
        assert_eq!(accept(&Image { root, ..image }), Err(2));
    }
}

#[test]
fn a_table_that_names_itself() {
    for width in Width::ALL {
        let mut draft = draft(width, 1);
        draft.set(BASE, 511, BASE | OPEN);
        let text = "run fffffffffffff000 0000000000001000 1 wux\nend\n";
        assert_eq!(printed(&draft.image), text);

        draft.set(BASE, 0, BASE | PRESENT);
        let first = "run 0000000000000000 0000000000001000 1 --x\n";
        let text = printed(&draft.image);
        assert!(text.starts_with(first), "{text}");
        assert_eq!(text.lines().count(), (1 << width.levels()) + 1);
    }
}

/// Two pages on either side of this one, with frames in a row.
fn across(width: Width, page: u64) -> Image {
    let mut draft = draft(width, 9);
    draft.map(page - 2, 1, 2, 0x100, WRITABLE);
    draft.map(page, 1, 2, 0x102, WRITABLE);
    draft.image
}

#[test]
fn a_run_ends_where_the_low_half_ends() {
    let text = "run 00007fffffffe000 0000000000100000 2 w-x\n\
                run ffff800000000000 0000000000102000 2 w-x\nend\n";
    assert_eq!(printed(&across(Width::Bits48, 1 << 35)), text);
    let text = "run 00ffffffffffe000 0000000000100000 2 w-x\n\
                run ff00000000000000 0000000000102000 2 w-x\nend\n";
    assert_eq!(printed(&across(Width::Bits57, 1 << 44)), text);
}

#[test]
fn a_run_of_57_bits_goes_on_where_a_half_of_48_ends() {
    let text = "run 00007fffffffe000 0000000000100000 4 w-x\nend\n";
    assert_eq!(printed(&across(Width::Bits57, 1 << 35)), text);
    let text = "run ffff7fffffffe000 0000000000100000 4 w-x\nend\n";
    let page = (1 << 45) - (1 << 35);
    assert_eq!(printed(&across(Width::Bits57, page)), text);
}

#[test]
fn rights_of_all_levels() {
    let levels = |width: Width| (1..=width.levels()).map(move |level| (width, level));
    for (width, level) in Width::ALL.into_iter().flat_map(levels) {
        for (bit, letters) in [(WRITABLE, "-ux"), (USER, "w-x"), (NO_EXECUTE, "wu-")] {
            let mut draft = way(width);
            draft.map(0, 1, 1, 0x77, WRITABLE | USER);
            *draft.at(0, level).expect("a way") ^= bit;
            let text = format!("run 0000000000000000 0000000000077000 1 {letters}\nend\n");
            assert_eq!(printed(&draft.image), text);
        }
    }
}

#[test]
fn frames_do_not_wrap() {
    for width in Width::ALL {
        let mut draft = way(width);
        draft.map(0, 1, 1, (1 << 40) - 1, 0);
        draft.map(1, 1, 1, 0, 0);
        let text = "run 0000000000000000 000ffffffffff000 1 --x\n\
                    run 0000000000001000 0000000000000000 1 --x\nend\n";
        assert_eq!(printed(&draft.image), text);
    }
}

#[test]
fn refusals_in_order() {
    Width::ALL.into_iter().for_each(refusals_in_order_at);
}

fn refusals_in_order_at(width: Width) {
    let bad = [(1 << 52, 2), ((1 << 52) + 1, 2), (1, 3), (BASE + 8, 3)];
    let image = |base, root| Image {
        width,
        words: vec![0; 512],
        base,
        root,
    };
    let sign = 1 << (width.bits() - 1);
    // A place that would be refused is refused only after base, root and image.
    for place in [0, 1, sign, sign + 1] {
        let both = |image: &Image| {
            let searched = search(&Survey::of(image), place);
            (translate(image, place).err(), searched.err())
        };
        for (number, refusal) in bad {
            let refused = (Some(refusal), Some(refusal));
            assert_eq!(both(&image(number, 1 << 60)), refused);
            assert_eq!(both(&image(BASE, number)), refused);
        }
        for root in [0, BASE + 0x1000] {
            assert_eq!(both(&image(BASE, root)), (Some(14), Some(14)));
        }
        let short = Image {
            words: vec![0; 511],
            ..image(BASE, BASE)
        };
        assert_eq!(both(&short), (Some(14), Some(14)));
    }
    let good = image(BASE, BASE);
    let good = Survey::of(&good);
    assert_eq!(search(&good, sign), Err(1));
    assert_eq!(search(&good, sign + 1), Err(1));
    assert_eq!(search(&good, 1), Err(3));
    assert_eq!(search(&good, 0), Ok(Found::End));
}

#[test]
fn wrong_files() {
    let refused = |file: &[u8], number: u8| {
        assert_eq!(output(file), format!("refused {number}\n"));
    };
    let file = worked::case_l().file();
    for length in [0, 1, 20, 21, file.len() - 8, file.len() - 1] {
        refused(&file[..length], 13);
    }
    refused(&[&file[..], &[0]].concat(), 13);
    refused(&[&[0], &file[1..]].concat(), 13);
    refused(&[&[1, 0, 0, 8, 1], &file[5..]].concat(), 13);
    let of = |count| Image {
        words: vec![0; count],
        ..worked::case_l()
    };
    refused(&of(7681).file(), 13);
    assert_eq!(output(&of(7680).file()), "end\n");
    refused(&of(0).file(), 14);
    let base = u64::MAX;
    refused(&Image { base, ..of(7681) }.file(), 13);
    refused(&Image { base, ..of(0) }.file(), 2);
}

/// A row of pages of one frame, up to this page, so that each is a line.
fn row(lines: u64, end: u64) -> Draft {
    let mut draft = draft(Width::Bits48, 15);
    (end - lines..end).for_each(|page| {
        draft.put(page, 1, 0x9000 | PRESENT);
    });
    draft
}

#[test]
fn the_limit_of_lines() {
    let last = |image: &Image| {
        let text = printed(image);
        let last = text.lines().last().expect("a line").to_string();
        (text.lines().count(), last)
    };
    let pages = Width::Bits48.pages();
    let end = |lines: usize| (lines + 1, "end".to_string());
    let more = |page| (4097, format!("more {page:016x}"));
    for lines in [4095, 4096] {
        assert_eq!(last(&row(lines, 5000).image), end(lines as usize));
        assert_eq!(last(&row(lines, pages).image), end(lines as usize));
    }
    assert_eq!(last(&row(4097, 5000).image), more(4999 * 0x1000));
    let top = u64::MAX - 0xfff;
    assert_eq!(last(&row(4097, pages).image), more(top));
    // The next page is absent; what comes later is a stop or a run.
    for entry in [0x5000 | PRESENT, LARGE | PRESENT | 1 << 13] {
        let mut draft = row(4096, 5000);
        draft.put(6 * 512 * 512, 2, entry);
        draft.put(page([0, 0, 40, 0]), 2, LARGE | PRESENT);
        assert_eq!(last(&draft.image), more(5000 * 0x1000));
    }
}

#[test]
fn a_search_from_within() {
    let rights = Rights {
        writable: true,
        user: false,
        no_execute: false,
    };
    let run = Found::Run {
        page: 3,
        frame: 0x403,
        count: 510,
        rights,
    };
    for image in [worked::case_l(), five_levels::case_l()] {
        assert_eq!(search(&Survey::of(&image), 0x3000), Ok(run));
    }
    for (width, next) in Width::ALL.into_iter().zip([1 << 27, 1 << 36]) {
        let mut draft = draft(width, 2);
        let level = width.levels();
        draft.put(0, level, OPEN | LARGE);
        let stop = Found::Stop {
            page: 9,
            level,
            reason: Reason::Reserved,
        };
        assert_eq!(search(&Survey::of(&draft.image), 0x9000), Ok(stop));
        assert_eq!(stop.next_page(width), Some(next));
    }
}

/// Some cases of each family that are not refused, at both widths.
pub fn some_images() -> impl Iterator<Item = Image> {
    let both = FAMILIES
        .iter()
        .flat_map(|family| Width::ALL.map(|width| (family, width)));
    let cases = both.flat_map(|(family, width)| {
        let cases = (0..24).map(move |index| family.case(width, 5, index));
        cases.filter_map(|case| match case {
            Case::Image(image) => Some(image),
            Case::File(file) => runs::image(&file),
        })
    });
    cases.filter(|image| accept(image).is_ok())
}

#[test]
fn lines_are_what_searches_give_one_after_the_other() {
    for image in some_images() {
        let survey = Survey::of(&image);
        let mut next = Some(0);
        for line in Lines::from(&survey, 0).take(300) {
            let page = next.expect("a page that was left");
            assert_eq!(search(&survey, page_address(image.width, page)), Ok(line));
            next = line.next_page(image.width);
        }
    }
}

#[test]
fn pieces_are_what_single_looks_give() {
    let few = |line: &Found| !matches!(line, Found::Run { count, .. } if *count > 1 << 20);
    for image in some_images() {
        let survey = Survey::of(&image);
        let lines = Lines::from(&survey, 0).take(50);
        let lines: Vec<_> = lines.take_while(few).collect();
        let singly = Lines::of(Looks::singly(&survey, 0));
        assert!(singly.take(lines.len()).eq(lines.iter().copied()));
    }
}

/// What is left out of a search: each page up to the next look is absent, and each under a stop is
/// as broken as its first.
#[test]
fn pages_left_out_are_settled_by_the_look_before() {
    for image in some_images() {
        let survey = Survey::of(&image);
        let mut passed = 0;
        for look in Looks::from(&survey, 0).take(60) {
            let left_out = [
                passed,
                look.page.saturating_sub(1),
                (passed + look.page) / 2,
            ];
            for page in left_out
                .into_iter()
                .filter(|&p| passed <= p && p < look.page)
            {
                let state = translate_page(&image, page);
                assert!(matches!(state, PageState::Absent { .. }));
            }
            if !is_mapped(look.state) {
                for page in [look.pages / 2, look.pages - 1] {
                    assert_eq!(translate_page(&image, look.page + page), look.state);
                }
            }
            passed = look.page + look.pages;
        }
    }
}
