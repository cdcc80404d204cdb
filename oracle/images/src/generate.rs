//! Generated images and files, in families, each at both widths. The same width, seed and index give
//! the same case, whatever other families there are.

mod bits;
mod borders;
mod bounded;
mod broken;
mod drawn;
mod files;
mod levels;
mod lines;
mod shared;
mod trees;

use generator::Generator;

use crate::image::Image;
use crate::width::Width;
use crate::worked::{self, five_levels};

pub struct Family {
    pub name: &'static str,
    /// Makes the case of an index. Families that go through a list take it from the index.
    make: fn(Width, u64, &mut Generator) -> Case,
}

pub enum Case {
    Image(Image),
    /// Bytes that need not be a file of an image.
    File(Vec<u8>),
}

impl Case {
    /// The standard input of the program `runs`, which walks 48 bits.
    pub fn input(&self) -> Vec<u8> {
        match self {
            Case::Image(image) => image.file(),
            Case::File(bytes) => bytes.clone(),
        }
    }
}

impl Family {
    pub fn case(&self, width: Width, seed: u64, index: u64) -> Case {
        let mixed = self.name.bytes().fold(seed, |sum, byte| {
            sum.wrapping_mul(0x0100_0000_01b3) ^ u64::from(byte)
        });
        let mixed = Generator::new(mixed).number() ^ index;
        (self.make)(width, index, &mut Generator::new(mixed))
    }
}

pub const FAMILIES: &[Family] = &[
    family("worked", |width, index, _| {
        let worked = match width {
            Width::Bits48 => worked::all(),
            Width::Bits57 => five_levels::all(),
        };
        let place = index as usize % worked.len();
        Case::Image(worked.into_iter().nth(place).expect("below").image)
    }),
    family("trees", trees::trees),
    family("large_pages", trees::large_pages),
    family("random_words", trees::random_words),
    family("more_words", trees::more_words),
    family("table_borders", borders::table_borders),
    family("page_sizes", borders::page_sizes),
    family("half_border", borders::half_border),
    family("upper_rights", borders::upper_rights),
    family("last_frame", borders::last_frame),
    family("each_bit", bits::each_bit),
    family("outside", broken::outside),
    family("last_page", broken::last_page),
    family("self_naming", shared::self_naming),
    family("shared_tables", shared::shared_tables),
    family("empty_between", shared::empty_between),
    family("empty_tables", bounded::empty_tables),
    family("alternating", bounded::alternating),
    family("each_other", bounded::each_other),
    family("spread_pages", bounded::spread_pages),
    family("far_stops", bounded::far_stops),
    family("many_lines", lines::many_lines),
    family("refusals", files::refusals),
    family("wrong_files", files::wrong_files),
    family("either_width", levels::either_width),
    family("root_entries", levels::root_entries),
];

const fn family(name: &'static str, make: fn(Width, u64, &mut Generator) -> Case) -> Family {
    Family { name, make }
}

#[cfg(test)]
mod tests {
    use super::*;
    use crate::reference::runs;
    use crate::reference::search::{Found, Lines};
    use crate::reference::survey::Survey;

    #[test]
    fn the_same_seed_gives_the_same_case() {
        for (family, width) in families() {
            let name = family.name;
            let case = |seed| family.case(width, seed, 7).input();
            assert!(case(1) == case(1), "{name}");
            assert!(case(1) != case(2) || name == "worked", "{name}");
        }
    }

    fn families() -> impl Iterator<Item = (&'static Family, Width)> {
        let families = FAMILIES.iter();
        families.flat_map(|family| Width::ALL.map(|width| (family, width)))
    }

    fn cases(name: &str, width: Width, count: u64) -> impl Iterator<Item = Case> {
        let family = FAMILIES.iter().find(|family| family.name == name);
        let family = family.expect("a family");
        (0..count).map(move |index| family.case(width, 1, index))
    }

    fn images(name: &str, width: Width, count: u64) -> Vec<Image> {
        let images = cases(name, width, count).map(|case| match case {
            Case::Image(image) => image,
            Case::File(_) => panic!("{name} has files"),
        });
        images.collect()
    }

    /// What is listed of a case: at 48 bits what the program should print.
    fn text(width: Width, case: Case) -> String {
        match case {
            Case::Image(image) if width == Width::Bits57 => {
                let listing = runs::listing(&image);
                listing.unwrap_or_else(|number| format!("refused {number}\n"))
            }
            case => runs::output(&case.input()),
        }
    }

    /// A family, and parts of what is listed of its first 400 cases.
    type Parts = (&'static str, &'static [&'static str]);

    const WANTED: [&[Parts]; 2] = [WANTED_AT_48, WANTED_AT_57];

    const WANTED_AT_48: &[Parts] = &[
        ("trees", &["run", "w-x", "-u-"]),
        ("each_bit", &[" 4 reserved", " 3 reserved", " 2 reserved"]),
        ("outside", &[" 4 outside", " 3 outside", " 2 outside"]),
        ("last_page", &["run ffff", "stop ffff"]),
        ("empty_tables", &["run", "end"]),
        ("alternating", &["run", "end"]),
        ("each_other", &["run ffff", "run 0000", "end"]),
        ("spread_pages", &["run", "stop", "more", "end"]),
        ("far_stops", &[" 4 reserved", " 3 reserved", " 2 reserved"]),
        ("far_stops", &[" 4 outside", " 3 outside", " 2 outside"]),
        ("many_lines", &["more", "end"]),
        ("refusals", &["refused 2", "refused 3", "refused 14", "run"]),
        ("wrong_files", &["refused 13", "refused 14"]),
        ("more_words", &["refused 13"]),
        ("root_entries", &["run", " 4 reserved"]),
    ];

    const WANTED_AT_57: &[Parts] = &[
        ("trees", &["run", "w-x", "-u-"]),
        ("each_bit", &[" 5 reserved", " 4 reserved", " 3 reserved"]),
        ("each_bit", &["run", " 2 reserved"]),
        ("outside", &[" 5 outside", " 4 outside", " 3 outside"]),
        ("outside", &[" 5 reserved", " 2 outside"]),
        (
            "last_page",
            &["run ffff", "stop ffff000000000000 5 reserved"],
        ),
        ("last_page", &["stop ffff000000000000 5 outside"]),
        ("half_border", &["run 00ffff", "run ff0000"]),
        ("empty_tables", &["run", "end"]),
        ("alternating", &["run", "end"]),
        ("each_other", &["run ffff", "run 0000", "end"]),
        ("spread_pages", &["run", "stop", "more", "end"]),
        ("far_stops", &[" 5 reserved", " 4 reserved", " 3 reserved"]),
        ("far_stops", &[" 5 outside", " 4 outside", " 3 outside"]),
        ("far_stops", &[" 2 reserved", " 2 outside"]),
        ("many_lines", &["more", "end"]),
        ("refusals", &["refused 2", "refused 3", "refused 14", "run"]),
        ("root_entries", &["run", " 5 reserved"]),
    ];

    /// Every kind of line and each refusal comes up in the families that are there for it.
    #[test]
    fn the_families_have_what_they_are_for() {
        for (width, wanted) in Width::ALL.into_iter().zip(WANTED) {
            for (name, parts) in wanted {
                let mut missing = parts.to_vec();
                let mut cases = cases(name, width, 400);
                while let (false, Some(case)) = (missing.is_empty(), cases.next()) {
                    let text = text(width, case);
                    missing.retain(|part| !text.contains(part));
                }
                assert!(missing.is_empty(), "{name} has no {missing:?} at {width:?}");
            }
        }
    }

    #[test]
    fn the_same_words_are_asked_at_both_widths() {
        for name in ["random_words", "refusals", "either_width"] {
            let [four, five] = Width::ALL.map(|width| images(name, width, 24));
            for (four, five) in four.into_iter().zip(five) {
                let width = four.width;
                assert!(Image { width, ..five } == four, "{name}");
            }
        }
    }

    /// Trees have pages at the width that they are made for, nets at both, and no list is the same.
    #[test]
    fn the_lists_of_the_same_words_differ() {
        let [four, five] = Width::ALL.map(|width| {
            let lists = cases("either_width", width, 24).map(|case| text(width, case));
            lists.collect::<Vec<_>>()
        });
        for (index, (four, five)) in four.iter().zip(&five).enumerate() {
            assert!(four != five, "case {index}");
            assert!(four.contains("run") || index % 4 == 1, "case {index}");
            assert!(five.contains("run") || index % 4 == 0, "case {index}");
        }
    }

    #[test]
    fn runs_of_57_bits_go_on_where_the_halves_of_48_end() {
        let (half, pages) = (Width::Bits48.half(), Width::Bits57.pages());
        for border in [half, pages - half] {
            let goes_on = |found| match found {
                Found::Run { page, count, .. } => page < border && border < page + count,
                _ => false,
            };
            let images = images("half_border", Width::Bits57, 100);
            let surveys = images.iter().map(Survey::of);
            let such = surveys.filter(|survey| Lines::from(survey, 0).any(goes_on));
            assert!(such.count() > 9);
        }
    }
}
