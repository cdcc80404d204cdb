//! The same at 57 bits: five levels of tables, and what is new at the fifth. The program `runs` walks
//! 48 bits, so there are no files of these.

use super::{from_0x1000, Worked};
use crate::draft::{page, Draft, LARGE, NO_EXECUTE, OPEN, PRESENT, USER, WRITABLE};
use crate::image::{Image, PAGE_BYTES};
use crate::width::Width;

pub fn all() -> Vec<Worked> {
    let worked = [
        ("case_l", case_l()),
        ("small_kernel", small_kernel()),
        ("page_sizes", page_sizes()),
        ("damaged", damaged()),
        ("self_map", self_map()),
    ];
    let worked = worked.into_iter();
    worked.map(|(name, image)| Worked { name, image }).collect()
}

/// Case L of document 01 under one more table.
pub fn case_l() -> Image {
    let words = [
        (0x1000, 0x2003),
        (0x2000, 0x3003),
        (0x3000, 0x4003),
        (0x4000, 0x40_0083),
        (0x4008, 0x5003),
        (0x5000, 0x60_0003),
    ];
    from_0x1000(Width::Bits57, 2560, &words)
}

fn draft(base: u64, tables: usize) -> Draft {
    Draft::new(Width::Bits57, base, tables)
}

/// A process below the gap, its stack up to the last low page, and a kernel above it: all memory from
/// the first high page on, code and data where they are at 48 bits.
fn small_kernel() -> Image {
    let mut draft = draft(0x10_0000, 16);
    let code = page([0, 0, 0, 2, 0]);
    draft.map(code, 1, 16, 0x800, USER);
    draft.map(code + 16, 1, 4, 0x810, USER | NO_EXECUTE);
    draft.map(code + 20, 1, 8, 0x900, USER | WRITABLE | NO_EXECUTE);
    let stack = page([255, 511, 511, 511, 504]);
    draft.map(stack, 1, 8, 0xa00, USER | WRITABLE | NO_EXECUTE);

    let memory = page([256, 0, 0, 0, 0]);
    draft.map(memory, 2, 64, 0, WRITABLE | NO_EXECUTE);
    let kernel = page([511, 511, 510, 0, 0]);
    draft.map(kernel, 1, 32, 0x200, 0);
    draft.map(kernel + 32, 1, 16, 0x220, WRITABLE | NO_EXECUTE);
    draft.image
}

/// One run from 4 KiB pages over 2 MiB pages to 1 GiB pages, over the borders of four tables, where
/// 48 bits end; then the same frames again, where an entry of level 5 takes away the right to write.
fn page_sizes() -> Image {
    let mut draft = draft(0, 12);
    let gib = page([1, 0, 0, 0, 0]);
    draft.map(gib - 2 * 512 - 3, 1, 3, 0x8_0000 - 2 * 512 - 3, WRITABLE);
    draft.map(gib - 2 * 512, 2, 2, 0x8_0000 - 2 * 512, WRITABLE);
    draft.map(gib, 3, 2, 0x8_0000, WRITABLE);

    let again = page([4, 0, 0, 0, 0]);
    draft.map(again - 512, 2, 1, 0x8_0000 - 512, WRITABLE);
    draft.map(again, 3, 1, 0x8_0000, WRITABLE);
    if let Some(entry) = draft.at(again - 512, 5) {
        *entry &= !WRITABLE;
    }
    draft.image
}

/// Entries of levels 2 to 5 that are reserved or name tables that are not wholly inside; the last
/// part of the image is shorter than a table.
fn damaged() -> Image {
    let mut draft = draft(0x20_0000, 6);
    draft.map(page([0, 0, 0, 0, 0]), 1, 4, 0x300, WRITABLE);
    let (base, end) = (draft.image.base, draft.end());
    draft.put(page([0, 0, 0, 1, 0]), 2, (base - PAGE_BYTES) | OPEN);
    draft.put(page([0, 0, 0, 2, 0]), 2, end | OPEN);
    draft.put(page([0, 0, 0, 3, 0]), 2, LARGE | PRESENT | 1 << 13);
    draft.map(page([0, 0, 0, 4, 0]), 2, 1, 0x400, WRITABLE);
    draft.put(page([0, 0, 1, 0, 0]), 3, LARGE | PRESENT | 1 << 29);
    draft.put(page([0, 0, 2, 0, 0]), 3, (end + PAGE_BYTES) | OPEN);
    draft.put(page([0, 1, 0, 0, 0]), 4, base | LARGE | OPEN);
    draft.put(page([0, 2, 0, 0, 0]), 4, end | OPEN);
    draft.put(page([1, 0, 0, 0, 0]), 5, LARGE | PRESENT);
    draft.put(page([256, 0, 0, 0, 0]), 5, base | LARGE | OPEN);
    draft.put(page([511, 0, 0, 0, 0]), 5, (1 << 51) | OPEN);
    draft.image.words.extend([PRESENT; 100]);
    draft.image
}

/// The root names itself at index 510, so that the tables are pages too.
fn self_map() -> Image {
    let mut draft = draft(0x5000, 5);
    let root = draft.image.root;
    draft.set(root, 510, root | PRESENT | WRITABLE | NO_EXECUTE);
    draft.map(page([0, 0, 0, 0, 16]), 1, 2, 0x77, WRITABLE);
    draft.image
}

#[cfg(test)]
mod tests {
    use super::*;
    use crate::reference::tests::printed;
    use crate::reference::{translate, PageState, Rights};
    use crate::worked;

    /// What is in them, worked out by hand from the tables.
    const LISTS: [&str; 5] = [
        "run 0000000000000000 0000000000400000 513 w-x\n\
         end\n",
        "run 0000000000400000 0000000000800000 16 -ux\n\
         run 0000000000410000 0000000000810000 4 -u-\n\
         run 0000000000414000 0000000000900000 8 wu-\n\
         run 00ffffffffff8000 0000000000a00000 8 wu-\n\
         run ff00000000000000 0000000000000000 32768 w--\n\
         run ffffffff80000000 0000000000200000 32 --x\n\
         run ffffffff80020000 0000000000220000 16 w--\n\
         end\n",
        "run 0000ffffffbfd000 000000007fbfd000 525315 w-x\n\
         run 0003ffffffe00000 000000007fe00000 512 --x\n\
         run 0004000000000000 0000000080000000 262144 w-x\n\
         end\n",
        "run 0000000000000000 0000000000300000 4 w-x\n\
         stop 0000000000200000 2 outside\n\
         stop 0000000000400000 2 outside\n\
         stop 0000000000600000 2 reserved\n\
         run 0000000000800000 0000000000400000 512 w-x\n\
         stop 0000000040000000 3 reserved\n\
         stop 0000000080000000 3 outside\n\
         stop 0000008000000000 4 reserved\n\
         stop 0000010000000000 4 outside\n\
         stop 0001000000000000 5 reserved\n\
         stop ff00000000000000 5 reserved\n\
         stop ffff000000000000 5 outside\n\
         end\n",
        "run 0000000000010000 0000000000077000 2 w-x\n\
         run fffe000000000000 0000000000009000 1 w--\n\
         run fffeff0000000000 0000000000008000 1 w--\n\
         run fffeff7f80000000 0000000000007000 1 w--\n\
         run fffeff7fbfc00000 0000000000006000 1 w--\n\
         run fffeff7fbfdfe000 0000000000005000 1 w--\n\
         end\n",
    ];

    #[test]
    fn they_hold_what_was_worked_out() {
        for (Worked { name, image }, list) in all().iter().zip(LISTS) {
            assert_eq!(printed(image), list, "{name}");
        }
    }

    #[test]
    fn translations_at_the_fifth_level() {
        let rights = Rights {
            writable: true,
            user: true,
            no_execute: true,
        };
        let stack = PageState::Mapped {
            physical: 0xa0_7fff,
            size: 1 << 12,
            rights,
        };
        let absent = PageState::Absent { level: 5 };
        let kernel = small_kernel();
        assert_eq!(translate(&kernel, (1 << 56) - 1), Ok(stack));
        assert_eq!(translate(&kernel, 1 << 56), Err(1));
        assert_eq!(translate(&kernel, (u64::MAX << 56) - 1), Err(1));
        assert_eq!(translate(&kernel, 1 << 48), Ok(absent));
        let [reserved, outside] = [u64::MAX << 56, u64::MAX].map(|address| {
            let state = translate(&damaged(), address);
            state.expect("canonical")
        });
        assert_eq!(reserved, PageState::Reserved { level: 5 });
        assert_eq!(outside, PageState::Outside { level: 5 });
    }

    /// The root of the one is read as a table of level 4, and that of the other as one of level 5.
    #[test]
    fn each_case_l_at_the_other_width() {
        let width = Width::Bits48;
        let text = "run 0000000000000000 0000000000400000 1 w-x\n\
                    run 0000000000001000 0000000000005000 1 w-x\nend\n";
        assert_eq!(printed(&Image { width, ..case_l() }), text);
        let width = Width::Bits57;
        let image = Image {
            width,
            ..worked::case_l()
        };
        let text = "stop 0000000000000000 3 reserved\n\
                    stop 0000000040000000 2 outside\nend\n";
        assert_eq!(printed(&image), text);
    }
}
