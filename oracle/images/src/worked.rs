//! Images worked out by hand: at 48 bits for the folder examples/, and such at 57.

pub mod five_levels;

use crate::draft::{page, Draft, LARGE, NO_EXECUTE, OPEN, PRESENT, USER, WRITABLE};
use crate::image::{Image, PAGE_BYTES};
use crate::reference::runs;
use crate::width::Width;

pub struct Worked {
    pub name: &'static str,
    pub image: Image,
}

impl Worked {
    /// The files of this image: their names and what is in them.
    pub fn files(&self) -> [(String, Vec<u8>); 2] {
        let file = self.image.file();
        let output = runs::output(&file).into_bytes();
        let name = self.name;
        [
            (format!("{name}.image"), file),
            (format!("{name}.txt"), output),
        ]
    }
}

pub fn all() -> Vec<Worked> {
    let worked = [
        ("case_l", case_l()),
        ("small_kernel", small_kernel()),
        ("page_sizes", page_sizes()),
        ("damaged", damaged()),
        ("self_map", self_map()),
    ];
    let worked = worked.into_iter();
    worked.map(|(name, image)| Worked { name, image }).collect()
}

/// Case L of document 01: a 2 MiB page and a 4 KiB page after it are one run.
pub fn case_l() -> Image {
    let words = [
        (0x1000, 0x2003),
        (0x2000, 0x3003),
        (0x3000, 0x40_0083),
        (0x3008, 0x4003),
        (0x4000, 0x60_0003),
    ];
    from_0x1000(Width::Bits48, 2048, &words)
}

/// So many words, zero but for those at these addresses; base and root are 0x1000.
fn from_0x1000(width: Width, count: usize, words: &[(usize, u64)]) -> Image {
    let mut image = Image {
        width,
        words: vec![0; count],
        base: 0x1000,
        root: 0x1000,
    };
    for (address, word) in words {
        image.words[(address - 0x1000) / 8] = *word;
    }
    image
}

/// A process below the gap (code, constants, data, a stack up to the last low page) and a kernel
/// above it (all memory in 2 MiB pages, code, data).
fn small_kernel() -> Image {
    let mut draft = Draft::new(Width::Bits48, 0x10_0000, 12);
    let code = page([0, 0, 2, 0]);
    draft.map(code, 1, 16, 0x800, USER);
    draft.map(code + 16, 1, 4, 0x810, USER | NO_EXECUTE);
    draft.map(code + 20, 1, 8, 0x900, USER | WRITABLE | NO_EXECUTE);
    let stack = page([255, 511, 511, 504]);
    draft.map(stack, 1, 8, 0xa00, USER | WRITABLE | NO_EXECUTE);

    let memory = page([256, 0, 0, 0]);
    draft.map(memory, 2, 64, 0, WRITABLE | NO_EXECUTE);
    let kernel = page([511, 510, 0, 0]);
    draft.map(kernel, 1, 32, 0x200, 0);
    draft.map(kernel + 32, 1, 16, 0x220, WRITABLE | NO_EXECUTE);
    draft.image
}

/// One run from 4 KiB pages over 2 MiB pages to 1 GiB pages, over the borders of three tables; then
/// the same frames again, where an upper entry takes away the right to write.
fn page_sizes() -> Image {
    let mut draft = Draft::new(Width::Bits48, 0, 10);
    let gib = page([0, 2, 0, 0]);
    draft.map(gib - 2 * 512 - 3, 1, 3, 0x8_0000 - 2 * 512 - 3, WRITABLE);
    draft.map(gib - 2 * 512, 2, 2, 0x8_0000 - 2 * 512, WRITABLE);
    draft.map(gib, 3, 2, 0x8_0000, WRITABLE);

    let again = page([1, 2, 0, 0]);
    draft.map(again - 512, 2, 1, 0x8_0000 - 512, WRITABLE);
    draft.map(again, 3, 1, 0x8_0000, WRITABLE);
    if let Some(entry) = draft.at(again - 512, 3) {
        *entry &= !WRITABLE;
    }
    draft.image
}

/// Entries that are reserved or name tables that are not wholly inside, with pages between them;
/// the last part of the image is shorter than a table.
fn damaged() -> Image {
    let mut draft = Draft::new(Width::Bits48, 0x20_0000, 5);
    draft.map(page([0, 0, 0, 0]), 1, 4, 0x300, WRITABLE);
    let (base, end) = (draft.image.base, draft.end());
    draft.put(page([0, 0, 1, 0]), 2, (base - PAGE_BYTES) | OPEN);
    draft.put(page([0, 0, 2, 0]), 2, end | OPEN);
    draft.put(page([0, 0, 3, 0]), 2, LARGE | PRESENT | 1 << 13);
    draft.map(page([0, 0, 4, 0]), 2, 1, 0x400, WRITABLE);
    draft.put(page([0, 1, 0, 0]), 3, LARGE | PRESENT | 1 << 29);
    draft.put(page([0, 2, 0, 0]), 3, (end + PAGE_BYTES) | OPEN);
    draft.put(page([256, 0, 0, 0]), 4, base | LARGE | OPEN);
    draft.put(page([511, 0, 0, 0]), 4, (1 << 51) | OPEN);
    draft.image.words.extend([PRESENT; 100]);
    draft.image
}

/// The root names itself at index 510, so that the tables are pages too.
fn self_map() -> Image {
    let mut draft = Draft::new(Width::Bits48, 0x5000, 4);
    let root = draft.image.root;
    draft.set(root, 510, root | PRESENT | WRITABLE | NO_EXECUTE);
    draft.map(page([0, 0, 0, 16]), 1, 2, 0x77, WRITABLE);
    draft.image
}

#[cfg(test)]
mod tests {
    use std::{fs, path::Path};

    use super::*;

    #[test]
    fn the_files_in_examples_are_these() {
        let folder = Path::new(env!("CARGO_MANIFEST_DIR")).join("../../examples");
        for (name, content) in all().iter().flat_map(Worked::files) {
            let there = fs::read(folder.join(&name)).expect("the file is there");
            assert!(
                there == content,
                "{name}: make it again with `make_examples`"
            );
        }
    }

    #[test]
    fn no_other_images_are_there() {
        let folder = Path::new(env!("CARGO_MANIFEST_DIR")).join("../../examples");
        let names: Vec<_> = all().iter().flat_map(Worked::files).collect();
        for entry in fs::read_dir(folder).expect("the folder is there") {
            let name = entry.expect("an entry").file_name();
            let made = names.iter().any(|(made, _)| name == made.as_str());
            assert!(made || name == "README.md", "{name:?}");
        }
    }
}
