//! Refusals in every order, and files that are none.

use generator::Generator;

use super::drawn::{self, FRAMES};
use super::Case;
use crate::draft::OPEN;
use crate::image::{Image, HEADER, MOST_WORDS, PAGE_BYTES, TABLE};
use crate::width::Width;

/// Addresses that are refused 2 (also where 3 would apply), and such that are refused 3.
const NO_ADDRESSES: [u64; 6] = [
    1 << 52,
    (1 << 52) + 1,
    (1 << 52) + 4096,
    1 << 63,
    u64::MAX,
    u64::MAX - 4095,
];
const UNALIGNED: [u64; 5] = [1, 8, 4095, 4097, (1 << 52) - 1];

/// Base and root good or refused, in all combinations, with a root inside, before, behind or cut
/// off.
pub fn refusals(width: Width, index: u64, generator: &mut Generator) -> Case {
    let mut image = small_image(width, generator);
    image.base = image.base.max(PAGE_BYTES);
    let cut = generator.below(3) * generator.below(TABLE as u64);
    let whole = generator.below(3) * TABLE as u64;
    image.words.resize((whole + cut) as usize, 1);
    let tables = image.words.len() / TABLE;
    let end = image.base + (tables as u64) * PAGE_BYTES;
    image.root = match index / 4 % 8 {
        0 | 1 => image.base,
        2 => end.saturating_sub(PAGE_BYTES),
        3 => image.base - PAGE_BYTES,
        4 => end,
        5 => *generator.pick(&NO_ADDRESSES),
        6 => *generator.pick(&UNALIGNED),
        _ => image.base + 8 * (1 + generator.below(511)),
    };
    image.base = match index % 4 {
        2 => *generator.pick(&NO_ADDRESSES),
        3 => *generator.pick(&UNALIGNED),
        _ => image.base,
    };
    Case::Image(image)
}

/// A file with a wrong version, count or length, also where base and root would be refused. A file is
/// walked at 48 bits, and these are the same at each width.
pub fn wrong_files(_: Width, index: u64, generator: &mut Generator) -> Case {
    let mut image = small_image(Width::Bits48, generator);
    if generator.below(4) == 0 {
        image.base = *generator.pick(&NO_ADDRESSES);
    }
    let mut file = image.file();
    let few = 1 + generator.below(16) as usize;
    match index % 12 {
        0 => file.truncate(generator.below(HEADER as u64 + 1) as usize),
        1 => file[0] = *generator.pick(&[0, 2, 3, 16, 128, 255]),
        2 => file.truncate(file.len() - few),
        3 => file.extend(vec![0; few]),
        4 => set_count(&mut file, image.words.len() as u32 + 1),
        5 => set_count(&mut file, image.words.len() as u32 - 1),
        // Counts whose bytes are 0 or few modulo 2^32.
        6 => {
            let high = *generator.pick(&[1 << 29, 1 << 30, 1 << 31, 7 << 29]);
            set_count(&mut file, image.words.len() as u32 | high);
        }
        7 => set_count(&mut file, *generator.pick(&[0, 7680, 7681, u32::MAX])),
        8 => file = full_file(MOST_WORDS + 1, image.base),
        9 => file = full_file(MOST_WORDS, image.base),
        10 => {
            // No words: a file, refused by what its base and root are.
            image.words.clear();
            file = image.file();
            file.extend(vec![0; generator.below(2) as usize]);
        }
        _ => {
            let length = generator.below(4000) as usize;
            file = (0..length).map(|_| generator.number() as u8).collect();
            if let Some(version) = file.first_mut() {
                *version = 1;
            }
        }
    }
    Case::File(file)
}

/// A table or two with a page.
fn small_image(width: Width, generator: &mut Generator) -> Image {
    let tables = 1 + generator.below(2) as usize;
    let mut draft = drawn::draft(width, tables, generator);
    let root = draft.image.root;
    draft.set(root, drawn::index(generator), root | OPEN);
    draft.image
}

/// A file of so many words, of which the first table names itself.
fn full_file(count: usize, base: u64) -> Vec<u8> {
    let mut words = vec![0; count];
    words[0] = (base % (FRAMES * PAGE_BYTES)) | OPEN;
    let root = base;
    let image = Image {
        width: Width::Bits48,
        words,
        base,
        root,
    };
    image.file()
}

fn set_count(file: &mut [u8], count: u32) {
    file[1..5].copy_from_slice(&count.to_be_bytes());
}
