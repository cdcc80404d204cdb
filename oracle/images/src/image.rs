//! An image: words, the physical address of the first, that of the root table, and the width at
//! which it is walked.

use crate::width::Width;

/// The most words that a file of the program `runs` may have.
pub const MOST_WORDS: usize = 7680;

/// The words of a table.
pub const TABLE: usize = 512;

/// The bytes of a table, of a 4 KiB page and of its frame.
pub const PAGE_BYTES: u64 = 4096;

/// The bytes before the words in a file: version, count, base and root.
pub const HEADER: usize = 1 + 4 + 8 + 8;

#[derive(Clone, Debug, PartialEq, Eq)]
pub struct Image {
    pub width: Width,
    pub words: Vec<u64>,
    pub base: u64,
    pub root: u64,
}

impl Image {
    /// The image as a file of the program `runs`, which walks 48 bits and knows no other width. One
    /// of too many words is a file too, and refused.
    pub fn file(&self) -> Vec<u8> {
        let count = u32::try_from(self.words.len()).expect("few words");
        let mut bytes = vec![1];
        bytes.extend(count.to_be_bytes());
        bytes.extend(self.base.to_be_bytes());
        bytes.extend(self.root.to_be_bytes());
        bytes.extend(self.words.iter().flat_map(|word| word.to_be_bytes()));
        bytes
    }
}
