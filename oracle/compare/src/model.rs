//! What the documents say, in plain arithmetic on unbounded numbers (u128 is wide enough). Written
//! from the document, not from the Rust or the port, and with none of their bit operations. What
//! depends on the width of virtual addresses takes it first, as a number.

pub mod frames;
pub mod numbers;
pub mod page_table;
pub mod pages;
pub mod phys_addr;
pub mod ranges;
pub mod virt_addr;

use crate::answer::{
    Answer, INDEX_TOO_LARGE, NOT_ALIGNED, NOT_CANONICAL, NOT_PHYSICAL, NO_SUCH_CHOICE, SIZES_DIFFER,
};
use crate::kind::{self, Kind};

/// 2 to the power of n.
pub const fn power(n: u128) -> u128 {
    1 << n
}

/// Width, level and page size are closed choices, tried before all else. Then an argument that is no
/// address, page, frame or index is refused, in argument order.
pub fn refused_argument(kinds: &[Kind], args: &[u64]) -> Option<u8> {
    let width = kind::width(kinds, args).map(u128::from);
    if kind::split(kinds, args).any(|(kind, words)| outside_choice(width, kind, words)) {
        return Some(NO_SUCH_CHOICE);
    }
    kind::split(kinds, args).find_map(|(kind, words)| refused(width, kind, words))
}

fn outside_choice(width: Option<u128>, kind: Kind, words: &[u64]) -> bool {
    let levels = width.and_then(page_table::levels);
    let choices = kind.choices(words);
    let no_width = kind == Kind::Width && levels.is_none();
    let no_level = |level: u64| !(1..=levels.unwrap_or(0)).contains(&level.into());
    let no_size = |size: u64| ![power(12), power(21), power(30)].contains(&size.into());
    no_width || choices.level.is_some_and(no_level) || choices.sizes().any(no_size)
}

fn refused(width: Option<u128>, kind: Kind, words: &[u64]) -> Option<u8> {
    if let Some(item) = kind.item() {
        return refused_range(width, item, words);
    }
    let number = u128::from(words[0]);
    let canonical = || virt_addr::canonical(width.expect("a virtual address has a width"), number);
    let tests: &[(bool, u8)] = match kind {
        Kind::Virtual | Kind::VirtualAndSize => &[(canonical(), NOT_CANONICAL)],
        Kind::Physical | Kind::PhysicalAndSize => &[(phys_addr::physical(number), NOT_PHYSICAL)],
        Kind::Index | Kind::Index5 => &[(page_table::index(number), INDEX_TOO_LARGE)],
        Kind::Offset => &[(page_table::offset(number), INDEX_TOO_LARGE)],
        Kind::Page => &[
            (canonical(), NOT_CANONICAL),
            (multiple_of_size(words), NOT_ALIGNED),
        ],
        Kind::Frame => &[
            (phys_addr::physical(number), NOT_PHYSICAL),
            (multiple_of_size(words), NOT_ALIGNED),
        ],
        Kind::Width
        | Kind::Number
        | Kind::Small
        | Kind::Alignment
        | Kind::Count
        | Kind::Displacement
        | Kind::Items
        | Kind::Level
        | Kind::FrameNumber
        | Kind::FrameRange
        | Kind::PageRange
        | Kind::Draws => &[],
    };
    let mut tests = tests.iter();
    tests.find_map(|&(holds, refusal)| (!holds).then_some(refusal))
}

/// A range is tested by its start, by its end, and by whether their sizes are one.
fn refused_range(width: Option<u128>, item: Kind, words: &[u64]) -> Option<u8> {
    let (start, end) = words.split_at(2);
    let refused_end = || refused(width, item, end);
    let differ = || (start[1] != end[1]).then_some(SIZES_DIFFER);
    refused(width, item, start)
        .or_else(refused_end)
        .or_else(differ)
}

/// Whether a start is a multiple of its size.
fn multiple_of_size(start_and_size: &[u64]) -> bool {
    start_and_size[0].is_multiple_of(start_and_size[1])
}

/// The answer of one word.
fn answered(number: u128) -> Answer {
    let word = u64::try_from(number).expect("an answered number has 64 bits");
    Answer::words(&[word])
}

/// A truth value is a word, 1 or 0.
fn truth(value: bool) -> Answer {
    answered(value.into())
}
