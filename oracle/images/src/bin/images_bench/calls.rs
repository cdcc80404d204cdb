//! Calls of both sides by address, and the test that they give the same answers.

use std::hint::black_box;

use images::hand_written::{HAND_WRITTEN, LIST_BY_SEARCHES};
use images::image::{Image, PAGE_BYTES, TABLE};
use images::library::{Function, ListFunction, ANSWERED};
use images::port::PORT;

/// The words of an answer in a list.
pub const WORDS: usize = 5;

const RUN: u64 = 1;

/// Translates the addresses one by one.
pub fn translate_all(function: Function, image: &Image, addresses: &[u64]) {
    let function = black_box(function);
    let mut out = [0; 4];
    for &address in addresses {
        translate(function, image, address, &mut out);
    }
    black_box(out);
}

fn translate(function: Function, image: &Image, address: u64, out: &mut [u64; 4]) -> u8 {
    let Image {
        width,
        words,
        base,
        root,
    } = image;
    // SAFETY: the function reads the image's words and writes to the four of out.
    unsafe {
        let (lent, out) = (words.as_ptr(), out.as_mut_ptr());
        function(
            width.bits(),
            lent,
            words.len(),
            *base,
            *root,
            address,
            out,
            4,
        )
    }
}

/// Lists from page zero on, with a byte for each table. Gives how many answers there are, and whether
/// they are all.
pub fn list(
    function: ListFunction,
    image: &Image,
    empty: &mut [u8],
    answers: &mut [u64],
) -> (usize, bool) {
    let function = black_box(function);
    let mut out = [0; 3];
    // SAFETY: the function reads the image's words and writes to empty, answers and out.
    let status = unsafe {
        function(
            image.width.bits(),
            image.words.as_ptr(),
            image.words.len(),
            image.base,
            image.root,
            0,
            empty.as_mut_ptr(),
            empty.len(),
            answers.as_mut_ptr(),
            answers.len(),
            out.as_mut_ptr(),
            out.len(),
        )
    };
    assert_eq!(status, ANSWERED);
    (out[0] as usize, out[1] == 1)
}

pub fn hold_translations_alike(image: &Image, addresses: &[u64]) {
    for &address in addresses {
        let both = [PORT, HAND_WRITTEN].map(|side| {
            let mut out = [0; 4];
            (translate(side.translate, image, address, &mut out), out)
        });
        assert_eq!(both[0], both[1], "translation of {address:x}");
    }
}

/// The answers of a whole list, which are the same from all sides.
pub fn hold_lists_alike(image: &Image) -> Vec<u64> {
    let (answers, whole) = hold_alike(image, image.words.len() + 1);
    assert!(whole, "a whole list");
    answers
}

/// Not more answers than so many, which are the same from all sides, and whether they are all.
pub fn hold_alike(image: &Image, most: usize) -> (Vec<u64>, bool) {
    let [port, others @ ..] = [PORT.list, HAND_WRITTEN.list, LIST_BY_SEARCHES].map(|function| {
        let mut answers = vec![0; WORDS * most];
        let (count, whole) = list(function, image, &mut bytes(image), &mut answers);
        answers.truncate(WORDS * count);
        (answers, whole)
    });
    assert!(others.iter().all(|other| *other == port), "lists differ");
    port
}

/// A byte for each table of an image.
pub fn bytes(image: &Image) -> Vec<u8> {
    vec![0; image.words.len() / TABLE]
}

/// How many of the answers are runs.
pub fn runs(answers: &[u64]) -> usize {
    let answers = answers.chunks(WORDS);
    answers.filter(|answer| answer[0] == RUN).count()
}

/// The first address of each page of the runs.
pub fn pages(answers: &[u64]) -> Vec<u64> {
    let runs = answers.chunks(WORDS).filter(|answer| answer[0] == RUN);
    let pages = runs.flat_map(|run| (0..run[3]).map(|page| run[1] + page * PAGE_BYTES));
    pages.collect()
}
