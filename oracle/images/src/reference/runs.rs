//! What the program `runs` prints for any standard input.

use std::fmt::Write;

use super::search::{Found, Lines, Reason};
use super::survey::Survey;
use super::{accept, page_address, Rights, WRONG_FILE};
use crate::image::{Image, HEADER, MOST_WORDS, PAGE_BYTES};
use crate::width::Width;

/// So many runs and stops are printed, then `end` or `more`.
pub const MOST_LINES: usize = 4096;

/// The whole standard output.
pub fn output(input: &[u8]) -> String {
    let image = image(input).ok_or(WRONG_FILE);
    match image.and_then(|image| listing(&image)) {
        Ok(text) => text,
        Err(number) => format!("refused {number}\n"),
    }
}

/// The image of a file, unless the version, the count of words or the length is wrong.
pub fn image(input: &[u8]) -> Option<Image> {
    let header = input.get(..HEADER)?;
    let count = number(&header[1..5]) as usize;
    if header[0] != 1 || count > MOST_WORDS || input.len() != HEADER + 8 * count {
        return None;
    }
    Some(Image {
        width: Width::Bits48,
        base: number(&header[5..13]),
        root: number(&header[13..21]),
        words: input[HEADER..].chunks(8).map(number).collect(),
    })
}

/// The same for an image at its own width, or the number of its refusal.
pub fn listing(image: &Image) -> Result<String, u8> {
    accept(image)?;
    let width = image.width;
    let survey = Survey::of(image);
    let mut lines = Lines::from(&survey, 0);
    let printed: Vec<Found> = lines.by_ref().take(MOST_LINES).collect();
    let mut text: String = printed.iter().map(|&found| line(found, width)).collect();

    // A further line says that the search from the next page would not answer End.
    let left = printed.last().and_then(|found| found.next_page(width));
    match (left, lines.next()) {
        (Some(next), Some(_)) => writeln!(text, "more {:016x}", page_address(width, next)),
        _ => writeln!(text, "end"),
    }
    .expect("a text takes all");
    Ok(text)
}

fn line(found: Found, width: Width) -> String {
    match found {
        Found::End => "end\n".into(),
        Found::Stop {
            page,
            level,
            reason,
        } => {
            let reason = match reason {
                Reason::Reserved => "reserved",
                Reason::Outside => "outside",
            };
            let page = page_address(width, page);
            format!("stop {page:016x} {level} {reason}\n")
        }
        Found::Run {
            page,
            frame,
            count,
            rights,
        } => {
            let (page, frame) = (page_address(width, page), frame * PAGE_BYTES);
            format!("run {page:016x} {frame:016x} {count} {}\n", letters(rights))
        }
    }
}

fn letters(rights: Rights) -> String {
    let letter = |holds, letter| if holds { letter } else { '-' };
    [
        letter(rights.writable, 'w'),
        letter(rights.user, 'u'),
        letter(!rights.no_execute, 'x'),
    ]
    .iter()
    .collect()
}

/// A number of a file, big-endian.
fn number(bytes: &[u8]) -> u64 {
    bytes
        .iter()
        .fold(0, |sum, &byte| sum * 256 + u64::from(byte))
}
