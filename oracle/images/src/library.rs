//! The port's functions on images, compared with the reference.
//!
//! They are handed in by address, so that this can be tried with others: `port.rs` has the port's
//! own, behind the feature `library`.

mod bytes;
mod list;
#[cfg(test)]
mod tests;

use std::{fmt, ptr, slice};

use generator::Generator;

use crate::image::{Image, PAGE_BYTES};
use crate::reference::looks::Looks;
use crate::reference::search::{search, Found, Lines, Reason};
use crate::reference::survey::Survey;
use crate::reference::{accept, page_address, page_at, translate, PageState, Rights};
use crate::width::Width;

pub const ANSWERED: u8 = 0;
pub const NO_SUCH_CHOICE: u8 = 253;
pub const NO_ROOM: u8 = 254;

/// The width, image, its count of words, base, root, the address or page, out, and its room in words.
pub type Function = unsafe extern "C" fn(
    width: u64,
    image: *const u64,
    words: usize,
    base: u64,
    root: u64,
    place: u64,
    out: *mut u64,
    room: usize,
) -> u8;

/// The same with a byte for each table behind the page, in which the call remembers whether it holds
/// nothing, and with answers and their room in words before out.
pub type ListFunction = unsafe extern "C" fn(
    width: u64,
    image: *const u64,
    words: usize,
    base: u64,
    root: u64,
    page: u64,
    empty_tables: *mut u8,
    tables: usize,
    answers: *mut u64,
    answers_room: usize,
    out: *mut u64,
    room: usize,
) -> u8;

#[derive(Clone, Copy)]
pub struct Library {
    pub translate: Function,
    pub search: Function,
    pub list: ListFunction,
}

/// A status, and the words of out if it is `ANSWERED`.
#[derive(Clone, Debug, PartialEq, Eq)]
pub struct Answer {
    pub status: u8,
    pub words: Vec<u64>,
}

/// A question on which the function and the reference are not of one answer.
#[derive(Debug)]
pub struct Difference {
    pub function: &'static str,
    pub width: u64,
    pub place: u64,
    pub reference: String,
    pub library: String,
}

impl fmt::Display for Difference {
    fn fmt(&self, f: &mut fmt::Formatter) -> fmt::Result {
        let (function, width) = (self.function, self.width);
        write!(f, "difference: {function} {:x}, width {width}", self.place)?;
        write!(f, "\n  library    {}", self.library)?;
        write!(f, "\n  reference  {}", self.reference)
    }
}

/// Asks translate and search at the borders of what the image has, beside them, at drawn places and
/// at such that are refused, and for lists, all at the image's width and at numbers that are none.
/// Gives the number of questions.
pub fn compare(
    library: Library,
    image: &Image,
    generator: &mut Generator,
) -> Result<u64, Difference> {
    let survey = Survey::of(image);
    let places = places(&survey, generator);
    let mut questions = 0;
    for &place in &places {
        let question = Question::of(image, place);
        let reference = translated(image, place);
        hold("translate", library.translate, question, reference)?;
        questions += 1;
        if is_short(&survey, place) {
            let reference = searched(&survey, place);
            hold("search", library.search, question, reference)?;
            questions += 1;
        }
    }
    for width in NO_WIDTHS {
        let place = *generator.pick(&places);
        let question = Question {
            width,
            ..Question::of(image, place)
        };
        hold("translate", library.translate, question, no_such_choice())?;
        hold("search", library.search, question, no_such_choice())?;
        questions += 2;
    }
    Ok(questions + list::compare(library.list, &survey, generator)?)
}

/// Numbers that are no width: beside the two, numbers of levels, and such that are 48 or 57 in their
/// lower bits.
const NO_WIDTHS: [u64; 16] = [
    0,
    4,
    5,
    47,
    49,
    52,
    56,
    58,
    64,
    (1 << 8) + 48,
    (1 << 8) + 57,
    (1 << 16) + 48,
    (1 << 32) + 48,
    (1 << 32) + 57,
    (1 << 63) + 57,
    u64::MAX,
];

/// What is asked of translate or search.
#[derive(Clone, Copy)]
struct Question<'a> {
    width: u64,
    image: &'a Image,
    place: u64,
}

impl Question<'_> {
    /// At the image's width.
    fn of(image: &Image, place: u64) -> Question<'_> {
        Question {
            width: image.width.bits(),
            image,
            place,
        }
    }
}

fn hold(
    name: &'static str,
    function: Function,
    question: Question,
    reference: Answer,
) -> Result<(), Difference> {
    let answer = ask(function, question, reference.words.len());
    match answer.as_ref() == Ok(&reference) {
        true => Ok(()),
        false => Err(Difference {
            function: name,
            width: question.width,
            place: question.place,
            reference: format!("{reference:x?}"),
            library: answer.map_or_else(|trouble| trouble, |a| format!("{a:x?}")),
        }),
    }
}

/// A search that remembers no table is asked for only if it passes at most so many absent entries: to
/// pass all 2^36 pages of 48 bits takes minutes.
const MOST_PASSED: u64 = 1 << 19;

fn is_short(survey: &Survey, place: u64) -> bool {
    let first = accept(survey.image).and_then(|()| page_at(survey.image.width, place));
    first.map_or(true, |page| {
        let mut looks = Looks::from(survey, page);
        looks.next();
        looks.absent + looks.spared <= MOST_PASSED
    })
}

/// What translate should answer: mapped 0 with the physical address, the size and the rights, or
/// absent 1, reserved 2, outside 3 with the level.
pub fn translated(image: &Image, address: u64) -> Answer {
    answer(translate(image, address).map(|state| match state {
        PageState::Mapped {
            physical,
            size,
            rights,
        } => vec![0, physical, size, bits(rights)],
        PageState::Absent { level } => vec![1, level.into(), 0, 0],
        PageState::Reserved { level } => vec![2, level.into(), 0, 0],
        PageState::Outside { level } => vec![3, level.into(), 0, 0],
    }))
}

/// What the search should answer: end 0, run 1 with page, frame, count and rights, or a stop with
/// page and level, reserved 2, outside 3.
pub fn searched(survey: &Survey, page: u64) -> Answer {
    let width = survey.image.width;
    answer(search(survey, page).map(|found| found_words(found, width).to_vec()))
}

/// The words of an answer; its page is answered by its address at this width.
fn found_words(found: Found, width: Width) -> [u64; 5] {
    match found {
        Found::End => [0; 5],
        Found::Run {
            page,
            frame,
            count,
            rights,
        } => [
            1,
            page_address(width, page),
            frame * PAGE_BYTES,
            count,
            bits(rights),
        ],
        Found::Stop {
            page,
            level,
            reason,
        } => {
            let kind = match reason {
                Reason::Reserved => 2,
                Reason::Outside => 3,
            };
            [kind, page_address(width, page), level.into(), 0, 0]
        }
    }
}

/// To a question with a number that is no width.
fn no_such_choice() -> Answer {
    answer(Err(NO_SUCH_CHOICE))
}

fn answer(result: Result<Vec<u64>, u8>) -> Answer {
    let (status, words) = match result {
        Ok(words) => (ANSWERED, words),
        Err(number) => (number, Vec::new()),
    };
    Answer { status, words }
}

fn bits(rights: Rights) -> u64 {
    u64::from(rights.writable) + 2 * u64::from(rights.user) + 4 * u64::from(rights.no_execute)
}

/// How many lines of the image are asked about.
const LINES: usize = 12;

/// How many places are drawn.
const DRAWN: usize = 8;

/// Numbers to ask about; not all are addresses or pages.
fn places(survey: &Survey, generator: &mut Generator) -> Vec<u64> {
    let width = survey.image.width;
    let mut places = vec![0, 1, u64::MAX - 4095, u64::MAX, 1 << 63];
    for any in Width::ALL {
        let (low_end, high) = (1 << (any.bits() - 1), u64::MAX << (any.bits() - 1));
        places.extend([low_end - PAGE_BYTES, low_end, high, high - 1]);
    }
    if accept(survey.image).is_ok() {
        let from = generator.below(2) * generator.below(width.pages());
        for found in Lines::from(survey, from).take(LINES) {
            let (Found::Run { page, .. } | Found::Stop { page, .. }) = found else {
                continue;
            };
            let next = found.next_page(width).unwrap_or(0);
            let inside = page + generator.below(next.saturating_sub(page).max(1));
            let pages = [
                page,
                page.saturating_sub(1),
                inside,
                next,
                next.saturating_sub(1),
            ];
            places.extend(pages.map(|page| page_address(width, page)));
            places.push(page_address(width, inside) + generator.below(PAGE_BYTES));
        }
    }
    for _ in 0..DRAWN {
        let place = page_address(width, generator.below(width.pages()));
        places.extend([place, generator.number()]);
    }
    places
}

/// What must be left alone holds these words.
const PATTERN: u64 = 0xa5c3_96f0_5a3c_690f;

/// More than any answer needs.
const ROOM: usize = 8;

/// Asks with out longer than the answer, exactly as long, one word too short, and of no words.
fn ask(function: Function, question: Question, words: usize) -> Result<Answer, String> {
    let answer = ask_with(function, question, (ROOM, words))?;
    for room in [0, words.saturating_sub(1), words] {
        let again = ask_with(function, question, (room, words))?;
        let expected = match answer.status == ANSWERED && room < words {
            true => Answer {
                status: NO_ROOM,
                words: Vec::new(),
            },
            false => answer.clone(),
        };
        if again != expected {
            return Err(format!("{answer:x?}; with room {room}: {again:x?}"));
        }
    }
    Ok(answer)
}

/// Where lent words are: a null pointer may stand where there are none.
fn place_of(words: &[u64]) -> *const u64 {
    match words {
        [] => ptr::null(),
        words => words.as_ptr(),
    }
}

/// The same of words or bytes that are lent to be written.
fn place_to_write<T>(items: &mut [T]) -> *mut T {
    match items {
        [] => ptr::null_mut(),
        items => items.as_mut_ptr(),
    }
}

/// The other way: so many words at a place.
pub(crate) unsafe fn lent<'a>(place: *const u64, len: usize) -> &'a [u64] {
    match len {
        0 => &[],
        len => slice::from_raw_parts(place, len),
    }
}

pub(crate) unsafe fn lent_to_write<'a, T>(place: *mut T, len: usize) -> &'a mut [T] {
    match len {
        0 => &mut [],
        len => slice::from_raw_parts_mut(place, len),
    }
}

/// Asks with so much room. If the function answers, the answer has `words` words.
fn ask_with(
    function: Function,
    question: Question,
    (room, words): (usize, usize),
) -> Result<Answer, String> {
    let mut out = [PATTERN; ROOM];
    let Question {
        width,
        image,
        place,
    } = question;
    // SAFETY: the function reads the image's words and writes to `room` words at `out`.
    let status = unsafe {
        let out = place_to_write(&mut out[..room]);
        let (read, len) = (place_of(&image.words), image.words.len());
        function(width, read, len, image.base, image.root, place, out, room)
    };
    let written = if status == ANSWERED { words } else { 0 };
    if let Some(place) = (written..ROOM).find(|&place| out[place] != PATTERN) {
        let word = out[place];
        return Err(format!(
            "status {status}, with room {room}; wrote {word:x} to word {place}"
        ));
    }
    Ok(Answer {
        status,
        words: out[..written].to_vec(),
    })
}
