//! The port's list of searches, compared with the lines of the reference.

use generator::Generator;

use super::bytes::Bytes;
use super::{
    found_words, place_of, place_to_write, Difference, ListFunction, ANSWERED, MOST_PASSED,
    NO_ROOM, NO_SUCH_CHOICE, NO_WIDTHS, PATTERN,
};
use crate::image::Image;
use crate::reference::search::{Found, Lines};
use crate::reference::survey::Survey;
use crate::reference::{accept, page_address, page_at};
use crate::width::Width;

/// The words of an answer, and those of out.
const WORDS: usize = 5;
const OUT: usize = 3;

/// So many words lie behind the room and must be left alone.
const BEHIND: usize = 7;

/// How many answers are asked for from page zero: at 48 bits more than most images have, at 57, where
/// the reference takes longer and no program prints them, not as many.
fn most(width: Width) -> usize {
    match width {
        Width::Bits48 => 6144,
        Width::Bits57 => 2048,
    }
}

/// How many from other pages.
const SOME: usize = 40;

/// A list that passes more absent entries takes milliseconds, and is asked for a few times only.
const LONG: u64 = 1 << 20;

/// How many pages are drawn to begin with.
const DRAWN: usize = 2;

/// Numbers that are no address, or not that of a page.
const REFUSED: [u64; 3] = [1, 1 << 56, u64::MAX];

/// Refused as well at 48 bits, and the address of a page at 57.
const BETWEEN: u64 = 1 << 47;

/// Asks for lists from page zero, from drawn pages, from one that an answer leaves and from such
/// that are refused, each time with other bytes to remember tables in, and with numbers that are no
/// width. Gives the number of questions.
pub fn compare(
    list: ListFunction,
    survey: &Survey,
    generator: &mut Generator,
) -> Result<u64, Difference> {
    let mut questions = 0;
    for (place, most) in starts(survey, generator) {
        let expected = Expected::of(survey, place, most);
        let rooms = expected.rooms();
        let own = rooms
            .iter()
            .map(|&rooms| (survey.image.width.bits(), rooms));
        let none = NO_WIDTHS.map(|width| (width, *generator.pick(&rooms)));
        for (width, (room, out)) in own.chain(none) {
            let asked = Asked {
                width,
                place,
                room,
                out,
            };
            let bytes = Bytes::drawn(survey, expected.spared <= MOST_PASSED, generator);
            expected.hold(list, survey, asked, &bytes)?;
            questions += 1;
        }
    }
    Ok(questions)
}

/// Places to begin at, with the most answers to ask for.
fn starts(survey: &Survey, generator: &mut Generator) -> Vec<(u64, usize)> {
    let width = survey.image.width;
    let mut starts = vec![(0, most(width))];
    let drawn = (0..DRAWN).map(|_| page_address(width, generator.below(width.pages())));
    let others = drawn.chain(REFUSED).chain([BETWEEN]);
    starts.extend(others.map(|place| (place, SOME)));
    if accept(survey.image).is_ok() {
        let skipped = generator.below(SOME as u64) as usize;
        let left = Lines::from(survey, 0).take(skipped + 1).last();
        let next = left.and_then(|found| found.next_page(width));
        starts.extend(next.map(|page| (page_address(width, page), SOME)));
    }
    starts
}

/// A question: the width, the place to begin at, the room for answers, and that of out.
#[derive(Clone, Copy)]
struct Asked {
    width: u64,
    place: u64,
    room: usize,
    out: usize,
}

/// What a call leaves.
#[derive(Debug, PartialEq, Eq)]
struct Left {
    status: u8,
    out: Vec<u64>,
    answers: Vec<u64>,
}

/// Asks with memory that shows what was written. Gives the bytes that the call left, too.
fn ask(list: ListFunction, image: &Image, asked: Asked, bytes: &Bytes) -> (Left, Vec<u8>) {
    let mut bytes_left = bytes.all.clone();
    let mut answers = vec![PATTERN; asked.room + BEHIND];
    let mut out = vec![PATTERN; OUT + BEHIND];
    // SAFETY: the function reads the image's words and writes to the lent bytes, to `asked.room`
    // words at `answers` and to `asked.out` words at `out`.
    let status = unsafe {
        list(
            asked.width,
            place_of(&image.words),
            image.words.len(),
            image.base,
            image.root,
            asked.place,
            place_to_write(&mut bytes_left[..bytes.lent]),
            bytes.lent,
            place_to_write(&mut answers[..asked.room]),
            asked.room,
            place_to_write(&mut out[..asked.out]),
            asked.out,
        )
    };
    let left = Left {
        status,
        out,
        answers,
    };
    (left, bytes_left)
}

struct Expected {
    width: Width,
    /// The first page and the answers from it on, or the number of the refusal.
    list: Result<(u64, Vec<Found>), u8>,
    /// How many absent entries are passed, and how many more if no table is remembered.
    absent: u64,
    spared: u64,
}

impl Expected {
    /// Not more than `most` answers. The end is the last, unless an answer reaches the last page.
    fn of(survey: &Survey, place: u64, most: usize) -> Expected {
        let width = survey.image.width;
        let first = accept(survey.image).and_then(|()| page_at(width, place));
        let (mut absent, mut spared) = (0, 0);
        let list = first.map(|page| {
            let mut lines = Lines::from(survey, page);
            let mut founds: Vec<_> = lines.by_ref().chain([Found::End]).take(most).collect();
            let mut nexts = founds.iter().map(|found| found.next_page(width));
            let over = nexts.position(|next| next.is_none());
            founds.truncate(over.map_or(most, |last| last + 1));
            (absent, spared) = lines.passed();
            (page, founds)
        });
        Expected {
            width,
            list,
            absent,
            spared,
        }
    }

    /// The rooms for answers and for out to ask with: each with each, for a long list a few.
    fn rooms(&self) -> Vec<(usize, usize)> {
        let rooms = self.answer_rooms();
        if self.absent > LONG {
            let most = rooms.last().map(|&room| (room, OUT));
            return [(WORDS, OUT), (0, 0)].into_iter().chain(most).collect();
        }
        let outs = [0, 1, OUT - 1, OUT, OUT + 1];
        let pairs = rooms.iter().flat_map(|&room| outs.map(|out| (room, out)));
        pairs.collect()
    }

    /// Rooms for no answer, one, all but one and all; for more only if there are no more.
    fn answer_rooms(&self) -> Vec<usize> {
        let founds = self.list.as_ref().map_or(&[][..], |(_, founds)| founds);
        let all = WORDS * founds.len();
        let mut rooms = vec![0, WORDS - 1, WORDS, all, all + WORDS - 1];
        rooms.extend(all.checked_sub(1));
        rooms.extend(all.checked_sub(WORDS));
        let next = |found: &Found| found.next_page(self.width);
        if founds.last().and_then(next).is_none() {
            rooms.extend([all + WORDS, all + 2 * WORDS + 1]);
        }
        rooms.sort_unstable();
        rooms.dedup();
        rooms
    }

    /// What a call with this room leaves.
    fn left(&self, asked: Asked) -> Left {
        let mut left = Left {
            status: ANSWERED,
            out: vec![PATTERN; OUT + BEHIND],
            answers: vec![PATTERN; asked.room + BEHIND],
        };
        match &self.list {
            _ if Width::of(asked.width).is_none() => left.status = NO_SUCH_CHOICE,
            _ if asked.out < OUT => left.status = NO_ROOM,
            Err(number) => left.status = *number,
            Ok((first, founds)) => {
                let fit = &founds[..founds.len().min(asked.room / WORDS)];
                let next = |found: &Found| found.next_page(self.width);
                let next = fit.last().map_or(Some(*first), next);
                let words = fit.iter().flat_map(|&found| found_words(found, self.width));
                let answers = left.answers.iter_mut().zip(words);
                answers.for_each(|(answer, word)| *answer = word);
                left.out[0] = fit.len() as u64;
                left.out[1] = u64::from(next.is_none());
                left.out[2] = next.map_or(0, |page| page_address(self.width, page));
            }
        }
        left
    }

    /// Asks, and holds what the call leaves against what it should.
    fn hold(
        &self,
        list: ListFunction,
        survey: &Survey,
        asked: Asked,
        bytes: &Bytes,
    ) -> Result<(), Difference> {
        let expected = self.left(asked);
        let (library, bytes_left) = ask(list, survey.image, asked, bytes);
        let difference = |reference, library| Difference {
            function: "list",
            width: asked.width,
            place: asked.place,
            reference,
            library,
        };
        if library != expected {
            let reference = summary(asked, &expected, &library);
            return Err(difference(reference, summary(asked, &library, &expected)));
        }
        match bytes.fault(&bytes_left, survey, library.status) {
            None => Ok(()),
            Some(fault) => {
                let text = summary(asked, &library, &expected);
                Err(difference(text.clone(), format!("{text}; {fault}")))
            }
        }
    }
}

/// What was left, of the answers only the first that differs.
fn summary(asked: Asked, left: &Left, other: &Left) -> String {
    let Asked { room, out, .. } = asked;
    let (status, words) = (left.status, &left.out);
    let text = format!("room {room}, out {out}: status {status}, out {words:x?}");
    let pairs = left.answers.chunks(WORDS).zip(other.answers.chunks(WORDS));
    let mut differing = pairs.enumerate().filter(|(_, (own, other))| own != other);
    match differing.next() {
        Some((place, (own, _))) => format!("{text}, answer {place} {own:x?}"),
        None => text,
    }
}

#[cfg(test)]
pub(super) mod tests {
    use super::super::{lent, lent_to_write};
    use super::*;
    use crate::worked::{self, five_levels};

    macro_rules! lists {
        ($($(#[$doc:meta])* $name:ident $list:expr;)*) => {
            $($(#[$doc])* pub unsafe extern "C" fn $name(
                width: u64,
                image: *const u64,
                words: usize,
                base: u64,
                root: u64,
                page: u64,
                empty_tables: *mut u8,
                tables: usize,
                answers: *mut u64,
                room: usize,
                out: *mut u64,
                len: usize,
            ) -> u8 {
                let words = lent(image, words).to_vec();
                let walked = Width::of(width).unwrap_or(Width::Bits48);
                let image = Image { width: walked, words, base, root };
                let bytes = lent_to_write(empty_tables, tables);
                let answers = lent_to_write(answers, room);
                let out = lent_to_write(out, len);
                $list(width, &image, page, &mut Lent { bytes, answers, out })
            })*
        };
    }

    lists! {
        /// The reference under the convention of the library.
        own_list own;
        without_end |width, image: &_, page, lent: &mut Lent| {
            let status = own(width, image, page, lent);
            if status == ANSWERED && lent.out[1] == 1 {
                lent.out[0] -= 1;
            }
            status
        };
        forgetting_to_clear |width, image: &_, page, lent: &mut Lent| {
            let bytes = lent.bytes.to_vec();
            let status = own(width, image, page, lent);
            lent.bytes.copy_from_slice(&bytes);
            status
        };
        clearing_when_refused |width, image: &_, page, lent: &mut Lent| {
            lent.bytes.fill(0);
            own(width, image, page, lent)
        };
        half_of_the_width |width: u64, image: &_, page, lent: &mut Lent| {
            own(width % (1 << 32), image, page, lent)
        };
        room_before_the_width |width, image: &_, page, lent: &mut Lent| {
            match lent.out.len() < OUT {
                true => NO_ROOM,
                false => own(width, image, page, lent),
            }
        };
        refusals_before_the_width |width, image: &_, page, lent: &mut Lent| {
            match accept(image) {
                Err(number) if lent.out.len() >= OUT => number,
                _ => own(width, image, page, lent),
            }
        };
    }

    /// What a call may write.
    struct Lent<'a> {
        bytes: &'a mut [u8],
        answers: &'a mut [u64],
        out: &'a mut [u64],
    }

    fn own(width: u64, image: &Image, place: u64, lent: &mut Lent) -> u8 {
        if Width::of(width).is_none() {
            return NO_SUCH_CHOICE;
        }
        let survey = &Survey::of(image);
        let (room, out) = (lent.answers.len(), lent.out.len());
        let asked = Asked {
            width,
            place,
            room,
            out,
        };
        let most = (room / WORDS).max(1);
        let left = Expected::of(survey, place, most).left(asked);
        lent.answers.copy_from_slice(&left.answers[..room]);
        lent.out.copy_from_slice(&left.out[..out]);
        if left.status == ANSWERED {
            remember(survey, lent.bytes);
        }
        left.status
    }

    /// Remembers all that is true.
    fn remember(survey: &Survey, bytes: &mut [u8]) {
        for (table, byte) in bytes.iter_mut().enumerate() {
            let levels = 1..=survey.image.width.levels();
            let levels = levels.filter(|&level| survey.holds_nothing(table, level));
            *byte = levels.map(|level| 1 << (level - 1)).sum();
        }
    }

    fn first_difference(list: ListFunction, image: &Image) -> Option<Difference> {
        compare(list, &Survey::of(image), &mut Generator::new(1)).err()
    }

    #[test]
    fn a_list_of_case_l() {
        let image = worked::case_l();
        let ask = |room| {
            let asked = Asked {
                width: 48,
                place: 0,
                room,
                out: OUT,
            };
            let bytes = Bytes::drawn(&Survey::of(&image), true, &mut Generator::new(1));
            ask(own_list, &image, asked, &bytes).0
        };
        let left = ask(14);
        assert_eq!(left.out[..OUT], [2, 1, 0]);
        assert_eq!(left.answers[..WORDS], [1, 0, 0x40_0000, 513, 1]);
        assert_eq!(left.answers[WORDS..2 * WORDS], [0; WORDS]);
        let left = ask(9);
        assert_eq!(left.out[..OUT], [1, 0, 0x20_1000]);
    }

    #[test]
    fn a_list_that_is_wrong_differs() {
        for image in [worked::case_l(), five_levels::case_l()] {
            assert!(first_difference(own_list, &image).is_none());
            let lists = [without_end, forgetting_to_clear, clearing_when_refused];
            for list in lists
                .into_iter()
                .chain([half_of_the_width, room_before_the_width])
            {
                let difference = first_difference(list, &image).expect("a difference");
                assert_eq!(difference.function, "list");
            }
        }
    }

    #[test]
    fn a_refusal_before_the_width_differs() {
        let root = 1;
        let image = Image {
            root,
            ..worked::case_l()
        };
        assert!(first_difference(own_list, &image).is_none());
        let difference = first_difference(refusals_before_the_width, &image);
        assert!(Width::of(difference.expect("a difference").width).is_none());
    }
}
