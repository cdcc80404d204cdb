//! One look at a page after the other, upward. Absent pages give no look.

use super::survey::Survey;
use super::{span_pages, translate_page, PageState};
use crate::image::PAGE_BYTES;
use crate::width::Width;

/// The pages of a piece of a 1 GiB page.
const PIECE: u64 = 512;

/// The size of the pages that are looked at in pieces.
const GIB: u64 = 1 << 30;

/// A look at a page that is not absent.
#[derive(Clone, Copy, Debug, PartialEq, Eq)]
pub struct Look {
    pub page: u64,
    /// How many pages from this one on are settled by the look: of a mapped page itself and those
    /// of its piece, of a broken one all up to the end of the span.
    pub pages: u64,
    pub state: PageState,
}

pub struct Looks<'a> {
    survey: &'a Survey<'a>,
    next: u64,
    /// Whether 1 GiB pages are looked at page by page too.
    singly: bool,
    /// How many looks found an absent page.
    pub absent: u64,
    /// How many more would have, if nothing were known of the tables.
    pub spared: u64,
}

impl<'a> Looks<'a> {
    pub fn from(survey: &'a Survey, page: u64) -> Looks<'a> {
        Looks {
            survey,
            next: page,
            singly: false,
            absent: 0,
            spared: 0,
        }
    }

    /// The same with no pieces; for images with few 1 GiB pages.
    pub fn singly(survey: &'a Survey, page: u64) -> Looks<'a> {
        Looks {
            singly: true,
            ..Looks::from(survey, page)
        }
    }

    pub fn width(&self) -> Width {
        self.survey.image.width
    }

    fn settled(&mut self, state: PageState) -> u64 {
        let page = self.next;
        match state {
            PageState::Mapped { size: GIB, .. } if !self.singly && page.is_multiple_of(PIECE) => {
                let last = translate_page(self.survey.image, page + PIECE - 1);
                match last == later(state, PIECE - 1) {
                    true => PIECE,
                    false => 1,
                }
            }
            PageState::Mapped { .. } => 1,
            PageState::Absent { level } => match self.survey.on_the_way(page) {
                Some(empty) => {
                    self.spared += empty.looks;
                    rest(page, empty.pages())
                }
                None => rest(page, span_pages(level)),
            },
            PageState::Reserved { level } | PageState::Outside { level } => {
                rest(page, span_pages(level))
            }
        }
    }
}

/// How many pages of a span are left from this one on.
fn rest(page: u64, span: u64) -> u64 {
    span - page % span
}

impl Iterator for Looks<'_> {
    type Item = Look;

    fn next(&mut self) -> Option<Look> {
        let image = self.survey.image;
        while self.next < image.width.pages() {
            let page = self.next;
            let state = translate_page(image, page);
            let pages = self.settled(state);
            self.next += pages;
            if !matches!(state, PageState::Absent { .. }) {
                return Some(Look { page, pages, state });
            }
            self.absent += 1;
        }
        None
    }
}

/// The state that continues this one so many pages on.
fn later(state: PageState, pages: u64) -> PageState {
    match state {
        PageState::Mapped {
            physical,
            size,
            rights,
        } => PageState::Mapped {
            physical: physical + pages * PAGE_BYTES,
            size,
            rights,
        },
        broken => broken,
    }
}
