//! Runs and stops, made from single looks.

use super::looks::{Look, Looks};
use super::survey::Survey;
use super::{accept, page_at, span_pages, PageState, Rights};
use crate::image::PAGE_BYTES;
use crate::width::Width;

#[derive(Clone, Copy, Debug, PartialEq, Eq)]
pub enum Reason {
    Reserved,
    Outside,
}

/// What a search finds. Pages and frames are numbers here.
#[derive(Clone, Copy, Debug, PartialEq, Eq)]
pub enum Found {
    End,
    Stop {
        page: u64,
        level: u32,
        reason: Reason,
    },
    Run {
        page: u64,
        frame: u64,
        count: u64,
        rights: Rights,
    },
}

/// What the search answers from the page at this address, or the number of its refusal.
pub fn search(survey: &Survey, address: u64) -> Result<Found, u8> {
    accept(survey.image)?;
    let page = page_at(survey.image.width, address)?;
    let first = Lines::from(survey, page).next();
    Ok(first.unwrap_or(Found::End))
}

/// The runs and stops from a page on, without the end. The image is one that is not refused.
pub struct Lines<'a> {
    looks: Looks<'a>,
    /// The look that ended the line before.
    ahead: Option<Look>,
}

impl<'a> Lines<'a> {
    pub fn from(survey: &'a Survey, page: u64) -> Lines<'a> {
        Lines::of(Looks::from(survey, page))
    }

    pub fn of(looks: Looks<'a>) -> Lines<'a> {
        Lines { looks, ahead: None }
    }

    /// What was passed for the lines so far: the looks that found absent pages, and those spared.
    pub fn passed(&self) -> (u64, u64) {
        (self.looks.absent, self.looks.spared)
    }
}

impl Iterator for Lines<'_> {
    type Item = Found;

    fn next(&mut self) -> Option<Found> {
        let width = self.looks.width();
        let first = self.ahead.take().or_else(|| self.looks.next());
        let mut line = Found::of(first?);
        for look in self.looks.by_ref() {
            if !line.goes_on_with(look, width) {
                self.ahead = Some(look);
                break;
            }
            line.lengthen(look.pages);
        }
        Some(line)
    }
}

impl Found {
    /// What a look alone gives.
    fn of(look: Look) -> Found {
        let page = look.page;
        match look.state {
            PageState::Mapped {
                physical, rights, ..
            } => Found::Run {
                page,
                frame: physical / PAGE_BYTES,
                count: look.pages,
                rights,
            },
            PageState::Reserved { level } => Found::Stop {
                page,
                level,
                reason: Reason::Reserved,
            },
            PageState::Outside { level } => Found::Stop {
                page,
                level,
                reason: Reason::Outside,
            },
            PageState::Absent { .. } => unreachable!("absent pages give no look"),
        }
    }

    /// Whether the page looked at is the next of this run: just after it, in its half, with the
    /// frame after its last and its rights.
    fn goes_on_with(self, look: Look, width: Width) -> bool {
        match (self, look.state) {
            (
                Found::Run {
                    page,
                    frame,
                    count,
                    rights,
                },
                PageState::Mapped {
                    physical,
                    rights: theirs,
                    ..
                },
            ) => {
                look.page == page + count
                    && (look.page < width.half()) == (page < width.half())
                    && physical / PAGE_BYTES == frame + count
                    && theirs == rights
            }
            _ => false,
        }
    }

    fn lengthen(&mut self, pages: u64) {
        if let Found::Run { count, .. } = self {
            *count += pages;
        }
    }

    /// The number of the page after the last of the run, or of the span under the stop. After the
    /// last page there is none, and the search is over.
    pub fn next_page(self, width: Width) -> Option<u64> {
        let next = match self {
            Found::End => return None,
            Found::Run { page, count, .. } => page + count,
            Found::Stop { page, level, .. } => (page / span_pages(level) + 1) * span_pages(level),
        };
        (next < width.pages()).then_some(next)
    }
}
