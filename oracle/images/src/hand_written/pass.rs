//! One pass over the tables that stores runs and stops as it meets their ends.

use std::mem;
use std::ops::ControlFlow::{self, Break, Continue};

use super::{is_canonical, read, sign_extended, Bits, Entry, Tables, ADDRESS, PRESENT};
use crate::image::{PAGE_BYTES, TABLE};
use crate::reference::{NOT_ALIGNED, NOT_CANONICAL};

/// The words of an answer.
pub const WORDS: usize = 5;

const RUN: u64 = 1;
const RESERVED: u64 = 2;
const OUTSIDE: u64 = 3;

/// How many answers were stored, and the page to go on from unless the search is over.
pub struct Listed {
    pub stored: u64,
    pub next: Option<u64>,
}

/// The answers of searches from a page on, as many as have room. Byte i of `empty` remembers the
/// levels at which table i of the words holds nothing; a table without a byte is read each time.
pub fn list<const LEVELS: u32>(
    tables: Tables,
    page: u64,
    empty: &mut [u8],
    answers: &mut [u64],
) -> Result<Listed, u8> {
    let (root, from) = start::<LEVELS>(tables, page)?;
    empty.fill(0);
    Ok(pass::<LEVELS>(tables, root, from, empty, answers))
}

/// The same with what the bytes remember.
pub fn go_on<const LEVELS: u32>(
    tables: Tables,
    page: u64,
    empty: &mut [u8],
    answers: &mut [u64],
) -> Result<Listed, u8> {
    let (root, from) = start::<LEVELS>(tables, page)?;
    Ok(pass::<LEVELS>(tables, root, from, empty, answers))
}

/// The root table and the number of the page, or the first refusal.
fn start<'a, const LEVELS: u32>(
    tables: Tables<'a>,
    page: u64,
) -> Result<(&'a [u64; TABLE], u64), u8> {
    let root = tables.root_table()?;
    if !is_canonical::<LEVELS>(page) {
        return Err(NOT_CANONICAL);
    }
    if page & 0xfff != 0 {
        return Err(NOT_ALIGNED);
    }
    Ok((root, (page >> 12) % pages_under(LEVELS)))
}

fn pass<const LEVELS: u32>(
    tables: Tables,
    root: &[u64; TABLE],
    from: u64,
    empty: &mut [u8],
    answers: &mut [u64],
) -> Listed {
    let mut pass = Pass::<LEVELS> {
        tables,
        from,
        empty,
        run: Run::default(),
        answers: Answers {
            free: answers,
            stored: 0,
            next: from,
        },
    };
    if pass.answers.free.len() >= WORDS {
        // A break says only that all is stored that had to be.
        let _ = pass.whole(root);
    }
    pass.answers.listed()
}

/// A run that may still grow. One of no pages is none.
#[derive(Clone, Copy, Default)]
struct Run {
    page: u64,
    physical: u64,
    count: u64,
    rights: u64,
}

struct Pass<'a, 'b, const LEVELS: u32> {
    tables: Tables<'a>,
    /// Pages before this one are not looked at.
    from: u64,
    empty: &'b mut [u8],
    run: Run,
    answers: Answers<'b, LEVELS>,
}

impl<const LEVELS: u32> Pass<'_, '_, LEVELS> {
    fn whole(&mut self, root: &[u64; TABLE]) -> ControlFlow<()> {
        self.table(root, LEVELS, 0, Bits::OPEN)?;
        self.close()?;
        self.answers.store([0; WORDS], pages_under(LEVELS))
    }

    /// The entries of a table above level 1, which begins with the page `first`; whether it holds
    /// something.
    fn table(
        &mut self,
        table: &[u64; TABLE],
        level: u32,
        first: u64,
        bits: Bits,
    ) -> ControlFlow<(), bool> {
        let span = pages_under(level - 1);
        let skipped = self.from.saturating_sub(first) / span;
        let mut start = first + skipped * span;
        let mut holds = false;
        for &entry in &table[skipped as usize..] {
            if entry & PRESENT == 0 {
                self.close()?;
            } else {
                holds |= self.present(entry, level, start, bits.with(entry))?;
            }
            start += span;
        }
        Continue(holds)
    }

    /// An entry above level 1 that is present, and what is below it.
    fn present(&mut self, entry: u64, level: u32, start: u64, bits: Bits) -> ControlFlow<(), bool> {
        let end = start + pages_under(level - 1);
        let page = start.max(self.from);
        match read(entry, level) {
            Entry::Reserved => self.stop([RESERVED, page, level.into()], end)?,
            Entry::Page(address) => {
                let physical = address + (page - start) * PAGE_BYTES;
                self.mapped(page, physical, end - page, bits.rights())?;
            }
            Entry::Table(address) => match self.tables.table(address) {
                None => self.stop([OUTSIDE, page, level.into()], end)?,
                Some(lower) => return self.lower(lower, address, level - 1, start, bits),
            },
        }
        Continue(true)
    }

    /// A table that an entry names, unless it is known to hold nothing.
    fn lower(
        &mut self,
        table: &[u64; TABLE],
        address: u64,
        level: u32,
        first: u64,
        bits: Bits,
    ) -> ControlFlow<(), bool> {
        let number = ((address - self.tables.base) / PAGE_BYTES) as usize;
        let bit = 1 << (level - 1);
        if self.empty.get(number).is_some_and(|byte| byte & bit != 0) {
            self.close()?;
            return Continue(false);
        }
        let holds = match level {
            1 => self.pages(table, first, bits)?,
            _ => self.table(table, level, first, bits)?,
        };
        if !holds && first >= self.from {
            if let Some(byte) = self.empty.get_mut(number) {
                *byte |= bit;
            }
        }
        Continue(holds)
    }

    /// The entries of a table of level 1: as many at a time as go on from the first.
    fn pages(&mut self, table: &[u64; TABLE], first: u64, bits: Bits) -> ControlFlow<(), bool> {
        let skipped = self.from.saturating_sub(first);
        let mut page = first + skipped;
        let mut rest = &table[skipped as usize..];
        let mut holds = false;
        let read = PRESENT | ADDRESS | bits.deciding();
        while let Some(&entry) = rest.first() {
            let same = if entry & PRESENT == 0 {
                self.close()?;
                length(rest, |_, entry| entry & PRESENT == 0)
            } else {
                holds = true;
                let due = entry & read;
                let same = length(rest, |index, entry| {
                    entry & read == due + index * PAGE_BYTES
                });
                let rights = bits.with(entry).rights();
                self.mapped(page, entry & ADDRESS, same as u64, rights)?;
                same
            };
            page += same as u64;
            rest = &rest[same..];
        }
        Continue(holds)
    }

    #[inline(always)]
    fn mapped(&mut self, page: u64, physical: u64, count: u64, rights: u64) -> ControlFlow<()> {
        let run = &mut self.run;
        let due = run.physical + run.count * PAGE_BYTES;
        let high = pages_under(LEVELS) / 2;
        if run.count != 0 && physical == due && rights == run.rights && page != high {
            run.count += count;
            return Continue(());
        }
        self.close()?;
        self.run = Run {
            page,
            physical,
            count,
            rights,
        };
        Continue(())
    }

    fn stop(&mut self, [kind, page, level]: [u64; 3], next: u64) -> ControlFlow<()> {
        self.close()?;
        let page = address::<LEVELS>(page);
        self.answers.store([kind, page, level, 0, 0], next)
    }

    /// Stores the run if there is one: what follows does not belong to it.
    #[inline(always)]
    fn close(&mut self) -> ControlFlow<()> {
        if self.run.count == 0 {
            return Continue(());
        }
        let Run {
            page,
            physical,
            count,
            rights,
        } = mem::take(&mut self.run);
        let words = [RUN, address::<LEVELS>(page), physical, count, rights];
        self.answers.store(words, page + count)
    }
}

/// How many entries from the first on are such.
fn length(entries: &[u64], such: impl Fn(u64, u64) -> bool) -> usize {
    let pairs = (0..).zip(entries);
    pairs
        .take_while(|&(index, &entry)| such(index, entry))
        .count()
}

/// The pages under a table of this level, and 1 for level 0: an entry has those of the level below.
const fn pages_under(level: u32) -> u64 {
    1 << (9 * level)
}

/// The first address of a page.
fn address<const LEVELS: u32>(page: u64) -> u64 {
    sign_extended::<LEVELS>(page << 12)
}

struct Answers<'a, const LEVELS: u32> {
    free: &'a mut [u64],
    stored: u64,
    next: u64,
}

impl<const LEVELS: u32> Answers<'_, LEVELS> {
    /// Breaks if there is no room for a further answer, or no page.
    fn store(&mut self, words: [u64; WORDS], next: u64) -> ControlFlow<()> {
        let Some((place, free)) = mem::take(&mut self.free).split_first_chunk_mut() else {
            return Break(());
        };
        *place = words;
        self.free = free;
        self.stored += 1;
        self.next = next;
        match self.free.len() < WORDS || next == pages_under(LEVELS) {
            true => Break(()),
            false => Continue(()),
        }
    }

    fn listed(&self) -> Listed {
        Listed {
            stored: self.stored,
            next: (self.next < pages_under(LEVELS)).then(|| address::<LEVELS>(self.next)),
        }
    }
}
