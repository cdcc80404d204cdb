//! The bytes in which a list remembers the tables that hold nothing: what is lent, and what must be
//! true of it afterwards.
//!
//! Byte i belongs to the table that the words from 512 i on are. Bit `level - 1` of it says that this
//! table, read as one of that level, holds nothing. What stood there before says nothing.

use generator::Generator;

use super::ANSWERED;
use crate::image::TABLE;
use crate::reference::survey::Survey;

/// So many bytes lie behind the lent ones and must be left alone.
const BEHIND: usize = 9;

/// How many bytes there are more than tables, where more are lent than are of use.
const MORE: usize = 5;

/// The levels that a bit can stand for, also such that there are not.
const LEVELS: std::ops::RangeInclusive<u32> = 1..=u8::BITS;

pub struct Bytes {
    pub lent: usize,
    /// The lent bytes and those behind them.
    pub all: Vec<u8>,
}

impl Bytes {
    /// One for each whole table, or more; if a list is short also when nothing is remembered, fewer
    /// too. All ones, or drawn.
    pub fn drawn(survey: &Survey, short: bool, generator: &mut Generator) -> Bytes {
        let tables = survey.image.words.len() / TABLE;
        let lengths = [tables, tables + MORE, 0, 1, tables.saturating_sub(1)];
        let lent = *generator.pick(if short { &lengths } else { &lengths[..2] });
        let ones = generator.below(2) == 0;
        let byte = |_| match ones {
            true => u8::MAX,
            false => generator.number() as u8,
        };
        let all = (0..lent + BEHIND).map(byte).collect();
        Bytes { lent, all }
    }

    /// What is wrong with the bytes that a call with this status left, if anything is.
    pub fn fault(&self, left: &[u8], survey: &Survey, status: u8) -> Option<String> {
        let kept = if status == ANSWERED { self.lent } else { 0 };
        let place = (kept..left.len()).find(|&place| left[place] != self.all[place]);
        if let Some(place) = place {
            let lent = self.lent;
            return Some(format!("byte {place} was written, {lent} were lent"));
        }
        let bits = (0..kept).flat_map(|table| LEVELS.map(move |level| (table, level)));
        let mut set = bits.filter(|&(table, level)| left[table] >> (level - 1) & 1 == 1);
        let (table, level) = set.find(|&(table, level)| !survey.holds_nothing(table, level))?;
        Some(format!("table {table} is not empty at level {level}"))
    }
}
