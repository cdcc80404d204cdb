//! Drawn numbers. Uniform ones alone would almost never be near a boundary or be an address, so
//! most have a shape.

use super::boundary::{places, LEVELS};
use super::ranges;
use super::sizes::{last_named, NO_SIZES, SIZES};
use super::widths::{levels, sign_extended};
use crate::kind::Kind;
use generator::Generator;

/// Draws arguments, around the boundaries of a width.
pub struct Source {
    pub width: u64,
    pub generator: Generator,
}

impl Source {
    /// Adds an argument of this kind to those before it.
    pub fn push(&mut self, kind: Kind, args: &mut Vec<u64>) {
        if let Some(item) = kind.item() {
            let from = args.len();
            self.push(item, args);
            self.push(item, args);
            if let Some(range) = ranges::drawn(kind, self.width, &mut self.generator) {
                args.splice(from.., range);
            }
            return;
        }
        match kind {
            Kind::VirtualAndSize
            | Kind::PhysicalAndSize
            | Kind::FrameNumber
            | Kind::Frame
            | Kind::Page => {
                let size = self.size(args);
                let number = self.of_size(kind, size, args);
                args.extend([number, size]);
            }
            _ => {
                let number = self.of(kind, args);
                args.push(number);
            }
        }
    }

    /// The number of an argument that has one, given those before it.
    fn of(&mut self, kind: Kind, earlier: &[u64]) -> u64 {
        match kind {
            Kind::Virtual => {
                let number = self.near_earlier(earlier);
                self.mostly(sign_extended(self.width, number), number)
            }
            Kind::Physical => {
                let number = self.near_earlier(earlier);
                self.mostly(number % (1 << 52), number)
            }
            Kind::Alignment => match self.generator.below(8) {
                0 => self.number(),
                _ => 1 << self.generator.below(64),
            },
            Kind::Count => match self.generator.below(4) {
                0 => small(&mut self.generator),
                1 => self.distance_to_place(earlier),
                _ => self.number(),
            },
            Kind::Displacement => self.displacement(earlier),
            Kind::Items => self.items(earlier),
            Kind::Draws => self.draws(earlier),
            Kind::Index5 if self.width == 48 => 0,
            Kind::Index | Kind::Index5 => self.mostly_below(512),
            Kind::Offset => self.mostly_below(4096),
            Kind::Small => match self.generator.below(4) {
                0 => self.mostly_below(512),
                1 => self.mostly_below(4096),
                2 => self.mostly_below(1 << 16),
                _ => self.number(),
            },
            Kind::Level => match self.generator.below(16) {
                0 => *self.generator.pick(&LEVELS),
                1 => self.number(),
                _ => 1 + self.generator.below(levels(self.width)),
            },
            _ => self.number(),
        }
    }

    /// Mostly the one, seldom the other.
    fn mostly(&mut self, one: u64, other: u64) -> u64 {
        match self.generator.below(16) {
            0 => other,
            _ => one,
        }
    }

    /// A page size, mostly that of the arguments before, seldom none.
    fn size(&mut self, earlier: &[u64]) -> u64 {
        match (self.generator.below(64), last_named(earlier)) {
            (0, _) => *self.generator.pick(&NO_SIZES),
            (1, _) => self.number(),
            (2..8, _) | (_, None) => *self.generator.pick(&SIZES),
            (_, Some(size)) => size,
        }
    }

    /// The number that goes with a size.
    fn of_size(&mut self, kind: Kind, size: u64, earlier: &[u64]) -> u64 {
        let number = match self.generator.below(4) {
            0 => {
                let place = self.place();
                few_items_from(place, size, &mut self.generator)
            }
            1 if !earlier.is_empty() => {
                let place = *self.generator.pick(earlier);
                few_items_from(place, size, &mut self.generator)
            }
            _ => self.number(),
        };
        let an_address = self.generator.below(16) > 0;
        let a_start = self.generator.below(16) > 0;
        let address = sign_extended(self.width, number);
        match kind {
            Kind::FrameNumber => self.items(&[0, size]),
            Kind::VirtualAndSize if an_address => address,
            Kind::PhysicalAndSize if an_address => number % (1 << 52),
            Kind::Page if an_address && a_start => rounded_down(address, size),
            Kind::Page if an_address => address,
            Kind::Frame if an_address && a_start => rounded_down(number % (1 << 52), size),
            Kind::Frame if an_address => number % (1 << 52),
            Kind::Page | Kind::Frame if a_start => rounded_down(number, size),
            _ => number,
        }
    }

    /// A number of items of the size before it: few, as many as lead to near a boundary, or as many as
    /// a number of some shape has.
    fn items(&mut self, earlier: &[u64]) -> u64 {
        let size = last_named(earlier).unwrap_or(1);
        match self.generator.below(8) {
            0 | 1 => small(&mut self.generator),
            2..5 => {
                let count = self.distance_to_place(earlier) / size;
                let around = self.generator.below(3);
                count.wrapping_add(around).wrapping_sub(1)
            }
            5 => near(((1 << 64) / u128::from(size)) as u64, &mut self.generator),
            6 => self.number() / size,
            _ => self.number(),
        }
    }

    /// What a draw passes over, mostly near a number at which the answer changes.
    fn draws(&mut self, range: &[u64]) -> u64 {
        let size = if SIZES.contains(&range[1]) {
            range[1]
        } else {
            SIZES[0]
        };
        match self.generator.below(8) {
            0 => self.number(),
            1 => self.number() / size,
            2 => self.generator.below(4),
            _ => ranges::near_end(self.width, range, size, &mut self.generator),
        }
    }

    /// Mostly a number below the bound, else one near it or of some shape.
    fn mostly_below(&mut self, bound: u64) -> u64 {
        match self.generator.below(16) {
            0 => near(bound, &mut self.generator),
            1 => self.number(),
            _ => self.generator.below(bound),
        }
    }

    /// A number of some shape.
    fn number(&mut self) -> u64 {
        match self.generator.below(7) {
            0 => self.generator.number(),
            1 => {
                let place = self.place();
                near(place, &mut self.generator)
            }
            2 => few_bits(&mut self.generator),
            3 => run_of_ones(&mut self.generator),
            4 => some_width(&mut self.generator),
            5 => sign_extended(self.width, some_width(&mut self.generator)),
            _ => self.generator.number() << self.generator.below(64),
        }
    }

    fn place(&mut self) -> u64 {
        *self.generator.pick(places(self.width))
    }

    /// A number of some shape, or one near an argument before it.
    fn near_earlier(&mut self, earlier: &[u64]) -> u64 {
        match self.generator.below(4) {
            0 if !earlier.is_empty() => {
                let place = *self.generator.pick(earlier);
                near(place, &mut self.generator)
            }
            _ => self.number(),
        }
    }

    /// The count that leads from an argument before it to near a boundary, upward or downward.
    fn distance_to_place(&mut self, earlier: &[u64]) -> u64 {
        let place = self.place();
        let place = near(place, &mut self.generator);
        let from = match earlier {
            [] => 0,
            _ => *self.generator.pick(earlier),
        };
        // The steps of addresses count in the low bits, where no gap lies.
        let distance = match self.generator.below(2) {
            0 => place.wrapping_sub(from),
            _ => from.wrapping_sub(place),
        };
        match self.generator.below(2) {
            0 => distance,
            _ => distance % (1 << self.width),
        }
    }

    /// A displacement of any width up to 32 bits, at an end of these, or one that leads from the address
    /// before it to near a boundary, if 32 bits hold it; seldom with other bits above.
    fn displacement(&mut self, earlier: &[u64]) -> u64 {
        let ends = [i32::MIN, i32::MIN + 1, -1, 0, 1, i32::MAX - 1, i32::MAX];
        let of_some_width = self.generator.number() as i32 >> self.generator.below(32);
        let displacement = match (self.generator.below(8), earlier) {
            (0, _) => *self.generator.pick(&ends),
            (1 | 2, &[from, ..]) => {
                let place = self.place();
                let place = near(place, &mut self.generator);
                i32::try_from(place.wrapping_sub(from) as i64).unwrap_or(of_some_width)
            }
            _ => of_some_width,
        };
        match self.generator.below(16) {
            0 => u64::from(displacement as u32) | self.generator.number() << 32,
            _ => displacement as u64,
        }
    }
}

fn rounded_down(number: u64, size: u64) -> u64 {
    number - number.checked_rem(size).unwrap_or(0)
}

/// A place, or some items of this size before or behind it.
fn few_items_from(place: u64, size: u64, generator: &mut Generator) -> u64 {
    let distance = small(generator).wrapping_mul(size);
    match generator.below(3) {
        0 => place.wrapping_add(distance),
        1 => place.wrapping_sub(distance),
        _ => near(place, generator),
    }
}

/// A number of any width from 1 to 64 bits, each as likely.
fn some_width(generator: &mut Generator) -> u64 {
    generator.number() >> generator.below(64)
}

/// Mostly below 4096, so that one step in the last places matters.
fn small(generator: &mut Generator) -> u64 {
    generator.number() >> (48 + generator.below(16))
}

fn near(place: u64, generator: &mut Generator) -> u64 {
    let distance = small(generator);
    match generator.below(2) {
        0 => place.wrapping_add(distance),
        _ => place.wrapping_sub(distance),
    }
}

/// One to four bits.
fn few_bits(generator: &mut Generator) -> u64 {
    let count = 1 + generator.below(4);
    (0..count).fold(0, |bits, _| bits | 1 << generator.below(64))
}

fn run_of_ones(generator: &mut Generator) -> u64 {
    (u64::MAX >> generator.below(64)) << generator.below(64)
}
