//! The widths of linear addresses.

/// How many bits of an address count: 48 with four levels of tables, or 57 with five.
#[derive(Clone, Copy, Debug, PartialEq, Eq)]
pub enum Width {
    Bits48,
    Bits57,
}

impl Width {
    pub const ALL: [Width; 2] = [Width::Bits48, Width::Bits57];

    /// The width that a number names, if it names one.
    pub fn of(bits: u64) -> Option<Width> {
        Width::ALL.into_iter().find(|width| width.bits() == bits)
    }

    pub fn bits(self) -> u64 {
        match self {
            Width::Bits48 => 48,
            Width::Bits57 => 57,
        }
    }

    /// The level of the root table, and how many there are.
    pub fn levels(self) -> u32 {
        match self {
            Width::Bits48 => 4,
            Width::Bits57 => 5,
        }
    }

    /// The 4 KiB pages of both halves.
    pub fn pages(self) -> u64 {
        match self {
            Width::Bits48 => 1 << 36,
            Width::Bits57 => 1 << 45,
        }
    }

    /// Those of a half.
    pub fn half(self) -> u64 {
        self.pages() / 2
    }
}

#[cfg(test)]
mod tests {
    use super::*;
    use crate::image::{PAGE_BYTES, TABLE};

    #[test]
    fn bits_levels_and_pages_are_of_one_width() {
        for width in Width::ALL {
            assert_eq!(width.pages() * PAGE_BYTES, 1 << width.bits());
            assert_eq!(width.pages(), (TABLE as u64).pow(width.levels()));
            assert_eq!(Width::of(width.bits()), Some(width));
        }
        for bits in [0, 4, 5, 47, 49, 56, 58, 64, (1 << 32) + 48, (1 << 32) + 57] {
            assert_eq!(Width::of(bits), None);
        }
    }
}
