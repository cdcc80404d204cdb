//! What an argument is: decides which numbers are refused before the operation is asked, and
//! which are tried.

#[derive(Clone, Copy, Debug, PartialEq, Eq)]
pub enum Kind {
    /// The width of virtual addresses, 48 or 57. A question has it first, if its answer depends on it.
    Width,
    /// Any 64-bit number.
    Number,
    /// Any 64-bit number, tried around those at which indices and offsets end.
    Small,
    /// A virtual address.
    Virtual,
    /// A physical address.
    Physical,
    /// What to align to. Any number is taken; the operation refuses what is no power of two.
    Alignment,
    /// A number that is added, subtracted or stepped by.
    Count,
    /// A displacement: the low 32 bits of the number, with their sign. The bits above stand in the register
    /// of the port's int32_t, as this is compiled, and must not matter.
    Displacement,
    /// A number of pages or frames, of the size before it.
    Items,
    /// An index into a page table.
    Index,
    /// An index into a table of level 5, which 48 bits do not have.
    Index5,
    /// An offset in a 4 KiB page.
    Offset,
    /// A level, 1 to 4 at 48 bits and 1 to 5 at 57.
    Level,
    /// A virtual address and a page size.
    VirtualAndSize,
    /// A physical address and a page size.
    PhysicalAndSize,
    /// Any number, as that of a frame, and a page size.
    FrameNumber,
    /// A frame: its start and its size.
    Frame,
    /// A page: its start and its size.
    Page,
    /// A range of frames: its first frame and its end, each a start and a size.
    FrameRange,
    /// A range of pages: its first page and its end, each a start and a size.
    PageRange,
    /// How many items of the range before it a draw passes over.
    Draws,
}

impl Kind {
    /// How many numbers say an argument of this kind.
    pub const fn words(self) -> usize {
        match self {
            Kind::Width
            | Kind::Number
            | Kind::Small
            | Kind::Virtual
            | Kind::Physical
            | Kind::Alignment
            | Kind::Count
            | Kind::Displacement
            | Kind::Items
            | Kind::Index
            | Kind::Index5
            | Kind::Offset
            | Kind::Level
            | Kind::Draws => 1,
            Kind::VirtualAndSize
            | Kind::PhysicalAndSize
            | Kind::FrameNumber
            | Kind::Frame
            | Kind::Page => 2,
            Kind::FrameRange | Kind::PageRange => 4,
        }
    }

    /// What start and end of a range are.
    pub const fn item(self) -> Option<Kind> {
        match self {
            Kind::FrameRange => Some(Kind::Frame),
            Kind::PageRange => Some(Kind::Page),
            _ => None,
        }
    }

    /// Those of the argument's numbers that choose among levels or page sizes.
    pub fn choices(self, words: &[u64]) -> Choices {
        match (self, words) {
            (Kind::Level, &[level]) => Choices {
                level: Some(level),
                size: None,
                end_size: None,
            },
            (_, &[_, size]) => Choices {
                level: None,
                size: Some(size),
                end_size: None,
            },
            (_, &[_, size, _, end_size]) => Choices {
                level: None,
                size: Some(size),
                end_size: Some(end_size),
            },
            _ => Choices {
                level: None,
                size: None,
                end_size: None,
            },
        }
    }
}

/// The numbers of an argument that choose.
pub struct Choices {
    pub level: Option<u64>,
    pub size: Option<u64>,
    /// That of a range's end.
    pub end_size: Option<u64>,
}

impl Choices {
    pub fn sizes(&self) -> impl Iterator<Item = u64> {
        self.size.into_iter().chain(self.end_size)
    }
}

/// The width of the question, if its answer depends on one.
pub fn width(kinds: &[Kind], numbers: &[u64]) -> Option<u64> {
    (kinds.first() == Some(&Kind::Width)).then(|| numbers[0])
}

/// Each argument with its numbers.
pub fn split<'a>(
    kinds: &'a [Kind],
    mut numbers: &'a [u64],
) -> impl Iterator<Item = (Kind, &'a [u64])> {
    kinds.iter().map(move |&kind| {
        let (words, rest) = numbers.split_at(kind.words());
        numbers = rest;
        (kind, words)
    })
}
