//! Own, not the crate's: the names that the unchanged files expect here.

pub use self::frame::PhysFrame;
pub use self::page::{Page, PageSize, Size1GiB, Size2MiB, Size4KiB};
pub use self::page_table::{PageOffset, PageTable, PageTableFlags, PageTableIndex};

#[rustfmt::skip]
pub mod frame;
#[rustfmt::skip]
pub mod page;
#[rustfmt::skip]
pub mod page_table;
