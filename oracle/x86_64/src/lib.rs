//! Own, not the crate's: the root that the four unchanged files of x86_64 0.15.5 are built under.
//! `opened` and the two `mod.rs` are own as well; all other files are byte for byte the crate's.

#![feature(step_trait)]
// The unchanged files are not ours to tidy.
#![allow(clippy::all)]

pub use crate::addr::{align_down, align_up, PhysAddr, VirtAddr};

#[rustfmt::skip]
pub mod addr;
pub mod opened;
pub mod structures;

pub(crate) mod sealed {
    pub trait Sealed {}
}
