//! Own, not the crate's: the part of the module tree that holds the unchanged files.

pub mod paging;
