//! Why the Rust has not been asked, although the question is one of the port's.

use x86_64::addr::{PhysAddrNotValid, VirtAddrNotValid};
use x86_64::structures::paging::frame::PfnNotValid;
use x86_64::structures::paging::page::AddressNotAligned;

use crate::answer::{NOT_ALIGNED, NOT_CANONICAL, NOT_PHYSICAL, PFN_TOO_LARGE};

pub enum Unasked {
    /// A constructor of the Rust refuses, by this number.
    Refused(u8),
    /// The Rust has no way to say it.
    NoWay,
}

impl From<VirtAddrNotValid> for Unasked {
    #[inline]
    fn from(_: VirtAddrNotValid) -> Unasked {
        Unasked::Refused(NOT_CANONICAL)
    }
}

impl From<PhysAddrNotValid> for Unasked {
    #[inline]
    fn from(_: PhysAddrNotValid) -> Unasked {
        Unasked::Refused(NOT_PHYSICAL)
    }
}

impl From<AddressNotAligned> for Unasked {
    #[inline]
    fn from(_: AddressNotAligned) -> Unasked {
        Unasked::Refused(NOT_ALIGNED)
    }
}

impl From<PfnNotValid> for Unasked {
    #[inline]
    fn from(_: PfnNotValid) -> Unasked {
        Unasked::Refused(PFN_TOO_LARGE)
    }
}
