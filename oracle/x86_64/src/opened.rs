//! Own, not the crate's: opens the functions that the unchanged files keep to the crate, and the
//! methods of the unstable trait Step, so that a crate without unstable features can ask both.

use core::iter::Step;

use crate::structures::paging::{Page, PageSize, PageTableIndex};
use crate::{PhysAddr, VirtAddr};

/// The three methods of Step, on any type that has them.
#[inline]
pub fn step_forward_checked<T: Step>(start: T, count: u64) -> Option<T> {
    Step::forward_checked(start, count as usize)
}

#[inline]
pub fn step_backward_checked<T: Step>(start: T, count: u64) -> Option<T> {
    Step::backward_checked(start, count as usize)
}

/// The steps between, if the two bounds that Step gives say that they are exact. A lower bound
/// beside the exact number must be that number, and 0 where there is none.
#[inline]
pub fn step_steps_between<T: Step>(start: T, end: T) -> Option<u64> {
    let (lower, exact) = Step::steps_between(&start, &end);
    assert_eq!(
        lower,
        exact.unwrap_or(0),
        "the bounds of steps_between disagree"
    );
    exact.map(|steps| steps as u64)
}

#[inline]
pub fn virt_addr_forward_checked_u64(start: VirtAddr, count: u64) -> Option<VirtAddr> {
    VirtAddr::forward_checked_u64(start, count)
}

#[inline]
pub fn virt_addr_backward_checked_u64(start: VirtAddr, count: u64) -> Option<VirtAddr> {
    VirtAddr::backward_checked_u64(start, count)
}

#[inline]
pub fn virt_addr_steps_between_u64(start: VirtAddr, end: VirtAddr) -> Option<u64> {
    VirtAddr::steps_between_u64(&start, &end)
}

#[inline]
pub fn virt_addr_align_down_u64(addr: VirtAddr, align: u64) -> VirtAddr {
    addr.align_down_u64(align)
}

#[inline]
pub fn virt_addr_is_aligned_u64(addr: VirtAddr, align: u64) -> bool {
    addr.is_aligned_u64(align)
}

#[inline]
pub fn phys_addr_align_down_u64(addr: PhysAddr, align: u64) -> PhysAddr {
    addr.align_down_u64(align)
}

#[inline]
pub fn phys_addr_is_aligned_u64(addr: PhysAddr, align: u64) -> bool {
    addr.is_aligned_u64(align)
}

#[inline]
pub fn page_steps_between_u64<S: PageSize>(start: Page<S>, end: Page<S>) -> Option<u64> {
    Page::steps_between_u64(&start, &end)
}

#[inline]
pub fn page_forward_checked_impl<S: PageSize>(start: Page<S>, count: u64) -> Option<Page<S>> {
    Page::forward_checked_impl(start, count as usize)
}

#[inline]
pub fn page_table_index_into_u64(index: PageTableIndex) -> u64 {
    index.into_u64()
}
