//! src/structures/paging/frame.rs.

use std::ops::{Add, Sub};

use x86_64::structures::paging::{PhysFrame, Size1GiB, Size2MiB, Size4KiB};

use super::{add_assign, sub_assign};
use crate::model::frames;
use crate::operation;
use crate::operation::Operation;

pub const PHYS_FRAME: &[Operation] = &[
    operation! {
        0x50 phys_frame_from_start_address(address size: PhysicalAndSize)
        port wuohtan_phys_frame_from_start_address,
        sizes (size: Size4KiB Size2MiB Size1GiB),
        rust [PhysFrame::<S>::from_start_address],
        model frames::from_start_address
    },
    operation! {
        0x51 phys_frame_from_pfn(pfn size: FrameNumber)
        port wuohtan_phys_frame_from_pfn,
        sizes (size: Size4KiB Size2MiB Size1GiB),
        rust [PhysFrame::<S>::from_pfn, PhysFrame::<S>::try_from_pfn],
        model frames::try_from_pfn
    },
    operation! {
        0x52 phys_frame_try_from_pfn(pfn size: FrameNumber)
        port wuohtan_phys_frame_try_from_pfn,
        sizes (size: Size4KiB Size2MiB Size1GiB),
        rust [PhysFrame::<S>::try_from_pfn, PhysFrame::<S>::from_pfn],
        model frames::try_from_pfn
    },
    operation! {
        0x53 phys_frame_containing_address(address size: PhysicalAndSize)
        port wuohtan_phys_frame_containing_address,
        sizes (size: Size4KiB Size2MiB Size1GiB),
        rust [PhysFrame::<S>::containing_address],
        model frames::containing_address
    },
    operation! {
        0x54 phys_frame_start_address(start size: Frame)
        port wuohtan_phys_frame_start_address,
        sizes (size: Size4KiB Size2MiB Size1GiB),
        rust [PhysFrame::<S>::start_address],
        model frames::start_address
    },
    operation! {
        0x55 phys_frame_size(start size: Frame)
        port wuohtan_phys_frame_size,
        sizes (size: Size4KiB Size2MiB Size1GiB),
        rust [PhysFrame::<S>::size],
        model frames::size
    },
    operation! {
        0x56 phys_frame_pfn(start size: Frame)
        port wuohtan_phys_frame_pfn,
        sizes (size: Size4KiB Size2MiB Size1GiB),
        rust [PhysFrame::<S>::pfn],
        model frames::pfn
    },
    operation! {
        0x57 phys_frame_add(start size: Frame, count: Items)
        port wuohtan_phys_frame_add,
        sizes (size: Size4KiB Size2MiB Size1GiB),
        rust [<PhysFrame<S> as Add<u64>>::add, add_assign::<PhysFrame<S>>],
        model frames::add
    },
    operation! {
        0x58 phys_frame_sub(start size: Frame, count: Items)
        port wuohtan_phys_frame_sub,
        sizes (size: Size4KiB Size2MiB Size1GiB),
        rust [<PhysFrame<S> as Sub<u64>>::sub, sub_assign::<PhysFrame<S>>],
        model frames::sub
    },
    operation! {
        0x59 phys_frame_sub_frame(start size: Frame, other other_size: Frame)
        port wuohtan_phys_frame_sub_frame,
        sizes (size: Size4KiB Size2MiB Size1GiB),
        rust [<PhysFrame<S> as Sub<PhysFrame<S>>>::sub],
        model frames::sub_frame
    },
];
