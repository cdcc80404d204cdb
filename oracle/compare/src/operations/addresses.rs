//! src/addr.rs.

use std::ops::{Add, Sub};

use x86_64::opened::{
    phys_addr_align_down_u64, phys_addr_is_aligned_u64, step_backward_checked,
    step_forward_checked, step_steps_between, virt_addr_align_down_u64,
    virt_addr_backward_checked_u64, virt_addr_forward_checked_u64, virt_addr_is_aligned_u64,
    virt_addr_steps_between_u64,
};
use x86_64::{align_down, align_up, PhysAddr, VirtAddr};

use super::{add_assign, add_signed, sub_assign};
use crate::model::{numbers, phys_addr, virt_addr};
use crate::operation;
use crate::operation::Operation;
use crate::rust::refusal_of_new;

pub const NUMBERS: &[Operation] = &[
    operation! {
        0x01 align_down(addr: Number, align: Alignment)
        port wuohtan_align_down,
        rust [align_down],
        model numbers::align_down
    },
    operation! {
        0x02 align_up(addr: Number, align: Alignment)
        port wuohtan_align_up,
        rust [align_up],
        model numbers::align_up
    },
];

pub const VIRT_ADDR: &[Operation] = &[
    operation! {
        0x10 virt_addr_new(width: Width, addr: Number)
        port wuohtan_virt_addr_new,
        rust [VirtAddr::new],
        model virt_addr::try_new
    },
    operation! {
        0x11 virt_addr_try_new(width: Width, addr: Number)
        port wuohtan_virt_addr_try_new,
        rust [VirtAddr::try_new],
        model virt_addr::try_new
    },
    operation! {
        0x12 virt_addr_new_truncate(width: Width, addr: Number)
        port wuohtan_virt_addr_new_truncate,
        rust [VirtAddr::new_truncate],
        model virt_addr::new_truncate
    },
    operation! {
        0x13 virt_addr_zero()
        port wuohtan_virt_addr_zero,
        rust [VirtAddr::zero],
        model virt_addr::zero
    },
    operation! {
        0x14 virt_addr_as_u64(width: Width, addr: Virtual)
        port wuohtan_virt_addr_as_u64,
        rust [VirtAddr::as_u64],
        model virt_addr::as_u64
    },
    operation! {
        0x15 virt_addr_is_null(width: Width, addr: Virtual)
        port wuohtan_virt_addr_is_null,
        rust [VirtAddr::is_null],
        model virt_addr::is_null
    },
    operation! {
        0x16 virt_addr_align_up(width: Width, addr: Virtual, align: Alignment)
        port wuohtan_virt_addr_align_up,
        rust [VirtAddr::align_up::<u64>],
        model virt_addr::align_up
    },
    operation! {
        0x17 virt_addr_align_down(width: Width, addr: Virtual, align: Alignment)
        port wuohtan_virt_addr_align_down,
        rust [VirtAddr::align_down::<u64>, virt_addr_align_down_u64],
        model virt_addr::align_down
    },
    operation! {
        0x18 virt_addr_is_aligned(width: Width, addr: Virtual, align: Alignment)
        port wuohtan_virt_addr_is_aligned,
        rust [VirtAddr::is_aligned::<u64>, virt_addr_is_aligned_u64],
        model virt_addr::is_aligned
    },
    operation! {
        0x19 virt_addr_add(width: Width, addr: Virtual, count: Count)
        port wuohtan_virt_addr_add,
        rust [<VirtAddr as Add<u64>>::add, add_assign::<VirtAddr>],
        model virt_addr::add
    },
    operation! {
        0x1a virt_addr_sub(width: Width, addr: Virtual, count: Count)
        port wuohtan_virt_addr_sub,
        rust [<VirtAddr as Sub<u64>>::sub, sub_assign::<VirtAddr>],
        model virt_addr::sub
    },
    operation! {
        0x1b virt_addr_sub_addr(width: Width, addr: Virtual, other: Virtual)
        port wuohtan_virt_addr_sub_addr,
        rust [<VirtAddr as Sub<VirtAddr>>::sub],
        model virt_addr::sub_addr
    },
    operation! {
        0x1c virt_addr_forward_checked_u64(width: Width, start: Virtual, count: Count)
        port wuohtan_virt_addr_forward_checked_u64,
        rust [virt_addr_forward_checked_u64, step_forward_checked::<VirtAddr>],
        model virt_addr::forward_checked_u64
    },
    operation! {
        0x1d virt_addr_backward_checked_u64(width: Width, start: Virtual, count: Count)
        port wuohtan_virt_addr_backward_checked_u64,
        rust [virt_addr_backward_checked_u64, step_backward_checked::<VirtAddr>],
        model virt_addr::backward_checked_u64
    },
    operation! {
        0x1e virt_addr_steps_between_u64(width: Width, start: Virtual, end: Virtual)
        port wuohtan_virt_addr_steps_between_u64,
        rust [virt_addr_steps_between_u64, step_steps_between::<VirtAddr>],
        model virt_addr::steps_between_u64
    },
    operation! {
        0x1f virt_addr_add_signed(width: Width, addr: Virtual, displacement: Displacement)
        port wuohtan_virt_addr_add_signed,
        rust [add_signed],
        model virt_addr::add_signed
    },
];

pub const PHYS_ADDR: &[Operation] = &[
    operation! {
        0x20 phys_addr_new(addr: Number)
        port wuohtan_phys_addr_new,
        rust [PhysAddr::new],
        panics refusal_of_new,
        model phys_addr::try_new
    },
    operation! {
        0x21 phys_addr_try_new(addr: Number)
        port wuohtan_phys_addr_try_new,
        rust [PhysAddr::try_new],
        model phys_addr::try_new
    },
    operation! {
        0x22 phys_addr_new_truncate(addr: Number)
        port wuohtan_phys_addr_new_truncate,
        rust [PhysAddr::new_truncate],
        model phys_addr::new_truncate
    },
    operation! {
        0x23 phys_addr_zero()
        port wuohtan_phys_addr_zero,
        rust [PhysAddr::zero],
        model phys_addr::zero
    },
    operation! {
        0x24 phys_addr_as_u64(addr: Physical)
        port wuohtan_phys_addr_as_u64,
        rust [PhysAddr::as_u64],
        model phys_addr::as_u64
    },
    operation! {
        0x25 phys_addr_is_null(addr: Physical)
        port wuohtan_phys_addr_is_null,
        rust [PhysAddr::is_null],
        model phys_addr::is_null
    },
    operation! {
        0x26 phys_addr_align_up(addr: Physical, align: Alignment)
        port wuohtan_phys_addr_align_up,
        rust [PhysAddr::align_up::<u64>],
        model phys_addr::align_up
    },
    operation! {
        0x27 phys_addr_align_down(addr: Physical, align: Alignment)
        port wuohtan_phys_addr_align_down,
        rust [PhysAddr::align_down::<u64>, phys_addr_align_down_u64],
        model phys_addr::align_down
    },
    operation! {
        0x28 phys_addr_is_aligned(addr: Physical, align: Alignment)
        port wuohtan_phys_addr_is_aligned,
        rust [PhysAddr::is_aligned::<u64>, phys_addr_is_aligned_u64],
        model phys_addr::is_aligned
    },
    operation! {
        0x29 phys_addr_add(addr: Physical, count: Count)
        port wuohtan_phys_addr_add,
        rust [<PhysAddr as Add<u64>>::add, add_assign::<PhysAddr>],
        model phys_addr::add
    },
    operation! {
        0x2a phys_addr_sub(addr: Physical, count: Count)
        port wuohtan_phys_addr_sub,
        rust [<PhysAddr as Sub<u64>>::sub, sub_assign::<PhysAddr>],
        model phys_addr::sub
    },
    operation! {
        0x2b phys_addr_sub_addr(addr: Physical, other: Physical)
        port wuohtan_phys_addr_sub_addr,
        rust [<PhysAddr as Sub<PhysAddr>>::sub],
        model phys_addr::sub_addr
    },
];
