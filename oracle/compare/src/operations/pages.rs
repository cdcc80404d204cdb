//! src/structures/paging/page.rs.

use std::ops::{Add, Sub};

use x86_64::opened::{
    page_forward_checked_impl, page_steps_between_u64, step_backward_checked, step_forward_checked,
    step_steps_between,
};
use x86_64::structures::paging::page_table::PageTableLevel;
use x86_64::structures::paging::{Page, Size1GiB, Size2MiB, Size4KiB};

use super::page_table::index_by_name;
use super::{add_assign, sub_assign};
use crate::model::pages;
use crate::operation;
use crate::operation::Operation;

pub const PAGE: &[Operation] = &[
    operation! {
        0x60 page_from_start_address(width: Width, address size: VirtualAndSize)
        port wuohtan_page_from_start_address,
        sizes (size: Size4KiB Size2MiB Size1GiB),
        rust [Page::<S>::from_start_address],
        model pages::from_start_address
    },
    operation! {
        0x61 page_containing_address(width: Width, address size: VirtualAndSize)
        port wuohtan_page_containing_address,
        sizes (size: Size4KiB Size2MiB Size1GiB),
        rust [Page::<S>::containing_address],
        model pages::containing_address
    },
    operation! {
        0x62 page_start_address(width: Width, start size: Page)
        port wuohtan_page_start_address,
        sizes (size: Size4KiB Size2MiB Size1GiB),
        rust [Page::<S>::start_address],
        model pages::start_address
    },
    operation! {
        0x63 page_size(width: Width, start size: Page)
        port wuohtan_page_size,
        sizes (size: Size4KiB Size2MiB Size1GiB),
        rust [Page::<S>::size, |_: Page<S>| Page::<S>::SIZE],
        model pages::size
    },
    operation! {
        0x64 page_p1_index(width: Width, start size: Page)
        port wuohtan_page_p1_index,
        sizes (size: Size4KiB),
        rust [
            Page::<S>::p1_index,
            |page: Page<S>| page.page_table_index(PageTableLevel::One)
        ],
        model pages::p1_index
    },
    operation! {
        0x65 page_p2_index(width: Width, start size: Page)
        port wuohtan_page_p2_index,
        sizes (size: Size4KiB Size2MiB),
        rust [
            Page::<S>::p2_index,
            |page: Page<S>| page.page_table_index(PageTableLevel::Two)
        ],
        model pages::p2_index
    },
    operation! {
        0x66 page_p3_index(width: Width, start size: Page)
        port wuohtan_page_p3_index,
        sizes (size: Size4KiB Size2MiB Size1GiB),
        rust [
            Page::<S>::p3_index,
            |page: Page<S>| page.page_table_index(PageTableLevel::Three)
        ],
        model pages::p3_index
    },
    operation! {
        0x67 page_p4_index(width: Width, start size: Page)
        port wuohtan_page_p4_index,
        sizes (size: Size4KiB Size2MiB Size1GiB),
        rust [
            Page::<S>::p4_index,
            |page: Page<S>| page.page_table_index(PageTableLevel::Four)
        ],
        model pages::p4_index
    },
    operation! {
        0x68 page_page_table_index(width: Width, start size: Page, level: Level)
        port wuohtan_page_page_table_index,
        sizes (size: Size4KiB Size2MiB Size1GiB),
        rust [
            Page::<S>::page_table_index,
            |page: Page<S>, level| index_by_name(page.start_address(), level)
        ],
        model pages::page_table_index
    },
    operation! {
        0x69 page_from_page_table_indices(
            width: Width, p5_index: Index5, p4_index: Index, p3_index: Index, p2_index: Index,
            p1_index: Index
        )
        port wuohtan_page_from_page_table_indices,
        rust [Page::from_page_table_indices],
        model pages::from_page_table_indices
    },
    operation! {
        0x6a page_from_page_table_indices_2mib(
            width: Width, p5_index: Index5, p4_index: Index, p3_index: Index, p2_index: Index
        )
        port wuohtan_page_from_page_table_indices_2mib,
        rust [Page::from_page_table_indices_2mib],
        model pages::from_page_table_indices_2mib
    },
    operation! {
        0x6b page_from_page_table_indices_1gib(
            width: Width, p5_index: Index5, p4_index: Index, p3_index: Index
        )
        port wuohtan_page_from_page_table_indices_1gib,
        rust [Page::from_page_table_indices_1gib],
        model pages::from_page_table_indices_1gib
    },
    operation! {
        0x6c page_add(width: Width, start size: Page, count: Items)
        port wuohtan_page_add,
        sizes (size: Size4KiB Size2MiB Size1GiB),
        rust [<Page<S> as Add<u64>>::add, add_assign::<Page<S>>],
        model pages::add
    },
    operation! {
        0x6d page_sub(width: Width, start size: Page, count: Items)
        port wuohtan_page_sub,
        sizes (size: Size4KiB Size2MiB Size1GiB),
        rust [<Page<S> as Sub<u64>>::sub, sub_assign::<Page<S>>],
        model pages::sub
    },
    operation! {
        0x6e page_sub_page(width: Width, start size: Page, other other_size: Page)
        port wuohtan_page_sub_page,
        sizes (size: Size4KiB Size2MiB Size1GiB),
        rust [<Page<S> as Sub<Page<S>>>::sub],
        model pages::sub_page
    },
    operation! {
        0x6f page_forward_checked(width: Width, start size: Page, count: Items)
        port wuohtan_page_forward_checked,
        sizes (size: Size4KiB Size2MiB Size1GiB),
        rust [step_forward_checked::<Page<S>>, page_forward_checked_impl::<S>],
        model pages::forward_checked
    },
    operation! {
        0x70 page_backward_checked(width: Width, start size: Page, count: Items)
        port wuohtan_page_backward_checked,
        sizes (size: Size4KiB Size2MiB Size1GiB),
        rust [step_backward_checked::<Page<S>>],
        model pages::backward_checked
    },
    operation! {
        0x71 page_steps_between_u64(width: Width, start size: Page, end end_size: Page)
        port wuohtan_page_steps_between_u64,
        sizes (size: Size4KiB Size2MiB Size1GiB),
        rust [page_steps_between_u64::<S>, step_steps_between::<Page<S>>],
        model pages::steps_between_u64
    },
];
