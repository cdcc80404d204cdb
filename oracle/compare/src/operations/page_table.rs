//! src/structures/paging/page_table.rs, and what src/addr.rs gives of its types.

use x86_64::opened::{
    page_table_index_into_u64, step_backward_checked, step_forward_checked, step_steps_between,
};
use x86_64::structures::paging::page_table::PageTableLevel;
use x86_64::structures::paging::{PageOffset, PageTableIndex};
use x86_64::VirtAddr;

use crate::model::page_table;
use crate::operation;
use crate::operation::Operation;

pub const PAGE_TABLE: &[Operation] = &[
    operation! {
        0x30 page_table_index_new(index: Small)
        port wuohtan_page_table_index_new,
        rust [PageTableIndex::new],
        model page_table::new_index
    },
    operation! {
        0x31 page_table_index_new_truncate(index: Small)
        port wuohtan_page_table_index_new_truncate,
        rust [PageTableIndex::new_truncate],
        model page_table::new_index_truncate
    },
    operation! {
        0x32 page_table_index_into_u64(index: Index)
        port wuohtan_page_table_index_into_u64,
        rust [
            page_table_index_into_u64,
            <u64 as From<PageTableIndex>>::from,
            <u16 as From<PageTableIndex>>::from,
            <u32 as From<PageTableIndex>>::from,
            <usize as From<PageTableIndex>>::from
        ],
        model page_table::into_u64
    },
    operation! {
        0x33 page_table_index_forward_checked(start: Index, count: Small)
        port wuohtan_page_table_index_forward_checked,
        rust [step_forward_checked::<PageTableIndex>],
        model page_table::index_forward_checked
    },
    operation! {
        0x34 page_table_index_backward_checked(start: Index, count: Small)
        port wuohtan_page_table_index_backward_checked,
        rust [step_backward_checked::<PageTableIndex>],
        model page_table::index_backward_checked
    },
    operation! {
        0x35 page_table_index_steps_between(start: Index, end: Index)
        port wuohtan_page_table_index_steps_between,
        rust [step_steps_between::<PageTableIndex>],
        model page_table::index_steps_between
    },
    operation! {
        0x38 page_offset_new(offset: Small)
        port wuohtan_page_offset_new,
        rust [PageOffset::new],
        model page_table::new_offset
    },
    operation! {
        0x39 page_offset_new_truncate(offset: Small)
        port wuohtan_page_offset_new_truncate,
        rust [PageOffset::new_truncate],
        model page_table::new_offset_truncate
    },
    operation! {
        0x3a page_offset_into_u64(offset: Offset)
        port wuohtan_page_offset_into_u64,
        rust [
            <u64 as From<PageOffset>>::from,
            <u16 as From<PageOffset>>::from,
            <u32 as From<PageOffset>>::from,
            <usize as From<PageOffset>>::from
        ],
        model page_table::into_u64
    },
    operation! {
        0x3c page_table_level_next_lower_level(width: Width, level: Level)
        port wuohtan_page_table_level_next_lower_level,
        rust [PageTableLevel::next_lower_level],
        model page_table::next_lower_level
    },
    operation! {
        0x3d page_table_level_next_higher_level(width: Width, level: Level)
        port wuohtan_page_table_level_next_higher_level,
        rust [PageTableLevel::next_higher_level],
        model page_table::next_higher_level
    },
    operation! {
        0x3e page_table_level_table_address_space_alignment(width: Width, level: Level)
        port wuohtan_page_table_level_table_address_space_alignment,
        rust [PageTableLevel::table_address_space_alignment],
        model page_table::table_address_space_alignment
    },
    operation! {
        0x3f page_table_level_entry_address_space_alignment(width: Width, level: Level)
        port wuohtan_page_table_level_entry_address_space_alignment,
        rust [PageTableLevel::entry_address_space_alignment],
        model page_table::entry_address_space_alignment
    },
];

pub const VIRT_ADDR: &[Operation] = &[
    operation! {
        0x40 virt_addr_page_offset(width: Width, addr: Virtual)
        port wuohtan_virt_addr_page_offset,
        rust [VirtAddr::page_offset],
        model page_table::page_offset
    },
    operation! {
        0x41 virt_addr_p1_index(width: Width, addr: Virtual)
        port wuohtan_virt_addr_p1_index,
        rust [
            VirtAddr::p1_index,
            |addr: VirtAddr| addr.page_table_index(PageTableLevel::One)
        ],
        model page_table::p1_index
    },
    operation! {
        0x42 virt_addr_p2_index(width: Width, addr: Virtual)
        port wuohtan_virt_addr_p2_index,
        rust [
            VirtAddr::p2_index,
            |addr: VirtAddr| addr.page_table_index(PageTableLevel::Two)
        ],
        model page_table::p2_index
    },
    operation! {
        0x43 virt_addr_p3_index(width: Width, addr: Virtual)
        port wuohtan_virt_addr_p3_index,
        rust [
            VirtAddr::p3_index,
            |addr: VirtAddr| addr.page_table_index(PageTableLevel::Three)
        ],
        model page_table::p3_index
    },
    operation! {
        0x44 virt_addr_p4_index(width: Width, addr: Virtual)
        port wuohtan_virt_addr_p4_index,
        rust [
            VirtAddr::p4_index,
            |addr: VirtAddr| addr.page_table_index(PageTableLevel::Four)
        ],
        model page_table::p4_index
    },
    operation! {
        0x45 virt_addr_page_table_index(width: Width, addr: Virtual, level: Level)
        port wuohtan_virt_addr_page_table_index,
        rust [VirtAddr::page_table_index, index_by_name],
        model page_table::page_table_index
    },
];

/// The index at a level, by the function that has the level in its name.
pub fn index_by_name(addr: VirtAddr, level: PageTableLevel) -> PageTableIndex {
    match level {
        PageTableLevel::One => addr.p1_index(),
        PageTableLevel::Two => addr.p2_index(),
        PageTableLevel::Three => addr.p3_index(),
        PageTableLevel::Four => addr.p4_index(),
    }
}
