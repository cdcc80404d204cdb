/* Wuohtan: x86-64 addresses, pages, frames, ranges and page tables in memory images.
 * docs/REFERENCE.md says what each call takes, answers and refuses, and in which order.
 *
 * One convention for every function. Numbers go in by value. The status tells the answer:
 *
 *   WUOHTAN_ANSWERED  the answer's words stand at the start of out[0..len]
 *   WUOHTAN_NONE      there is no such item
 *   WUOHTAN_NO_ROOM   there is an answer, and out is too short for its words
 *   WUOHTAN_NO_SUCH_CHOICE  a width, level or page size is none of those there are; tried first of all
 *   any other         the number of the refusal
 *
 * Unless the status is WUOHTAN_ANSWERED, out is left as it was; if it is, so is the part of out
 * behind the answer's words. A truth value is a word, 1 or 0.
 *
 * width is how many bits a virtual address has: 48, with four levels of tables, or 57, with five. Bits
 * width to 63 are as bit width - 1: the low half ends below 2^(width - 1), the high half begins at
 * 2^64 - 2^(width - 1), and between them is the gap. What depends on the width takes it first.
 *
 * What is lent (out, image, answers) is a pointer to words, aligned as uint64_t is, and their count.
 * The pointer may be null where the count is 0, and only there. What is lent in one call must not
 * overlap, and until it returns nobody else writes it, nor reads what the call may write.
 */
#ifndef WUOHTAN_H
#define WUOHTAN_H

#include <stddef.h>
#include <stdint.h>

#ifdef __cplusplus
extern "C" {
#endif

enum {
    WUOHTAN_ANSWERED = 0,
    WUOHTAN_NOT_CANONICAL = 1,      /* a virtual number that is not canonical */
    WUOHTAN_NOT_PHYSICAL = 2,       /* a physical number of 2^52 or more */
    WUOHTAN_NOT_ALIGNED = 3,        /* a start that is no multiple of its page size */
    WUOHTAN_NOT_POWER_OF_TWO = 4,   /* an alignment that is no power of two */
    WUOHTAN_OVERFLOW = 5,           /* a result beyond 64 bits or below zero */
    WUOHTAN_RESULT_NOT_CANONICAL = 6,
    WUOHTAN_SIZES_DIFFER = 7,
    WUOHTAN_RESULT_NOT_PHYSICAL = 8,
    WUOHTAN_INDEX_TOO_LARGE = 9,    /* an index of 512 or more, an offset of 4096 or more */
    WUOHTAN_DRAW_MEETS_GAP = 10,    /* a draw of pages from a low start to a high end, into the gap or over it */
    WUOHTAN_PFN_TOO_LARGE = 12,     /* a frame number whose frame would start at 2^52 or more */
    WUOHTAN_ROOT_OUTSIDE = 14,      /* a root table that is not wholly in the image */
    WUOHTAN_NO_SUCH_CHOICE = 253,   /* a width not 48 or 57, a level that it has not, a size that is no page size */
    WUOHTAN_NO_ROOM = 254,
    WUOHTAN_NONE = 255
};

/* Numbers: one word each. */
uint8_t wuohtan_align_down(uint64_t addr, uint64_t align, uint64_t *out, size_t len);
uint8_t wuohtan_align_up(uint64_t addr, uint64_t align, uint64_t *out, size_t len);

/* Virtual addresses: one word each. */
uint8_t wuohtan_virt_addr_new(uint64_t width, uint64_t addr, uint64_t *out, size_t len);
uint8_t wuohtan_virt_addr_try_new(uint64_t width, uint64_t addr, uint64_t *out, size_t len);
uint8_t wuohtan_virt_addr_new_truncate(uint64_t width, uint64_t addr, uint64_t *out, size_t len);
uint8_t wuohtan_virt_addr_zero(uint64_t *out, size_t len);
uint8_t wuohtan_virt_addr_as_u64(uint64_t width, uint64_t addr, uint64_t *out, size_t len);
uint8_t wuohtan_virt_addr_is_null(uint64_t width, uint64_t addr, uint64_t *out, size_t len);
uint8_t wuohtan_virt_addr_align_up(uint64_t width, uint64_t addr, uint64_t align, uint64_t *out, size_t len);
uint8_t wuohtan_virt_addr_align_down(uint64_t width, uint64_t addr, uint64_t align, uint64_t *out, size_t len);
uint8_t wuohtan_virt_addr_is_aligned(uint64_t width, uint64_t addr, uint64_t align, uint64_t *out, size_t len);
/* addr + count and addr - count */
uint8_t wuohtan_virt_addr_add(uint64_t width, uint64_t addr, uint64_t count, uint64_t *out, size_t len);
uint8_t wuohtan_virt_addr_sub(uint64_t width, uint64_t addr, uint64_t count, uint64_t *out, size_t len);
/* addr + displacement, exactly: WUOHTAN_OVERFLOW below zero and at 2^64, where a processor wraps */
uint8_t wuohtan_virt_addr_add_signed(uint64_t width, uint64_t addr, int32_t displacement, uint64_t *out,
                                     size_t len);
/* addr - other, both addresses */
uint8_t wuohtan_virt_addr_sub_addr(uint64_t width, uint64_t addr, uint64_t other, uint64_t *out, size_t len);
uint8_t wuohtan_virt_addr_forward_checked_u64(uint64_t width, uint64_t start, uint64_t count, uint64_t *out,
                                              size_t len);
uint8_t wuohtan_virt_addr_backward_checked_u64(uint64_t width, uint64_t start, uint64_t count, uint64_t *out,
                                               size_t len);
uint8_t wuohtan_virt_addr_steps_between_u64(uint64_t width, uint64_t start, uint64_t end, uint64_t *out,
                                            size_t len);

/* The offset in a 4 KiB page, and the index into the table of a level, 1 to 4, at 57 bits 1 to 5. */
uint8_t wuohtan_virt_addr_page_offset(uint64_t width, uint64_t addr, uint64_t *out, size_t len);
uint8_t wuohtan_virt_addr_p1_index(uint64_t width, uint64_t addr, uint64_t *out, size_t len);
uint8_t wuohtan_virt_addr_p2_index(uint64_t width, uint64_t addr, uint64_t *out, size_t len);
uint8_t wuohtan_virt_addr_p3_index(uint64_t width, uint64_t addr, uint64_t *out, size_t len);
uint8_t wuohtan_virt_addr_p4_index(uint64_t width, uint64_t addr, uint64_t *out, size_t len);
uint8_t wuohtan_virt_addr_page_table_index(uint64_t width, uint64_t addr, uint64_t level, uint64_t *out,
                                           size_t len);

/* Physical addresses: one word each. */
uint8_t wuohtan_phys_addr_new(uint64_t addr, uint64_t *out, size_t len);
uint8_t wuohtan_phys_addr_try_new(uint64_t addr, uint64_t *out, size_t len);
uint8_t wuohtan_phys_addr_new_truncate(uint64_t addr, uint64_t *out, size_t len);
uint8_t wuohtan_phys_addr_zero(uint64_t *out, size_t len);
uint8_t wuohtan_phys_addr_as_u64(uint64_t addr, uint64_t *out, size_t len);
uint8_t wuohtan_phys_addr_is_null(uint64_t addr, uint64_t *out, size_t len);
uint8_t wuohtan_phys_addr_align_up(uint64_t addr, uint64_t align, uint64_t *out, size_t len);
uint8_t wuohtan_phys_addr_align_down(uint64_t addr, uint64_t align, uint64_t *out, size_t len);
uint8_t wuohtan_phys_addr_is_aligned(uint64_t addr, uint64_t align, uint64_t *out, size_t len);
uint8_t wuohtan_phys_addr_add(uint64_t addr, uint64_t count, uint64_t *out, size_t len);
uint8_t wuohtan_phys_addr_sub(uint64_t addr, uint64_t count, uint64_t *out, size_t len);
uint8_t wuohtan_phys_addr_sub_addr(uint64_t addr, uint64_t other, uint64_t *out, size_t len);

/* Table indices, offsets and levels, 1 to 4, at 57 bits 1 to 5: one word each. */
uint8_t wuohtan_page_table_index_new(uint64_t index, uint64_t *out, size_t len);
uint8_t wuohtan_page_table_index_new_truncate(uint64_t index, uint64_t *out, size_t len);
uint8_t wuohtan_page_table_index_into_u64(uint64_t index, uint64_t *out, size_t len);
uint8_t wuohtan_page_table_index_forward_checked(uint64_t start, uint64_t count, uint64_t *out, size_t len);
uint8_t wuohtan_page_table_index_backward_checked(uint64_t start, uint64_t count, uint64_t *out, size_t len);
uint8_t wuohtan_page_table_index_steps_between(uint64_t start, uint64_t end, uint64_t *out, size_t len);
uint8_t wuohtan_page_offset_new(uint64_t offset, uint64_t *out, size_t len);
uint8_t wuohtan_page_offset_new_truncate(uint64_t offset, uint64_t *out, size_t len);
uint8_t wuohtan_page_offset_into_u64(uint64_t offset, uint64_t *out, size_t len);
uint8_t wuohtan_page_table_level_next_lower_level(uint64_t width, uint64_t level, uint64_t *out, size_t len);
uint8_t wuohtan_page_table_level_next_higher_level(uint64_t width, uint64_t level, uint64_t *out, size_t len);
uint8_t wuohtan_page_table_level_table_address_space_alignment(uint64_t width, uint64_t level, uint64_t *out,
                                                               size_t len);
uint8_t wuohtan_page_table_level_entry_address_space_alignment(uint64_t width, uint64_t level, uint64_t *out,
                                                               size_t len);

/* Frames: a start address and a size in bytes, 4096, 2^21 or 2^30. A frame is answered by its
 * start; its size is the one handed in. */
uint8_t wuohtan_phys_frame_from_start_address(uint64_t address, uint64_t size, uint64_t *out, size_t len);
uint8_t wuohtan_phys_frame_from_pfn(uint64_t pfn, uint64_t size, uint64_t *out, size_t len);
uint8_t wuohtan_phys_frame_try_from_pfn(uint64_t pfn, uint64_t size, uint64_t *out, size_t len);
uint8_t wuohtan_phys_frame_containing_address(uint64_t address, uint64_t size, uint64_t *out, size_t len);
uint8_t wuohtan_phys_frame_start_address(uint64_t start, uint64_t size, uint64_t *out, size_t len);
uint8_t wuohtan_phys_frame_size(uint64_t start, uint64_t size, uint64_t *out, size_t len);
uint8_t wuohtan_phys_frame_pfn(uint64_t start, uint64_t size, uint64_t *out, size_t len);
uint8_t wuohtan_phys_frame_add(uint64_t start, uint64_t size, uint64_t count, uint64_t *out, size_t len);
uint8_t wuohtan_phys_frame_sub(uint64_t start, uint64_t size, uint64_t count, uint64_t *out, size_t len);
/* frame - other, both frames */
uint8_t wuohtan_phys_frame_sub_frame(uint64_t start, uint64_t size, uint64_t other, uint64_t other_size,
                                     uint64_t *out, size_t len);

/* Pages: a start address and a size in bytes, as frames. A page from its indices has the size that
 * the name says; 48 bits have no level 5, so there is none then (WUOHTAN_NONE) unless p5_index is 0.
 * p1_index of a page that is not 4 KiB and p2_index of one of 1 GiB refuse WUOHTAN_SIZES_DIFFER. */
uint8_t wuohtan_page_from_start_address(uint64_t width, uint64_t address, uint64_t size, uint64_t *out, size_t len);
uint8_t wuohtan_page_containing_address(uint64_t width, uint64_t address, uint64_t size, uint64_t *out, size_t len);
uint8_t wuohtan_page_start_address(uint64_t width, uint64_t start, uint64_t size, uint64_t *out, size_t len);
uint8_t wuohtan_page_size(uint64_t width, uint64_t start, uint64_t size, uint64_t *out, size_t len);
uint8_t wuohtan_page_p1_index(uint64_t width, uint64_t start, uint64_t size, uint64_t *out, size_t len);
uint8_t wuohtan_page_p2_index(uint64_t width, uint64_t start, uint64_t size, uint64_t *out, size_t len);
uint8_t wuohtan_page_p3_index(uint64_t width, uint64_t start, uint64_t size, uint64_t *out, size_t len);
uint8_t wuohtan_page_p4_index(uint64_t width, uint64_t start, uint64_t size, uint64_t *out, size_t len);
uint8_t wuohtan_page_page_table_index(uint64_t width, uint64_t start, uint64_t size, uint64_t level, uint64_t *out,
                                      size_t len);
uint8_t wuohtan_page_from_page_table_indices(uint64_t width, uint64_t p5_index, uint64_t p4_index,
                                             uint64_t p3_index, uint64_t p2_index, uint64_t p1_index, uint64_t *out,
                                             size_t len);
uint8_t wuohtan_page_from_page_table_indices_2mib(uint64_t width, uint64_t p5_index, uint64_t p4_index,
                                                  uint64_t p3_index, uint64_t p2_index, uint64_t *out, size_t len);
uint8_t wuohtan_page_from_page_table_indices_1gib(uint64_t width, uint64_t p5_index, uint64_t p4_index,
                                                  uint64_t p3_index, uint64_t *out, size_t len);
uint8_t wuohtan_page_add(uint64_t width, uint64_t start, uint64_t size, uint64_t count, uint64_t *out, size_t len);
uint8_t wuohtan_page_sub(uint64_t width, uint64_t start, uint64_t size, uint64_t count, uint64_t *out, size_t len);
/* page - other, both pages */
uint8_t wuohtan_page_sub_page(uint64_t width, uint64_t start, uint64_t size, uint64_t other, uint64_t other_size,
                              uint64_t *out, size_t len);
uint8_t wuohtan_page_forward_checked(uint64_t width, uint64_t start, uint64_t size, uint64_t count, uint64_t *out,
                                     size_t len);
uint8_t wuohtan_page_backward_checked(uint64_t width, uint64_t start, uint64_t size, uint64_t count, uint64_t *out,
                                      size_t len);
uint8_t wuohtan_page_steps_between_u64(uint64_t width, uint64_t start, uint64_t size, uint64_t end,
                                       uint64_t end_size, uint64_t *out, size_t len);

/* Ranges: a start and an end, each with its size in bytes, handed in by value. A range is answered by
 * two words, start and end. A draw is answered by four: 1 if there is an item and 0 if there is none,
 * the item's start (0 if there is none), and start and end of the range left. A refused draw answers
 * nothing: the range left is the one handed in. An inclusive range holds its end. From a low start to a
 * high end len and size count the pages of both halves, and none for the gap between them. */
uint8_t wuohtan_page_range_new(uint64_t width, uint64_t start, uint64_t start_size, uint64_t end, uint64_t end_size,
                               uint64_t *out, size_t len);
uint8_t wuohtan_page_range_is_empty(uint64_t width, uint64_t start, uint64_t start_size, uint64_t end,
                                    uint64_t end_size, uint64_t *out, size_t len);
uint8_t wuohtan_page_range_len(uint64_t width, uint64_t start, uint64_t start_size, uint64_t end, uint64_t end_size,
                               uint64_t *out, size_t len);
uint8_t wuohtan_page_range_size(uint64_t width, uint64_t start, uint64_t start_size, uint64_t end,
                                uint64_t end_size, uint64_t *out, size_t len);
uint8_t wuohtan_page_range_next(uint64_t width, uint64_t start, uint64_t start_size, uint64_t end,
                                uint64_t end_size, uint64_t *out, size_t len);
uint8_t wuohtan_page_range_nth(uint64_t width, uint64_t start, uint64_t start_size, uint64_t end, uint64_t end_size,
                               uint64_t n, uint64_t *out, size_t len);
uint8_t wuohtan_page_range_next_back(uint64_t width, uint64_t start, uint64_t start_size, uint64_t end,
                                     uint64_t end_size, uint64_t *out, size_t len);
uint8_t wuohtan_page_range_nth_back(uint64_t width, uint64_t start, uint64_t start_size, uint64_t end,
                                    uint64_t end_size, uint64_t n, uint64_t *out, size_t len);
uint8_t wuohtan_page_range_as_4kib_page_range(uint64_t width, uint64_t start, uint64_t start_size, uint64_t end,
                                              uint64_t end_size, uint64_t *out, size_t len);
uint8_t wuohtan_page_range_inclusive_new(uint64_t width, uint64_t start, uint64_t start_size, uint64_t end,
                                         uint64_t end_size, uint64_t *out, size_t len);
uint8_t wuohtan_page_range_inclusive_is_empty(uint64_t width, uint64_t start, uint64_t start_size, uint64_t end,
                                              uint64_t end_size, uint64_t *out, size_t len);
uint8_t wuohtan_page_range_inclusive_len(uint64_t width, uint64_t start, uint64_t start_size, uint64_t end,
                                         uint64_t end_size, uint64_t *out, size_t len);
uint8_t wuohtan_page_range_inclusive_size(uint64_t width, uint64_t start, uint64_t start_size, uint64_t end,
                                          uint64_t end_size, uint64_t *out, size_t len);
uint8_t wuohtan_page_range_inclusive_next(uint64_t width, uint64_t start, uint64_t start_size, uint64_t end,
                                          uint64_t end_size, uint64_t *out, size_t len);
uint8_t wuohtan_page_range_inclusive_nth(uint64_t width, uint64_t start, uint64_t start_size, uint64_t end,
                                         uint64_t end_size, uint64_t n, uint64_t *out, size_t len);
uint8_t wuohtan_page_range_inclusive_next_back(uint64_t width, uint64_t start, uint64_t start_size, uint64_t end,
                                               uint64_t end_size, uint64_t *out, size_t len);
uint8_t wuohtan_page_range_inclusive_nth_back(uint64_t width, uint64_t start, uint64_t start_size, uint64_t end,
                                              uint64_t end_size, uint64_t n, uint64_t *out, size_t len);
uint8_t wuohtan_phys_frame_range_new(uint64_t start, uint64_t start_size, uint64_t end, uint64_t end_size,
                                     uint64_t *out, size_t len);
uint8_t wuohtan_phys_frame_range_is_empty(uint64_t start, uint64_t start_size, uint64_t end, uint64_t end_size,
                                          uint64_t *out, size_t len);
uint8_t wuohtan_phys_frame_range_len(uint64_t start, uint64_t start_size, uint64_t end, uint64_t end_size,
                                     uint64_t *out, size_t len);
uint8_t wuohtan_phys_frame_range_size(uint64_t start, uint64_t start_size, uint64_t end, uint64_t end_size,
                                      uint64_t *out, size_t len);
uint8_t wuohtan_phys_frame_range_next(uint64_t start, uint64_t start_size, uint64_t end, uint64_t end_size,
                                      uint64_t *out, size_t len);
uint8_t wuohtan_phys_frame_range_nth(uint64_t start, uint64_t start_size, uint64_t end, uint64_t end_size,
                                     uint64_t n, uint64_t *out, size_t len);
uint8_t wuohtan_phys_frame_range_next_back(uint64_t start, uint64_t start_size, uint64_t end, uint64_t end_size,
                                           uint64_t *out, size_t len);
uint8_t wuohtan_phys_frame_range_nth_back(uint64_t start, uint64_t start_size, uint64_t end, uint64_t end_size,
                                          uint64_t n, uint64_t *out, size_t len);
uint8_t wuohtan_phys_frame_range_inclusive_new(uint64_t start, uint64_t start_size, uint64_t end, uint64_t end_size,
                                               uint64_t *out, size_t len);
uint8_t wuohtan_phys_frame_range_inclusive_is_empty(uint64_t start, uint64_t start_size, uint64_t end,
                                                    uint64_t end_size, uint64_t *out, size_t len);
uint8_t wuohtan_phys_frame_range_inclusive_len(uint64_t start, uint64_t start_size, uint64_t end, uint64_t end_size,
                                               uint64_t *out, size_t len);
uint8_t wuohtan_phys_frame_range_inclusive_size(uint64_t start, uint64_t start_size, uint64_t end,
                                                uint64_t end_size, uint64_t *out, size_t len);
uint8_t wuohtan_phys_frame_range_inclusive_next(uint64_t start, uint64_t start_size, uint64_t end,
                                                uint64_t end_size, uint64_t *out, size_t len);
uint8_t wuohtan_phys_frame_range_inclusive_nth(uint64_t start, uint64_t start_size, uint64_t end, uint64_t end_size,
                                               uint64_t n, uint64_t *out, size_t len);
uint8_t wuohtan_phys_frame_range_inclusive_next_back(uint64_t start, uint64_t start_size, uint64_t end,
                                                     uint64_t end_size, uint64_t *out, size_t len);
uint8_t wuohtan_phys_frame_range_inclusive_nth_back(uint64_t start, uint64_t start_size, uint64_t end,
                                                    uint64_t end_size, uint64_t n, uint64_t *out, size_t len);

/* Images. image[0..words] is never written; base is the physical address of its first word, root that of the table that
 * the walk begins with, of level 4, at 57 bits of level 5. Rights are bits: 1 writable, 2 user, 4 no-execute.
 *
 * Translation, four words: 0 mapped, 1 absent, 2 reserved, 3 outside; the physical address, or the entry's level; the
 * size of the page in bytes, or 0; the rights, or 0. */
uint8_t wuohtan_translate(uint64_t width, const uint64_t *image, size_t words, uint64_t base, uint64_t root,
                          uint64_t addr, uint64_t *out, size_t len);
/* The first mapped run or broken entry from a 4 KiB page on, five words: 0 end, 1 run, 2 a reserved entry, 3 a table
 * outside; the page; the first frame, or the entry's level; how many pages, or 0; the rights, or 0. */
uint8_t wuohtan_search(uint64_t width, const uint64_t *image, size_t words, uint64_t base, uint64_t root,
                       uint64_t page, uint64_t *out, size_t len);
/* The answers of the searches from a page on, each from the page that the one before it left, as many as have room in
 * answers[0..room], five words each as above. out has three words: how many answers were written; 1 if the search is
 * over; the next page, or 0. WUOHTAN_NO_ROOM says that out is too short for these: nothing was asked. Unless the status
 * is WUOHTAN_ANSWERED, answers is left as it was; if it is, so is the part of it behind the answers.
 *
 * empty_tables[0..tables] is where the call remembers which tables hold nothing, so that shared ones are read once: a
 * byte for each 512 words of the image, in it bit level - 1 for each level. One for each table, words / 512, is enough;
 * any number is taken, also none, but then an image of four tables can make the call read 2^36 entries, and at 57 bits
 * one of five tables 2^45. What stands there before does not matter. Afterwards a set bit says that these 512 words, as
 * a table of that level, hold nothing; unless the status is WUOHTAN_ANSWERED the bytes are left as they were. */
uint8_t wuohtan_list(uint64_t width, const uint64_t *image, size_t words, uint64_t base, uint64_t root,
                     uint64_t page, uint8_t *empty_tables, size_t tables, uint64_t *answers, size_t room,
                     uint64_t *out, size_t len);

#ifdef __cplusplus
}
#endif

#endif
