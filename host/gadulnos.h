/* Gadulnos: the rinux memory manager as C functions. Link libdesk.a, which `host/library.sh` makes
 * (x86-64, System V calling convention). docs/LAYOUT.md explains the layout at length; gadulnos_board.h has a
 * board in one struct.
 *
 * What is asked of the arguments: each pointer lends as many elements as its length says, one without a
 * length (bits, table, out, root, compared) as many as is said of it here; no two lent parts overlap, a
 * pointer to words or numbers (uint64_t, size_t) is aligned to 8 bytes as C asks (a pointer to bytes may be
 * odd), and a bool holds 0 or 1, as every C compiler makes it. A length may be 0; the pointer is then not
 * read, and may be null. Nothing else is asked. A function touches what it is lent and nothing else, keeps no
 * state and always ends. A call that cannot be met answers with a number of docs/NUMBERS.md and changes
 * nothing but the leftovers listed there.
 *
 * The parts of a board's state. All numbers are little-endian, 64 bits unless said otherwise.
 *
 *   words    the lent frames: frame number n is the 512 words from (n - start_frame) * 512 on. The length
 *            counts words. Words past the frames are not touched.
 *   fields   32 bytes: start_frame, total, allocated, levels. The levels of page tables are 4 or 5.
 *   bits     1024 bytes, 128 words: frame start_frame + i is marked if bit i % 64 of word i / 64 is 1.
 *            Lent without a length.
 *   root     the root's frame number
 *   kernel   6152 bytes, the vmalloc list: count, then 256 slots of start, size, used (0 or 1)
 *   user     6160 bytes, the mmap list: count, next_addr, then 256 slots of start, size,
 *            prot (signed, 32 bits), flags (signed, 32 bits)
 *   marked   2056 bytes, the copy-on-write pages: count, then 256 page addresses
 *
 * A length other than its part's, a `used` other than 0 and 1, levels other than 4 and 5, or a record that
 * document 01 calls broken is answered with 10, before every other check, and no part is changed.
 */
#ifndef GADULNOS_H
#define GADULNOS_H

#include <stdbool.h>
#include <stddef.h>
#include <stdint.h>

#ifdef __cplusplus
extern "C" {
#endif

enum {
    GADULNOS_FIELDS_BYTES = 32,
    GADULNOS_BITS_BYTES = 1024,
    GADULNOS_KERNEL_BYTES = 6152,
    GADULNOS_USER_BYTES = 6160,
    GADULNOS_MARKED_BYTES = 2056,
    GADULNOS_SLOTS = 256,
    GADULNOS_FRAME_WORDS = 512,
    /* The levels of a board if none are named, and the most that there may be. */
    GADULNOS_LEVELS = 4,
    GADULNOS_MOST_LEVELS = 5,
    /* How many numbers a working is: a count, then five for each of at most five rows. */
    GADULNOS_SHOWN_NUMBERS = 26
};

/* Document 01's numbers: what a call answers. docs/NUMBERS.md has each call's in their order. No call answers 9. */
enum gadulnos_number {
    GADULNOS_MET = 0,
    GADULNOS_REFUSED_SIZE_ZERO = 1,
    GADULNOS_REFUSED_UNALIGNED = 2,
    GADULNOS_REFUSED_TOO_LARGE = 3,
    GADULNOS_REFUSED_HUGE_UNALIGNED = 4,
    GADULNOS_REFUSED_RESERVED_BIT = 5,
    GADULNOS_REFUSED_INVALID_ADDRESS = 6,
    GADULNOS_REFUSED_INSTRUCTION_FETCH = 7,
    GADULNOS_REFUSED_PROTECTION_VIOLATION = 8,
    GADULNOS_REFUSED_BROKEN_RECORD = 10,
    GADULNOS_REFUSED_NO_FREE_FRAME = 11,
    GADULNOS_REFUSED_ALREADY_MAPPED = 12,
    GADULNOS_REFUSED_MAP_PAGE_FAILED = 13,
    GADULNOS_REFUSED_NOT_MAPPED = 14,
    GADULNOS_REFUSED_NO_REGION = 15,
    GADULNOS_REFUSED_REGION_NOT_FOUND = 16,
    GADULNOS_REFUSED_WRITE_TO_READ_ONLY = 17,
    GADULNOS_REFUSED_PAGE_TABLE_ERROR = 18,
    GADULNOS_REFUSED_OUTSIDE = 19,
    GADULNOS_REFUSED_LIST_FULL = 20
};

/* Arguments: a region's protection, the flags of an mmap, the error code of a fault. Other bits may be set. */
enum {
    GADULNOS_PROT_NONE = 0,
    GADULNOS_PROT_READ = 1,
    GADULNOS_PROT_WRITE = 2,
    GADULNOS_PROT_EXEC = 4,
    GADULNOS_MAP_SHARED = 0x01,
    GADULNOS_MAP_PRIVATE = 0x02,
    GADULNOS_MAP_FIXED = 0x10,
    GADULNOS_MAP_ANONYMOUS = 0x20,
    GADULNOS_FAULT_PRESENT = 1,
    GADULNOS_FAULT_WRITE = 2,
    GADULNOS_FAULT_USER = 4,
    GADULNOS_FAULT_RESERVED = 8,
    GADULNOS_FAULT_FETCH = 16
};

/* A call's answer: document 01's number, 0 if the call was met, and its value, 0 if it has none. */
struct gadulnos_line {
    uint64_t number;
    uint64_t value;
};

/* What was found of a frame that is given back: the value of gadulnos_deallocate_frame. */
enum gadulnos_finding {
    GADULNOS_FREED = 0,        /* it was marked, and is free now */
    GADULNOS_ALREADY_FREE = 1, /* it is on the board and was not marked; nothing changes */
    GADULNOS_NOT_HERE = 2      /* it is below start_frame, or at index total or above; nothing changes */
};

/* The answer of a call that gives frames back: document 01's number, 0 if the call was met, and how many frames
 * it found so, one for each page that it unmapped, the temporary page of a copy aside. A refused call has none.
 * 32 bytes, which the C compiler has written to memory of the caller's. */
struct gadulnos_found {
    uint64_t number;
    uint64_t freed;
    uint64_t already_free;
    uint64_t not_here;
};

/* What a translation makes of an entry that it reads (gadulnos_show_translate). */
enum gadulnos_verdict {
    GADULNOS_ABSENT = 0,     /* PRESENT is clear: 14 */
    GADULNOS_OUTSIDE = 1,    /* it names a table outside the lent frames: 19 */
    GADULNOS_FOLLOWED = 2,   /* it names a lent table, whose entry is read next */
    GADULNOS_LARGE_PAGE = 3, /* HUGE on the last level but one (2): a page, on the board or not */
    GADULNOS_LAST = 4        /* present on the last level: a page, on the board or not */
};

/* ---- Numbers alone */

/* Down, and up, to a multiple of a power of two; up is 3 where the sum passes 64 bits. An alignment of 0
 * counts as 1. page_align_up rounds up to 4096. */
uint64_t gadulnos_align_down(uint64_t addr, uint64_t align);
struct gadulnos_line gadulnos_align_up(uint64_t addr, uint64_t align);
struct gadulnos_line gadulnos_page_align_up(uint64_t size);

/* Whether an address is a multiple of `align` (of 0 only 0 is); its place in its page and its page's number;
 * the zone of a physical address: 0 DMA, 1 normal, 2 high. */
bool gadulnos_is_aligned(uint64_t addr, uint64_t align);
uint64_t gadulnos_page_offset(uint64_t virt);
uint64_t gadulnos_page_number(uint64_t virt);
uint64_t gadulnos_zone(uint64_t phys);

/* The number of the frame that holds a physical address; a frame's first address, cut to 64 bits; the size
 * and the alignment of a huge page, 1 GiB if `gigabyte`, else 2 MiB. */
uint64_t gadulnos_containing_address(uint64_t phys);
uint64_t gadulnos_start_address(uint64_t frame);
uint64_t gadulnos_huge_size(bool gigabyte);
uint64_t gadulnos_huge_alignment(bool gigabyte);

/* Entries of paging.rs: the word of a present entry, with HUGE in the second, and a word taken apart. */
uint64_t gadulnos_entry_set(uint64_t phys, bool writable, bool user);
uint64_t gadulnos_entry_set_huge(uint64_t phys, bool writable, bool user);
uint64_t gadulnos_entry_addr(uint64_t entry);
bool gadulnos_entry_present(uint64_t entry);
bool gadulnos_entry_writable(uint64_t entry);
bool gadulnos_entry_user(uint64_t entry);
bool gadulnos_entry_huge(uint64_t entry);

/* Entries of page_handler.rs: PageFlags joined, a word's flags taken apart and joined again, the entry with
 * the flags of a word, and a word taken apart. */
uint64_t gadulnos_flags_to_bits(bool present, bool writable, bool user, bool write_through,
                                bool cache_disabled, bool accessed, bool dirty, bool huge, bool global,
                                bool no_execute);
uint64_t gadulnos_flags(uint64_t bits);
uint64_t gadulnos_handler_entry(uint64_t phys, uint64_t bits);
bool gadulnos_handler_present(uint64_t word);
uint64_t gadulnos_handler_addr(uint64_t word);
uint64_t gadulnos_handler_flags(uint64_t word);

/* The entry at an index of a table of 512 words; 14 from 512 on. The indices of a page address on four
 * levels, the top one first, which are written to out[0] to out[3]. */
struct gadulnos_line gadulnos_get_entry(const uint64_t *table, size_t index);
void gadulnos_page_indices(uint64_t virt, size_t *out);

/* Whether an address lies in the kernel (vmalloc) window. */
bool gadulnos_is_vmalloc_addr(uint64_t addr);

/* ---- The frame record and its bitmap */

/* A record for the frames of memory `from` to `to`, all free, of four levels; 10 if `from` is above `to` or
 * `to` above 2^52. */
struct gadulnos_line gadulnos_init(uint8_t *fields, size_t fields_len, uint8_t bits[GADULNOS_BITS_BYTES],
                                   uint64_t from, uint64_t to);
/* 1 if a frame is marked or not on the board, else 0. */
struct gadulnos_line gadulnos_is_allocated(const uint8_t *fields, size_t fields_len,
                                           const uint8_t bits[GADULNOS_BITS_BYTES], uint64_t frame);
struct gadulnos_line gadulnos_mark_allocated(uint8_t *fields, size_t fields_len,
                                             uint8_t bits[GADULNOS_BITS_BYTES], uint64_t frame);
/* The number of the lowest free frame, which is marked; 11 if there is none. */
struct gadulnos_line gadulnos_allocate_frame(uint8_t *fields, size_t fields_len,
                                             uint8_t bits[GADULNOS_BITS_BYTES]);
/* Frees a frame. Its value is a gadulnos_finding. */
struct gadulnos_line gadulnos_deallocate_frame(uint8_t *fields, size_t fields_len,
                                               uint8_t bits[GADULNOS_BITS_BYTES], uint64_t frame);
struct gadulnos_line gadulnos_free_frames(const uint8_t *fields, size_t fields_len,
                                          const uint8_t bits[GADULNOS_BITS_BYTES]);
struct gadulnos_line gadulnos_allocated_frames(const uint8_t *fields, size_t fields_len,
                                               const uint8_t bits[GADULNOS_BITS_BYTES]);
struct gadulnos_line gadulnos_total_frames(const uint8_t *fields, size_t fields_len,
                                           const uint8_t bits[GADULNOS_BITS_BYTES]);

/* ---- The page tables. The walks are lent start_frame, total and levels as numbers.
 * Levels count from the bottom, 1 the last. The index at level n is bits 11 + 9 * n to 3 + 9 * n of an
 * address: bits 47 to 39 at the top of four levels, 56 to 48 of five. The bits above are ignored. HUGE is
 * looked at on the last level but one alone. */

/* The physical address of `virt`: 14 if it is not mapped, 19 if a table is outside the lent frames. */
struct gadulnos_line gadulnos_translate(const uint64_t *words, size_t words_len, uint64_t start,
                                        uint64_t total, uint64_t levels, uint64_t root, uint64_t virt);
/* gadulnos_translate's answer, and its working: the entries read, in the order read. `out` is written whole
 * in every call. out[0] is the number of rows, 1 to `levels`, with 10 none; row k, from 0, is the five
 * numbers from out[1 + 5 * k] on: the level, the number of the table's frame, the index in it, the word, and
 * its gadulnos_verdict. All rows but the last are GADULNOS_FOLLOWED. What lies past the rows is 0. */
struct gadulnos_line gadulnos_show_translate(const uint64_t *words, size_t words_len, uint64_t start,
                                             uint64_t total, uint64_t levels, uint64_t root, uint64_t virt,
                                             uint64_t out[GADULNOS_SHOWN_NUMBERS]);
/* 1 if user code may read `virt`, or write it if `write`, else 0. It may read where gadulnos_translate ends on
 * the last level and all entries that it reads, one on each level, have USER (bit 2), and write where all have
 * WRITABLE (bit 1) too. */
struct gadulnos_line gadulnos_user_may(const uint64_t *words, size_t words_len, uint64_t start,
                                       uint64_t total, uint64_t levels, uint64_t root, uint64_t virt,
                                       bool write);
/* 11, 12 if mapped already, 19. */
struct gadulnos_line gadulnos_map_page(uint64_t *words, size_t words_len, uint8_t *fields,
                                       size_t fields_len, uint8_t bits[GADULNOS_BITS_BYTES], uint64_t root,
                                       uint64_t virt, uint64_t phys, bool writable, bool user);
/* 1 GiB if `gigabyte`, else 2 MiB; 4 if an address is not aligned to that, 11, 12, 19. */
struct gadulnos_line gadulnos_map_huge_page(uint64_t *words, size_t words_len, uint8_t *fields,
                                            size_t fields_len, uint8_t bits[GADULNOS_BITS_BYTES],
                                            uint64_t root, uint64_t virt, uint64_t phys, bool gigabyte,
                                            bool writable, bool user);
/* The number of the frame that `virt` was mapped to, which is not freed; 14, 19. */
struct gadulnos_line gadulnos_unmap_page(uint64_t *words, size_t words_len, uint64_t start, uint64_t total,
                                         uint64_t levels, uint64_t root, uint64_t virt);

/* ---- vmalloc and mmap */

/* The new region's address; 1 for size 0, 3 above 2^64 - 4096, 15 if no region is large enough, 11, 13. */
struct gadulnos_line gadulnos_vmalloc(uint64_t *words, size_t words_len, uint8_t *fields, size_t fields_len,
                                      uint8_t bits[GADULNOS_BITS_BYTES], uint64_t root, uint8_t *kernel,
                                      size_t kernel_len, uint64_t size);
/* What was found of the frames of its pages; pages that gadulnos_unmap_page does not find are passed over. 16 for
 * an address that is 0 or starts no used region. */
struct gadulnos_found gadulnos_vfree(uint64_t *words, size_t words_len, uint8_t *fields, size_t fields_len,
                                     uint8_t bits[GADULNOS_BITS_BYTES], uint64_t root, uint8_t *kernel,
                                     size_t kernel_len, uint64_t addr);
/* The new region's address; 1, 3, 2, 3, 15, 20 in this order, then 11, 13. `addr` counts if `given`. */
struct gadulnos_line gadulnos_mmap(uint64_t *words, size_t words_len, uint8_t *fields, size_t fields_len,
                                   uint8_t bits[GADULNOS_BITS_BYTES], uint64_t root, uint8_t *user,
                                   size_t user_len, bool given, uint64_t addr, uint64_t size, int32_t prot,
                                   int32_t flags);
/* What was found of the frames of its pages, as of gadulnos_vfree; 1, 2, 3, 16 in this order. */
struct gadulnos_found gadulnos_munmap(uint64_t *words, size_t words_len, uint8_t *fields, size_t fields_len,
                                      uint8_t bits[GADULNOS_BITS_BYTES], uint64_t root, uint8_t *user,
                                      size_t user_len, uint64_t addr, uint64_t size);
/* Another protection for the region at `addr` whose size `size` rounds to; 1, 2, 3, 16 in this order. On each
 * page of it that gadulnos_unmap_page would find, WRITABLE (bit 1) of the last entry becomes PROT_WRITE (bit 1)
 * of `prot`, which is stored with the region. Nothing else changes: no frame, no translated address. It is lent
 * start_frame, total and levels as numbers, as the walks are, and neither record nor bitmap. */
struct gadulnos_line gadulnos_mprotect(uint64_t *words, size_t words_len, uint64_t start, uint64_t total,
                                       uint64_t levels, uint64_t root, uint8_t *user, size_t user_len,
                                       uint64_t addr, uint64_t size, int32_t prot);
/* mmap's search by itself: the address at which `size` bytes, not rounded, are free; 15 if there is none.
 * Writes how many regions it compared to *compared, with 15 too; 10 leaves it as it was. */
struct gadulnos_line gadulnos_find_free_region(const uint8_t *user, size_t user_len, uint64_t size,
                                               uint64_t *compared);

/* ---- Copy-on-write pages and faults */

/* 20 if 256 other pages are marked. */
struct gadulnos_line gadulnos_mark_cow(uint8_t *marked, size_t marked_len, uint64_t addr);
struct gadulnos_line gadulnos_unmark_cow(uint8_t *marked, size_t marked_len, uint64_t addr);
/* 1 if the page of `addr` is marked, else 0. */
struct gadulnos_line gadulnos_is_cow(const uint8_t *marked, size_t marked_len, uint64_t addr);
/* The first path (page_fault.rs): 5, 6, 7, 8, 11, 17, 18. Of a copy what was found of the page's old frame, one
 * in all, or none where the remapping unmapped no page; of a demand page none. */
struct gadulnos_found gadulnos_handle_page_fault(uint64_t *words, size_t words_len, uint8_t *fields,
                                                 size_t fields_len, uint8_t bits[GADULNOS_BITS_BYTES],
                                                 uint64_t root, uint8_t *marked, size_t marked_len,
                                                 uint64_t addr, uint64_t code);
/* The second path (page_handler.rs): 5, 7, 8, 11, 17, 19. */
struct gadulnos_line gadulnos_handle_page_fault_second(uint64_t *words, size_t words_len, uint8_t *fields,
                                                       size_t fields_len, uint8_t bits[GADULNOS_BITS_BYTES],
                                                       uint64_t root, uint64_t addr, uint64_t code);

/* ---- The start */

/* A fresh board of four levels on memory `from` to `to`, whatever its parts held before; writes the root's
 * frame number to *root. 10 as for init or if there are fewer than total * 512 words, 11 if total is 0; a
 * refused start changes nothing. */
struct gadulnos_line gadulnos_start(uint64_t *words, size_t words_len, uint8_t *fields, size_t fields_len,
                                    uint8_t bits[GADULNOS_BITS_BYTES], uint64_t *root, uint8_t *kernel,
                                    size_t kernel_len, uint8_t *user, size_t user_len, uint8_t *marked,
                                    size_t marked_len, uint64_t from, uint64_t to);
/* .. of `levels` levels; 10 also for another number than 4 and 5. */
struct gadulnos_line gadulnos_start_levels(uint64_t *words, size_t words_len, uint8_t *fields,
                                           size_t fields_len, uint8_t bits[GADULNOS_BITS_BYTES],
                                           uint64_t *root, uint8_t *kernel, size_t kernel_len,
                                           uint8_t *user, size_t user_len, uint8_t *marked,
                                           size_t marked_len, uint64_t from, uint64_t to, uint64_t levels);

#ifdef __cplusplus
}
#endif

#endif
