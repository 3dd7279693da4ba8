/* A board in one struct: its parts, and each call on them. The words are the caller's; all else stands in the struct.
 * A board that gadulnos_board_start met is sound, and stays so while only these functions change it.
 * examples/board.c shows one. */
#ifndef GADULNOS_BOARD_H
#define GADULNOS_BOARD_H

#include "gadulnos.h"

#ifdef __cplusplus
extern "C" {
#endif

struct gadulnos_board {
    uint64_t *words;
    size_t words_len;
    uint64_t root;
    uint8_t fields[GADULNOS_FIELDS_BYTES];
    uint8_t bits[GADULNOS_BITS_BYTES];
    uint8_t kernel[GADULNOS_KERNEL_BYTES];
    uint8_t user[GADULNOS_USER_BYTES];
    uint8_t marked[GADULNOS_MARKED_BYTES];
};

/* A number of the frame record. */
enum gadulnos_field {
    GADULNOS_FIELD_START_FRAME = 0,
    GADULNOS_FIELD_TOTAL = 1,
    GADULNOS_FIELD_ALLOCATED = 2,
    GADULNOS_FIELD_LEVELS = 3
};

static inline uint64_t gadulnos_board_field(const struct gadulnos_board *board, enum gadulnos_field field)
{
    const uint8_t *bytes = board->fields + 8 * (size_t)field;
    uint64_t number = 0;
    size_t i;

    for (i = 8; i > 0; i--)
        number = number << 8 | bytes[i - 1];
    return number;
}

/* The parts as the calls take them: the memory, and what the walks are lent. */
#define GADULNOS_BOARD_MEMORY(board) \
    (board)->words, (board)->words_len, (board)->fields, sizeof (board)->fields, (board)->bits, (board)->root
#define GADULNOS_BOARD_WALK(board) \
    (board)->words, (board)->words_len, gadulnos_board_field(board, GADULNOS_FIELD_START_FRAME), \
        gadulnos_board_field(board, GADULNOS_FIELD_TOTAL), gadulnos_board_field(board, GADULNOS_FIELD_LEVELS), \
        (board)->root

/* A fresh board of 4 or 5 levels on memory `from` to `to`, whatever the struct and the words held before. It answers
 * as gadulnos_start_levels: 10 also if the words are fewer than 512 for each frame. A refused start changes nothing. */
static inline struct gadulnos_line gadulnos_board_start(struct gadulnos_board *board, uint64_t *words,
                                                        size_t words_len, uint64_t from, uint64_t to,
                                                        uint64_t levels)
{
    const struct gadulnos_line line = gadulnos_start_levels(
        words, words_len, board->fields, sizeof board->fields, board->bits, &board->root, board->kernel,
        sizeof board->kernel, board->user, sizeof board->user, board->marked, sizeof board->marked, from, to, levels);

    if (line.number == GADULNOS_MET) {
        board->words = words;
        board->words_len = words_len;
    }
    return line;
}

/* The word at an index of a frame; 0 for a frame that is not lent, and from 512 on. */
static inline uint64_t gadulnos_board_word(const struct gadulnos_board *board, uint64_t frame, uint64_t index)
{
    const uint64_t place = frame - gadulnos_board_field(board, GADULNOS_FIELD_START_FRAME);

    if (place >= board->words_len / GADULNOS_FRAME_WORDS || index >= GADULNOS_FRAME_WORDS)
        return 0;
    return board->words[place * GADULNOS_FRAME_WORDS + index];
}

/* Each call, as the function of its name says. */
static inline struct gadulnos_line gadulnos_board_vmalloc(struct gadulnos_board *board, uint64_t size)
{
    return gadulnos_vmalloc(GADULNOS_BOARD_MEMORY(board), board->kernel, sizeof board->kernel, size);
}

static inline struct gadulnos_found gadulnos_board_vfree(struct gadulnos_board *board, uint64_t addr)
{
    return gadulnos_vfree(GADULNOS_BOARD_MEMORY(board), board->kernel, sizeof board->kernel, addr);
}

/* Without an address. */
static inline struct gadulnos_line gadulnos_board_mmap(struct gadulnos_board *board, uint64_t size,
                                                       int32_t prot, int32_t flags)
{
    return gadulnos_mmap(GADULNOS_BOARD_MEMORY(board), board->user, sizeof board->user, false, 0, size, prot,
                         flags);
}

/* At an address that is wished for, or fixed. */
static inline struct gadulnos_line gadulnos_board_mmap_at(struct gadulnos_board *board, uint64_t addr,
                                                          uint64_t size, int32_t prot, int32_t flags)
{
    return gadulnos_mmap(GADULNOS_BOARD_MEMORY(board), board->user, sizeof board->user, true, addr, size, prot,
                         flags);
}

static inline struct gadulnos_found gadulnos_board_munmap(struct gadulnos_board *board, uint64_t addr,
                                                          uint64_t size)
{
    return gadulnos_munmap(GADULNOS_BOARD_MEMORY(board), board->user, sizeof board->user, addr, size);
}

static inline struct gadulnos_line gadulnos_board_mprotect(struct gadulnos_board *board, uint64_t addr,
                                                           uint64_t size, int32_t prot)
{
    return gadulnos_mprotect(GADULNOS_BOARD_WALK(board), board->user, sizeof board->user, addr, size, prot);
}

static inline struct gadulnos_line gadulnos_board_find_free_region(const struct gadulnos_board *board,
                                                                   uint64_t size, uint64_t *compared)
{
    return gadulnos_find_free_region(board->user, sizeof board->user, size, compared);
}

static inline struct gadulnos_line gadulnos_board_translate(const struct gadulnos_board *board, uint64_t virt)
{
    return gadulnos_translate(GADULNOS_BOARD_WALK(board), virt);
}

static inline struct gadulnos_line gadulnos_board_show_translate(const struct gadulnos_board *board,
                                                                 uint64_t virt, uint64_t out[GADULNOS_SHOWN_NUMBERS])
{
    return gadulnos_show_translate(GADULNOS_BOARD_WALK(board), virt, out);
}

static inline struct gadulnos_line gadulnos_board_user_may(const struct gadulnos_board *board, uint64_t virt,
                                                           bool write)
{
    return gadulnos_user_may(GADULNOS_BOARD_WALK(board), virt, write);
}

static inline struct gadulnos_line gadulnos_board_map_page(struct gadulnos_board *board, uint64_t virt,
                                                           uint64_t phys, bool writable, bool user)
{
    return gadulnos_map_page(GADULNOS_BOARD_MEMORY(board), virt, phys, writable, user);
}

static inline struct gadulnos_line gadulnos_board_map_huge_page(struct gadulnos_board *board, uint64_t virt,
                                                                uint64_t phys, bool gigabyte, bool writable,
                                                                bool user)
{
    return gadulnos_map_huge_page(GADULNOS_BOARD_MEMORY(board), virt, phys, gigabyte, writable, user);
}

static inline struct gadulnos_line gadulnos_board_unmap_page(struct gadulnos_board *board, uint64_t virt)
{
    return gadulnos_unmap_page(GADULNOS_BOARD_WALK(board), virt);
}

static inline struct gadulnos_line gadulnos_board_allocate_frame(struct gadulnos_board *board)
{
    return gadulnos_allocate_frame(board->fields, sizeof board->fields, board->bits);
}

static inline struct gadulnos_line gadulnos_board_deallocate_frame(struct gadulnos_board *board, uint64_t frame)
{
    return gadulnos_deallocate_frame(board->fields, sizeof board->fields, board->bits, frame);
}

static inline struct gadulnos_line gadulnos_board_mark_allocated(struct gadulnos_board *board, uint64_t frame)
{
    return gadulnos_mark_allocated(board->fields, sizeof board->fields, board->bits, frame);
}

static inline struct gadulnos_line gadulnos_board_is_allocated(const struct gadulnos_board *board,
                                                               uint64_t frame)
{
    return gadulnos_is_allocated(board->fields, sizeof board->fields, board->bits, frame);
}

static inline struct gadulnos_line gadulnos_board_allocated_frames(const struct gadulnos_board *board)
{
    return gadulnos_allocated_frames(board->fields, sizeof board->fields, board->bits);
}

static inline struct gadulnos_line gadulnos_board_mark_cow(struct gadulnos_board *board, uint64_t addr)
{
    return gadulnos_mark_cow(board->marked, sizeof board->marked, addr);
}

static inline struct gadulnos_line gadulnos_board_unmark_cow(struct gadulnos_board *board, uint64_t addr)
{
    return gadulnos_unmark_cow(board->marked, sizeof board->marked, addr);
}

static inline struct gadulnos_line gadulnos_board_is_cow(const struct gadulnos_board *board, uint64_t addr)
{
    return gadulnos_is_cow(board->marked, sizeof board->marked, addr);
}

static inline struct gadulnos_found gadulnos_board_fault(struct gadulnos_board *board, uint64_t addr,
                                                         uint64_t code)
{
    return gadulnos_handle_page_fault(GADULNOS_BOARD_MEMORY(board), board->marked, sizeof board->marked, addr,
                                      code);
}

static inline struct gadulnos_line gadulnos_board_fault_second(struct gadulnos_board *board, uint64_t addr,
                                                               uint64_t code)
{
    return gadulnos_handle_page_fault_second(GADULNOS_BOARD_MEMORY(board), addr, code);
}

#ifdef __cplusplus
}
#endif

#endif
