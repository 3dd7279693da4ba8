/* Every C function called once from C, by the header. Prints `ok NAME` or `FAILED NAME` for each check and
 * ends with the two counts. */
#include "../gadulnos_board.h"

#include <stdio.h>
#include <string.h>

enum { FRAMES = 16, WORDS = FRAMES * GADULNOS_FRAME_WORDS };

static uint64_t words[WORDS];
static uint8_t fields[GADULNOS_FIELDS_BYTES];
static uint8_t bits[GADULNOS_BITS_BYTES];
static uint8_t kernel[GADULNOS_KERNEL_BYTES];
static uint8_t user[GADULNOS_USER_BYTES];
static uint8_t marked[GADULNOS_MARKED_BYTES];
static uint64_t root;

/* The parts as arguments. */
#define MEMORY words, WORDS
#define RECORD fields, sizeof fields, bits
#define LISTS kernel, sizeof kernel, user, sizeof user, marked, sizeof marked
#define WALK words, WORDS, 0x100, FRAMES, GADULNOS_LEVELS, root
#define WALK_FIVE words, WORDS, 0x100, FRAMES, GADULNOS_MOST_LEVELS, root

static int passed, failed;

static void check(const char *name, bool holds)
{
    holds ? passed++ : failed++;
    printf("%s header: %s\n", holds ? "ok" : "FAILED", name);
}

static bool is(struct gadulnos_line line, uint64_t number, uint64_t value)
{
    return line.number == number && line.value == value;
}

static bool found(struct gadulnos_found answer, uint64_t number, uint64_t freed, uint64_t already_free,
                  uint64_t not_here)
{
    return answer.number == number && answer.freed == freed && answer.already_free == already_free
           && answer.not_here == not_here;
}

static bool start(void)
{
    memset(words, 0xFF, sizeof words);
    return is(gadulnos_start(MEMORY, RECORD, &root, LISTS, 0x100000, 0x110000), 0, 0) && root == 0x100;
}

static bool start_levels(uint64_t levels, uint64_t number)
{
    memset(words, 0xFF, sizeof words);
    return is(gadulnos_start_levels(MEMORY, RECORD, &root, LISTS, 0x100000, 0x110000, levels), number, 0);
}

static void numbers(void)
{
    uint64_t table[512] = {0};
    size_t indices[4] = {0};

    check("rounding", gadulnos_align_down(8191, 4096) == 4096 && is(gadulnos_align_up(1, 8), 0, 8)
                          && is(gadulnos_page_align_up(4097), 0, 8192)
                          && is(gadulnos_page_align_up(UINT64_MAX), 3, 0));
    check("addresses", gadulnos_is_aligned(8192, 4096) && !gadulnos_is_aligned(1, 0)
                           && gadulnos_page_offset(0x1234) == 0x234 && gadulnos_page_number(0x1234) == 1
                           && gadulnos_zone(0xFFFFFF) == 0 && gadulnos_zone(0x1000000) == 1
                           && gadulnos_zone(0x38000000) == 2 && gadulnos_containing_address(0x101234) == 0x101
                           && gadulnos_start_address(0x101) == 0x101000 && gadulnos_huge_size(false) == 0x200000
                           && gadulnos_huge_alignment(true) == 0x40000000);
    check("entries", gadulnos_entry_set(0x101000, true, false) == 0x101003
                         && gadulnos_entry_set_huge(0x200000, true, true) == 0x200087
                         && gadulnos_entry_addr(0x101003) == 0x101000 && gadulnos_entry_present(1)
                         && gadulnos_entry_writable(2) && gadulnos_entry_user(4) && gadulnos_entry_huge(128));
    check("flags", gadulnos_flags_to_bits(true, false, true, false, false, false, false, false, false, true)
                           == (UINT64_C(1) << 63 | 5)
                       && gadulnos_flags(UINT64_MAX) == (UINT64_C(1) << 63 | 0x1FF)
                       && gadulnos_handler_entry(0x101234, 7) == 0x101007 && gadulnos_handler_present(1)
                       && gadulnos_handler_addr(0x101007) == 0x101000 && gadulnos_handler_flags(0x101007) == 7);
    table[511] = 7;
    gadulnos_page_indices(UINT64_C(0xFFFFFFC000000000), indices);
    check("tables and indices", is(gadulnos_get_entry(table, 511), 0, 7) && is(gadulnos_get_entry(table, 512), 14, 0)
                                    && indices[0] == 511 && indices[1] == 256 && indices[2] == 0
                                    && indices[3] == 0);
    check("window", gadulnos_is_vmalloc_addr(UINT64_C(0xFFFFFFC000000000))
                        && !gadulnos_is_vmalloc_addr(UINT64_C(0xFFFFFFE000000000)));
}

static void frames(void)
{
    check("init and counts", is(gadulnos_init(RECORD, 0x1800, 0x3800), 0, 0)
                                 && is(gadulnos_total_frames(RECORD), 0, 2)
                                 && is(gadulnos_free_frames(RECORD), 0, 2)
                                 && is(gadulnos_allocated_frames(RECORD), 0, 0));
    check("frames", is(gadulnos_allocate_frame(RECORD), 0, 1) && is(gadulnos_mark_allocated(RECORD, 2), 0, 0)
                        && is(gadulnos_allocate_frame(RECORD), 11, 0)
                        && is(gadulnos_deallocate_frame(RECORD, 1), 0, GADULNOS_FREED)
                        && is(gadulnos_is_allocated(RECORD, 1), 0, 0)
                        && is(gadulnos_is_allocated(RECORD, 2), 0, 1));
    check("what is found of a frame", is(gadulnos_deallocate_frame(RECORD, 2), 0, GADULNOS_FREED)
                                          && is(gadulnos_deallocate_frame(RECORD, 2), 0, GADULNOS_ALREADY_FREE)
                                          && is(gadulnos_deallocate_frame(RECORD, 0), 0, GADULNOS_NOT_HERE)
                                          && is(gadulnos_deallocate_frame(RECORD, 3), 0, GADULNOS_NOT_HERE)
                                          && is(gadulnos_allocated_frames(RECORD), 0, 0)
                                          && is(gadulnos_deallocate_frame(fields, 24, bits, 1), 10, 0));
    check("a part one byte short", is(gadulnos_allocate_frame(fields, sizeof fields - 1, bits), 10, 0));
}

static void tables(void)
{
    check("start", start());
    check("map", is(gadulnos_map_page(MEMORY, RECORD, root, 0x1000, 0x10F000, false, true), 0, 0)
                     && is(gadulnos_translate(WALK, 0x1010), 0, 0x10F010)
                     && is(gadulnos_user_may(WALK, 0x1000, false), 0, 1)
                     && is(gadulnos_user_may(WALK, 0x1000, true), 0, 0));
    check("unmap", is(gadulnos_unmap_page(WALK, 0x1000), 0, 0x10F) && is(gadulnos_unmap_page(WALK, 0x1000), 14, 0));
    check("other levels", is(gadulnos_translate(words, WORDS, 0x100, FRAMES, 3, root, 0x1000), 10, 0)
                              && is(gadulnos_user_may(words, WORDS, 0x100, FRAMES, 6, root, 0x1000, true), 10, 0)
                              && is(gadulnos_unmap_page(words, WORDS, 0x100, FRAMES, 0, root, 0x1000), 10, 0));
    check("map huge", is(gadulnos_map_huge_page(MEMORY, RECORD, root, 0x1000, 0, true, true, true), 4, 0)
                          && is(gadulnos_map_huge_page(MEMORY, RECORD, root, 0x40000000, 0x40000000, true, true, true), 0, 0)
                          && is(gadulnos_translate(WALK, 0x40012345), 0, 0x40012345));
}

/* That a translation of 0x1010 answers so, and that its working is these numbers, whatever `out` held. */
static bool shows(uint64_t levels, uint64_t number, uint64_t value, const uint64_t wanted[GADULNOS_SHOWN_NUMBERS])
{
    uint64_t out[GADULNOS_SHOWN_NUMBERS];

    memset(out, 0xA5, sizeof out);
    return is(gadulnos_show_translate(words, WORDS, 0x100, FRAMES, levels, root, 0x1010, out), number, value)
           && is(gadulnos_translate(words, WORDS, 0x100, FRAMES, levels, root, 0x1010), number, value)
           && memcmp(out, wanted, sizeof out) == 0;
}

static void working(void)
{
    const uint64_t mapped[GADULNOS_SHOWN_NUMBERS] = {
        4,
        4, 0x100, 0, 0x101007, GADULNOS_FOLLOWED,
        3, 0x101, 0, 0x102007, GADULNOS_FOLLOWED,
        2, 0x102, 0, 0x103007, GADULNOS_FOLLOWED,
        1, 0x103, 1, 0x10F005, GADULNOS_LAST};
    const uint64_t large[GADULNOS_SHOWN_NUMBERS] = {
        3,
        4, 0x100, 0, 0x101007, GADULNOS_FOLLOWED,
        3, 0x101, 0, 0x102007, GADULNOS_FOLLOWED,
        2, 0x102, 0, 0x40000087, GADULNOS_LARGE_PAGE};
    const uint64_t outside[GADULNOS_SHOWN_NUMBERS] = {1, 4, 0x100, 0, 0x110007, GADULNOS_OUTSIDE};
    const uint64_t absent[GADULNOS_SHOWN_NUMBERS] = {1, 4, 0x100, 0, 0x101006, GADULNOS_ABSENT};
    const uint64_t none[GADULNOS_SHOWN_NUMBERS] = {0};

    check("the working",
          start() && is(gadulnos_map_page(MEMORY, RECORD, root, 0x1000, 0x10F000, false, true), 0, 0)
              && shows(GADULNOS_LEVELS, 0, 0x10F010, mapped));
    words[2 * GADULNOS_FRAME_WORDS] = 0x40000087;
    check("the working of a large page", shows(GADULNOS_LEVELS, 0, 0x40001010, large));
    words[0] = 0x110007;
    check("the working of 19", shows(GADULNOS_LEVELS, 19, 0, outside));
    words[0] = 0x101006;
    check("the working of 14", shows(GADULNOS_LEVELS, 14, 0, absent));
    check("the working of 10", shows(3, 10, 0, none) && shows(6, 10, 0, none));
}

/* A kernel page, then a user page in the same 2 MiB: the tables are the kernel's, and keep user code out. In other
 * tables, made for a user page, it may read and write. */
static void user_question(void)
{
    const uint64_t other = UINT64_C(1) << 39;
    const uint64_t other_of_five = UINT64_C(1) << 48;

    check("a page the user could not reach",
          start() && is(gadulnos_map_page(MEMORY, RECORD, root, 0, 0x200000, true, false), 0, 0)
              && is(gadulnos_map_page(MEMORY, RECORD, root, 0x1000, 0x201000, true, true), 0, 0)
              && is(gadulnos_translate(WALK, 0x1000), 0, 0x201000)
              && is(gadulnos_user_may(WALK, 0x1000, false), 0, 0)
              && is(gadulnos_user_may(WALK, 0x1000, true), 0, 0));
    check("a page in the user's tables",
          is(gadulnos_map_page(MEMORY, RECORD, root, other, 0x202000, true, true), 0, 0)
              && is(gadulnos_user_may(WALK, other, false), 0, 1)
              && is(gadulnos_user_may(WALK, other, true), 0, 1));
    words[1] &= ~UINT64_C(2);
    check("a page below an entry that is not writable",
          is(gadulnos_user_may(WALK, other, false), 0, 1) && is(gadulnos_user_may(WALK, other, true), 0, 0));
    check("the user question on five levels",
          start_levels(5, 0) && is(gadulnos_map_page(MEMORY, RECORD, root, 0, 0x200000, true, false), 0, 0)
              && is(gadulnos_map_page(MEMORY, RECORD, root, other, 0x201000, true, true), 0, 0)
              && is(gadulnos_map_page(MEMORY, RECORD, root, other_of_five, 0x202000, false, true), 0, 0)
              && is(gadulnos_user_may(WALK_FIVE, other, false), 0, 0)
              && is(gadulnos_user_may(WALK_FIVE, other_of_five, false), 0, 1)
              && is(gadulnos_user_may(WALK_FIVE, other_of_five, true), 0, 0));
}

/* The top index of five levels is bits 56 to 48; the bits above are ignored. */
static void five_levels(void)
{
    const uint64_t page = UINT64_C(1) << 48;
    const uint64_t above = UINT64_C(1) << 57;

    check("start of five levels", start_levels(6, 10) && start_levels(3, 10) && words[0] == UINT64_MAX
                                      && start_levels(5, 0) && root == 0x100 && fields[24] == 5);
    check("map on five levels",
          is(gadulnos_map_page(MEMORY, RECORD, root, page, 0x10F000, true, true), 0, 0)
              && is(gadulnos_allocated_frames(RECORD), 0, 5)
              && is(gadulnos_translate(WALK_FIVE, page + above + 0x10), 0, 0x10F010)
              && is(gadulnos_translate(WALK_FIVE, 0), 14, 0)
              && is(gadulnos_user_may(WALK_FIVE, page, true), 0, 1)
              && is(gadulnos_unmap_page(WALK_FIVE, page), 0, 0x10F));
    check("init after five levels", is(gadulnos_init(RECORD, 0x100000, 0x110000), 0, 0) && fields[24] == 4);
}

/* Document 01's worked example. */
static void regions(void)
{
    const uint64_t window = UINT64_C(0xFFFFFFC000000000);
    const uint64_t mapped = UINT64_C(0x100000000000);
    uint64_t compared = 0;

    check("the worked example",
          start() && is(gadulnos_vmalloc(MEMORY, RECORD, root, kernel, sizeof kernel, 1), 0, window)
              && is(gadulnos_translate(WALK, window + 0x10), 0, 0x101010)
              && found(gadulnos_vfree(MEMORY, RECORD, root, kernel, sizeof kernel, window), 0, 1, 0, 0)
              && is(gadulnos_mmap(MEMORY, RECORD, root, user, sizeof user, false, 0, 5000, 2, 0), 0, mapped)
              && is(gadulnos_allocated_frames(RECORD), 0, 9));
    check("the search", is(gadulnos_find_free_region(user, sizeof user, 4096, &compared), 0, mapped + 0x2000)
                            && compared == 1);
    check("mprotect", is(gadulnos_mprotect(WALK, user, sizeof user, mapped, 4096, 1), 16, 0)
                          && is(gadulnos_user_may(WALK, mapped, true), 0, 1)
                          && is(gadulnos_mprotect(WALK, user, sizeof user, mapped, 4097, 1), 0, 0)
                          && is(gadulnos_user_may(WALK, mapped + 4096, false), 0, 1)
                          && is(gadulnos_user_may(WALK, mapped + 4096, true), 0, 0) && user[32] == 1
                          && is(gadulnos_mprotect(WALK, user, sizeof user, mapped, 8192, -1), 0, 0)
                          && is(gadulnos_user_may(WALK, mapped + 4096, true), 0, 1) && user[35] == 0xFF);
    check("a refused mprotect", is(gadulnos_mprotect(WALK, user, sizeof user - 1, mapped, 8192, 0), 10, 0)
                                    && is(gadulnos_mprotect(WALK_FIVE, user, sizeof user, mapped, 0, 0), 1, 0)
                                    && is(gadulnos_mprotect(WALK, user, sizeof user, mapped + 1, UINT64_MAX, 0), 2, 0)
                                    && is(gadulnos_mprotect(WALK, user, sizeof user, mapped, UINT64_MAX, 0), 3, 0)
                                    && is(gadulnos_user_may(WALK, mapped, true), 0, 1) && user[35] == 0xFF);
    check("munmap", found(gadulnos_munmap(MEMORY, RECORD, root, user, sizeof user, mapped, 4096), 16, 0, 0, 0)
                        && found(gadulnos_munmap(MEMORY, RECORD, root, user, sizeof user, mapped, 4097), 0, 2, 0, 0));
}

/* A region of five pages of which the second's frame is free already, the third names a frame off the board, the
 * fourth is not mapped, and the fifth has the first's frame. */
static void given_back(void)
{
    const uint64_t mapped = UINT64_C(0x100000000000);
    uint64_t frame[2];
    int i;

    check("a region of five pages",
          sizeof(struct gadulnos_found) == 32 && start()
              && is(gadulnos_mmap(MEMORY, RECORD, root, user, sizeof user, false, 0, 20480, 2, 0), 0, mapped));
    for (i = 0; i < 2; i++)
        frame[i] = gadulnos_translate(WALK, mapped + 4096 * i).value >> 12;
    check("its pages changed",
          is(gadulnos_deallocate_frame(RECORD, frame[1]), 0, GADULNOS_FREED)
              && gadulnos_unmap_page(WALK, mapped + 8192).number == 0
              && is(gadulnos_map_page(MEMORY, RECORD, root, mapped + 8192, 0x110000, true, true), 0, 0)
              && gadulnos_unmap_page(WALK, mapped + 12288).number == 0
              && gadulnos_unmap_page(WALK, mapped + 16384).number == 0
              && is(gadulnos_map_page(MEMORY, RECORD, root, mapped + 16384, frame[0] << 12, true, true), 0, 0));
    check("what is found of them",
          found(gadulnos_munmap(MEMORY, RECORD, root, user, sizeof user, mapped, 20480), 0, 1, 2, 1)
              && found(gadulnos_munmap(MEMORY, RECORD, root, user, sizeof user, mapped, 20480), 16, 0, 0, 0)
              && found(gadulnos_vfree(MEMORY, RECORD, root, kernel, sizeof kernel, mapped), 16, 0, 0, 0)
              && found(gadulnos_vfree(MEMORY, fields, 24, bits, root, kernel, sizeof kernel, mapped), 10, 0, 0, 0));
}

static void faults(void)
{
    check("fault", start() && found(gadulnos_handle_page_fault(MEMORY, RECORD, root, marked, sizeof marked, 0x5123, 4), 0, 0, 0, 0)
                       && is(gadulnos_translate(WALK, 0x5000), 0, 0x101000));
    check("copy", is(gadulnos_mark_cow(marked, sizeof marked, 0x5FFF), 0, 0)
                      && is(gadulnos_is_cow(marked, sizeof marked, 0x5000), 0, 1)
                      && found(gadulnos_handle_page_fault(MEMORY, RECORD, root, marked, sizeof marked, 0x5123, 7), 0, 1, 0, 0)
                      && is(gadulnos_is_allocated(RECORD, 0x101), 0, 0)
                      && found(gadulnos_handle_page_fault(MEMORY, RECORD, root, marked, sizeof marked, 0x5123, 7), 17, 0, 0, 0)
                      && is(gadulnos_is_cow(marked, sizeof marked, 0x5000), 0, 0)
                      && is(gadulnos_user_may(WALK, 0x5000, true), 0, 1));
    check("unmark", is(gadulnos_mark_cow(marked, sizeof marked, 0x6000), 0, 0)
                        && is(gadulnos_unmark_cow(marked, sizeof marked, 0x6001), 0, 0)
                        && is(gadulnos_is_cow(marked, sizeof marked, 0x6000), 0, 0));
    check("second path", is(gadulnos_handle_page_fault_second(MEMORY, RECORD, root, 0x7000, 6), 0, 0)
                             && is(gadulnos_user_may(WALK, 0x7000, true), 0, 1)
                             && is(gadulnos_handle_page_fault_second(MEMORY, RECORD, root, 0x7000, 3), 17, 0));
}

/* The struct of gadulnos_board.h: each call on it once. */
static void in_one_struct(void)
{
    static struct gadulnos_board board;
    static uint64_t lent[WORDS];
    const uint64_t mapped = UINT64_C(0x100000000000);
    uint64_t shown[GADULNOS_SHOWN_NUMBERS];
    uint64_t compared = 0;

    check("a board that is not started", is(gadulnos_board_vmalloc(&board, 1), 10, 0)
                                             && gadulnos_board_word(&board, 0, 0) == 0);
    check("a refused start of a board",
          is(gadulnos_board_start(&board, lent, WORDS - 1, 0x100000, 0x110000, 4), GADULNOS_REFUSED_BROKEN_RECORD, 0)
              && is(gadulnos_board_start(&board, lent, WORDS, 0x100000, 0x100000, 4),
                    GADULNOS_REFUSED_NO_FREE_FRAME, 0)
              && board.words_len == 0);
    check("a board", is(gadulnos_board_start(&board, lent, WORDS, 0x100000, 0x110000, 4), GADULNOS_MET, 0)
                         && board.root == 0x100 && gadulnos_board_field(&board, GADULNOS_FIELD_TOTAL) == FRAMES
                         && gadulnos_board_field(&board, GADULNOS_FIELD_LEVELS) == 4);
    check("its regions",
          gadulnos_board_vmalloc(&board, 1).number == 0
              && is(gadulnos_board_mmap(&board, 5000, GADULNOS_PROT_WRITE, 0), 0, mapped)
              && is(gadulnos_board_find_free_region(&board, 1, &compared), 0, mapped + 8192)
              && is(gadulnos_board_mmap_at(&board, 0x1000, 1, 0, GADULNOS_MAP_FIXED), 0, 0x1000)
              && is(gadulnos_board_mprotect(&board, mapped, 5000, 0), 0, 0)
              && is(gadulnos_board_user_may(&board, mapped, true), 0, 0)
              && found(gadulnos_board_munmap(&board, mapped, 5000), 0, 2, 0, 0)
              && found(gadulnos_board_vfree(&board, UINT64_C(0xFFFFFFC000000000)), 0, 1, 0, 0));
    check("its tables",
          is(gadulnos_board_map_page(&board, 0x7000, 0x10F000, true, true), 0, 0)
              && is(gadulnos_board_map_huge_page(&board, 1, 0, false, true, true), 4, 0)
              && is(gadulnos_board_translate(&board, 0x7010), 0, 0x10F010)
              && is(gadulnos_board_show_translate(&board, 0x7010, shown), 0, 0x10F010) && shown[0] == 4
              && gadulnos_board_word(&board, shown[17], shown[18]) == 0x10F007
              && gadulnos_board_word(&board, 0x110, 0) == 0 && gadulnos_board_word(&board, 0x100, 512) == 0
              && is(gadulnos_board_unmap_page(&board, 0x7000), 0, 0x10F));
    check("its frames",
          is(gadulnos_board_deallocate_frame(&board, 0x110), 0, GADULNOS_NOT_HERE)
              && is(gadulnos_board_mark_allocated(&board, 0x10F), 0, 0)
              && is(gadulnos_board_is_allocated(&board, 0x10F), 0, 1)
              && is(gadulnos_board_deallocate_frame(&board, 0x10F), 0, GADULNOS_FREED)
              && gadulnos_board_allocate_frame(&board).number == 0
              && gadulnos_board_allocated_frames(&board).value
                     == gadulnos_board_field(&board, GADULNOS_FIELD_ALLOCATED));
    check("its faults",
          found(gadulnos_board_fault(&board, 0x9000, GADULNOS_FAULT_WRITE | GADULNOS_FAULT_USER), 0, 0, 0, 0)
              && is(gadulnos_board_mark_cow(&board, 0x9000), 0, 0) && is(gadulnos_board_is_cow(&board, 0x9FFF), 0, 1)
              && is(gadulnos_board_unmark_cow(&board, 0x9000), 0, 0)
              && found(gadulnos_board_fault(&board, 0x9000, GADULNOS_FAULT_PRESENT | GADULNOS_FAULT_WRITE),
                       GADULNOS_REFUSED_WRITE_TO_READ_ONLY, 0, 0, 0)
              && is(gadulnos_board_fault_second(&board, 0x9000, GADULNOS_FAULT_RESERVED),
                    GADULNOS_REFUSED_RESERVED_BIT, 0));
}

int main(void)
{
    numbers();
    frames();
    tables();
    working();
    user_question();
    five_levels();
    regions();
    given_back();
    faults();
    in_one_struct();
    printf("%d passed, %d failed\n", passed, failed);
    return failed > 0;
}
