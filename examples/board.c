/* A board from C: document 01's worked example, and what a candidate would write down of it.
 *
 *     cc -std=c99 -I host -o board examples/board.c target/staticlib/libdesk.a
 */
#include "gadulnos_board.h"

#include <inttypes.h>
#include <stdio.h>

enum { FRAMES = 16 };

static uint64_t words[FRAMES * GADULNOS_FRAME_WORDS];
static struct gadulnos_board board;

static void tell(const char *call, struct gadulnos_line answer)
{
    if (answer.number == GADULNOS_MET)
        printf("%-34s 0x%" PRIx64 "\n", call, answer.value);
    else
        printf("%-34s refused %" PRIu64 "\n", call, answer.number);
}

/* The words of a frame that are not 0. */
static void table(uint64_t frame)
{
    uint64_t index;

    for (index = 0; index < GADULNOS_FRAME_WORDS; index++)
        if (gadulnos_board_word(&board, frame, index) != 0)
            printf("0x%" PRIx64 "[%" PRIu64 "] = 0x%" PRIx64 "\n", frame, index,
                   gadulnos_board_word(&board, frame, index));
}

int main(void)
{
    struct gadulnos_line region;
    struct gadulnos_found found;
    uint64_t frame;

    if (gadulnos_board_start(&board, words, FRAMES * GADULNOS_FRAME_WORDS, 0x100000, 0x110000, GADULNOS_LEVELS).number)
        return 1;
    region = gadulnos_board_vmalloc(&board, 1);
    tell("vmalloc 1", region);
    tell("translate, 0x10 behind its start", gadulnos_board_translate(&board, region.value + 0x10));
    found = gadulnos_board_vfree(&board, region.value);
    printf("%-34s %" PRIu64 " freed\n", "vfree of it", found.freed);
    tell("translate again", gadulnos_board_translate(&board, region.value));
    tell("mmap 5000", gadulnos_board_mmap(&board, 5000, GADULNOS_PROT_READ | GADULNOS_PROT_WRITE, 0));
    tell("allocated_frames", gadulnos_board_allocated_frames(&board));
    for (frame = 0x100; frame < 0x100 + FRAMES; frame++)
        table(frame);
    return 0;
}
