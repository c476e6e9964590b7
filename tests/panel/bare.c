/*
 * A program without the C library: the two functions that the library needs,
 * and a start of its own. Status 0 if a recipe is analysed and written as it
 * should be.
 */
#include "panel.h"

void *memcpy(void *restrict to, const void *restrict from, size_t n)
{
    unsigned char *t = to;
    const unsigned char *f = from;

    while (n--)
        *t++ = *f++;
    return to;
}

void *memset(void *to, int byte, size_t n)
{
    unsigned char *t = to;

    while (n--)
        *t++ = (unsigned char)byte;
    return to;
}

/* Step 0 as a side branch, then step 1. */
static const bushkalote_row rows[4] = {{1, 0, 0}, {4, 0, 0}, {1, 1, 0}, {2, 1, 2}};
static const uint8_t kinds[4] = {1, 4, 1, 2};
static const uint16_t xs[4] = {0, 0, 1, 1};
static const uint16_t ys[4] = {0, 0, 0, 2};
static const uint16_t roots[1] = {3};
static const char lines[] = "R\tstep\t0\t0\nR\tasync\t0\t0\nR\tstep\t1\t0\nR\tseq\t1\t2\nP\t3\n";
static uint64_t matrix[BUSHKALOTE_LABELS];
static uint8_t sheet[BUSHKALOTE_WRITTEN_BYTES];

static int analysed(void)
{
    uint64_t reply = bushkalote_analyse_rows(rows, 4, roots, 1, matrix, BUSHKALOTE_LABELS);

    return BUSHKALOTE_NUMBER(reply) == BUSHKALOTE_SUCCESS && matrix[0] == 2 && matrix[1] == 1;
}

/* Whether a reply is the length of the lines, and the sheet has them. */
static int is_written(uint64_t reply)
{
    size_t i = 0;

    while (i < sizeof lines - 1 && sheet[i] == (uint8_t)lines[i])
        i++;
    return reply == sizeof lines - 1 && i == sizeof lines - 1;
}

static long status(void)
{
    if (!analysed())
        return 1;
    if (!is_written(bushkalote_write_rows(rows, 4, roots, 1, sheet, sizeof sheet)))
        return 2;
    sheet[0] = 0;
    if (!is_written(bushkalote_write_sheet(kinds, 4, xs, 4, ys, 4, roots, 1, sheet, sizeof sheet)))
        return 3;
    return 0;
}

/* It is entered without a return address, so that the stack has to be aligned here. */
void start(void);
__attribute__((force_align_arg_pointer)) void start(void)
{
    /* exit, on Linux */
    __asm__ volatile("syscall" : : "a"(60L), "D"(status()) : "rcx", "r11", "memory");
    for (;;) {
    }
}
