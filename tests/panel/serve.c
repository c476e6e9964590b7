/*
 * The panel's entries over standard input and output, for a caller that can't
 * link the library itself. A request is one byte (a, r, l or w, for analyse,
 * read_sheet, list_pairs and write_sheet, and A, R, L or W for the same on
 * records), the slices' lengths as 32-bit numbers in the order of the
 * parameters, then the slices' contents in that order. The answer is the reply
 * as a 64-bit number and then the contents of every slice, those that the
 * entry may only read as well. All numbers are little-endian, and a record is
 * the 6 bytes that it has in memory. A fence stands before and after every
 * slice; ends with status 1 if an entry wrote into one, and with 0 at the end
 * of its input.
 */
#include <stdint.h>
#include <stdio.h>
#include <stdlib.h>

#include "panel.h"
#include "record.h"

enum { SLICES = 6, FENCE = 64 };

/* The slice stands in its storage behind the first fence, and is aligned as that is. */
struct slice {
    unsigned char *storage;
    void *at;
    size_t len, bytes, room;
};

static struct slice slices[SLICES];
static size_t lent;

static void fail(const char *what) {
    fprintf(stderr, "serve: %s\n", what);
    exit(1);
}

static void take(void *at, size_t bytes) {
    if (bytes != 0 && fread(at, 1, bytes, stdin) != bytes)
        fail("the request is cut short");
}

static void give(const void *at, size_t bytes) {
    if (bytes != 0 && fwrite(at, 1, bytes, stdout) != bytes)
        fail("the answer can't be written");
}

static unsigned char post(size_t i) {
    return (unsigned char)(0xa5 + 37 * i);
}

/* Where the i-th byte of both fences stands, the first one's before the second one's. */
static unsigned char *post_of(const struct slice *s, size_t i) {
    return s->storage + i + (i < FENCE ? 0 : s->bytes);
}

/* Takes as many slices as there are widths, in bytes an element. */
static void take_slices(const char *widths) {
    for (lent = 0; widths[lent] != 0; lent++) {
        uint32_t len;
        take(&len, sizeof len);
        slices[lent].len = len;
        slices[lent].bytes = len * (size_t)(widths[lent] - '0');
    }
    for (struct slice *s = slices; s < slices + lent; s++) {
        if (s->room < s->bytes + 2 * FENCE) {
            free(s->storage);
            s->room = s->bytes + 2 * FENCE;
            s->storage = malloc(s->room);
            if (s->storage == NULL)
                fail("no memory");
            s->at = s->storage + FENCE;
        }
        for (size_t i = 0; i < 2 * FENCE; i++)
            *post_of(s, i) = post(i);
        take(s->at, s->bytes);
    }
}

static void answer(uint64_t reply) {
    give(&reply, sizeof reply);
    for (const struct slice *s = slices; s < slices + lent; s++) {
        for (size_t i = 0; i < 2 * FENCE; i++)
            if (*post_of(s, i) != post(i))
                fail("an entry wrote beyond a slice");
        give(s->at, s->bytes);
    }
    if (fflush(stdout) != 0)
        fail("the answer can't be written");
}

int main(void) {
    struct slice *s = slices;
    for (int entry; (entry = getchar()) != EOF;) {
        switch (entry) {
        case 'a':
            take_slices("12228");
            answer(bushkalote_analyse(s[0].at, s[0].len, s[1].at, s[1].len, s[2].at, s[2].len, s[3].at,
                                      s[3].len, s[4].at, s[4].len));
            break;
        case 'r':
            take_slices("11222");
            answer(bushkalote_read_sheet(s[0].at, s[0].len, s[1].at, s[1].len, s[2].at, s[2].len, s[3].at,
                                         s[3].len, s[4].at, s[4].len));
            break;
        case 'l':
            take_slices("122281");
            answer(bushkalote_list_pairs(s[0].at, s[0].len, s[1].at, s[1].len, s[2].at, s[2].len, s[3].at,
                                         s[3].len, s[4].at, s[4].len, s[5].at, s[5].len));
            break;
        case 'A':
            take_slices("628");
            answer(bushkalote_analyse_rows(s[0].at, s[0].len, s[1].at, s[1].len, s[2].at, s[2].len));
            break;
        case 'R':
            take_slices("162");
            answer(bushkalote_read_rows(s[0].at, s[0].len, s[1].at, s[1].len, s[2].at, s[2].len));
            break;
        case 'L':
            take_slices("6281");
            answer(bushkalote_list_rows(s[0].at, s[0].len, s[1].at, s[1].len, s[2].at, s[2].len, s[3].at,
                                        s[3].len));
            break;
        case 'w':
            take_slices("12221");
            answer(bushkalote_write_sheet(s[0].at, s[0].len, s[1].at, s[1].len, s[2].at, s[2].len, s[3].at,
                                          s[3].len, s[4].at, s[4].len));
            break;
        case 'W':
            take_slices("621");
            answer(bushkalote_write_rows(s[0].at, s[0].len, s[1].at, s[1].len, s[2].at, s[2].len));
            break;
        default:
            fail("no such entry");
        }
    }
    return 0;
}
