/*
 * One reply of each kind as the number that it is, the macros of panel.h aside,
 * on recipes of which nothing can change places unseen: rows and procedures,
 * xs and ys, a record's x and y, a refusal's number and its place. And each
 * kind by its word, both verdicts, each ceiling of panel.h and one more, each
 * name that it has for a number, and its version. Ends with status 0 if all is
 * as it should be. Built and run by tests/panel/run.
 */
#include <stdio.h>
#include <string.h>

#include "panel.h"
#include "record.h"

/* The numbers as they are published, and the version where a preprocessor asks for it. */
_Static_assert(BUSHKALOTE_SUCCESS == 0, "success");
_Static_assert(BUSHKALOTE_WRONG_SIZES == 1, "wrong sizes");
_Static_assert(BUSHKALOTE_SHORT_MATRIX == 2, "a short matrix");
_Static_assert(BUSHKALOTE_UNKNOWN_KIND == 3, "an unknown kind");
_Static_assert(BUSHKALOTE_WRONG_OPERAND == 4, "a wrong operand");
_Static_assert(BUSHKALOTE_NO_SUCH_ROW == 5, "a root that is no row");
_Static_assert(BUSHKALOTE_USED_AGAIN == 6, "a row used again");
_Static_assert(BUSHKALOTE_UNUSED == 7, "a row not used");
_Static_assert(BUSHKALOTE_LONG_SHEET == 11, "a long sheet");
_Static_assert(BUSHKALOTE_WRONG_FORM == 12, "a line of wrong form");
_Static_assert(BUSHKALOTE_NO_ROOM == 13, "no room");
_Static_assert(BUSHKALOTE_SHORT_BYTES == 14, "too few bytes");
_Static_assert(BUSHKALOTE_LONG_LISTING == 14, "a long listing");
_Static_assert(BUSHKALOTE_LONG_NUMBER == 15, "a long number");
#if BUSHKALOTE_VERSION < 300
#error "panel.h is older than the verdict by what main reaches"
#endif

static int differences = 0;

static void expect(const char *what, uint64_t reply, uint64_t due)
{
    if (reply == due)
        return;
    fprintf(stderr, "%s: %#llx, expected %#llx\n", what, (unsigned long long)reply, (unsigned long long)due);
    differences++;
}

static void expect_bytes(const char *what, const void *got, const void *due, size_t bytes)
{
    if (memcmp(got, due, bytes) == 0)
        return;
    fprintf(stderr, "%s: not what is due\n", what);
    differences++;
}

/* Five rows and two procedures: async { 0 }; call 1, and the called one is 1. */
static const char sheet[] =
    "R\tstep\t0\t0\n"
    "R\tasync\t0\t0\n"
    "R\tcall\t1\t0\n"
    "R\tseq\t1\t2\n"
    "R\tstep\t1\t0\n"
    "P\t3\n"
    "P\t4\n";
static const char listing[] = "pairs\t1\trounds\t2\texact\n0\t1\n";

/* One label 0 beside the other: async { 0 }; 0. With xs for ys it is 0; async { 0 }, admitted too, and has no pair. */
static const uint8_t kinds[4] = {1, 4, 1, 2};
static const uint16_t xs[4] = {0, 0, 0, 1};
static const uint16_t ys[4] = {0, 0, 0, 2};
static const bushkalote_row rows[4] = {{1, 0, 0}, {4, 0, 0}, {1, 0, 0}, {2, 1, 2}};
static const uint16_t root[1] = {3};
static const char one_pair[] = "pairs\t1\trounds\t1\texact\n0\t0\n";

static uint64_t matrix[BUSHKALOTE_LABELS];
static uint8_t bytes[BUSHKALOTE_LISTING_BYTES];
static uint8_t text[BUSHKALOTE_WRITTEN_BYTES];

static void read_and_listed(void)
{
    static const uint8_t due_kinds[5] = {1, 4, 6, 2, 1};
    static const uint16_t due_xs[5] = {0, 0, 1, 1, 1}, due_ys[5] = {0, 0, 0, 2, 0}, due_roots[2] = {3, 4};
    const uint8_t *const text = (const uint8_t *)sheet;
    const size_t length = sizeof sheet - 1;
    uint8_t k[5];
    uint16_t x[5], y[5], p[2];
    bushkalote_row r[5];

    /* Two procedures times 2^16 and five rows. */
    expect("a reading", bushkalote_read_sheet(text, length, k, 5, x, 5, y, 5, p, 2), 0x20005);
    expect_bytes("the kinds", k, due_kinds, sizeof k);
    expect_bytes("the xs", x, due_xs, sizeof x);
    expect_bytes("the ys", y, due_ys, sizeof y);
    expect_bytes("the roots", p, due_roots, sizeof p);
    /* Two rounds; 27 bytes. */
    expect("an analysis", bushkalote_analyse(k, 5, x, 5, y, 5, p, 2, matrix, 64), 2);
    expect("a listing", bushkalote_list_pairs(k, 5, x, 5, y, 5, p, 2, matrix, 64, bytes, sizeof bytes), 27);
    expect_bytes("the text", bytes, listing, 27);

    memset(p, 0x77, sizeof p);
    expect("a reading into records", bushkalote_read_rows(text, length, r, 5, p, 2), 0x20005);
    for (size_t i = 0; i < 5; i++)
        if (r[i].kind != due_kinds[i] || r[i].x != due_xs[i] || r[i].y != due_ys[i])
            expect("a record that was read", i, 5);
    expect_bytes("the roots beside records", p, due_roots, sizeof p);
    memset(bytes, '#', sizeof bytes);
    expect("an analysis of records", bushkalote_analyse_rows(r, 5, p, 2, matrix, 64), 2);
    expect("a listing of records", bushkalote_list_rows(r, 5, p, 2, matrix, 64, bytes, sizeof bytes), 27);
    expect_bytes("the text of records", bytes, listing, 27);

    /* The number times 2^32 and the place: no room for line 4, a row, or for line 6, a procedure; line 3 cut short. */
    expect("no room for a row", bushkalote_read_sheet(text, length, k, 4, x, 5, y, 5, p, 2), 0xd00000004);
    expect("no room for a procedure", bushkalote_read_sheet(text, length, k, 5, x, 5, y, 5, p, 1), 0xd00000006);
    expect("a line cut short", bushkalote_read_rows(text, 40, r, 5, p, 2), 0xc00000003);
    /* Room for the listing but one byte. */
    expect("one byte too few", bushkalote_list_rows(r, 5, p, 2, matrix, 64, bytes, 26), 0xe00000000);
    /* Row 2 calls procedure 1, which is not there; root 1 is no row, and then a row that has a user; row 4 has a y. */
    expect("no such procedure", bushkalote_analyse(k, 5, x, 5, y, 5, p, 1, matrix, 64), 0x400000002);
    p[1] = 5;
    expect("a root past the last row", bushkalote_analyse_rows(r, 5, p, 2, matrix, 64), 0x500000001);
    p[1] = 3;
    expect("a root used twice", bushkalote_analyse_rows(r, 5, p, 2, matrix, 64), 0x600000003);
    y[4] = 2;
    expect("a step's y", bushkalote_analyse(k, 5, x, 5, y, 5, p, 2, matrix, 64), 0x400000004);
}

static void told_apart(void)
{
    const size_t length = sizeof one_pair - 1;

    expect("xs, then ys", bushkalote_analyse(kinds, 4, xs, 4, ys, 4, root, 1, matrix, 64), 1);
    expect("their pair", matrix[0], 1);
    expect("ys, then xs", bushkalote_analyse(kinds, 4, ys, 4, xs, 4, root, 1, matrix, 64), 1);
    expect("no pair of these", matrix[0], 0);
    expect("records", bushkalote_analyse_rows(rows, 4, root, 1, matrix, 64), 1);
    expect("the records' pair", matrix[0], 1);
    expect("list xs, then ys",
           bushkalote_list_pairs(kinds, 4, xs, 4, ys, 4, root, 1, matrix, 64, bytes, sizeof bytes), length);
    expect_bytes("their text", bytes, one_pair, length);
    expect("list ys, then xs",
           bushkalote_list_pairs(kinds, 4, ys, 4, xs, 4, root, 1, matrix, 64, bytes, sizeof bytes), length - 4);
    expect("list records", bushkalote_list_rows(rows, 4, root, 1, matrix, 64, bytes, sizeof bytes), length);
    expect_bytes("the records' text", bytes, one_pair, length);
}

/* Procedure 1 calls itself: nothing to a main that is skip, and wide where main calls it. */
static void verdicts(void)
{
    static const char exact[] = "pairs\t0\trounds\t0\texact\n#", wide[] = "pairs\t0\trounds\t0\twide\n#";
    uint8_t k[2] = {0, 6};
    uint16_t x[2] = {0, 1}, y[2] = {0, 0}, p[2] = {0, 1};
    bushkalote_row r[2] = {{0, 0, 0}, {6, 1, 0}};

    memset(bytes, '#', sizeof bytes);
    expect("a self-call that is not reached",
           bushkalote_list_pairs(k, 2, x, 2, y, 2, p, 2, matrix, 64, bytes, sizeof bytes), sizeof exact - 2);
    expect_bytes("its verdict", bytes, exact, sizeof exact - 1);
    memset(bytes, '#', sizeof bytes);
    expect("the same of records", bushkalote_list_rows(r, 2, p, 2, matrix, 64, bytes, sizeof bytes), sizeof exact - 2);
    expect_bytes("their verdict", bytes, exact, sizeof exact - 1);
    k[0] = r[0].kind = 6;
    x[0] = r[0].x = 1;
    memset(bytes, '#', sizeof bytes);
    expect("a self-call that is reached",
           bushkalote_list_pairs(k, 2, x, 2, y, 2, p, 2, matrix, 64, bytes, sizeof bytes), sizeof wide - 2);
    expect_bytes("its other verdict", bytes, wide, sizeof wide - 1);
    memset(bytes, '#', sizeof bytes);
    expect("the same of these records", bushkalote_list_rows(r, 2, p, 2, matrix, 64, bytes, sizeof bytes), sizeof wide - 2);
    expect_bytes("their other verdict", bytes, wide, sizeof wide - 1);
}

/* True if the text is as it was filled. */
static int unwritten(void)
{
    for (size_t i = 0; i < sizeof text; i++)
        if (text[i] != '#')
            return 0;
    return 1;
}

/* The sheet above, of 63 bytes, from the rows and roots that it is read into. */
static void written(void)
{
    const size_t length = sizeof sheet - 1;
    uint8_t k[5] = {1, 4, 6, 2, 1};
    uint16_t x[5] = {0, 0, 1, 1, 1}, y[5] = {0, 0, 0, 2, 0}, p[2] = {3, 4};
    bushkalote_row r[5];

    /* The byte behind a record's kind has no meaning. */
    memset(r, 0x77, sizeof r);
    for (size_t i = 0; i < 5; i++) {
        r[i].kind = k[i];
        r[i].x = x[i];
        r[i].y = y[i];
    }
    memset(text, '#', sizeof text);
    expect("a writing", bushkalote_write_sheet(k, 5, x, 5, y, 5, p, 2, text, sizeof text), 63);
    expect_bytes("the sheet", text, sheet, length);
    expect("the byte beyond it", text[length], '#');
    memset(text, '#', sizeof text);
    expect("a writing of records", bushkalote_write_rows(r, 5, p, 2, text, 63), 63);
    expect_bytes("the sheet of records", text, sheet, length);
    expect("the byte beyond that", text[length], '#');
    expect("ys, then xs", bushkalote_write_sheet(k, 5, y, 5, x, 5, p, 2, text, sizeof text), 63);
    expect_bytes("their fourth row", text + 34, "R\tseq\t2\t1\n", 10);

    /* Nothing at all is a sheet of no bytes; a root alone is one, whether there is such a row or not. */
    memset(text, '#', sizeof text);
    expect("no recipe", bushkalote_write_sheet(k, 0, x, 0, y, 0, p, 0, text, sizeof text), 0);
    expect("no records", bushkalote_write_rows(r, 0, p, 0, text, 0), 0);
    expect("nothing is written", unwritten(), 1);
    expect("roots alone", bushkalote_write_rows(r, 0, p, 2, text, sizeof text), 8);
    expect_bytes("the roots' sheet", text, "P\t3\nP\t4\n#", 9);

    /* Refused, and nothing written. */
    memset(text, '#', sizeof text);
    expect("one byte too few", bushkalote_write_sheet(k, 5, x, 5, y, 5, p, 2, text, 62), 0xe00000000);
    expect("one byte too few for records", bushkalote_write_rows(r, 5, p, 2, text, 62), 0xe00000000);
    expect("no bytes", bushkalote_write_rows(r, 5, p, 2, text, 0), 0xe00000000);
    expect("kinds too short", bushkalote_write_sheet(k, 4, x, 5, y, 5, p, 2, text, sizeof text), 0x100000000);
    expect("xs too short", bushkalote_write_sheet(k, 5, x, 4, y, 5, p, 2, text, sizeof text), 0x100000000);
    expect("ys too short", bushkalote_write_sheet(k, 5, x, 5, y, 4, p, 2, text, sizeof text), 0x100000000);
    /* 15 with a procedure; then with the lowest row, by its y, which a step does not use, and by its x; then 3. */
    p[1] = 10000;
    expect("a long root", bushkalote_write_sheet(k, 5, x, 5, y, 5, p, 2, text, sizeof text), 0xf00000001);
    expect("a long root of records", bushkalote_write_rows(r, 5, p, 2, text, sizeof text), 0xf00000001);
    y[4] = r[4].y = 10000;
    expect("a long y", bushkalote_write_sheet(k, 5, x, 5, y, 5, p, 2, text, sizeof text), 0xf00000004);
    expect("a record's long y", bushkalote_write_rows(r, 5, p, 2, text, sizeof text), 0xf00000004);
    x[3] = r[3].x = 10000;
    expect("a long x", bushkalote_write_sheet(k, 5, x, 5, y, 5, p, 2, text, 0), 0xf00000003);
    expect("a record's long x", bushkalote_write_rows(r, 5, p, 2, text, 0), 0xf00000003);
    k[4] = r[4].kind = 7;
    expect("a kind above 6", bushkalote_write_sheet(k, 5, x, 5, y, 5, p, 2, text, sizeof text), 0x300000004);
    expect("a record's kind above 6", bushkalote_write_rows(r, 5, p, 2, text, sizeof text), 0x300000004);
    expect("the bytes are as they were", unwritten(), 1);
}

/* The seven words, in the order of their kinds; no procedure. */
static void words(void)
{
    static const char lines[] =
        "R\tskip\t0\t0\nR\tstep\t0\t0\nR\tseq\t0\t0\nR\tloop\t0\t0\nR\tasync\t0\t0\nR\tfinish\t0\t0\nR\tcall\t0\t0\n";
    static const uint8_t due[7] = {0, 1, 2, 3, 4, 5, 6};
    uint8_t k[7];
    uint16_t x[7], y[7], p[1];

    expect("seven words",
           bushkalote_read_sheet((const uint8_t *)lines, sizeof lines - 1, k, 7, x, 7, y, 7, p, 1), 7);
    expect_bytes("their kinds", k, due, sizeof k);
    expect("seven words again", bushkalote_write_sheet(k, 7, x, 7, y, 7, p, 0, text, sizeof text), sizeof lines - 1);
    expect_bytes("their lines", text, lines, sizeof lines - 1);
}

/* As many procedures as there are rows, each of them skip; a chain of loops as long as it may be; as many bytes. */
static void ceilings(void)
{
    static bushkalote_row skips[65], loops[1025];
    static uint16_t roots[65], last[1];
    static uint8_t lines[65537];

    for (uint16_t i = 0; i < 65; i++)
        roots[i] = i;
    expect("64 procedures", bushkalote_analyse_rows(skips, 64, roots, 64, matrix, 64), 0);
    expect("65 procedures", bushkalote_analyse_rows(skips, 65, roots, 65, matrix, 64), 0x100000000);
    for (uint16_t i = 1; i < 1025; i++) {
        loops[i].kind = 3;
        loops[i].x = (uint16_t)(i - 1);
    }
    last[0] = 1023;
    expect("1,024 rows", bushkalote_analyse_rows(loops, 1024, last, 1, matrix, 64), 0);
    last[0] = 1024;
    expect("1,025 rows", bushkalote_analyse_rows(loops, 1025, last, 1, matrix, 64), 0x100000000);
    expect("64 words", bushkalote_analyse_rows(rows, 4, root, 1, matrix, 64), 1);
    expect("63 words", bushkalote_analyse_rows(rows, 4, root, 1, matrix, 63), 0x200000000);
    memset(lines, '\n', sizeof lines);
    expect("65,536 bytes", bushkalote_read_rows(lines, 65536, loops, 1024, roots, 64), 0xc00000000);
    expect("65,537 bytes", bushkalote_read_rows(lines, 65537, loops, 1024, roots, 64), 0xb00000000);
}

/*
 * The longest listing: main is loop { async { 0; 1; ... 63 } }, and the other 63 procedures, which it does not call, are a
 * ring that takes three rounds each. Four digits of pairs, three of rounds, and the longer verdict.
 */
static void longest_listing(void)
{
    static const char first[] = "pairs\t2080\trounds\t189\texact\n0\t0\n", last[] = "63\t63\n";
    static bushkalote_row r[197];
    static uint16_t roots[64];
    uint16_t n = 0;

    for (; n < 64; n++)
        r[n] = (bushkalote_row){1, n, 0};
    for (; n < 127; n++)
        r[n] = (bushkalote_row){2, (uint16_t)(126 - n), (uint16_t)(n - 1)};
    r[n++] = (bushkalote_row){4, 126, 0};
    r[n++] = (bushkalote_row){3, 127, 0};
    roots[0] = 128;
    for (uint16_t f = 1; f < 63; f++) {
        roots[f] = n;
        r[n++] = (bushkalote_row){6, (uint16_t)(f + 1), 0};
    }
    r[n++] = (bushkalote_row){6, 1, 0};
    r[n++] = (bushkalote_row){1, 0, 0};
    r[n++] = (bushkalote_row){2, 191, 192};
    r[n++] = (bushkalote_row){6, 1, 0};
    r[n++] = (bushkalote_row){4, 194, 0};
    r[n++] = (bushkalote_row){2, 193, 195};
    roots[63] = 196;
    expect("the listing's bytes", sizeof bytes, 11858);
    expect("one byte less for it", bushkalote_list_rows(r, n, roots, 64, matrix, 64, bytes, sizeof bytes - 1), 0xe00000000);
    expect("the longest listing", bushkalote_list_rows(r, n, roots, 64, matrix, 64, bytes, sizeof bytes), 11858);
    expect_bytes("its first lines", bytes, first, sizeof first - 1);
    expect_bytes("its last", bytes + sizeof bytes - (sizeof last - 1), last, sizeof last - 1);
}

/* The longest sheet that is written: 1,024 times 19 bytes and 64 times 7. */
static void longest_sheet(void)
{
    static bushkalote_row waits[1025];
    static uint16_t roots[65];

    for (size_t i = 0; i < 1025; i++)
        waits[i] = (bushkalote_row){5, 9999, 9999};
    for (size_t i = 0; i < 65; i++)
        roots[i] = 9999;
    expect("its bytes", sizeof text, 19904);
    memset(text, '#', sizeof text);
    expect("one byte less", bushkalote_write_rows(waits, 1024, roots, 64, text, sizeof text - 1), 0xe00000000);
    expect("1,025 rows to write", bushkalote_write_rows(waits, 1025, roots, 64, text, sizeof text), 0x100000000);
    expect("65 roots to write", bushkalote_write_rows(waits, 1024, roots, 65, text, sizeof text), 0x100000000);
    expect("nothing is written of it", unwritten(), 1);
    expect("the longest sheet", bushkalote_write_rows(waits, 1024, roots, 64, text, sizeof text), 19904);
    expect_bytes("its first line", text, "R\tfinish\t9999\t9999\n", 19);
    expect_bytes("its last line", text + 19897, "P\t9999\n", 7);
}

/* The version's text is its number. */
static void version(void)
{
    char text[32];
    int length = snprintf(text, sizeof text, "%d.%d.%d", BUSHKALOTE_VERSION / 10000,
                          BUSHKALOTE_VERSION / 100 % 100, BUSHKALOTE_VERSION % 100);

    expect("the version's length", (uint64_t)length, sizeof BUSHKALOTE_VERSION_TEXT - 1);
    expect_bytes("the version", text, BUSHKALOTE_VERSION_TEXT, sizeof BUSHKALOTE_VERSION_TEXT);
}

int main(void)
{
    read_and_listed();
    told_apart();
    verdicts();
    written();
    words();
    ceilings();
    longest_listing();
    longest_sheet();
    version();
    if (differences != 0)
        fprintf(stderr, "%d differences\n", differences);
    return differences != 0;
}
