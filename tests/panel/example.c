/*
 * The panel's eight entries from C: reads the whole case from a sheet, works it
 * out, prints its listing, changes it and saves it as an editor does, and meets
 * the refusals, on slices and on records. Ends with status 0 if every reply and
 * all lent storage are as they should be. Built and run by tests/panel/run.
 */
#include <stdio.h>
#include <string.h>

#include "panel.h"

static const char whole_case[] =
    "R\tstep\t0\t0\n"
    "R\tasync\t0\t0\n"
    "R\tstep\t1\t0\n"
    "R\tasync\t2\t0\n"
    "R\tstep\t2\t0\n"
    "R\tseq\t3\t4\n"
    "R\tfinish\t5\t0\n"
    "R\tstep\t3\t0\n"
    "R\tseq\t6\t7\n"
    "R\tseq\t1\t8\n"
    "P\t9\n";

static const char whole_listing[] =
    "pairs\t4\trounds\t1\texact\n"
    "0\t1\n"
    "0\t2\n"
    "0\t3\n"
    "1\t2\n";

static uint8_t kinds[BUSHKALOTE_ROWS];
static uint16_t xs[BUSHKALOTE_ROWS];
static uint16_t ys[BUSHKALOTE_ROWS];
static bushkalote_row records[BUSHKALOTE_ROWS + 1];
static uint16_t roots[BUSHKALOTE_PROCEDURES];
static uint64_t matrix[BUSHKALOTE_LABELS + 1];
static uint8_t listing[BUSHKALOTE_LISTING_BYTES];
static uint8_t long_sheet[BUSHKALOTE_SHEET_BYTES + 1];
static bushkalote_row read_back[BUSHKALOTE_ROWS];
static uint16_t roots_back[BUSHKALOTE_PROCEDURES];
static uint8_t saved[BUSHKALOTE_WRITTEN_BYTES + 1];

static int differences = 0;

static void expect(const char *what, uint64_t reply, uint32_t number, uint32_t value)
{
    if (BUSHKALOTE_NUMBER(reply) == number && BUSHKALOTE_VALUE(reply) == value)
        return;
    fprintf(stderr, "%s: number %u value %u, expected number %u value %u\n", what,
            (unsigned)BUSHKALOTE_NUMBER(reply), (unsigned)BUSHKALOTE_VALUE(reply),
            (unsigned)number, (unsigned)value);
    differences++;
}

static void expect_true(const char *what, int holds)
{
    if (holds)
        return;
    fprintf(stderr, "%s: does not hold\n", what);
    differences++;
}

/* Reads a text into the storage above, with room for so many rows and procedures. */
static uint64_t read_text(const char *text, size_t rows, size_t procedures)
{
    return bushkalote_read_sheet((const uint8_t *)text, strlen(text), kinds, rows, xs, rows, ys, rows,
                                 roots, procedures);
}

static uint64_t analyse(size_t rows, size_t procedures, size_t words)
{
    return bushkalote_analyse(kinds, rows, xs, rows, ys, rows, roots, procedures, matrix, words);
}

static uint64_t list(size_t rows, size_t procedures, size_t room)
{
    return bushkalote_list_pairs(kinds, rows, xs, rows, ys, rows, roots, procedures, matrix,
                                 BUSHKALOTE_LABELS, listing, room);
}

static uint64_t save(size_t rows, size_t procedures, size_t room)
{
    return bushkalote_write_sheet(kinds, rows, xs, rows, ys, rows, roots, procedures, saved, room);
}

/* Reads a sheet and works it out; the reply of the analysis. */
static uint64_t analyse_text(const char *text)
{
    uint64_t reply = read_text(text, BUSHKALOTE_ROWS, BUSHKALOTE_PROCEDURES);
    if (BUSHKALOTE_NUMBER(reply) != BUSHKALOTE_SUCCESS)
        return reply;
    return analyse(BUSHKALOTE_ROWS_READ(reply), BUSHKALOTE_PROCEDURES_READ(reply), BUSHKALOTE_LABELS);
}

static int all_words(uint64_t word)
{
    for (size_t i = 0; i < BUSHKALOTE_LABELS; i++)
        if (matrix[i] != word)
            return 0;
    return 1;
}

/* Reading, the analysis and the listing on records. */
static void on_records(void)
{
    const size_t full = sizeof whole_listing - 1;
    const uint8_t *const text = (const uint8_t *)whole_case;
    const size_t text_len = sizeof whole_case - 1;

    /* Reading: ten records and one root, and nothing beyond. */
    memset(records, 0x77, sizeof records);
    memset(roots, 0x77, sizeof roots);
    expect("read the whole case into records",
           bushkalote_read_rows(text, text_len, records, BUSHKALOTE_ROWS + 1, roots, BUSHKALOTE_PROCEDURES),
           BUSHKALOTE_SUCCESS, 10 + 65536 * 1);
    expect_true("record 5 is seq 3 4", records[5].kind == 2 && records[5].x == 3 && records[5].y == 4);
    expect_true("the record beyond is untouched",
                records[10].kind == 0x77 && records[10].x == 0x7777 && records[10].y == 0x7777);
    expect_true("the roots", roots[0] == 9 && roots[1] == 0x7777);

    /* The analysis and the listing. */
    memset(matrix, 0xff, sizeof matrix);
    expect("analyse the whole case on records",
           bushkalote_analyse_rows(records, 10, roots, 1, matrix, BUSHKALOTE_LABELS + 1),
           BUSHKALOTE_SUCCESS, 1);
    expect_true("the matrix", matrix[0] == 0xe && matrix[1] == 0x5 && matrix[2] == 0x3 && matrix[3] == 0x1);
    expect_true("the word beyond is untouched", matrix[63] == 0 && matrix[64] == UINT64_MAX);
    memset(listing, '#', sizeof listing);
    expect("list the whole case on records",
           bushkalote_list_rows(records, 10, roots, 1, matrix, BUSHKALOTE_LABELS, listing, sizeof listing),
           BUSHKALOTE_SUCCESS, (uint32_t)full);
    expect_true("the listing", memcmp(listing, whole_listing, full) == 0 && listing[full] == '#');

    /* Refusals leave everything lent as it was. */
    memset(listing, '#', sizeof listing);
    memset(matrix, 0x55, sizeof matrix);
    expect("listing on records in too few bytes",
           bushkalote_list_rows(records, 10, roots, 1, matrix, BUSHKALOTE_LABELS, listing, full - 1),
           BUSHKALOTE_LONG_LISTING, 0);
    expect("too many records",
           bushkalote_analyse_rows(records, BUSHKALOTE_ROWS + 1, roots, 1, matrix, BUSHKALOTE_LABELS),
           BUSHKALOTE_WRONG_SIZES, 0);
    expect("a short matrix for records",
           bushkalote_analyse_rows(records, 10, roots, 1, matrix, BUSHKALOTE_LABELS - 1),
           BUSHKALOTE_SHORT_MATRIX, 0);
    records[4].kind = 7;
    expect("a record's kind above 6",
           bushkalote_analyse_rows(records, 10, roots, 1, matrix, BUSHKALOTE_LABELS),
           BUSHKALOTE_UNKNOWN_KIND, 4);
    records[4].kind = 1;
    expect_true("the bytes and the matrix are unchanged", listing[0] == '#' && all_words(0x5555555555555555u));
    memset(records, 0x77, sizeof records);
    expect("a missing last newline, into records",
           bushkalote_read_rows(text, text_len - 1, records, BUSHKALOTE_ROWS, roots, BUSHKALOTE_PROCEDURES),
           BUSHKALOTE_WRONG_FORM, 10);
    expect("room for nine of ten records",
           bushkalote_read_rows(text, text_len, records, 9, roots, BUSHKALOTE_PROCEDURES),
           BUSHKALOTE_NO_ROOM, 9);
    expect_true("the records are unchanged", records[0].kind == 0x77 && records[8].y == 0x7777);
}

static int same_rows(const bushkalote_row *a, const bushkalote_row *b, size_t rows)
{
    for (size_t i = 0; i < rows; i++)
        if (a[i].kind != b[i].kind || a[i].x != b[i].x || a[i].y != b[i].y)
            return 0;
    return 1;
}

static int all_saved(uint8_t byte)
{
    for (size_t i = 0; i < sizeof saved; i++)
        if (saved[i] != byte)
            return 0;
    return 1;
}

/* An editor: it reads a sheet into records, changes them in memory, and saves them as a sheet again. */
static void edited_and_saved(void)
{
    /* The whole case with the wait around the second side branch alone, so that 1 and 2 never meet. */
    static const char changed[] =
        "R\tstep\t0\t0\n"
        "R\tasync\t0\t0\n"
        "R\tstep\t1\t0\n"
        "R\tasync\t2\t0\n"
        "R\tstep\t2\t0\n"
        "R\tfinish\t3\t0\n"
        "R\tseq\t5\t4\n"
        "R\tstep\t3\t0\n"
        "R\tseq\t6\t7\n"
        "R\tseq\t1\t8\n"
        "P\t9\n";
    const size_t length = sizeof changed - 1;
    uint64_t reply = bushkalote_read_rows((const uint8_t *)whole_case, sizeof whole_case - 1, records, BUSHKALOTE_ROWS,
                                          roots, BUSHKALOTE_PROCEDURES);
    size_t rows = BUSHKALOTE_ROWS_READ(reply), procedures = BUSHKALOTE_PROCEDURES_READ(reply);

    /* What is not changed is saved as the sheet that it was. */
    memset(saved, '#', sizeof saved);
    expect("save the whole case",
           bushkalote_write_rows(records, rows, roots, procedures, saved, BUSHKALOTE_WRITTEN_BYTES),
           BUSHKALOTE_SUCCESS, sizeof whole_case - 1);
    expect_true("the sheet that was read", memcmp(saved, whole_case, sizeof whole_case - 1) == 0);

    /* The edit: row 5 becomes the wait around the side branch, and row 6 the sequence of it and step 2. */
    records[5] = (bushkalote_row){5, 3, 0};
    records[6] = (bushkalote_row){2, 5, 4};
    memset(saved, '#', sizeof saved);
    reply = bushkalote_write_rows(records, rows, roots, procedures, saved, BUSHKALOTE_WRITTEN_BYTES);
    expect("save the changed recipe", reply, BUSHKALOTE_SUCCESS, (uint32_t)length);
    expect_true("the changed sheet", memcmp(saved, changed, length) == 0);
    expect_true("the byte beyond the sheet is untouched", saved[length] == '#');

    /* What was saved is read back as it was in memory, and worked out: 1 and 2 do not meet any more. */
    reply = bushkalote_read_rows(saved, BUSHKALOTE_VALUE(reply), read_back, BUSHKALOTE_ROWS, roots_back,
                                 BUSHKALOTE_PROCEDURES);
    expect("read the saved recipe", reply, BUSHKALOTE_SUCCESS, 10 + 65536 * 1);
    expect_true("the same rows and roots", same_rows(read_back, records, rows) && roots_back[0] == roots[0]);
    expect("analyse the saved recipe",
           bushkalote_analyse_rows(read_back, rows, roots_back, procedures, matrix, BUSHKALOTE_LABELS),
           BUSHKALOTE_SUCCESS, 1);
    expect_true("the pair is gone", matrix[0] == 0xe && matrix[1] == 0x1 && matrix[2] == 0x1 && matrix[3] == 0x1);

    /* From slices the same sheet comes. */
    for (size_t i = 0; i < rows; i++) {
        kinds[i] = records[i].kind;
        xs[i] = records[i].x;
        ys[i] = records[i].y;
    }
    memset(saved, '#', sizeof saved);
    expect("save from slices", save(rows, procedures, length), BUSHKALOTE_SUCCESS, (uint32_t)length);
    expect_true("the changed sheet from slices", memcmp(saved, changed, length) == 0 && saved[length] == '#');

    /* Refusals leave the bytes as they were: 14 where they are too few, 15 where a number is too long for a sheet. */
    memset(saved, '#', sizeof saved);
    expect("saving in too few bytes", save(rows, procedures, length - 1), BUSHKALOTE_SHORT_BYTES, 0);
    xs[7] = 10000;
    reply = save(rows, procedures, BUSHKALOTE_WRITTEN_BYTES);
    expect("an x above 9,999", reply, BUSHKALOTE_LONG_NUMBER, 7);
    expect_true("row 7 is meant", xs[BUSHKALOTE_VALUE(reply)] > 9999 || ys[BUSHKALOTE_VALUE(reply)] > 9999);
    xs[7] = 3;
    roots[0] = 10000;
    reply = save(rows, procedures, BUSHKALOTE_WRITTEN_BYTES);
    expect("a root above 9,999", reply, BUSHKALOTE_LONG_NUMBER, 0);
    expect_true("procedure 0 is meant", xs[BUSHKALOTE_VALUE(reply)] <= 9999 && ys[BUSHKALOTE_VALUE(reply)] <= 9999);
    roots[0] = 9;
    kinds[4] = 7;
    expect("saving a kind above 6", save(rows, procedures, BUSHKALOTE_WRITTEN_BYTES), BUSHKALOTE_UNKNOWN_KIND, 4);
    expect("saving slices of unequal length",
           bushkalote_write_sheet(kinds, 10, xs, 10, ys, 9, roots, 1, saved, BUSHKALOTE_WRITTEN_BYTES),
           BUSHKALOTE_WRONG_SIZES, 0);
    expect("saving too many rows",
           bushkalote_write_rows(records, BUSHKALOTE_ROWS + 1, roots, 1, saved, BUSHKALOTE_WRITTEN_BYTES),
           BUSHKALOTE_WRONG_SIZES, 0);
    expect_true("the saved bytes are unchanged", all_saved('#'));

    /* A recipe that is not finished is saved too: only the analysis refuses it. */
    expect("saving nothing", save(0, 0, 0), BUSHKALOTE_SUCCESS, 0);
    kinds[0] = 6;
    xs[0] = 5;
    expect("saving a call of a procedure that is not there yet", save(1, 0, BUSHKALOTE_WRITTEN_BYTES),
           BUSHKALOTE_SUCCESS, 11);
    expect_true("the call", memcmp(saved, "R\tcall\t5\t0\n#", 12) == 0);
}

int main(void)
{
    const size_t full = sizeof whole_listing - 1;
    uint64_t reply;

    /* Reading: ten rows and one procedure. */
    reply = read_text(whole_case, BUSHKALOTE_ROWS, BUSHKALOTE_PROCEDURES);
    expect("read the whole case", reply, BUSHKALOTE_SUCCESS, 10 + 65536 * 1);
    expect_true("row 5 is seq 3 4", kinds[5] == 2 && xs[5] == 3 && ys[5] == 4);
    expect_true("main's root is row 9", roots[0] == 9);

    /* The analysis: one round, four pairs, both ways round, and nothing beyond word 63. */
    memset(matrix, 0xff, sizeof matrix);
    expect("analyse the whole case", analyse(10, 1, BUSHKALOTE_LABELS + 1), BUSHKALOTE_SUCCESS, 1);
    expect_true("partners of label 0", matrix[0] == 0xe);
    expect_true("partners of label 1", matrix[1] == 0x5);
    expect_true("partners of label 2", matrix[2] == 0x3);
    expect_true("partners of label 3", matrix[3] == 0x1);
    expect_true("no partners of label 63", matrix[63] == 0);
    expect_true("the word beyond is untouched", matrix[64] == UINT64_MAX);

    /* The listing. */
    memset(listing, '#', sizeof listing);
    expect("list the whole case", list(10, 1, sizeof listing), BUSHKALOTE_SUCCESS, (uint32_t)full);
    expect_true("the listing", memcmp(listing, whole_listing, full) == 0);
    expect_true("the byte beyond is untouched", listing[full] == '#');
    if (differences == 0)
        fwrite(listing, 1, full, stdout);

    /* 14: one byte too few leaves bytes and matrix as they were; just enough is enough. */
    memset(listing, '#', sizeof listing);
    memset(matrix, 0x55, sizeof matrix);
    expect("listing in too few bytes", list(10, 1, full - 1), BUSHKALOTE_LONG_LISTING, 0);
    expect_true("the bytes are unchanged", listing[0] == '#' && listing[full - 2] == '#');
    expect_true("the matrix is unchanged", all_words(0x5555555555555555u));
    expect("listing in just enough bytes", list(10, 1, full), BUSHKALOTE_SUCCESS, (uint32_t)full);

    /* 1 and 2. */
    memset(matrix, 0x55, sizeof matrix);
    expect("no rows", analyse(0, 1, BUSHKALOTE_LABELS), BUSHKALOTE_WRONG_SIZES, 0);
    expect("no procedures", analyse(10, 0, BUSHKALOTE_LABELS), BUSHKALOTE_WRONG_SIZES, 0);
    expect("slices of unequal length",
           bushkalote_analyse(kinds, 10, xs, 9, ys, 10, roots, 1, matrix, BUSHKALOTE_LABELS),
           BUSHKALOTE_WRONG_SIZES, 0);
    expect("a short matrix", analyse(10, 1, BUSHKALOTE_LABELS - 1), BUSHKALOTE_SHORT_MATRIX, 0);
    expect_true("the matrix is unchanged", all_words(0x5555555555555555u));

    /* 3: only a table can have such a kind. */
    kinds[4] = 7;
    expect("a kind above 6", analyse(10, 1, BUSHKALOTE_LABELS), BUSHKALOTE_UNKNOWN_KIND, 4);
    kinds[4] = 1;

    /* 4 to 7 from sheets. */
    expect("label 63", analyse_text("R\tstep\t63\t0\nP\t0\n"), BUSHKALOTE_SUCCESS, 1);
    memset(matrix, 0x55, sizeof matrix);
    expect("label 64", analyse_text("R\tskip\t0\t0\nR\tstep\t64\t0\nP\t1\n"), BUSHKALOTE_WRONG_OPERAND, 1);
    expect("a root that is no row", analyse_text("R\tskip\t0\t0\nP\t0\nP\t1\n"), BUSHKALOTE_NO_SUCH_ROW, 1);
    expect("a row used twice", analyse_text("R\tskip\t0\t0\nR\tseq\t0\t0\nP\t1\n"), BUSHKALOTE_USED_AGAIN, 0);
    expect("a row used by nobody", analyse_text("R\tskip\t0\t0\nR\tskip\t0\t0\nP\t1\n"), BUSHKALOTE_UNUSED, 0);
    expect("an empty sheet", analyse_text(""), BUSHKALOTE_WRONG_SIZES, 0);
    expect_true("the matrix is unchanged", all_words(0x5555555555555555u));

    /* 11 to 13 leave the storage as it was. */
    memset(kinds, 0x77, sizeof kinds);
    memset(long_sheet, '\n', sizeof long_sheet);
    expect("a sheet too long",
           bushkalote_read_sheet(long_sheet, sizeof long_sheet, kinds, BUSHKALOTE_ROWS, xs, BUSHKALOTE_ROWS,
                                 ys, BUSHKALOTE_ROWS, roots, BUSHKALOTE_PROCEDURES),
           BUSHKALOTE_LONG_SHEET, 0);
    expect("a missing last newline", read_text("R\tskip\t0\t0\nP\t0", 4, 4), BUSHKALOTE_WRONG_FORM, 1);
    expect("a row after a procedure", read_text("R\tskip\t0\t0\nP\t0\nR\tskip\t0\t0\n", 4, 4),
           BUSHKALOTE_WRONG_FORM, 2);
    expect("room for nine of ten rows", read_text(whole_case, 9, 1), BUSHKALOTE_NO_ROOM, 9);
    expect("room for no procedure", read_text(whole_case, 10, 0), BUSHKALOTE_NO_ROOM, 10);
    expect_true("the kinds are unchanged", kinds[0] == 0x77 && kinds[9] == 0x77);
    expect("just enough room", read_text(whole_case, 10, 1), BUSHKALOTE_SUCCESS, 10 + 65536 * 1);

    on_records();
    edited_and_saved();

    if (differences != 0) {
        fprintf(stderr, "%d differences\n", differences);
        return 1;
    }
    return 0;
}
