/*
 * The recipe tool for a panel's firmware: the eight entries of libpanel.a.
 * docs/PANEL.md is the guide to it: linking, stack, and two examples.
 *
 * A slice is handed over as a pointer and a length, the length in elements,
 * not in bytes. A pointer is never null, also where the length is 0, and is
 * aligned for its element. What is written must not overlap any other slice.
 * Nothing is kept after the call. The analysis recurses as deep as the recipe
 * is nested, up to 1,024 rows, and needs stack for it; an entry on records
 * copies them there. The library has no storage of its own that is written, so
 * calls may run at the same time if none writes what another is lent.
 *
 * A recipe is its rows and its roots. The rows are handed over in one of two
 * ways, with an entry for each: as three slices of equal length, kinds, xs and
 * ys, one element a row, or as one slice of records, bushkalote_row. Both give
 * the same replies and write the same. A record's kind, x and y are those of
 * its row; the byte between kind and x has no meaning.
 *
 *   kind  word    x                  y
 *   0     skip    0                  0
 *   1     step    label, 0 to 63     0
 *   2     seq     first child row    second child row
 *   3     loop    child row          0
 *   4     async   child row          0
 *   5     finish  child row          0
 *   6     call    procedure number   0
 *
 * A row stands after its children, has one single user (the row that it is a
 * child of, or the procedure that it is the root of), and main comes first
 * among the roots.
 *
 * Every reply is one number: a refusal's number times 2^32, plus a value.
 * Number 0 is success. For a refusal the value is a place, counted from 0:
 *
 *   number  meaning                                            value
 *   1       kinds, xs and ys of unequal length, or the rows    0
 *           not 1 to 1,024, or the procedures not 1 to 64;
 *           to be written there may be none of either
 *   2       matrix_len is below 64                             0
 *   3       an unknown kind, 7 or higher                       first such row
 *   4       an operand that its kind does not allow            first such row
 *   5       a root past the last row                           first such procedure
 *   6       a row with two users or more                       first such row
 *   7       a row without a user                               first such row
 *   11      bytes_len of a sheet is above 65,536               0
 *   12      a malformed line                                   its line
 *   13      no room for the row or procedure of a line, or     its line
 *           the ceiling is reached
 *   14      bytes_len is too small for the listing, or for     0
 *           the sheet that is to be written
 *   15      an x, a y or a root above 9,999, which no sheet    first such row, or
 *           can hold                                           first such procedure
 *                                                              where no row has one
 *
 * 1 to 7 are tried one after the other, each over the whole recipe. Of a sheet
 * 11 is tried first; then the first line that is malformed or finds no room
 * decides, 12 before 13. To write a sheet 1, 3, 15 and 14 are tried in this
 * order. Where 15 gives i, row i is meant if the caller's table has a row i
 * with an x or a y above 9,999, else procedure i. A refused call writes nothing.
 */
#ifndef BUSHKALOTE_PANEL_H
#define BUSHKALOTE_PANEL_H

#include <stddef.h>
#include <stdint.h>

#ifdef __cplusplus
extern "C" {
#endif

/*
 * The version, 10,000 times the major number, 100 times the minor, and the
 * patch; and the same as text.
 */
#define BUSHKALOTE_VERSION 300
#define BUSHKALOTE_VERSION_TEXT "0.3.0"

/*
 * The numbers of replies, as in the table above. 14 has an earlier name too,
 * from when only a listing could be too long.
 */
#define BUSHKALOTE_SUCCESS 0
#define BUSHKALOTE_WRONG_SIZES 1
#define BUSHKALOTE_SHORT_MATRIX 2
#define BUSHKALOTE_UNKNOWN_KIND 3
#define BUSHKALOTE_WRONG_OPERAND 4
#define BUSHKALOTE_NO_SUCH_ROW 5
#define BUSHKALOTE_USED_AGAIN 6
#define BUSHKALOTE_UNUSED 7
#define BUSHKALOTE_LONG_SHEET 11
#define BUSHKALOTE_WRONG_FORM 12
#define BUSHKALOTE_NO_ROOM 13
#define BUSHKALOTE_SHORT_BYTES 14
#define BUSHKALOTE_LONG_LISTING 14
#define BUSHKALOTE_LONG_NUMBER 15

/* The most of everything; storage of these lengths is always enough. */
#define BUSHKALOTE_ROWS 1024
#define BUSHKALOTE_PROCEDURES 64
#define BUSHKALOTE_LABELS 64
#define BUSHKALOTE_SHEET_BYTES 65536
#define BUSHKALOTE_LISTING_BYTES 11858
#define BUSHKALOTE_WRITTEN_BYTES 19904

/* A row as a record. */
typedef struct bushkalote_row {
    uint8_t kind;
    uint16_t x;
    uint16_t y;
} bushkalote_row;

/* The two halves of a reply. */
#define BUSHKALOTE_NUMBER(reply) ((uint32_t)((uint64_t)(reply) >> 32))
#define BUSHKALOTE_VALUE(reply) ((uint32_t)((uint64_t)(reply) & 0xffffffffu))

/* The two halves of the value that reading gives. */
#define BUSHKALOTE_ROWS_READ(reply) (BUSHKALOTE_VALUE(reply) & 0xffffu)
#define BUSHKALOTE_PROCEDURES_READ(reply) (BUSHKALOTE_VALUE(reply) >> 16)

/*
 * Judges a recipe and works out which labels may run in parallel.
 * Refuses with 1 to 7. On success the value is the number of rounds, and bit j
 * of matrix[i] is 1 exactly when labels i and j are a pair, for the first 64
 * words; words beyond are untouched. No pair that a run shows is missing; where
 * main, or a procedure that main can reach by calls, can reach itself by calls
 * ("wide" on the listing), there may be pairs that no run shows. The recipe is
 * never written.
 */
uint64_t bushkalote_analyse(
    const uint8_t *kinds, size_t kinds_len,
    const uint16_t *xs, size_t xs_len,
    const uint16_t *ys, size_t ys_len,
    const uint16_t *roots, size_t roots_len,
    uint64_t *matrix, size_t matrix_len);

/*
 * Reads a sheet into lent storage; the room for rows is the shortest of kinds,
 * xs and ys. Refuses with 11 to 13. On success the value is the number of rows
 * plus 65,536 times the number of procedures; only so many elements are
 * written. Operands are stored as they stand on the sheet; it is the analysis
 * that judges them.
 */
uint64_t bushkalote_read_sheet(
    const uint8_t *bytes, size_t bytes_len,
    uint8_t *kinds, size_t kinds_len,
    uint16_t *xs, size_t xs_len,
    uint16_t *ys, size_t ys_len,
    uint16_t *roots, size_t roots_len);

/*
 * Judges and works out a recipe and writes its listing into the lent bytes.
 * Refuses with 1 to 7 and then with 14; the matrix, too, is only written on
 * success. On success the value is the listing's length in bytes, the first 64
 * words of the matrix are those of the analysis, and bytes beyond the listing
 * are untouched. The listing is not ended by a zero byte.
 */
uint64_t bushkalote_list_pairs(
    const uint8_t *kinds, size_t kinds_len,
    const uint16_t *xs, size_t xs_len,
    const uint16_t *ys, size_t ys_len,
    const uint16_t *roots, size_t roots_len,
    uint64_t *matrix, size_t matrix_len,
    uint8_t *bytes, size_t bytes_len);

/*
 * Writes a recipe as a sheet into the lent bytes: so an editor saves what it
 * holds in memory. Refuses with 1, 3, 15 and 14. On success the value is the
 * sheet's length in bytes, and bytes beyond it are untouched;
 * BUSHKALOTE_WRITTEN_BYTES are room enough for any. The sheet is not ended by a
 * zero byte. What is written is what the reader takes back: the same rows and
 * roots. Operands are written as they stand, used by their kind or not; it is
 * the analysis that judges them. So a recipe can be saved before it is
 * finished, even one that has no row or no procedure yet. The recipe itself is
 * not changed.
 */
uint64_t bushkalote_write_sheet(
    const uint8_t *kinds, size_t kinds_len,
    const uint16_t *xs, size_t xs_len,
    const uint16_t *ys, size_t ys_len,
    const uint16_t *roots, size_t roots_len,
    uint8_t *bytes, size_t bytes_len);

/*
 * The same four on records: there are no lengths that can differ, and the
 * room for rows is the number of records.
 */
uint64_t bushkalote_analyse_rows(
    const bushkalote_row *rows, size_t rows_len,
    const uint16_t *roots, size_t roots_len,
    uint64_t *matrix, size_t matrix_len);

uint64_t bushkalote_read_rows(
    const uint8_t *bytes, size_t bytes_len,
    bushkalote_row *rows, size_t rows_len,
    uint16_t *roots, size_t roots_len);

uint64_t bushkalote_list_rows(
    const bushkalote_row *rows, size_t rows_len,
    const uint16_t *roots, size_t roots_len,
    uint64_t *matrix, size_t matrix_len,
    uint8_t *bytes, size_t bytes_len);

uint64_t bushkalote_write_rows(
    const bushkalote_row *rows, size_t rows_len,
    const uint16_t *roots, size_t roots_len,
    uint8_t *bytes, size_t bytes_len);

#ifdef __cplusplus
}
#endif

#endif
