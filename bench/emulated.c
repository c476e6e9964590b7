/*
 * Times of the library's four entries beside those of straight.c, a
 * straightforward C version of the same work, and of the library's entries on
 * records beside those on slices, in one process on the same sheets. Where the
 * library only runs in the emulator all do, so that only the ratios say
 * something there: the first is the library's time over the C version's, the
 * second the time on records over that on slices, which is what the copy
 * costs.
 *
 *   tools/x86 cc LIBDIR HEADERDIR bench/emulated.c OUT
 *   tools/x86 run OUT SHEET...
 *
 * LIBDIR is the folder of libpanel.a, HEADERDIR that of panel.h; the sheets
 * are those that the bench program writes with --sheets. Each time is the best
 * of several batches, in nanoseconds of the process's processor time a call;
 * no buffer is cleared between the calls. All versions must give the same
 * replies and store the same; status 1 if they do not, 2 if a sheet cannot be
 * read.
 */
#define _POSIX_C_SOURCE 200809L

#include <inttypes.h>
#include <stdio.h>
#include <string.h>
#include <time.h>

#include "panel.h"
#include "straight.c"

#define BATCHES 30
#define BATCH_NS 20000000.0

/* What a version writes. */
struct store {
    uint8_t kinds[BUSHKALOTE_ROWS];
    uint16_t xs[BUSHKALOTE_ROWS];
    uint16_t ys[BUSHKALOTE_ROWS];
    bushkalote_row records[BUSHKALOTE_ROWS];
    uint16_t roots[BUSHKALOTE_PROCEDURES];
    uint64_t matrix[BUSHKALOTE_LABELS];
    uint8_t listing[BUSHKALOTE_LISTING_BYTES];
    uint8_t written[BUSHKALOTE_WRITTEN_BYTES];
};

enum { LIBRARY, STRAIGHT, RECORDS, VERSIONS };

static const char *const version_names[VERSIONS] = {"the library", "the C version", "the library on records"};

enum { ANALYSE, READ_SHEET, LIST_PAIRS, WRITE_SHEET, ENTRIES };

static const char *const entry_names[ENTRIES] = {"analyse", "read_sheet", "list_pairs", "write_sheet"};

/* Behind volatile pointers no version is built into its caller. */
typedef uint64_t analyse_entry(
    const uint8_t *, size_t, const uint16_t *, size_t, const uint16_t *, size_t, const uint16_t *, size_t,
    uint64_t *, size_t);
typedef uint64_t read_entry(
    const uint8_t *, size_t, uint8_t *, size_t, uint16_t *, size_t, uint16_t *, size_t, uint16_t *, size_t);
typedef uint64_t list_entry(
    const uint8_t *, size_t, const uint16_t *, size_t, const uint16_t *, size_t, const uint16_t *, size_t,
    uint64_t *, size_t, uint8_t *, size_t);
typedef uint64_t write_entry(
    const uint8_t *, size_t, const uint16_t *, size_t, const uint16_t *, size_t, const uint16_t *, size_t,
    uint8_t *, size_t);

static analyse_entry *volatile analyse[] = {bushkalote_analyse, straight_analyse};
static read_entry *volatile read_sheet[] = {bushkalote_read_sheet, straight_read_sheet};
static list_entry *volatile list_pairs[] = {bushkalote_list_pairs, straight_list_pairs};
static write_entry *volatile write_sheet[] = {bushkalote_write_sheet, straight_write_sheet};

/* The sheet, its recipe as the library reads it, and the store of each version. */
static uint8_t sheet[BUSHKALOTE_SHEET_BYTES + 1];
static size_t sheet_len;
static struct store recipe;
static size_t rows;
static size_t procedures;
static struct store stores[VERSIONS];

static uint64_t call_on_records(int entry)
{
    struct store *s = &stores[RECORDS];

    switch (entry) {
    case ANALYSE:
        return bushkalote_analyse_rows(recipe.records, rows, recipe.roots, procedures, s->matrix,
                                       BUSHKALOTE_LABELS);
    case READ_SHEET:
        return bushkalote_read_rows(sheet, sheet_len, s->records, BUSHKALOTE_ROWS, s->roots,
                                    BUSHKALOTE_PROCEDURES);
    case WRITE_SHEET:
        return bushkalote_write_rows(recipe.records, rows, recipe.roots, procedures, s->written,
                                     BUSHKALOTE_WRITTEN_BYTES);
    default:
        return bushkalote_list_rows(recipe.records, rows, recipe.roots, procedures, s->matrix, BUSHKALOTE_LABELS,
                                    s->listing, BUSHKALOTE_LISTING_BYTES);
    }
}

static uint64_t call(int version, int entry)
{
    struct store *s = &stores[version];

    if (version == RECORDS)
        return call_on_records(entry);
    switch (entry) {
    case ANALYSE:
        return analyse[version](recipe.kinds, rows, recipe.xs, rows, recipe.ys, rows, recipe.roots, procedures,
                                s->matrix, BUSHKALOTE_LABELS);
    case READ_SHEET:
        return read_sheet[version](sheet, sheet_len, s->kinds, BUSHKALOTE_ROWS, s->xs, BUSHKALOTE_ROWS, s->ys,
                                   BUSHKALOTE_ROWS, s->roots, BUSHKALOTE_PROCEDURES);
    case WRITE_SHEET:
        return write_sheet[version](recipe.kinds, rows, recipe.xs, rows, recipe.ys, rows, recipe.roots, procedures,
                                    s->written, BUSHKALOTE_WRITTEN_BYTES);
    default:
        return list_pairs[version](recipe.kinds, rows, recipe.xs, rows, recipe.ys, rows, recipe.roots, procedures,
                                   s->matrix, BUSHKALOTE_LABELS, s->listing, BUSHKALOTE_LISTING_BYTES);
    }
}

/* Reads the bytes of a file into the sheet. */
static int load(const char *path)
{
    FILE *file = fopen(path, "rb");

    if (file == NULL)
        return 0;
    sheet_len = fread(sheet, 1, sizeof sheet, file);
    const int whole = !ferror(file) && sheet_len <= BUSHKALOTE_SHEET_BYTES;
    fclose(file);
    return whole;
}

/* The records of a recipe, from its slices. */
static void pack(struct store *s)
{
    for (size_t r = 0; r < BUSHKALOTE_ROWS; r++)
        s->records[r] = (bushkalote_row){s->kinds[r], s->xs[r], s->ys[r]};
}

/* The slices of what was stored as records; the records are as before then. */
static void unpack(struct store *s)
{
    for (size_t r = 0; r < BUSHKALOTE_ROWS; r++) {
        s->kinds[r] = s->records[r].kind;
        s->xs[r] = s->records[r].x;
        s->ys[r] = s->records[r].y;
    }
    memset(s->records, 0x55, sizeof s->records);
}

/* True if an entry is not refused, and all versions reply and store the same. */
static int agree(const char *path, int entry)
{
    memset(stores, 0x55, sizeof stores);
    const uint64_t theirs = call(LIBRARY, entry);
    for (int v = STRAIGHT; v < VERSIONS; v++) {
        const uint64_t ours = call(v, entry);
        if (v == RECORDS)
            unpack(&stores[v]);
        if (BUSHKALOTE_NUMBER(theirs) == 0 && theirs == ours &&
            memcmp(&stores[LIBRARY], &stores[v], sizeof stores[v]) == 0)
            continue;
        fprintf(stderr, "%s: %s: the library replies %" PRIx64 ", %s %" PRIx64 "%s\n", path, entry_names[entry],
                theirs, version_names[v], ours, theirs == ours ? ", and they store different things" : "");
        return 0;
    }
    return 1;
}

/* The process's processor time; that of other programs does not count. */
static double now(void)
{
    struct timespec t;

    clock_gettime(CLOCK_PROCESS_CPUTIME_ID, &t);
    return (double)t.tv_sec * 1e9 + (double)t.tv_nsec;
}

static double batch(int version, int entry, long calls)
{
    const double start = now();

    for (long i = 0; i < calls; i++)
        call(version, entry);
    return (now() - start) / (double)calls;
}

/*
 * The best time of a call of each version. Batches of the versions take turns,
 * so that a disturbance of the machine meets all.
 */
static void best(int entry, double least_ns[VERSIONS])
{
    long calls[VERSIONS];

    for (int v = 0; v < VERSIONS; v++) {
        batch(v, entry, 2);
        least_ns[v] = batch(v, entry, 2);
        calls[v] = 1 + (long)(BATCH_NS / (least_ns[v] + 1));
    }
    for (int b = 0; b < BATCHES; b++) {
        for (int v = 0; v < VERSIONS; v++) {
            const double ns = batch(v, entry, calls[v]);
            if (ns < least_ns[v])
                least_ns[v] = ns;
        }
    }
}

/* A path without its folders. */
static const char *file_name(const char *path)
{
    const char *slash = strrchr(path, '/');

    return slash == NULL ? path : slash + 1;
}

int main(int argc, char **argv)
{
    if (argc < 2) {
        fprintf(stderr, "usage: emulated SHEET...\n");
        return 2;
    }
    printf("%-24s %-11s %12s %12s %8s %12s %8s\n", "sheet", "entry", "library ns", "C ns", "ratio", "records ns",
           "ratio");
    for (int a = 1; a < argc; a++) {
        if (!load(argv[a])) {
            fprintf(stderr, "%s: cannot be read as a sheet\n", argv[a]);
            return 2;
        }
        if (!agree(argv[a], READ_SHEET))
            return 1;
        recipe = stores[LIBRARY];
        pack(&recipe);
        const uint64_t reply = call(LIBRARY, READ_SHEET);
        rows = BUSHKALOTE_ROWS_READ(reply);
        procedures = BUSHKALOTE_PROCEDURES_READ(reply);
        if (!agree(argv[a], ANALYSE) || !agree(argv[a], LIST_PAIRS) || !agree(argv[a], WRITE_SHEET))
            return 1;
        for (int e = 0; e < ENTRIES; e++) {
            double ns[VERSIONS];
            best(e, ns);
            printf("%-24s %-11s %12.0f %12.0f %8.2f %12.0f %8.3f\n", file_name(argv[a]), entry_names[e],
                   ns[LIBRARY], ns[STRAIGHT], ns[LIBRARY] / ns[STRAIGHT], ns[RECORDS], ns[RECORDS] / ns[LIBRARY]);
            fflush(stdout);
        }
    }
    return 0;
}
