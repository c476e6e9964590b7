/*
 * The same work in straightforward C, as bench/straight.rs does it: label sets
 * as 64-bit numbers, arrays on the stack, all rows in every round, a reader
 * that goes over the sheet once, and writers straight into the lent bytes.
 */
#include "straight.h"

#include <string.h>

enum { ROWS = 1024, PROCEDURES = 64, LABELS = 64, SHEET_BYTES = 65536, LONGEST_NUMBER = 9999 };

enum { SKIP, STEP, SEQ, LOOP, ASYNC, FINISH, CALL };

/* A recipe as lent, once its lengths are judged. */
struct recipe {
    const uint8_t *kinds;
    const uint16_t *xs;
    const uint16_t *ys;
    size_t rows;
    const uint16_t *roots;
    size_t procedures;
};

static uint64_t refuse(uint64_t number, size_t place)
{
    return number << 32 | place;
}

static size_t least(size_t a, size_t b)
{
    return a < b ? a : b;
}

/* One more user of a row; two stand for any more. */
static void use(uint8_t *used, size_t row)
{
    if (used[row] < 2)
        used[row]++;
}

/* The reply of a refusal, or 0 for an admitted recipe. */
static uint64_t judge(const struct recipe *t, size_t xs_len, size_t ys_len, size_t words)
{
    const size_t n = t->rows;
    const size_t p = t->procedures;
    uint8_t used[ROWS] = {0};

    if (n == 0 || n > ROWS || p == 0 || p > PROCEDURES || xs_len != n || ys_len != n)
        return refuse(1, 0);
    if (words < LABELS)
        return refuse(2, 0);
    for (size_t r = 0; r < n; r++)
        if (t->kinds[r] > CALL)
            return refuse(3, r);
    for (size_t r = 0; r < n; r++) {
        const size_t x = t->xs[r];
        const size_t y = t->ys[r];
        int good;
        switch (t->kinds[r]) {
        case SKIP:
            good = x == 0 && y == 0;
            break;
        case STEP:
            good = x < LABELS && y == 0;
            break;
        case SEQ:
            good = x < r && y < r;
            break;
        case CALL:
            good = x < p && y == 0;
            break;
        default:
            good = x < r && y == 0;
            break;
        }
        if (!good)
            return refuse(4, r);
    }
    for (size_t i = 0; i < p; i++)
        if (t->roots[i] >= n)
            return refuse(5, i);
    for (size_t r = 0; r < n; r++) {
        switch (t->kinds[r]) {
        case SEQ:
            use(used, t->xs[r]);
            use(used, t->ys[r]);
            break;
        case LOOP:
        case ASYNC:
        case FINISH:
            use(used, t->xs[r]);
            break;
        default:
            break;
        }
    }
    for (size_t i = 0; i < p; i++)
        use(used, t->roots[i]);
    for (size_t r = 0; r < n; r++)
        if (used[r] > 1)
            return refuse(6, r);
    for (size_t r = 0; r < n; r++)
        if (used[r] == 0)
            return refuse(7, r);
    return 0;
}

/* The lowest label of a set that is not empty. */
static size_t lowest(uint64_t set)
{
    return (size_t)__builtin_ctzll(set);
}

static size_t ones(uint64_t set)
{
    return (size_t)__builtin_popcountll(set);
}

/* Joins the pairs of a label of the one set and a label of the other, both ways round. */
static void cross(uint64_t m[LABELS], uint64_t a, uint64_t b)
{
    if (a == 0 || b == 0)
        return;
    for (uint64_t left = a; left != 0; left &= left - 1)
        m[lowest(left)] |= b;
    for (uint64_t left = b; left != 0; left &= left - 1)
        m[lowest(left)] |= a;
}

/* Which procedure each row of an admitted recipe belongs to. */
static void find_owners(const struct recipe *t, uint8_t owner[ROWS])
{
    for (size_t p = 0; p < t->procedures; p++)
        owner[t->roots[p]] = (uint8_t)p;
    for (size_t r = t->rows; r-- > 0;) {
        switch (t->kinds[r]) {
        case SEQ:
            owner[t->xs[r]] = owner[r];
            owner[t->ys[r]] = owner[r];
            break;
        case LOOP:
        case ASYNC:
        case FINISH:
            owner[t->xs[r]] = owner[r];
            break;
        default:
            break;
        }
    }
}

/* What a round holds for the procedures. */
struct held {
    uint64_t m[PROCEDURES][LABELS];
    uint64_t o[PROCEDURES];
    uint64_t l[PROCEDURES];
};

static int same(const struct held *a, const struct held *b, size_t procedures)
{
    return memcmp(a->l, b->l, procedures * sizeof a->l[0]) == 0 &&
           memcmp(a->o, b->o, procedures * sizeof a->o[0]) == 0 &&
           memcmp(a->m, b->m, procedures * sizeof a->m[0]) == 0;
}

/* Gives main's matrix of an admitted recipe, and returns the rounds. */
static size_t settle(const struct recipe *t, const uint8_t owner[ROWS], uint64_t matrix[LABELS])
{
    struct held one = {0};
    struct held other = {0};
    struct held *held = &one;
    struct held *next = &other;
    /* Every row writes its own O and L before a later row reads them. */
    uint64_t o[ROWS];
    uint64_t l[ROWS];

    for (size_t rounds = 0;; rounds++) {
        memset(next->m, 0, t->procedures * sizeof next->m[0]);
        for (size_t r = 0; r < t->rows; r++) {
            const size_t x = t->xs[r];
            const size_t y = t->ys[r];
            uint64_t *m = next->m[owner[r]];
            switch (t->kinds[r]) {
            case SKIP:
                o[r] = 0;
                l[r] = 0;
                break;
            case STEP:
                o[r] = 0;
                l[r] = (uint64_t)1 << x;
                break;
            case SEQ:
                cross(m, o[x], l[y]);
                o[r] = o[x] | o[y];
                l[r] = l[x] | l[y];
                break;
            case LOOP:
                cross(m, o[x], l[x]);
                o[r] = o[x];
                l[r] = l[x];
                break;
            case ASYNC:
                o[r] = l[x];
                l[r] = l[x];
                break;
            case FINISH:
                o[r] = 0;
                l[r] = l[x];
                break;
            default:
                for (size_t i = 0; i < LABELS; i++)
                    m[i] |= held->m[x][i];
                o[r] = held->o[x];
                l[r] = held->l[x];
                break;
            }
        }
        for (size_t p = 0; p < t->procedures; p++) {
            next->o[p] = o[t->roots[p]];
            next->l[p] = l[t->roots[p]];
        }
        if (same(next, held, t->procedures)) {
            memcpy(matrix, held->m[0], sizeof held->m[0]);
            return rounds;
        }
        struct held *last = held;
        held = next;
        next = last;
    }
}

/*
 * True if some procedure that main reaches by calls, main included, reaches itself by calls: reachable sets as 64-bit
 * numbers. Main is in its own set if it reaches itself, and needs no case of its own.
 */
static int is_wide(const struct recipe *t, const uint8_t owner[ROWS])
{
    uint64_t reach[PROCEDURES] = {0};

    for (size_t r = 0; r < t->rows; r++)
        if (t->kinds[r] == CALL)
            reach[owner[r]] |= (uint64_t)1 << t->xs[r];
    for (size_t via = 0; via < t->procedures; via++)
        for (size_t p = 0; p < t->procedures; p++)
            if (reach[p] >> via & 1)
                reach[p] |= reach[via];
    for (size_t p = 0; p < t->procedures; p++)
        if ((reach[0] & reach[p]) >> p & 1)
            return 1;
    return 0;
}

static size_t digits(size_t n)
{
    return n < 10 ? 1 : n < 100 ? 2 : n < 1000 ? 3 : 4;
}

/* Writes a text, and returns where the next one goes. */
static uint8_t *put_text(uint8_t *out, const char *text)
{
    const size_t length = strlen(text);

    memcpy(out, text, length);
    return out + length;
}

/* Writes a number and the byte that ends it, and returns where the next one goes. */
static uint8_t *put_number(uint8_t *out, size_t n, char end)
{
    const size_t d = digits(n);

    for (size_t i = d; i-- > 0; n /= 10)
        out[i] = (uint8_t)('0' + n % 10);
    out[d] = (uint8_t)end;
    return out + d + 1;
}

/* What is left of a sheet. */
struct reader {
    const uint8_t *at;
    const uint8_t *end;
};

/* Goes past a text if it stands next. */
static int take_text(struct reader *in, const char *text, size_t length)
{
    if ((size_t)(in->end - in->at) < length || memcmp(in->at, text, length) != 0)
        return 0;
    in->at += length;
    return 1;
}

/* Goes past a number of at most four digits and the byte that ends it. */
static int take_number(struct reader *in, char end, uint16_t *number)
{
    const uint8_t *start = in->at;
    unsigned n = 0;

    for (; in->at < in->end && *in->at >= '0' && *in->at <= '9'; in->at++) {
        if (in->at - start == 4)
            return 0;
        n = n * 10 + (*in->at - '0');
    }
    if (in->at == start || (in->at - start > 1 && *start == '0') || in->at == in->end ||
        *in->at != (uint8_t)end)
        return 0;
    in->at++;
    *number = (uint16_t)n;
    return 1;
}

/* The keywords of the kinds, each with the tab behind it. */
static const struct {
    const char *keyword;
    size_t length;
} keywords[] = {
    {"skip\t", 5}, {"step\t", 5}, {"seq\t", 4}, {"loop\t", 5}, {"async\t", 6}, {"finish\t", 7}, {"call\t", 5},
};

/* Goes past a kind's keyword and its tab. */
static int take_kind(struct reader *in, uint8_t *kind)
{
    for (size_t k = 0; k <= CALL; k++) {
        if (take_text(in, keywords[k].keyword, keywords[k].length)) {
            *kind = (uint8_t)k;
            return 1;
        }
    }
    return 0;
}

/* Writes a kind's keyword and its tab, and returns where the next text goes. */
static uint8_t *put_kind(uint8_t *out, uint8_t kind)
{
    memcpy(out, keywords[kind].keyword, keywords[kind].length);
    return out + keywords[kind].length;
}

/* The reply of a refusal, or 0 for a recipe that can be written where there is room for its sheet. */
static uint64_t writable(const struct recipe *t, size_t xs_len, size_t ys_len)
{
    if (t->rows > ROWS || t->procedures > PROCEDURES || xs_len != t->rows || ys_len != t->rows)
        return refuse(1, 0);
    for (size_t r = 0; r < t->rows; r++)
        if (t->kinds[r] > CALL)
            return refuse(3, r);
    for (size_t r = 0; r < t->rows; r++)
        if (t->xs[r] > LONGEST_NUMBER || t->ys[r] > LONGEST_NUMBER)
            return refuse(15, r);
    for (size_t p = 0; p < t->procedures; p++)
        if (t->roots[p] > LONGEST_NUMBER)
            return refuse(15, p);
    return 0;
}

uint64_t straight_analyse(
    const uint8_t *kinds, size_t kinds_len,
    const uint16_t *xs, size_t xs_len,
    const uint16_t *ys, size_t ys_len,
    const uint16_t *roots, size_t roots_len,
    uint64_t *matrix, size_t matrix_len)
{
    const struct recipe t = {kinds, xs, ys, kinds_len, roots, roots_len};
    const uint64_t reply = judge(&t, xs_len, ys_len, matrix_len);
    uint8_t owner[ROWS];

    if (reply != 0)
        return reply;
    find_owners(&t, owner);
    return settle(&t, owner, matrix);
}

uint64_t straight_read_sheet(
    const uint8_t *bytes, size_t bytes_len,
    uint8_t *kinds, size_t kinds_len,
    uint16_t *xs, size_t xs_len,
    uint16_t *ys, size_t ys_len,
    uint16_t *roots, size_t roots_len)
{
    const size_t room = least(least(kinds_len, xs_len), least(ys_len, ROWS));
    const size_t room_roots = least(roots_len, PROCEDURES);
    struct reader in = {bytes, bytes + bytes_len};
    uint8_t all_kinds[ROWS];
    uint16_t all_xs[ROWS];
    uint16_t all_ys[ROWS];
    uint16_t all_roots[PROCEDURES];
    size_t n = 0;
    size_t p = 0;

    if (bytes_len > SHEET_BYTES)
        return refuse(11, 0);
    while (in.at < in.end) {
        const size_t place = n + p;
        uint8_t kind;
        uint16_t x;
        uint16_t y;
        if (p == 0 && take_text(&in, "R\t", 2)) {
            if (!take_kind(&in, &kind) || !take_number(&in, '\t', &x) || !take_number(&in, '\n', &y))
                return refuse(12, place);
            if (n == room)
                return refuse(13, place);
            all_kinds[n] = kind;
            all_xs[n] = x;
            all_ys[n] = y;
            n++;
        } else if (take_text(&in, "P\t", 2)) {
            if (!take_number(&in, '\n', &x))
                return refuse(12, place);
            if (p == room_roots)
                return refuse(13, place);
            all_roots[p] = x;
            p++;
        } else {
            return refuse(12, place);
        }
    }
    memcpy(kinds, all_kinds, n * sizeof all_kinds[0]);
    memcpy(xs, all_xs, n * sizeof all_xs[0]);
    memcpy(ys, all_ys, n * sizeof all_ys[0]);
    memcpy(roots, all_roots, p * sizeof all_roots[0]);
    return n + 65536 * p;
}

uint64_t straight_list_pairs(
    const uint8_t *kinds, size_t kinds_len,
    const uint16_t *xs, size_t xs_len,
    const uint16_t *ys, size_t ys_len,
    const uint16_t *roots, size_t roots_len,
    uint64_t *matrix, size_t matrix_len,
    uint8_t *bytes, size_t bytes_len)
{
    const struct recipe t = {kinds, xs, ys, kinds_len, roots, roots_len};
    const uint64_t reply = judge(&t, xs_len, ys_len, matrix_len);
    uint8_t owner[ROWS];
    uint64_t m[LABELS];
    size_t count = 0;
    size_t length = 0;

    if (reply != 0)
        return reply;
    find_owners(&t, owner);
    const size_t rounds = settle(&t, owner, m);
    const int wide = is_wide(&t, owner);
    /* Labels below 10 take one byte, the others two; a tab and a newline each. */
    for (size_t i = 0; i < LABELS; i++) {
        const uint64_t above = m[i] & UINT64_MAX << i;
        count += ones(above);
        length += ones(above) * (digits(i) + 3) + ones(above >> 10);
    }
    length += digits(count) + digits(rounds) + (wide ? 20 : 21);
    if (bytes_len < length)
        return refuse(14, 0);
    uint8_t *out = put_text(bytes, "pairs\t");
    out = put_number(out, count, '\t');
    out = put_text(out, "rounds\t");
    out = put_number(out, rounds, '\t');
    out = put_text(out, wide ? "wide\n" : "exact\n");
    for (size_t i = 0; i < LABELS; i++) {
        for (uint64_t left = m[i] & UINT64_MAX << i; left != 0; left &= left - 1) {
            out = put_number(out, i, '\t');
            out = put_number(out, lowest(left), '\n');
        }
    }
    memcpy(matrix, m, sizeof m);
    return length;
}

uint64_t straight_write_sheet(
    const uint8_t *kinds, size_t kinds_len,
    const uint16_t *xs, size_t xs_len,
    const uint16_t *ys, size_t ys_len,
    const uint16_t *roots, size_t roots_len,
    uint8_t *bytes, size_t bytes_len)
{
    const struct recipe t = {kinds, xs, ys, kinds_len, roots, roots_len};
    const uint64_t reply = writable(&t, xs_len, ys_len);
    uint8_t *out = bytes;
    size_t length = 0;

    if (reply != 0)
        return reply;
    /* Beside the keyword and its tab a row has four bytes and its digits, a procedure three. */
    for (size_t r = 0; r < kinds_len; r++)
        length += keywords[kinds[r]].length + digits(xs[r]) + digits(ys[r]) + 4;
    for (size_t p = 0; p < roots_len; p++)
        length += digits(roots[p]) + 3;
    if (bytes_len < length)
        return refuse(14, 0);
    for (size_t r = 0; r < kinds_len; r++) {
        out = put_text(out, "R\t");
        out = put_kind(out, kinds[r]);
        out = put_number(out, xs[r], '\t');
        out = put_number(out, ys[r], '\n');
    }
    for (size_t p = 0; p < roots_len; p++) {
        out = put_text(out, "P\t");
        out = put_number(out, roots[p], '\n');
    }
    return length;
}
