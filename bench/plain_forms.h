/* Forms for bench/plain.h: those of a cell's parts, and the range of a form's values. docs/BENCHMARKS.md says what they are for. Nothing here is proved.

   A form of degree d has a place (a, b) wherever a + b <= d, row after row: row a has d + 1 - a places. How a cell comes by its form is chosen when a
   program is compiled; the answers are the same:

   - The form of a part comes from that of the whole cell: the place (a, b) is halved a + b times, and then each variable is moved by 1 or -1, by
     additions in place.
   - -DBY_DEGREE: the same, and a switch on the degree hands literals on to the moves and to the range.
   - -DTUNED: the same by the degree, but of a form only the places of its degree are copied, and gcc is told to put each function in its place and to
     leave no loop, which it does not do by itself.
   - -DOLD_WAY: each cell's form is worked out anew from that of the sheet, by Horner's rule in two turns. */
#pragma once
#include "plain_bytes.h"

/* ---- numbers */

static uint64_t larger(uint64_t a, uint64_t b) { return a < b ? b : a; }

static uint64_t size(int64_t z) { return z < 0 ? (uint64_t)-z : (uint64_t)z; }

static int64_t power(uint32_t n) { return (int64_t)1 << n; }

/* ---- forms and ranges */

struct form {
    uint32_t degree;
    int64_t places[45];
};

enum verdict { COLOURED = 1, ABOVE = 2, BELOW = 3 };

struct range {
    enum verdict verdict;
    int64_t lower, upper;
    uint64_t bend;
};

static struct range judge(int64_t lower, int64_t upper, uint64_t bend) {
    return (struct range){lower > 0 ? ABOVE : upper < 0 ? BELOW : COLOURED, lower, upper, bend};
}

#ifdef OLD_WAY

/* ---- the old way: two turns */

/* The sum of c(j) (u + h t)^j by Horner's rule. */
static void expand(const int64_t *c, uint32_t n, int64_t u, int64_t h, int64_t row[9]) {
    memset(row, 0, 9 * sizeof *row);
    for (uint32_t j = n + 1; j-- > 0;) {
        for (uint32_t a = n - j; a > 0; a--) row[a] = row[a] * u + row[a - 1] * h;
        row[0] = row[0] * u + c[j];
    }
}

/* The second variable moved, and the two variables exchanged. */
static void turn(const struct form *form, int64_t u, int64_t h, struct form *turned) {
    uint32_t d = form->degree;
    const int64_t *c = form->places;
    turned->degree = d;
    for (uint32_t i = 0; i <= d; i++) {
        int64_t row[9];
        expand(c, d - i, u, h, row);
        size_t at = i;
        for (uint32_t b = 0; b <= d - i; b++) {
            turned->places[at] = row[b];
            at += d + 1 - b;
        }
        c += d + 1 - i;
    }
}

/* The proved program works out the bounds and the bend of each cell that is visited. Here only the bends of coloured cells are looked at, and a
   compiler may leave out the others; gcc -O2 sums all of them beside the bounds. */
static struct range range_of(const struct form *form, uint32_t mode) {
    uint64_t fall = 0, rise = 0, bend = 0;
    const int64_t *g = form->places;
    for (uint32_t a = 0; a <= form->degree; a++)
        for (uint32_t b = 0; b <= form->degree - a; b++, g++) {
            if (a + b == 0) continue;
            uint64_t n = size(*g);
            bool even = mode == 0 && a % 2 == 0 && b % 2 == 0;
            if (!even || *g < 0) fall += n;
            if (!even || *g > 0) rise += n;
            if (a + b >= 2) bend += n;
        }
    return judge(form->places[0] - (int64_t)fall, form->places[0] + (int64_t)rise, bend);
}

#else

/* ---- moves */

/* Left to itself gcc unrolls short loops alone, at -O3 too. */
#ifdef TUNED
#define BY_DEGREE
#define INLINE static inline __attribute__((always_inline))
#define UNROLLED _Pragma("GCC unroll 45")
#else
#define INLINE static inline
#define UNROLLED
#endif

INLINE size_t count_of(size_t d) { return (d + 1) * (d + 2) / 2; }

/* To each place of a run s times that of another is added, which may begin just one place further on. */
INLINE void add_run(int64_t *to, const int64_t *from, size_t count, int64_t s) {
    UNROLLED for (size_t c = 0; c < count; c++) to[c] += s * from[c];
}

/* A row of n + 1 places, the second variable moved by s. */
INLINE void move_row(int64_t *row, size_t n, int64_t s) {
    UNROLLED for (size_t i = n; i-- > 0;) add_run(row + i, row + i + 1, n - i, s);
}

INLINE void move_rows(int64_t *places, size_t d, int64_t s) {
    int64_t *row = places;
    UNROLLED for (size_t n = d; n > 0; n--) {
        move_row(row, n, s);
        row += n + 1;
    }
}

/* From a row of n + 1 places on, s times the next row is added to each. */
INLINE void add_rows(int64_t *row, size_t n, int64_t s) {
    UNROLLED for (size_t m = n; m > 0; m--) {
        add_run(row, row + m + 1, m, s);
        row += m + 1;
    }
}

/* The first variable moved by s. */
INLINE void move_columns(int64_t *places, size_t d, int64_t s) {
    int64_t *first = places + count_of(d) - 1;
    UNROLLED for (size_t n = 1; n <= d; n++) {
        first -= n + 1;
        add_rows(first, n, s);
    }
}

/* The place (a, b) times 2^(e (a + b)); beside a 0 the power need not fit. */
static void scale(struct form *form, uint32_t e) {
    int64_t *g = form->places;
    for (uint32_t a = 0; a <= form->degree; a++)
        for (uint32_t n = a; n <= form->degree; n++, g++)
            if (*g != 0) *g *= power(e * n);
}

/* ---- the parts of a cell */

struct parts {
    struct form lower_left, lower_right, upper_left, upper_right;
};

/* The place (a, b) halved a + b times, which leaves nothing over: gcc shifts a negative number with its sign. */
INLINE void halve(int64_t *places, size_t d) {
    UNROLLED for (size_t a = 0; a <= d; a++)
        UNROLLED for (size_t n = a; n <= d; n++) *places++ >>= n;
}

/* A form is one value, which is copied whole. */
INLINE void copy(const struct form *from, size_t d, struct form *to) {
#ifdef TUNED
    UNROLLED for (size_t at = 0; at < count_of(d); at++) to->places[at] = from->places[at];
    to->degree = from->degree;
#else
    (void)d;
    *to = *from;
#endif
}

INLINE void move_low_high(struct parts *parts, size_t d) {
    move_rows(parts->lower_left.places, d, -1);
    move_rows(parts->upper_left.places, d, 1);
}

INLINE void move_left_right(struct parts *parts, size_t d) {
    move_columns(parts->lower_left.places, d, -1);
    move_columns(parts->lower_right.places, d, 1);
    move_columns(parts->upper_left.places, d, -1);
    move_columns(parts->upper_right.places, d, 1);
}

/* The whole is halved once, the second variable moved twice, and the first one four times. The other way round takes as long. */
INLINE void parts_by(const struct form *form, size_t d, struct parts *parts) {
    copy(form, d, &parts->lower_left);
    halve(parts->lower_left.places, d);
    copy(&parts->lower_left, d, &parts->upper_left);
    move_low_high(parts, d);
    copy(&parts->lower_left, d, &parts->lower_right);
    copy(&parts->upper_left, d, &parts->upper_right);
    move_left_right(parts, d);
}

static void parts_of(const struct form *form, struct parts *parts) {
#ifdef BY_DEGREE
    switch (form->degree) {
    case 0: parts_by(form, 0, parts); break;
    case 1: parts_by(form, 1, parts); break;
    case 2: parts_by(form, 2, parts); break;
    case 3: parts_by(form, 3, parts); break;
    case 4: parts_by(form, 4, parts); break;
    case 5: parts_by(form, 5, parts); break;
    case 6: parts_by(form, 6, parts); break;
    case 7: parts_by(form, 7, parts); break;
    default: parts_by(form, 8, parts); break;
    }
#else
    parts_by(form, form->degree, parts);
#endif
}

/* ---- ranges */

/* What the even rule spares: of the fall the places above 0, of the rise those below 0, where a and b are even. */
struct spare {
    uint64_t fall, rise;
};

static uint64_t above(int64_t g) { return g > 0 ? (uint64_t)g : 0; }

static uint64_t below(int64_t g) { return g < 0 ? (uint64_t)-g : 0; }

/* The sizes of all places but the first, together. */
INLINE uint64_t sizes(const int64_t *places, size_t d) {
    uint64_t sum = 0;
    UNROLLED for (size_t at = 1; at < count_of(d); at++) sum += size(places[at]);
    return sum;
}

/* The places 0, 2, .. of the rows 0, 2, .., but not the first of all. */
INLINE struct spare spared(const int64_t *places, size_t d) {
    struct spare spare = {0, 0};
    const int64_t *row = places;
    UNROLLED for (size_t a = 0; a <= d; a += 2) {
        UNROLLED for (size_t b = a == 0 ? 2 : 0; b <= d - a; b += 2) {
            spare.fall += above(row[b]);
            spare.rise += below(row[b]);
        }
        row += 2 * (d - a) + 1;
    }
    return spare;
}

/* The bend is what the sizes have beside the two linear places. Only that of a coloured cell is looked at, so a compiler may leave those two steps out
   elsewhere; the proved program works out every bend. */
INLINE struct range range_by(const struct form *form, size_t d, uint32_t mode) {
    const int64_t *g = form->places;
    uint64_t total = sizes(g, d), bend = d == 0 ? 0 : total - size(g[1]) - size(g[d + 1]);
    struct spare spare = {0, 0};
    if (mode == 0) spare = spared(g, d);
    return judge(g[0] - (int64_t)(total - spare.fall), g[0] + (int64_t)(total - spare.rise), bend);
}

static struct range range_of(const struct form *form, uint32_t mode) {
#ifdef BY_DEGREE
    switch (form->degree) {
    case 0: return range_by(form, 0, mode);
    case 1: return range_by(form, 1, mode);
    case 2: return range_by(form, 2, mode);
    case 3: return range_by(form, 3, mode);
    case 4: return range_by(form, 4, mode);
    case 5: return range_by(form, 5, mode);
    case 6: return range_by(form, 6, mode);
    case 7: return range_by(form, 7, mode);
    default: return range_by(form, 8, mode);
    }
#else
    return range_by(form, form->degree, mode);
#endif
}

#endif
