/* What bench/plain.c and bench/plain_text.c have in common: a sheet, its weight and its refusals, and the walk of a listing. The forms and the verdict
   of a cell stand in bench/plain_forms.h, which tells the ways apart. docs/BENCHMARKS.md says what they are for. Nothing here is proved. */
#include "plain_forms.h"

enum { COUNT = 64 };

static const uint64_t CEILING = (uint64_t)1 << 62;

/* ---- numbers with a ceiling */

static uint64_t capped_sum(uint64_t a, uint64_t b) { return CEILING - a < b ? CEILING : a + b; }

static uint64_t capped_product(uint64_t a, uint64_t b) {
    if (b == 0) return 0;
    return CEILING / b < a ? CEILING : a * b;
}

static uint64_t capped_power(uint32_t n) { return n > 62 ? CEILING : (uint64_t)1 << n; }

/* ---- a sheet and its weight */

struct sheet {
    uint32_t d, s, k, mode;
    int32_t x, y;
    size_t count;
    int32_t coefficients[COUNT];
};

static uint64_t axis_limit(int32_t z, uint32_t s) { return larger(size(z), size(z + power(s))); }

static uint64_t row_weight(const int32_t *row, uint32_t n, uint64_t ry) {
    uint64_t sum = 0, scale = 1;
    for (uint32_t j = 0; j <= n; j++) {
        sum = capped_sum(sum, capped_product(size(row[j]), scale));
        scale = capped_product(scale, ry);
    }
    return sum;
}

static uint64_t capped_weight(const struct sheet *sheet) {
    uint64_t rx = axis_limit(sheet->x, sheet->s), ry = axis_limit(sheet->y, sheet->s), sum = 0, scale = 1;
    const int32_t *row = sheet->coefficients;
    for (uint32_t i = 0; i <= sheet->d; i++) {
        uint32_t n = sheet->d - i;
        sum = capped_sum(sum, capped_product(row_weight(row, n, ry), scale));
        scale = capped_product(scale, rx);
        row += n + 1;
    }
    return capped_product(capped_power((sheet->k + 1) * sheet->d), sum);
}

static bool beyond(int32_t z) { return z < -1048576 || z > 1048576; }

static uint32_t refusal(const struct sheet *sheet, size_t entries) {
    if (sheet->d > 8) return 1;
    if (sheet->count != (sheet->d + 1) * (sheet->d + 2) / 2) return 2;
    if (sheet->k > 7) return 3;
    if (beyond(sheet->x) || beyond(sheet->y) || sheet->s > 10) return 4;
    if (sheet->mode > 1) return 5;
    if (capped_weight(sheet) == CEILING) return 6;
    if (entries < (size_t)1 << 2 * sheet->k) return 7;
    return 0;
}

/* ---- the walk */

struct walk {
    const struct sheet *sheet;
    struct form form;
    int64_t across, along;
    uint32_t visited, coloured;
    uint64_t largest_bend;
    uint8_t *raster;
    uint32_t *records;
    size_t length;
};

static struct form scaled_form(const struct sheet *sheet) {
    struct form form = {.degree = sheet->d};
    size_t at = 0;
    for (uint32_t i = 0; i <= sheet->d; i++)
        for (uint32_t j = 0; j <= sheet->d - i; j++, at++) {
            int32_t a = sheet->coefficients[at];
            /* beside a zero coefficient the power need not fit */
            if (a != 0) form.places[at] = a * power((sheet->k + 1) * (sheet->d - i - j));
        }
    return form;
}

/* The scaled form and the corner: where every walk begins. */
static struct walk walk_of(const struct sheet *sheet) {
    int64_t unit = power(sheet->k + 1);
    return (struct walk){.sheet = sheet, .form = scaled_form(sheet), .across = unit * sheet->x, .along = unit * sheet->y};
}

static int64_t centre(int64_t corner, uint32_t p, int64_t h) { return corner + (2 * (int64_t)p + 1) * h; }

#ifdef OLD_WAY

static struct range range_at(struct walk *walk, uint32_t level, uint32_t p, uint32_t q) {
    const struct sheet *sheet = walk->sheet;
    int64_t h = power(sheet->s + sheet->k - level);
    struct form half, there;
    turn(&walk->form, centre(walk->along, q, h), h, &half);
    turn(&half, centre(walk->across, p, h), h, &there);
    walk->visited++;
    return range_of(&there, sheet->mode);
}

#else

/* Makes the scaled form that of the whole sheet about its centre: both variables are moved there, and a half side becomes their unit. */
static const struct form *whole_form(struct walk *walk) {
    struct form *form = &walk->form;
    uint32_t e = walk->sheet->s + walk->sheet->k;
    move_rows(form->places, form->degree, centre(walk->along, 0, power(e)));
    move_columns(form->places, form->degree, centre(walk->across, 0, power(e)));
    scale(form, e);
    return form;
}

static struct range range_at(struct walk *walk, const struct form *form) {
    walk->visited++;
    return range_of(form, walk->sheet->mode);
}

#endif

/* Counts a cell that is not cut, where it is coloured. */
static void count_cell(struct walk *walk, const struct range *range) {
    if (range->verdict != COLOURED) return;
    walk->coloured++;
    walk->largest_bend = larger(walk->largest_bend, range->bend);
}

/* ---- the listing */

/* The record of a cell that is not cut. */
static void enter_cell(struct walk *walk, const struct range *range, uint32_t level, uint32_t p, uint32_t q) {
    count_cell(walk, range);
    walk->records[walk->length++] = (uint32_t)range->verdict + 4 * p + 512 * q + 65536 * level;
}

#ifdef OLD_WAY

static void list_parts(struct walk *walk, uint32_t level, uint32_t p, uint32_t q);

static void list_cell(struct walk *walk, uint32_t level, uint32_t p, uint32_t q) {
    struct range range = range_at(walk, level, p, q);
    if (range.verdict == COLOURED && level < walk->sheet->k)
        list_parts(walk, level, p, q);
    else
        enter_cell(walk, &range, level, p, q);
}

static void list_parts(struct walk *walk, uint32_t level, uint32_t p, uint32_t q) {
    list_cell(walk, level + 1, 2 * p, 2 * q);
    list_cell(walk, level + 1, 2 * p + 1, 2 * q);
    list_cell(walk, level + 1, 2 * p, 2 * q + 1);
    list_cell(walk, level + 1, 2 * p + 1, 2 * q + 1);
}

static void list_sheet(struct walk *walk, uint32_t *records) {
    walk->records = records;
    list_cell(walk, 0, 0, 0);
}

#else

static void list_parts(struct walk *walk, const struct form *form, uint32_t level, uint32_t p, uint32_t q);

static void list_cell(struct walk *walk, const struct form *form, uint32_t level, uint32_t p, uint32_t q) {
    struct range range = range_at(walk, form);
    if (range.verdict == COLOURED && level < walk->sheet->k)
        list_parts(walk, form, level, p, q);
    else
        enter_cell(walk, &range, level, p, q);
}

static void list_parts(struct walk *walk, const struct form *form, uint32_t level, uint32_t p, uint32_t q) {
    struct parts parts;
    parts_of(form, &parts);
    list_cell(walk, &parts.lower_left, level + 1, 2 * p, 2 * q);
    list_cell(walk, &parts.lower_right, level + 1, 2 * p + 1, 2 * q);
    list_cell(walk, &parts.upper_left, level + 1, 2 * p, 2 * q + 1);
    list_cell(walk, &parts.upper_right, level + 1, 2 * p + 1, 2 * q + 1);
}

static void list_sheet(struct walk *walk, uint32_t *records) {
    walk->records = records;
    list_cell(walk, whole_form(walk), 0, 0, 0);
}

#endif
