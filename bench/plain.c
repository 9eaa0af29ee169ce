/* The work of the calls raster and listing in plain C, for a timing beside the proved program.

   It does what that does: the weight with a ceiling, the scaled form and that of the whole sheet once, and for each cell that is visited the range with
   its bend, the verdict, and then a cut, with the forms of the four parts, or the largest bend so far of the coloured cells and a block of the raster
   or a record: one recursion for rasters, which stands here, and one for listings, which stands in bench/plain.h with the rest. Forms are handed on by
   pointers, and those of the four parts are worked out before the first part is examined (bench/plain_forms.h, which has other ways to choose from).
   It reads and answers cases as crates/compare does, so that both can be fed one file and their answers compared byte for byte; it knows only calls 3
   and 4. Nothing here is proved. */
#include "plain.h"

enum { CASE = 320, ANSWER = 40, ENTRIES = 16416 };

/* ---- the raster */

/* Row by row, the bytes of the finest cells that the cell covers. */
static void paint_block(struct walk *walk, uint32_t level, uint32_t p, uint32_t q, uint8_t colour) {
    uint32_t k = walk->sheet->k;
    size_t side = (size_t)1 << (k - level);
    for (size_t row = q * side; row < (q + 1) * side; row++) {
        uint8_t *run = walk->raster + (row << k) + p * side;
        for (size_t i = 0; i < side; i++) run[i] = colour;
    }
}

static void paint_cell(struct walk *walk, const struct range *range, uint32_t level, uint32_t p, uint32_t q) {
    count_cell(walk, range);
    paint_block(walk, level, p, q, (uint8_t)range->verdict);
}

#ifdef OLD_WAY

static void cut(struct walk *walk, uint32_t level, uint32_t p, uint32_t q);

static void examine(struct walk *walk, uint32_t level, uint32_t p, uint32_t q) {
    struct range range = range_at(walk, level, p, q);
    if (range.verdict == COLOURED && level < walk->sheet->k)
        cut(walk, level, p, q);
    else
        paint_cell(walk, &range, level, p, q);
}

static void cut(struct walk *walk, uint32_t level, uint32_t p, uint32_t q) {
    examine(walk, level + 1, 2 * p, 2 * q);
    examine(walk, level + 1, 2 * p + 1, 2 * q);
    examine(walk, level + 1, 2 * p, 2 * q + 1);
    examine(walk, level + 1, 2 * p + 1, 2 * q + 1);
}

static void paint_sheet(struct walk *walk, uint8_t *raster) {
    walk->raster = raster;
    examine(walk, 0, 0, 0);
}

#else

static void cut(struct walk *walk, const struct form *form, uint32_t level, uint32_t p, uint32_t q);

static void examine(struct walk *walk, const struct form *form, uint32_t level, uint32_t p, uint32_t q) {
    struct range range = range_at(walk, form);
    if (range.verdict == COLOURED && level < walk->sheet->k)
        cut(walk, form, level, p, q);
    else
        paint_cell(walk, &range, level, p, q);
}

static void cut(struct walk *walk, const struct form *form, uint32_t level, uint32_t p, uint32_t q) {
    struct parts parts;
    parts_of(form, &parts);
    examine(walk, &parts.lower_left, level + 1, 2 * p, 2 * q);
    examine(walk, &parts.lower_right, level + 1, 2 * p + 1, 2 * q);
    examine(walk, &parts.upper_left, level + 1, 2 * p, 2 * q + 1);
    examine(walk, &parts.upper_right, level + 1, 2 * p + 1, 2 * q + 1);
}

static void paint_sheet(struct walk *walk, uint8_t *raster) {
    walk->raster = raster;
    examine(walk, whole_form(walk), 0, 0, 0);
}

#endif

/* ---- cases and answers */

static int32_t signed_of(uint32_t code) { return code < 0x80000000u ? (int32_t)code : -1 - (int32_t)(code - 0x80000000u); }

static struct sheet sheet_of(const uint8_t *bytes) {
    struct sheet sheet = {
        .d = word(bytes, 1), .count = least(word(bytes, 2), COUNT), .x = signed_of(word(bytes, 3)), .y = signed_of(word(bytes, 4)),
        .s = word(bytes, 5), .k = word(bytes, 6), .mode = word(bytes, 7),
    };
    for (size_t i = 0; i < COUNT; i++) sheet.coefficients[i] = signed_of(word(bytes, 16 + i));
    return sheet;
}

static bool write_answer(const uint64_t words[5]) {
    uint8_t out[ANSWER];
    for (size_t i = 0; i < 5; i++) put_number(out + 8 * i, words[i], 8);
    return write_all(out, ANSWER);
}

/* Walks, or refuses; the answer is that of a raster where there is one, and of a listing otherwise. */
static bool walk_sheet(const struct sheet *sheet, size_t entries, uint8_t *raster, uint32_t *records) {
    uint32_t number = refusal(sheet, entries);
    if (number != 0) return write_answer((uint64_t[5]){1, number});
    struct walk walk = walk_of(sheet);
    if (raster != NULL) {
        paint_sheet(&walk, raster);
        return write_answer((uint64_t[5]){0, walk.visited, walk.coloured, walk.largest_bend});
    }
    list_sheet(&walk, records);
    return write_answer((uint64_t[5]){0, walk.length, walk.visited, walk.coloured, walk.largest_bend});
}

static bool raster_case(const struct sheet *sheet, size_t entries) {
    static uint8_t place[ENTRIES];
    return read_all(place, entries) && walk_sheet(sheet, entries, place, NULL) && write_all(place, entries);
}

static bool listing_case(const struct sheet *sheet, size_t entries) {
    static uint32_t place[ENTRIES];
    static uint8_t held[4 * ENTRIES];
    if (!read_all(held, 4 * entries)) return false;
    for (size_t i = 0; i < entries; i++) place[i] = word(held, i);
    if (!walk_sheet(sheet, entries, NULL, place)) return false;
    for (size_t i = 0; i < entries; i++) put_number(held + 4 * i, place[i], 4);
    return write_all(held, 4 * entries);
}

static bool one_case(void) {
    uint8_t bytes[CASE];
    if (!read_all(bytes, CASE)) return false;
    struct sheet sheet = sheet_of(bytes);
    size_t entries = least(word(bytes, 15), ENTRIES);
    switch (word(bytes, 0)) {
    case 3: return raster_case(&sheet, entries);
    case 4: return listing_case(&sheet, entries);
    default: return write_answer((uint64_t[5]){2});
    }
}

int main(void) {
    while (one_case()) {
    }
    return 0;
}
