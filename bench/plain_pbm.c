/* Writing rasters as plain PBM, and reading plain PBMs as masks, in plain C, for a timing beside the proved program.

   It reads and answers items as crates/compare_pictures does, those of the calls 0 and 1, so that both can be fed one file and their answers compared
   byte for byte. Here a text is read in one pass, which stops at the first fault, and its digits are kept until all of them are seen. Nothing here is
   proved. */
#include "plain_items.h"

enum { LONGEST = 65600, DEEPEST = 7, SIDE = 1 << DEEPEST, LINE = 70, WRITE = 0, READ = 1 };

/* What a call answers: the number of a refusal, or 0 and a value. */
struct answer {
    uint64_t number, value;
};

static struct answer refused(uint64_t number) { return (struct answer){number, 0}; }

/* ---- writing */

static size_t text_length(uint32_t k) {
    size_t side = (size_t)1 << k, digits = side < 10 ? 1 : side < 100 ? 2 : 3;
    return 5 + 2 * digits + side * (side + (side + LINE - 1) / LINE);
}

static uint8_t *put_row(uint8_t *out, const uint8_t *row, size_t side) {
    for (size_t from = 0; from < side; from += LINE) {
        size_t end = least(from + LINE, side);
        for (size_t p = from; p < end; p++) *out++ = row[p] == 1 ? '1' : '0';
        *out++ = '\n';
    }
    return out;
}

static struct answer write_pbm(uint32_t k, const uint8_t *raster, size_t bytes, uint8_t *place, size_t entries) {
    if (k > DEEPEST) return refused(3);
    size_t side = (size_t)1 << k;
    if (bytes < side * side || entries < text_length(k)) return refused(7);
    uint8_t *out = place;
    memcpy(out, "P1\n", 3);
    out = put_field(put_field(out + 3, (uint32_t)side, ' '), (uint32_t)side, '\n');
    for (size_t q = side; q-- > 0;) out = put_row(out, raster + q * side, side);
    return (struct answer){0, (uint64_t)(out - place)};
}

/* ---- reading */

static bool is_white(uint8_t byte) { return byte == ' ' || byte == '\t' || byte == '\n' || byte == '\r'; }

static bool take_white(struct rest *rest) {
    if (rest->at == rest->end || !is_white(*rest->at)) return false;
    rest->at++;
    return true;
}

/* A comment, where one comes next, up to the LF or CR that ends it, or the text's end. */
static bool take_comment(struct rest *rest) {
    if (!take_byte(rest, '#')) return false;
    const uint8_t *at = rest->at;
    while (at < rest->end && *at != '\n' && *at != '\r') at++;
    rest->at = at;
    return true;
}

/* White space and comments. After a comment there is white space, or nothing more. */
static bool take_gap(struct rest *rest) {
    const uint8_t *first = rest->at;
    while (take_white(rest) || take_comment(rest)) {
    }
    return rest->at > first;
}

/* A size that is not 0. Where no text has the bytes for it, it grows no further. */
static bool take_size(struct rest *rest, uint64_t *size) {
    const uint8_t *at = rest->at;
    uint64_t n = 0;
    for (; at < rest->end && is_digit(*at); at++)
        if (n <= LONGEST) n = 10 * n + (*at - '0');
    rest->at = at;
    *size = n;
    return n > 0;
}

/* So many digits, white space aside, and after them white space or nothing. The first ones are kept, as many as a mask may have. */
static bool take_picture(const struct rest *rest, uint64_t count, uint8_t kept[SIDE * SIDE]) {
    const uint8_t *at = rest->at, *end = rest->end;
    for (uint64_t n = 0; n < count; at++) {
        if (at == end) return false;
        if (*at == '0' || *at == '1') {
            if (n < SIDE * SIDE) kept[n] = *at - '0';
            n++;
        } else if (!is_white(*at)) {
            return false;
        }
    }
    return at == end || is_white(*at);
}

static struct answer read_pbm(const uint8_t *text, size_t n, uint8_t *place, size_t entries) {
    static uint8_t kept[SIDE * SIDE];
    struct rest rest = {text, text + n};
    uint64_t width, height;
    if (!take_byte(&rest, 'P') || !take_byte(&rest, '1')) return refused(12);
    if (!take_gap(&rest) || !take_size(&rest, &width) || !take_gap(&rest) || !take_size(&rest, &height)) return refused(12);
    take_comment(&rest);
    if (!take_white(&rest) || !take_picture(&rest, width * height, kept)) return refused(12);
    if (width != height || width > SIDE || (width & (width - 1)) != 0) return refused(13);
    if (entries < width * width) return refused(7);
    for (size_t q = 0; q < height; q++) memcpy(place + q * width, kept + (height - 1 - q) * width, width);
    uint64_t k = 0;
    while ((uint64_t)1 << k < width) k++;
    return (struct answer){0, k};
}

/* ---- answers */

static bool write_answer(struct answer answer, const uint8_t *place, size_t entries) {
    uint8_t out[16];
    put_number(out, answer.number, 8);
    put_number(out + 8, answer.value, 8);
    return write_all(out, sizeof out) && write_all(place, entries);
}

static bool one_item(void) {
    static uint8_t input[LONGEST], place[LONGEST];
    uint8_t head[28];
    if (!read_all(head, sizeof head)) return false;
    size_t n = least(word(head, 2), LONGEST), entries = least(word(head, 3), LONGEST);
    if (!read_all(input, n) || !hold(head, 4, place, entries)) return false;
    switch (word(head, 0)) {
    case WRITE: return write_answer(write_pbm(word(head, 1), input, n, place, entries), place, entries);
    case READ: return write_answer(read_pbm(input, n, place, entries), place, entries);
    default: return false;
    }
}

int main(void) {
    while (one_item()) {
    }
    return 0;
}
