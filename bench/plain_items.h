/* What bench/plain_text.c and bench/plain_pbm.c have in common: what is left of a text, numbers written, and the place of an item. Nothing here is
   proved. */
#pragma once
#include "plain_bytes.h"

/* ---- reading */

/* What is left of a text. */
struct rest {
    const uint8_t *at, *end;
};

/* Goes past the byte, where it comes next. */
static bool take_byte(struct rest *rest, uint8_t byte) {
    if (rest->at == rest->end || *rest->at != byte) return false;
    rest->at++;
    return true;
}

static bool is_digit(uint8_t byte) { return byte >= '0' && byte <= '9'; }

/* ---- writing */

static uint8_t *put_decimal(uint8_t *out, uint32_t n) {
    if (n > 9) out = put_decimal(out, n / 10);
    *out = (uint8_t)('0' + n % 10);
    return out + 1;
}

static uint8_t *put_field(uint8_t *out, uint32_t n, uint8_t end) {
    out = put_decimal(out, n);
    *out = end;
    return out + 1;
}

/* ---- items */

/* Makes the place hold what three words of an item's head say, from the first on: one byte everywhere, and others from some entry on, which are
   read. */
static bool hold(const uint8_t *head, size_t first, uint8_t *place, size_t entries) {
    size_t end = least(word(head, first + 2), entries), start = least(word(head, first + 1), end);
    memset(place, head[4 * first], entries);
    return read_all(place + start, end - start);
}
