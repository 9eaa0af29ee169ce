/* What all plain C programs of bench/ have in common: bytes read and written. docs/BENCHMARKS.md says what they are for. Nothing here is proved. */
#pragma once
#include <stdbool.h>
#include <stddef.h>
#include <stdint.h>
#include <string.h>
#include <unistd.h>

static size_t least(size_t a, size_t b) { return a < b ? a : b; }

static uint32_t word(const uint8_t *bytes, size_t i) {
    const uint8_t *b = bytes + 4 * i;
    return (uint32_t)b[0] | (uint32_t)b[1] << 8 | (uint32_t)b[2] << 16 | (uint32_t)b[3] << 24;
}

static void put_number(uint8_t *out, uint64_t number, size_t bytes) {
    for (size_t i = 0; i < bytes; i++) out[i] = (uint8_t)(number >> 8 * i);
}

static bool write_all(const uint8_t *bytes, size_t n) {
    while (n > 0) {
        ssize_t put = write(STDOUT_FILENO, bytes, n);
        if (put <= 0) return false;
        bytes += put;
        n -= (size_t)put;
    }
    return true;
}

/* So many bytes, or false where fewer are left. */
static bool read_all(uint8_t *bytes, size_t n) {
    while (n > 0) {
        ssize_t got = read(STDIN_FILENO, bytes, n);
        if (got <= 0) return false;
        bytes += got;
        n -= (size_t)got;
    }
    return true;
}
