/* Reading sheet texts, and listing them as text, in plain C, for a timing beside the proved program.

   It reads and answers texts as crates/compare_texts does, so that both can be fed one file and their answers compared byte for byte. As there,
   each text is read twice: once for its listing, and once for the words of its sheet. Here a text is read line by line: a line is parted into its
   fields, and these are tried, up to the first fault. The walk is that of bench/plain.h. Nothing here is proved. */
#include "plain.h"
#include "plain_items.h"

enum { LONGEST = 8192, HELD = 262144, RECORDS = 16384, ROOM = 16 * RECORDS + 28, ENTRIES = ROOM + 36 };
enum { FRONT = 9, PLACES = 45, WORDS = FRONT + PLACES + 1 };

/* ---- fields and lines */

enum { HEAD = 4, MOST = 4 };

/* A line: whether an LF ends it, how many fields it has, and the first of them. */
struct line {
    bool ended;
    size_t count;
    struct rest fields[MOST];
};

/* Where the byte is, or the end where it is not. */
static const uint8_t *find(const uint8_t *at, const uint8_t *end, uint8_t byte) {
    const uint8_t *found = memchr(at, byte, (size_t)(end - at));
    return found != NULL ? found : end;
}

static struct line take_line(struct rest *rest) {
    const uint8_t *at = rest->at, *end = find(at, rest->end, '\n');
    struct line line = {.ended = end < rest->end};
    rest->at = line.ended ? end + 1 : end;
    for (;;) {
        const uint8_t *tab = find(at, end, '\t');
        if (line.count < MOST) line.fields[line.count] = (struct rest){at, tab};
        line.count++;
        if (tab == end) return line;
        at = tab + 1;
    }
}

/* ---- the faults of a line */

enum { BAD_LETTER = 14, BAD_COUNT = 15, BADLY_WRITTEN = 16, OUT_OF_RANGE = 17, BEYOND = 18, TWICE = 19, UNENDED = 20 };

/* A number, or 0 where there is none; and the field, counted from 1, or 0. */
struct fault {
    uint32_t number, field;
};

static const struct fault NONE = {0, 0};

/* The shape of a line: its letter, how many numbers come after it, and which of them may be negative. The last is that of a term. */
struct shape {
    uint8_t letter;
    size_t count;
    bool negative[MOST - 1];
};

static const struct shape SHAPES[HEAD + 1] = {
    {'D', 1, {false}}, {'B', 3, {true, true, false}}, {'K', 1, {false}}, {'M', 1, {false}}, {'T', 3, {false, false, true}}};

static struct fault front_fault(const struct line *line, const struct shape *shape) {
    struct rest letter = line->fields[0];
    if (letter.end - letter.at != 1 || *letter.at != shape->letter) return (struct fault){BAD_LETTER, 1};
    return line->count != shape->count + 1 ? (struct fault){BAD_COUNT, 0} : NONE;
}

/* The number that a field holds, or its fault. There has to be a digit, and no 0 before others, nor after a minus. Once the number is 2^32 or more
   it is too large, and grows no further. */
static uint32_t read_number(struct rest field, bool negative, int32_t *value) {
    bool minus = take_byte(&field, '-');
    const uint8_t *at = field.at;
    int64_t n = 0;
    for (; at < field.end && is_digit(*at); at++)
        if (n < (int64_t)1 << 32) n = 10 * n + (*at - '0');
    if (at < field.end || at == field.at) return BADLY_WRITTEN;
    if (*field.at == '0' && (minus || at > field.at + 1)) return BADLY_WRITTEN;
    if (minus) n = -n;
    if (n < INT32_MIN || n > INT32_MAX || (minus && !negative)) return OUT_OF_RANGE;
    *value = (int32_t)n;
    return 0;
}

/* The numbers of a line from one on and before another. */
static struct fault read_numbers(const struct line *line, const struct shape *shape, size_t from, size_t to, int32_t *values) {
    for (size_t i = from; i < to; i++) {
        uint32_t number = read_number(line->fields[i + 1], shape->negative[i], values + i);
        if (number != 0) return (struct fault){number, (uint32_t)i + 2};
    }
    return NONE;
}

static struct fault end_fault(const struct line *line) { return line->ended ? NONE : (struct fault){UNENDED, 0}; }

/* ---- texts */

/* A sheet; or the number of a refusal, the line and the field where they are meant, and zeros. */
struct reading {
    uint32_t number, line, field;
    struct sheet sheet;
};

static struct reading refused(uint32_t number, uint32_t line, uint32_t field) {
    return (struct reading){.number = number, .line = line, .field = field};
}

/* One of the first four lines. */
static struct fault read_head(const struct line *line, size_t at, struct sheet *sheet) {
    const struct shape *shape = &SHAPES[at];
    int32_t values[MOST - 1];
    struct fault fault = front_fault(line, shape);
    if (fault.number == 0) fault = read_numbers(line, shape, 0, shape->count, values);
    if (fault.number == 0) fault = end_fault(line);
    if (fault.number != 0) return fault;
    switch (shape->letter) {
    case 'D': sheet->d = (uint32_t)values[0]; break;
    case 'B':
        sheet->x = values[0];
        sheet->y = values[1];
        sheet->s = (uint32_t)values[2];
        break;
    case 'K': sheet->k = (uint32_t)values[0]; break;
    default: sheet->mode = (uint32_t)values[0];
    }
    return NONE;
}

/* Whether the exponents are within the degree and 8, and were not named before. */
static struct fault term_fault(uint32_t i, uint32_t j, uint32_t d, bool named[9][9]) {
    if (i > 8 || j > 8 || i + j > d) return (struct fault){BEYOND, 2};
    return named[i][j] ? (struct fault){TWICE, 2} : NONE;
}

/* A line from the fifth on. Where the degree is above 8, which is refused in the end, a term has no place. */
static struct fault read_term(const struct line *line, struct sheet *sheet, bool named[9][9]) {
    const struct shape *shape = &SHAPES[HEAD];
    int32_t values[MOST - 1];
    struct fault fault = front_fault(line, shape);
    if (fault.number == 0) fault = read_numbers(line, shape, 0, 2, values);
    if (fault.number != 0) return fault;
    uint32_t i = (uint32_t)values[0], j = (uint32_t)values[1], d = sheet->d;
    fault = term_fault(i, j, d, named);
    if (fault.number == 0) fault = read_numbers(line, shape, 2, 3, values);
    if (fault.number == 0) fault = end_fault(line);
    if (fault.number != 0) return fault;
    named[i][j] = true;
    if (d <= 8) sheet->coefficients[i * (2 * d + 3 - i) / 2 + j] = values[2];
    return NONE;
}

static struct reading read_text(const uint8_t *text, size_t n) {
    if (n > LONGEST) return refused(11, 0, 0);
    struct rest rest = {text, text + n};
    struct reading reading = {0};
    struct sheet *sheet = &reading.sheet;
    bool named[9][9] = {{false}};
    uint32_t lines = 0;
    while (rest.at < rest.end) {
        struct line line = take_line(&rest);
        struct fault fault = lines < HEAD ? read_head(&line, lines, sheet) : read_term(&line, sheet, named);
        lines++;
        if (fault.number != 0) return refused(fault.number, lines, fault.field);
    }
    if (lines < HEAD) return refused(BAD_LETTER, lines + 1, 0);
    sheet->count = ((size_t)sheet->d + 1) * ((size_t)sheet->d + 2) / 2;
    uint32_t number = refusal(sheet, RECORDS);
    return number != 0 ? refused(number, 0, 0) : reading;
}

/* ---- the text of a listing */

static uint8_t *put_name(uint8_t *out, const char *name) {
    while (*name != '\0') *out++ = (uint8_t)*name++;
    *out++ = '\t';
    return out;
}

static uint8_t *put_refusal(uint8_t *out, const struct reading *reading) {
    out = put_field(put_name(out, "refused"), reading->number, '\t');
    return put_field(put_field(out, reading->line, '\t'), reading->field, '\n');
}

static uint8_t *put_total(uint8_t *out, uint32_t visited, uint32_t coloured) {
    return put_field(put_field(put_name(out, "total"), visited, '\t'), coloured, '\n');
}

/* Level, p, q, and the mark of the colour. */
static uint8_t *put_record(uint8_t *out, uint32_t record) {
    out = put_field(out, record / 65536, '\t');
    out = put_field(out, record / 4 % 128, '\t');
    out = put_field(out, record / 512 % 128, '\t');
    *out++ = (uint8_t)" 0+-"[record % 4];
    *out++ = '\n';
    return out;
}

/* What the listing program writes for a text, at the start of a place: how long it is. A place without the room stays as it was. */
static size_t listing_text(const uint8_t *text, size_t n, uint8_t *place, size_t entries) {
    static uint32_t records[RECORDS];
    if (entries < ROOM) return 0;
    struct reading reading = read_text(text, n);
    if (reading.number != 0) return (size_t)(put_refusal(place, &reading) - place);
    struct walk walk = walk_of(&reading.sheet);
    list_sheet(&walk, records);
    uint8_t *out = place;
    for (size_t i = 0; i < walk.length; i++) out = put_record(out, records[i]);
    return (size_t)(put_total(out, walk.visited, walk.coloured) - place);
}

/* ---- answers */

/* A negative number by its top bit and its steps below -1. */
static uint64_t code_of(int64_t z) { return z >= 0 ? (uint64_t)z : ((uint64_t)1 << 63) + (uint64_t)(-1 - z); }

static bool write_words(const struct reading *reading, size_t length) {
    const struct sheet *sheet = &reading->sheet;
    uint64_t words[WORDS] = {reading->number,   reading->line, reading->field, sheet->d, code_of(sheet->x),
                             code_of(sheet->y), sheet->s,      sheet->k,       sheet->mode};
    uint8_t out[8 * WORDS];
    for (size_t i = 0; i < PLACES; i++) words[FRONT + i] = code_of(sheet->coefficients[i]);
    words[WORDS - 1] = length;
    for (size_t i = 0; i < WORDS; i++) put_number(out + 8 * i, words[i], 8);
    return write_all(out, sizeof out);
}

static bool one_item(void) {
    static uint8_t text[HELD], place[ENTRIES];
    static const uint8_t made[ROOM];
    uint8_t head[28];
    if (!read_all(head, sizeof head)) return false;
    if (word(head, 0) == UINT32_MAX) return write_all(made, ROOM);
    size_t n = least(word(head, 0), HELD), entries = least(word(head, 1), ENTRIES);
    if (!read_all(text, n) || !hold(head, 2, place, entries)) return false;
    size_t length = listing_text(text, n, place, entries);
    struct reading reading = read_text(text, n);
    size_t first = least(word(head, 5), entries), last = least(word(head, 6), entries);
    return write_words(&reading, length) && write_all(place, first) && write_all(place + entries - last, last);
}

int main(void) {
    while (one_item()) {
    }
    return 0;
}
