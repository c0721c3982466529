/* Tries yay_overlay at the edges of lent memory: sources that may only be read from, and targets of every size, each
 * beside pages that may not be touched; and tables that no reader made. */
#include "rooms.h"

static struct room table_room, text_room, out_room, doc_room, rows_room, bytes_room;

struct answer {
    uint32_t number;
    size_t first, second;
};

/* A table and its text, as they are lent. */
struct lent {
    const uint32_t *table;
    size_t words, rows;
    const uint8_t *text;
    size_t len;
};

/* Lays one table over another, which may only be read from, into targets of just so many words and bytes. A refusal
 * leaves both as they were, and so is what stands past the rows and the text. */
static struct answer overlay_in(struct lent lower, struct lent upper, size_t words, size_t bytes, int at_end) {
    struct answer a = {77, 77, 77};
    struct room *sources[] = {&table_room, &text_room, &doc_room, &out_room};
    uint8_t *table = part(rows_room, words * 4, at_end), *text = part(bytes_room, bytes, at_end);
    memset(table, 0xa5, words * 4);
    memset(text, 0x5a, bytes);
    for (size_t i = 0; i < 4; i++) protect(*sources[i], PROT_READ);
    a.number = yay_overlay(lower.table, lower.words, lower.rows, lower.text, lower.len, upper.table, upper.words,
                           upper.rows, upper.text, upper.len, (uint32_t *)(void *)table, words, text, bytes, &a.first,
                           &a.second);
    for (size_t i = 0; i < 4; i++) protect(*sources[i], PROT_READ | PROT_WRITE);
    int laid = a.number == YAY_OK;
    size_t rows_end = laid ? a.first * YAY_WORDS * 4 : 0, text_end = laid ? a.second : 0, i;
    for (i = rows_end; i < words * 4 && table[i] == 0xa5; i++) {}
    expect(i >= words * 4, "words past the rows", a.number);
    for (i = text_end; i < bytes && text[i] == 0x5a; i++) {}
    expect(i >= bytes, "bytes past the text", a.number);
    if (a.number == YAY_BADROW || a.number == YAY_CLASH) expect(a.first == 0, "a refusal's first value", a.first);
    if (!laid) expect(a.second == 0, "a refusal's second value", a.second);
    return a;
}

/* The document read into rooms that end, or begin, where its rows and texts do. */
static struct lent lent_in(const char *doc, struct room table, struct room text, int at_end) {
    static uint32_t words[YAY_TABLE_ROOM(4096)];
    static uint8_t bytes[YAY_TEXT_ROOM(4096)];
    size_t rows, len, escapes;
    uint32_t number = yay_read((const uint8_t *)doc, strlen(doc), words, YAY_TABLE_ROOM(4096), bytes,
                               YAY_TEXT_ROOM(4096), &rows, &len, &escapes);
    expect(number == YAY_OK, doc, number);
    uint8_t *low = part(table, rows * YAY_WORDS * 4, at_end), *room = part(text, len, at_end);
    memcpy(low, words, rows * YAY_WORDS * 4);
    memcpy(room, bytes, len);
    return (struct lent){(const uint32_t *)(void *)low, rows * YAY_WORDS, rows, room, len};
}

/* One document over another, in targets of every size up to what is needed and some more. What it gives, written. */
static struct answer overlaid(const char *lower, const char *upper, int at_end, const char *wanted) {
    struct lent one = lent_in(lower, table_room, text_room, at_end), other = lent_in(upper, out_room, doc_room, at_end);
    if (lower == upper) other = one;
    struct answer full = overlay_in(one, other, one.words + other.words, one.len + other.len, at_end);
    if (full.number != YAY_OK) return full;
    size_t words = full.first * YAY_WORDS, bytes = full.second;
    for (size_t w = 0; w <= words + 1; w++) {
        struct answer a = overlay_in(one, other, w, bytes + w % 2, at_end);
        expect(w < words ? a.number == YAY_ROWS && a.first == full.first : a.number == YAY_OK, lower, w);
    }
    for (size_t b = 0; b <= bytes + 1; b++) {
        struct answer a = overlay_in(one, other, words + b % 2, b, at_end);
        expect(b < bytes ? a.number == YAY_TEXT && a.first == bytes : a.number == YAY_OK, lower, b);
        if (b < bytes) expect(overlay_in(one, other, words - 1, b, at_end).number == YAY_ROWS, "ROWS before TEXT", b);
    }
    overlay_in(one, other, words, bytes, 1);
    uint8_t out[4096];
    size_t count = 0;
    const uint32_t *table = (const uint32_t *)(void *)part(rows_room, words * 4, 1);
    uint32_t number = yay_write(table, words, full.first, part(bytes_room, bytes, 1), bytes, out, sizeof out, &count);
    expect(number == YAY_OK && count == strlen(wanted) && memcmp(out, wanted, count) == 0, wanted, count);
    for (size_t row = 0; row < full.first; row++) {
        const uint32_t *w = table + row * YAY_WORDS;
        expect(!w[YAY_FROM] && !w[YAY_TO] && !w[YAY_LINE] && !w[YAY_COLUMN], "a span of a result", row);
    }
    return full;
}

/* What document 02 says of profiles laid over each other. */
static void try_overlays(void) {
    static const struct {
        const char *lower, *upper, *wanted;
        uint32_t number;
    } cases[] = {
        {"{}\n", "{}\n", "{}\n", YAY_OK},
        {"{a: 1}\n", "{}\n", "a: 1\n", YAY_OK},
        {"{}\n", "{a: 1}\n", "a: 1\n", YAY_OK},
        {"{a: 1, b: 2}\n", "{c: 5, b: 'x', d: 6}\n", "a: 1\nb: \"x\"\nc: 5\nd: 6\n", YAY_OK},
        {"{a: [1, {b: 1}]}\n", "{\"\\u{61}\": [{c: {}}]}\n", "a:\n  - c: {}\n", YAY_OK},
        {"{a: {b: 1, c: 2}, z: 1}\n", "{y: [], a: {d: 4, b: null}}\n", "a:\n  b: null\n  c: 2\n  d: 4\nz: 1\ny: []\n",
         YAY_OK},
        {"{a: {}}\n", "{a: null}\n", "", YAY_CLASH},
        {"{a: null}\n", "{a: {}}\n", "", YAY_CLASH},
        {"{a: {b: {c: 1}}}\n", "{a: {b: []}}\n", "", YAY_CLASH},
        {"[]\n", "{}\n", "", YAY_BADROW},
        {"{}\n", "1\n", "", YAY_BADROW},
    };
    for (size_t i = 0; i < sizeof cases / sizeof *cases; i++) {
        for (int at_end = 0; at_end < 2; at_end++) {
            struct answer a = overlaid(cases[i].lower, cases[i].upper, at_end, cases[i].wanted);
            expect(a.number == cases[i].number, cases[i].upper, a.number);
        }
    }
    static const char both[] = "a:\n  b: 1\n  c:\n    - {}\nd: \"x\"\n";
    expect(overlaid(both, both, 1, "a:\n  b: 1\n  c:\n    - {}\nd: \"x\"\n").number == YAY_OK, "the same memory", 0);
}

/* Small random words, and fewer of them than the rows say, over themselves and over a sound table. */
static void try_broken_tables(void) {
    uint32_t seed = 1;
    for (size_t round = 0; round < 2000; round++) {
        size_t words = round % (6 * YAY_WORDS), rows = round % 9;
        struct lent good = lent_in("{a: {b: 1}}\n", out_room, doc_room, 1);
        uint32_t *table = (uint32_t *)(void *)part(table_room, words * 4, 1);
        for (size_t i = 0; i < words; i++) {
            seed = seed * 1664525u + 1013904223u;
            table[i] = round % 5 ? (seed >> 24) % 12 : seed;
        }
        struct lent broken = {table, words, rows, part(text_room, 5, 1), 5};
        overlay_in(broken, broken, round % 40, round % 7, 1);
        overlay_in(broken, good, round % 40, round % 7, 1);
        overlay_in(good, broken, round % 40, round % 7, 1);
    }
}

int main(void) {
    struct room *rooms[] = {&table_room, &text_room, &out_room, &doc_room, &rows_room, &bytes_room};
    for (size_t i = 0; i < sizeof rooms / sizeof *rooms; i++) *rooms[i] = make_room();
    try_overlays();
    try_broken_tables();
    printf("overlays: %d answers, %d wrong\n", tried, wrong);
    return wrong != 0;
}
