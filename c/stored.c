/* Tries yay_store and yay_load at the edges of lent memory: sources that may only be read from, outputs and targets of
 * every size, each beside pages that may not be touched; tables that no reader made; and stored bytes that are cut,
 * changed in every byte, or lie about every length. `stored FILE..` stores and loads each file too. */
#include "rooms.h"

/* The longest form that one field has. */
#define ONE_FIELD 65538

static struct room table_room, text_room, out_room, form_room, rows_room, bytes_room;

struct answer {
    uint32_t number;
    size_t first, second;
};

/* What is lent, and must not change. */
static void protect_sources(int how) {
    protect(table_room, how);
    protect(text_room, how);
    protect(form_room, how);
}

/* Whether these bytes hold what they held before. */
static int untouched(const uint8_t *from, size_t count, uint8_t old) {
    size_t i = 0;
    while (i < count && from[i] == old) i++;
    return i == count;
}

/* Stores a table into an output of just so many bytes; a refusal leaves it as it was, and so is what stands behind. */
static struct answer store_in(const uint32_t *table, size_t words, size_t rows, const uint8_t *text, size_t len,
                              size_t room, int at_end) {
    struct answer a = {77, 77, 0};
    uint8_t *out = part(out_room, room, at_end);
    memset(out, 0xa5, room);
    protect_sources(PROT_READ);
    a.number = yay_store(table, words, rows, text, len, out, room, &a.first);
    protect_sources(PROT_READ | PROT_WRITE);
    size_t stored = a.number == YAY_OK ? a.first : 0;
    expect(a.number == YAY_OK || a.number == YAY_BADROW || a.number == YAY_TEXT, "a number", a.number);
    expect(stored <= room && untouched(out + stored, room - stored, 0xa5), "bytes past the form", stored);
    expect((a.number == YAY_BADROW) == (yay_sound(table, words, rows, text, len) == YAY_BADROW), "soundness", rows);
    if (a.number == YAY_BADROW) expect(a.first == 0, "a refusal's count", a.first);
    if (a.number == YAY_TEXT) expect(a.first > room && a.first <= YAY_STORED_LONGEST, "the bytes needed", a.first);
    return a;
}

/* Loads bytes into targets of just so many words and bytes. */
static struct answer load_in(const uint8_t *form, size_t len, size_t words, size_t bytes, int at_end) {
    struct answer a = {77, 77, 77};
    uint8_t *table = part(rows_room, words * 4, at_end), *text = part(bytes_room, bytes, at_end);
    memset(table, 0xa5, words * 4);
    memset(text, 0x5a, bytes);
    protect_sources(PROT_READ);
    a.number = yay_load(form, len, (uint32_t *)(void *)table, words, text, bytes, &a.first, &a.second);
    protect_sources(PROT_READ | PROT_WRITE);
    int loaded = a.number == YAY_OK;
    size_t rows_end = loaded ? a.first * YAY_WORDS * 4 : 0, text_end = loaded ? a.second : 0;
    expect(loaded || a.number == YAY_BADFORM || a.number == YAY_ROWS || a.number == YAY_TEXT, "a number", a.number);
    expect(rows_end <= words * 4 && untouched(table + rows_end, words * 4 - rows_end, 0xa5), "words past the rows", words);
    expect(text_end <= bytes && untouched(text + text_end, bytes - text_end, 0x5a), "bytes past the text", bytes);
    if (a.number == YAY_BADFORM) expect(a.first == 0, "a refusal's first value", a.first);
    if (!loaded) expect(a.second == 0, "a refusal's second value", a.second);
    return a;
}

/* Any bytes, at a room's end or beginning. What is loaded is sound, and is stored as the same bytes. */
static uint32_t load_any(const uint8_t *bytes, size_t len, int at_end) {
    uint8_t *form = part(form_room, len, at_end);
    memmove(form, bytes, len);
    size_t words = YAY_STORED_TABLE_ROOM(len), room = YAY_STORED_TEXT_ROOM(len);
    struct answer a = load_in(form, len, words, room, at_end);
    expect(a.number == YAY_OK || a.number == YAY_BADFORM, "large rooms", a.number);
    if (a.number != YAY_OK) return a.number;
    const uint32_t *table = (const uint32_t *)(void *)part(rows_room, words * 4, at_end);
    const uint8_t *text = part(bytes_room, room, at_end);
    size_t least = 3 * a.first + a.second, one_field = len <= ONE_FIELD;
    expect(one_field ? least == len : least < len && len <= YAY_STORED_ROOM(a.first, a.second), "how long it is", len);
    struct answer back = store_in(table, words, a.first, text, a.second, len, at_end);
    expect(back.number == YAY_OK && back.first == len && memcmp(part(out_room, len, at_end), form, len) == 0,
           "what was loaded is stored otherwise", len);
    for (size_t row = 0; row < a.first; row++) {
        const uint32_t *w = table + row * YAY_WORDS;
        size_t content = (size_t)form[w[YAY_FROM] + 1] * 256 + form[w[YAY_FROM] + 2];
        if (one_field) expect(form[w[YAY_FROM]] == w[YAY_KIND] && w[YAY_TO] == w[YAY_FROM] + 3 + content, "a span", row);
        expect(w[YAY_FROM] + 3 <= w[YAY_TO] && w[YAY_TO] <= len, "where a span ends", row);
        expect(w[YAY_LINE] == 0 && w[YAY_COLUMN] == 0, "a line", row);
    }
    return a.number;
}

/* A sound table that was read, at the edges of its rooms. */
struct read {
    const uint32_t *table;
    size_t rows;
    const uint8_t *text;
    size_t len;
};

static struct read read_in(const uint8_t *doc, size_t doc_len, int at_end) {
    static uint32_t words[YAY_TABLE_ROOM(YAY_LONGEST)];
    static uint8_t bytes[YAY_TEXT_ROOM(YAY_LONGEST)];
    size_t rows = 0, len = 0, escapes;
    uint32_t number = yay_read(doc, doc_len, words, sizeof words / sizeof *words, bytes, sizeof bytes, &rows, &len, &escapes);
    expect(number == YAY_OK, "a document", number);
    uint8_t *table = part(table_room, rows * YAY_WORDS * 4, at_end), *text = part(text_room, len, at_end);
    memcpy(table, words, rows * YAY_WORDS * 4);
    memcpy(text, bytes, len);
    return (struct read){(const uint32_t *)(void *)table, rows, text, len};
}

/* Stores it into outputs of every size, if there are not too many; the length of its form, which is kept. */
static size_t try_outputs(struct read r, int at_end, uint8_t *kept) {
    size_t words = r.rows * YAY_WORDS, form_len = 3 * r.rows + r.len;
    for (size_t room = 0; room < form_len; room += form_len / 300 + 1) {
        struct answer a = store_in(r.table, words, r.rows, r.text, r.len, room, at_end);
        expect(a.number == YAY_TEXT && a.first == form_len, "an output too short", room);
    }
    expect(store_in(r.table, words, r.rows, r.text, r.len, form_len + 9, at_end).number == YAY_OK, "a long output", 0);
    struct answer a = store_in(r.table, words, r.rows, r.text, r.len, form_len, at_end);
    expect(a.number == YAY_OK && a.first == form_len, "an exact output", a.first);
    memcpy(kept, part(out_room, form_len, at_end), form_len);
    return form_len;
}

/* Loads a form into targets of every size: the table that was stored, but for spans. */
static void try_targets(struct read r, const uint8_t *form, size_t form_len, int at_end) {
    size_t need = r.rows * YAY_WORDS, len = r.len;
    for (size_t w = 0; w <= need; w += need / 200 + 1) {
        struct answer a = load_in(form, form_len, w, len, at_end);
        expect(w < need ? a.number == YAY_ROWS && a.first == r.rows : a.number == YAY_OK, "words", w);
    }
    for (size_t b = 0; b <= len; b += len / 200 + 1) {
        struct answer a = load_in(form, form_len, need + b % 2, b, at_end);
        expect(b < len ? a.number == YAY_TEXT && a.first == len : a.number == YAY_OK, "bytes", b);
        if (b < len) expect(load_in(form, form_len, need - 1, b, at_end).number == YAY_ROWS, "ROWS before TEXT", b);
    }
    struct answer a = load_in(form, form_len, need, len, 1);
    expect(a.number == YAY_OK && a.first == r.rows && a.second == len, "exact rooms", a.first);
    const uint32_t *again = (const uint32_t *)(void *)part(rows_room, need * 4, 1);
    for (size_t i = 0; i < need; i++) {
        size_t word = i % YAY_WORDS;
        int spans = word == YAY_FROM || word == YAY_TO || word == YAY_LINE || word == YAY_COLUMN;
        if (!spans && again[i] != r.table[i]) expect(0, "a word of what was stored", i);
    }
    expect(memcmp(part(bytes_room, len, 1), r.text, len) == 0, "the text of what was stored", len);
}

/* A document, stored and loaded; the length of its form, which is kept. */
static size_t try_document(const uint8_t *doc, size_t doc_len, int at_end, uint8_t *kept) {
    struct read r = read_in(doc, doc_len, at_end);
    size_t form_len = try_outputs(r, at_end, kept);
    uint8_t *form = part(form_room, form_len, at_end);
    memcpy(form, kept, form_len);
    try_targets(r, form, form_len, at_end);
    expect(load_any(kept, form_len, at_end) == YAY_OK, "the form of a document", form_len);
    return form_len;
}

/* A form cut at every place, changed in every byte, with every length a lie, and with bytes behind it. */
static void try_damaged(const uint8_t *good, size_t len) {
    static const uint8_t values[] = {0, 1, 3, 4, 8, 9, 10, 11, 12, 127, 128, 255};
    static uint8_t bytes[4096];
    expect(len + 4 <= sizeof bytes, "a short form", len);
    for (int at_end = 0; at_end < 2; at_end++) {
        memcpy(bytes, good, len);
        for (size_t cut = 0; cut < len; cut++) {
            expect(load_any(bytes, cut, at_end) == YAY_BADFORM, "cut short", cut);
        }
        for (size_t i = 0; i < len; i++) {
            for (size_t v = 0; v < sizeof values; v++) {
                bytes[i] = values[v];
                load_any(bytes, len, at_end);
            }
            for (int more = -3; more < 4; more++) {
                bytes[i] = (uint8_t)(good[i] + more);
                load_any(bytes, len, at_end);
            }
            bytes[i] = good[i];
        }
        memcpy(bytes + len, "\x01\0\0\0", 4);
        for (size_t behind = 1; behind <= 4; behind++) {
            expect(load_any(bytes, len + behind, at_end) == YAY_BADFORM, "bytes behind", behind);
        }
    }
}

/* The bytes of a field with such a content, its parts counted. */
static size_t field(size_t content) { return content + 3 * ((content ? content - 1 : 0) / 65535 + 1); }

/* A string of so many bytes, alone or in an array: the widest contents of one field and of two, and some more. */
static void try_wide(size_t content, int array) {
    size_t len = array ? content - 3 : content, rows = array ? 2 : 1, form_len = array ? field(field(len)) : field(len);
    uint32_t *table = (uint32_t *)(void *)part(table_room, rows * YAY_WORDS * 4, 1);
    uint8_t *text = part(text_room, len, 1);
    memset(table, 0, rows * YAY_WORDS * 4);
    memset(text, 'a', len);
    if (array) {
        table[YAY_KIND] = YAY_ARRAY;
        table[YAY_TEXT_TO] = 1;
        table[YAY_NEXT] = 2;
    }
    uint32_t *string = table + (rows - 1) * YAY_WORDS;
    string[YAY_KIND] = YAY_INTEGER;
    string[YAY_TEXT_TO] = (uint32_t)len;
    string[YAY_NEXT] = (uint32_t)rows;
    expect(store_in(table, rows * YAY_WORDS, rows, text, len, 9, 1).number == YAY_BADROW, "BADROW before TEXT", content);
    string[YAY_KIND] = YAY_STRING;
    struct answer a = store_in(table, rows * YAY_WORDS, rows, text, len, form_len - 1, 1);
    expect(a.number == YAY_TEXT && a.first == form_len, "a byte too few", content);
    store_in(table, rows * YAY_WORDS, rows, text, len, form_len + 9, 1);
    a = store_in(table, rows * YAY_WORDS, rows, text, len, form_len, 1);
    expect(a.number == YAY_OK && a.first == form_len, "a wide content", content);
    static uint8_t form[3 * 65538];
    memcpy(form, part(out_room, form_len, 1), form_len);
    expect(load_any(form, form_len, 1) == YAY_OK, "a wide form", content);
    expect(load_any(form, form_len - 1, 1) == YAY_BADFORM && load_any(form, form_len + 1, 1) == YAY_BADFORM, "a length", content);
}

/* Small random words as a table, and small random bytes as a form. */
static void try_random(void) {
    uint32_t seed = 1;
    for (size_t round = 0; round < 4000; round++) {
        size_t words = round % (6 * YAY_WORDS), rows = round % 9, len = round % 23;
        uint32_t *table = (uint32_t *)(void *)part(table_room, words * 4, 1);
        uint8_t bytes[24];
        for (size_t i = 0; i < words; i++) {
            seed = seed * 1664525u + 1013904223u;
            table[i] = round % 5 ? (seed >> 24) % 12 : seed;
        }
        store_in(table, words, rows, part(text_room, 5, 1), 5, round % 40, 1);
        for (size_t i = 0; i < len; i++) {
            seed = seed * 1664525u + 1013904223u;
            bytes[i] = (uint8_t)((seed >> 24) % (i % 3 == 1 ? 2 : 13));
        }
        load_any(bytes, len, (int)(round % 2));
    }
}

/* A file, stored and loaded. */
static void try_file(const char *name) {
    static uint8_t doc[YAY_LONGEST + 1], form[ONE_FIELD];
    FILE *file = fopen(name, "rb");
    expect(file != NULL, name, 0);
    if (file == NULL) return;
    size_t len = fread(doc, 1, sizeof doc, file);
    fclose(file);
    for (int at_end = 0; at_end < 2; at_end++) {
        size_t form_len = try_document(doc, len, at_end, form);
        for (size_t cut = 0; cut < form_len; cut++) {
            expect(load_any(form, cut, at_end) == YAY_BADFORM, name, cut);
        }
    }
}

int main(int count, char **files) {
    struct room *rooms[] = {&table_room, &text_room, &out_room, &form_room, &rows_room, &bytes_room};
    static const char *const docs[] = {"null\n",
                                       "[1, 22]\n",
                                       "{}\n",
                                       "a: \"\"\nb: [<00ff>, -.5, true]\n\"\": {c: {d: null}}\n",
                                       "{a: 1, b: {a: 2, b: [[], {}]}, \"\xf0\x9f\x98\x80\": nan}\n"};
    static uint8_t form[ONE_FIELD];
    for (size_t i = 0; i < sizeof rooms / sizeof *rooms; i++) *rooms[i] = make_room();
    for (size_t i = 0; i < sizeof docs / sizeof *docs; i++) {
        size_t len = 0;
        for (int at_end = 0; at_end < 2; at_end++) len = try_document((const uint8_t *)docs[i], strlen(docs[i]), at_end, form);
        try_damaged(form, len);
    }
    for (size_t more = 0; more < 6; more++) {
        for (int array = 0; array < 2; array++) {
            try_wide(65533 + more, array);
            try_wide(131068 + more, array);
        }
    }
    try_random();
    for (int i = 1; i < count; i++) try_file(files[i]);
    printf("stored: %d answers, %d wrong\n", tried, wrong);
    return wrong != 0;
}
