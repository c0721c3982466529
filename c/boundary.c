/* Tries the C interface at the edges of lent memory: every room ends or begins at a page that may not be touched,
 * so that a byte read or written outside is a crash. `boundary FILE..` also reads each file cut at every place. */
#include "rooms.h"

static struct room doc_room, table_room, text_room, out_room;

struct answer {
    uint32_t number;
    size_t first, second, third;
};

/* Reads with rooms of exactly so many rows and text bytes; a refusal must leave both as they were. */
static struct answer read_in(const uint8_t *doc, size_t len, size_t rows, size_t bytes, int at_end) {
    uint8_t *lent = part(doc_room, len, at_end);
    uint8_t *words = part(table_room, rows * YAY_WORDS * 4, at_end);
    uint8_t *text = part(text_room, bytes, at_end);
    struct answer answer = {0, 77, 77, 77};
    memcpy(lent, doc, len);
    memset(words, 0xa5, rows * YAY_WORDS * 4);
    memset(text, 0xa5, bytes);
    answer.number = yay_read(lent, len, (uint32_t *)(void *)words, rows * YAY_WORDS, text, bytes, &answer.first,
                             &answer.second, &answer.third);
    if (answer.number != YAY_OK) {
        expect(answer.second == 0, "a refusal's second number", answer.second);
        expect(answer.third == 0, "a refusal's escapes", answer.third);
        for (size_t i = 0; i < rows * YAY_WORDS * 4; i++) {
            if (words[i] != 0xa5) expect(0, "the table was changed", i);
        }
        for (size_t i = 0; i < bytes; i++) {
            if (text[i] != 0xa5) expect(0, "the text room was changed", i);
        }
    }
    expect(memcmp(lent, doc, len) == 0, "the document was changed", len);
    return answer;
}

/* A row's line is 1 and the line feeds before its first byte; its column is 1 and the characters since the last of
 * them, where a byte that continues a character begins none. */
static void expect_place(const uint8_t *doc, const uint32_t *words, size_t row) {
    size_t line = 1, column = 1;
    for (size_t i = 0; i < words[YAY_FROM]; i++) {
        if (doc[i] == '\n') {
            line++;
            column = 1;
        } else if ((doc[i] & 0xc0) != 0x80) {
            column++;
        }
    }
    expect(words[YAY_LINE] == line, "the line of a row", row);
    expect(words[YAY_COLUMN] == column, "the column of a row", row);
}

/* Asks every row of a table, good or broken, for its text and for a key. */
static void ask(const uint32_t *table, size_t words, size_t rows, const uint8_t *text, size_t len) {
    for (size_t row = 0; row < rows + 2; row++) {
        size_t from = 77, to = 77, value = 77;
        uint32_t number = yay_text(table, words, rows, text, len, row, &from, &to);
        expect(number == YAY_OK ? from <= to && to <= len : number == YAY_BADROW && from == 0 && to == 0,
               "the text of a row", row);
        number = yay_find(table, words, rows, text, len, row, (const uint8_t *)"a", 1, &value);
        expect(number == YAY_OK ? value < rows : (number == YAY_NONE || number == YAY_BADROW) && value == 0,
               "a key in a row", row);
    }
}

/* Tests any table and writes it: the two agree, and nothing is written but what is told. */
static uint32_t write_in(const uint32_t *table, size_t words, size_t rows, const uint8_t *text, size_t len,
                         size_t room, int at_end, size_t *count) {
    uint8_t *out = part(out_room, room, at_end);
    memset(out, 0xa5, room);
    *count = 77;
    uint32_t number = yay_write(table, words, rows, text, len, out, room, count);
    size_t written = number == YAY_OK ? *count : 0;
    expect((number == YAY_BADROW) == (yay_sound(table, words, rows, text, len) == YAY_BADROW), "soundness", rows);
    expect(number == YAY_OK || number == YAY_BADROW || number == YAY_LONG || number == YAY_TEXT, "a number", number);
    if (number == YAY_BADROW || number == YAY_LONG) expect(*count == 0, "a refusal's count", *count);
    if (number == YAY_TEXT) expect(*count > room && *count <= YAY_LONGEST, "the bytes needed", *count);
    if (written > room) expect(0, "more is written than was lent", written);
    for (size_t i = written; i < room; i++) {
        if (out[i] != 0xa5) expect(0, "the output was changed", i);
    }
    return number;
}

/* More bytes than any profile here is written in. */
#define OUTPUT 32768

/* A table that was read is sound; what is written is read as the same rows but for spans, and written so again. */
static void try_written(const uint32_t *table, size_t rows, const uint8_t *text, size_t len, int at_end) {
    static uint8_t first[OUTPUT], again_text[OUTPUT];
    static uint32_t again[YAY_TABLE_ROOM(OUTPUT)];
    size_t count, short_count, back, bytes, escapes;
    uint32_t number = write_in(table, rows * YAY_WORDS, rows, text, len, OUTPUT, at_end, &count);
    expect(number == YAY_OK || number == YAY_LONG, "a table that was read", number);
    if (number != YAY_OK) return;
    memcpy(first, part(out_room, OUTPUT, at_end), count);
    expect(write_in(table, rows * YAY_WORDS, rows, text, len, count - 1, at_end, &short_count) == YAY_TEXT &&
               short_count == count,
           "an output too small", short_count);
    expect(write_in(table, rows * YAY_WORDS, rows, text, len, count, at_end, &short_count) == YAY_OK &&
               memcmp(part(out_room, count, at_end), first, count) == 0,
           "an exact output", short_count);
    number = yay_read(first, count, again, sizeof again / sizeof *again, again_text, sizeof again_text, &back, &bytes,
                      &escapes);
    expect(number == YAY_OK && back == rows && bytes == len, "what was written", back);
    for (size_t i = 0; i < rows * YAY_WORDS && number == YAY_OK; i++) {
        size_t word = i % YAY_WORDS;
        int spans = word == YAY_FROM || word == YAY_TO || word == YAY_LINE || word == YAY_COLUMN;
        if (!spans && again[i] != table[i]) expect(0, "a word of what was written", i);
    }
    expect(memcmp(again_text, text, len) == 0, "the text of what was written", len);
    expect(write_in(again, back * YAY_WORDS, back, again_text, bytes, count, at_end, &short_count) == YAY_OK &&
               memcmp(part(out_room, count, at_end), first, count) == 0,
           "writing twice", short_count);
}

/* A document in large, exact and too small rooms. */
static void try_document(const uint8_t *doc, size_t len) {
    for (int at_end = 0; at_end < 2; at_end++) {
        struct answer all = read_in(doc, len, len, len, at_end);
        if (all.number != YAY_OK) {
            expect(all.number <= YAY_REPEAT && all.first <= len, "a refusal's number and place", all.first);
            continue;
        }
        struct answer small = read_in(doc, len, all.first - 1, len, at_end);
        expect(small.number == YAY_ROWS && small.first == all.first, "a table too small", small.first);
        if (all.second > 0) {
            small = read_in(doc, len, all.first, all.second - 1, at_end);
            expect(small.number == YAY_TEXT && small.first == all.second, "a text room too small", small.first);
        }
        struct answer exact = read_in(doc, len, all.first, all.second, at_end);
        expect(exact.number == YAY_OK && exact.first == all.first && exact.second == all.second, "exact rooms", len);
        expect(exact.third == all.third && all.third <= len / 2, "the escapes in exact rooms", exact.third);
        size_t words = all.first * YAY_WORDS;
        uint32_t *table = (uint32_t *)(void *)part(table_room, words * 4, at_end);
        for (size_t row = 0; row < all.first; row++) expect_place(doc, table + YAY_WORDS * row, row);
        ask(table, words, all.first, part(text_room, all.second, at_end), all.second);
        try_written(table, all.first, part(text_room, all.second, at_end), all.second, at_end);
    }
}

/* Decides on two tables, each between pages that may not be touched, and which may only be read from. */
static uint32_t decide_in(const uint32_t *sheet, size_t sheet_words, size_t sheet_rows, const uint8_t *sheet_text,
                          size_t sheet_len, const uint32_t *installed, size_t installed_words, size_t installed_rows,
                          const uint8_t *installed_text, size_t installed_len) {
    uint32_t decision = 77;
    struct room *rooms[] = {&table_room, &text_room, &doc_room, &out_room};
    for (size_t i = 0; i < 4; i++) protect(*rooms[i], PROT_READ);
    uint32_t number = yay_decide(sheet, sheet_words, sheet_rows, sheet_text, sheet_len, installed, installed_words,
                                 installed_rows, installed_text, installed_len, &decision);
    for (size_t i = 0; i < 4; i++) protect(*rooms[i], PROT_READ | PROT_WRITE);
    if (number == YAY_OK) {
        expect(decision == YAY_INSTALL || decision == YAY_KEEP || decision == YAY_BLOCKED, "a decision", decision);
        return decision;
    }
    expect((number == YAY_BADSHEET || number == YAY_BADINST) && decision == 0, "a refusal's decision", decision);
    return number;
}

/* Reads a sheet and an installed version, and decides in rooms that end, or begin, where their rows and texts do. The
 * decision, or the number of a refusal. */
static uint32_t decided(const char *sheet, const char *installed, int at_end) {
    static uint32_t words[2][YAY_TABLE_ROOM(4096)];
    static uint8_t text[2][YAY_TEXT_ROOM(4096)];
    const char *docs[2] = {sheet, installed};
    size_t rows[2], bytes[2], escapes;
    uint32_t *tables[2];
    uint8_t *texts[2];
    for (int i = 0; i < 2; i++) {
        uint32_t number = yay_read((const uint8_t *)docs[i], strlen(docs[i]), words[i], YAY_TABLE_ROOM(4096), text[i],
                                   YAY_TEXT_ROOM(4096), &rows[i], &bytes[i], &escapes);
        expect(number == YAY_OK, docs[i], number);
        tables[i] = (uint32_t *)(void *)part(i ? out_room : table_room, rows[i] * YAY_WORDS * 4, at_end);
        texts[i] = part(i ? doc_room : text_room, bytes[i], at_end);
        memcpy(tables[i], words[i], rows[i] * YAY_WORDS * 4);
        memcpy(texts[i], text[i], bytes[i]);
    }
    for (size_t less = 1; less <= rows[0] * YAY_WORDS; less++) {
        uint32_t number = decide_in(tables[0] + (at_end ? less : 0), rows[0] * YAY_WORDS - less, rows[0], texts[0],
                                    bytes[0], tables[1], rows[1] * YAY_WORDS, rows[1], texts[1], bytes[1]);
        expect(number == YAY_BADSHEET || number == YAY_BADINST, "a table that is too short", less);
    }
    return decide_in(tables[0], rows[0] * YAY_WORDS, rows[0], texts[0], bytes[0], tables[1], rows[1] * YAY_WORDS,
                     rows[1], texts[1], bytes[1]);
}

#define IMAGE "image: <9f86d081884c7d659a2feaa0c55ad015a3bf4f1b2b0b822cd15d6c15b0f00a08>\n"

/* What document 02 says of sheets and installed versions. */
static void try_decisions(void) {
    static const struct {
        const char *sheet, *installed;
        uint32_t wanted;
    } cases[] = {
        {"version: [10]\nfloor: [0]\n" IMAGE, "[9]\n", YAY_INSTALL},
        {"version: [9]\nfloor: [0]\n" IMAGE, "[10]\n", YAY_KEEP},
        {"version: [10]\nfloor: [0]\n" IMAGE, "[10, 0]\n", YAY_KEEP},
        {"version: [10]\nfloor: [9, 5]\n" IMAGE, "[9, 4]\n", YAY_BLOCKED},
        {IMAGE "floor: [-0]\n\"\\u{76}ersion\": [0, 0, 0, 0, 0, 0, 0, 01]\n", "[0]\n", YAY_INSTALL},
        {"version: [-1]\nfloor: [0]\n" IMAGE, "[9]\n", YAY_BADSHEET},
        {"version: []\nfloor: [0]\n" IMAGE, "[9]\n", YAY_BADSHEET},
        {"version: [1, 2, 3, 4, 5, 6, 7, 8, 0]\nfloor: [0]\n" IMAGE, "[9]\n", YAY_BADSHEET},
        {"version: [10]\nfloor: [0]\nimage: <00>\n", "[9]\n", YAY_BADSHEET},
        {"version: [10]\nfloor: [0]\nimages: 1\n" IMAGE, "[9]\n", YAY_BADSHEET},
        {"version: [10]\n" IMAGE, "[9]\n", YAY_BADSHEET},
        {"[[10], [0]]\n", "[9]\n", YAY_BADSHEET},
        {"[[10], [0]]\n", "[]\n", YAY_BADINST},
        {"version: [10]\nfloor: [0]\n" IMAGE, "[-9]\n", YAY_BADINST},
        {"version: [10]\nfloor: [0]\n" IMAGE, "9\n", YAY_BADINST},
    };
    for (size_t i = 0; i < sizeof cases / sizeof *cases; i++) {
        for (int at_end = 0; at_end < 2; at_end++) {
            uint32_t got = decided(cases[i].sheet, cases[i].installed, at_end);
            expect(got == cases[i].wanted, cases[i].sheet, got);
        }
    }
}

/* Tables that no reader made: small random words, and fewer of them than the rows say. */
static void try_broken_tables(void) {
    uint32_t seed = 1;
    for (size_t round = 0; round < 2000; round++) {
        size_t words = round % (6 * YAY_WORDS), rows = round % 9;
        uint32_t *table = (uint32_t *)(void *)part(table_room, words * 4, 1);
        for (size_t i = 0; i < words; i++) {
            seed = seed * 1664525u + 1013904223u;
            table[i] = (seed >> 16) % 100 == 0 ? 0xffffffffu : (seed >> 16) % 12;
        }
        ask(table, words, rows, part(text_room, 5, 1), 5);
        size_t count;
        write_in(table, words, rows, part(text_room, 5, 1), 5, round % 40, 1, &count);
        decide_in(table, words, rows, part(text_room, 5, 1), 5, table, words, rows, part(text_room, 5, 1), 5);
    }
}

/* A table of two rows that is right but for one word. */
static void try_soundness(void) {
    static const uint32_t good[2 * YAY_WORDS] = {YAY_ARRAY, 9, 9, 0, 1, 0, 2, 9, 9, YAY_INTEGER, 9, 9, 0, 2, 0, 2, 9, 9};
    uint32_t *table = (uint32_t *)(void *)part(table_room, sizeof good, 1);
    uint8_t *text = part(text_room, 2, 1);
    size_t count;
    memcpy(text, "17", 2);
    memcpy(table, good, sizeof good);
    expect(write_in(table, 2 * YAY_WORDS, 2, text, 2, 5, 1, &count) == YAY_OK && count == 5, "a sound table", count);
    expect(memcmp(part(out_room, 5, 1), "- 17\n", 5) == 0, "what is written of it", count);
    for (size_t word = 0; word < 2 * YAY_WORDS; word++) {
        size_t place = word % YAY_WORDS;
        int spans = place == YAY_FROM || place == YAY_TO || place == YAY_LINE || place == YAY_COLUMN;
        table[word] += 100;
        expect(yay_sound(table, 2 * YAY_WORDS, 2, text, 2) == (spans ? YAY_OK : YAY_BADROW), "a word more", word);
        table[word] -= 100;
    }
    for (size_t rows = 0; rows < 4; rows++) {
        expect((yay_sound(table, 2 * YAY_WORDS, rows, text, 2) == YAY_OK) == (rows == 2), "so many rows", rows);
    }
    text[0] = '0';
    expect(yay_sound(table, 2 * YAY_WORDS, 2, text, 2) == YAY_BADROW, "a leading zero", 0);
}

static void expect_answer(const char *doc, uint32_t number, size_t first) {
    struct answer answer = read_in((const uint8_t *)doc, strlen(doc), strlen(doc), strlen(doc), 1);
    expect(answer.number == number && answer.first == first, doc, answer.first);
}

static void expect_escapes(const char *doc, size_t escapes) {
    struct answer answer = read_in((const uint8_t *)doc, strlen(doc), strlen(doc), strlen(doc), 1);
    expect(answer.number == YAY_OK && answer.third == escapes, doc, answer.third);
}

static void expect_order(const char *left, const char *right, uint32_t number, int32_t wanted) {
    int32_t order = 77;
    uint32_t got = yay_compare((const uint8_t *)left, strlen(left), (const uint8_t *)right, strlen(right), &order);
    expect(got == number && order == wanted, left, got);
}

/* Document 01's table of borders, as far as a C string holds it. */
static void try_borders(void) {
    expect_answer("", YAY_END, 0);
    expect_answer("1", YAY_END, 1);
    expect_answer("[1, 22]\n", YAY_OK, 3);
    expect_answer("[1,2]\n", YAY_SYNTAX, 3);
    expect_answer("a: 1 \n", YAY_SYNTAX, 5);
    expect_answer("nulls\n", YAY_SYNTAX, 5);
    expect_answer("\"\\u{D800}\"\n", YAY_SYNTAX, 8);
    expect_answer("a: 1\na: 2\n", YAY_REPEAT, 5);
    expect_answer("k:\nj: 1\n", YAY_SYNTAX, 3);
    expect_answer("[[[[[[[[[[[[[[[[[[[[[[[[[[[[[[[[[", YAY_DEEP, 32);
    expect_answer("a:\t", YAY_CHAR, 2);
    expect_order("10", "9", YAY_OK, 1);
    expect_order("-10", "9", YAY_OK, -1);
    expect_order("0", "0", YAY_OK, 0);
    expect_order("x", "9", YAY_NOTINT, 0);
    expect_order("1", "", YAY_NOTINT, 0);
}

/* Escapes of keys, values and joined lines are counted; a backslash that stays, and those outside quotes, are not. */
static void try_escapes(void) {
    expect_escapes("\"a\\n\\u{41}\"\n", 2);
    expect_escapes("\"\\\"\\\\\\/\\b\\f\\n\\r\\t\\u{10FFFF}\"\n", 9);
    expect_escapes("{\"\\t\": '\\\\', k: \"x\"}\n", 2);
    expect_escapes("\"\\n\":\n  - \"\\n\"\n  - '\\'': 1\n", 3);
    expect_escapes("k:\n  \"\\n\"\n  'x'\n  '\\'\\\\'\n", 3);
    expect_escapes("'C:\\img'\n", 0);
    expect_escapes("'\\n\\\\n\\u{41}\\''\n", 2);
    expect_escapes("# \\n\n` \\n\n  \"\\n\"\n", 0);
}

/* The words of every row of a document, in a table that ends where they do. */
static void expect_words(const char *doc, size_t rows, const uint32_t *wanted) {
    struct answer answer = read_in((const uint8_t *)doc, strlen(doc), rows, strlen(doc), 1);
    const uint8_t *table = part(table_room, rows * YAY_WORDS * 4, 1);
    expect(answer.number == YAY_OK && answer.first == rows, doc, answer.first);
    expect(memcmp(table, wanted, rows * YAY_WORDS * 4) == 0, doc, rows);
}

/* Lines and columns stand behind the other words, columns in characters. */
static void try_places(void) {
    static const uint32_t list[3][YAY_WORDS] = {
        {YAY_ARRAY, 0, 7, 0, 2, 0, 3, 1, 1},
        {YAY_INTEGER, 1, 2, 0, 1, 0, 2, 1, 2},
        {YAY_INTEGER, 4, 6, 1, 3, 0, 3, 1, 5},
    };
    static const uint32_t accent[4][YAY_WORDS] = {
        {YAY_OBJECT, 0, 9, 0, 1, 0, 4, 1, 1},
        {YAY_KEY, 0, 4, 0, 2, 0, 2, 1, 1},
        {YAY_ARRAY, 6, 9, 0, 1, 0, 4, 1, 6},
        {YAY_INTEGER, 7, 8, 2, 3, 2, 4, 1, 7},
    };
    static const uint32_t comment[1][YAY_WORDS] = {{YAY_NULL, 7, 11, 0, 0, 0, 1, 3, 1}};
    expect_words("[1, 22]\n", 3, list[0]);
    expect_words("\"\xc3\xa9\": [1]\n", 4, accent[0]);
    expect_words("#\n# \xc3\xa9\nnull\n", 1, comment[0]);
}

int main(int count, char **args) {
    static uint8_t doc[YAY_LONGEST + 1];
    doc_room = make_room();
    table_room = make_room();
    text_room = make_room();
    out_room = make_room();
    try_borders();
    try_escapes();
    try_places();
    try_soundness();
    try_decisions();
    try_broken_tables();
    memset(doc, ' ', sizeof doc);
    expect(read_in(doc, sizeof doc, 9, 9, 1).number == YAY_LONG, "a document too long", sizeof doc);
    for (int i = 1; i < count; i++) {
        FILE *file = fopen(args[i], "rb");
        if (file == NULL) {
            perror(args[i]);
            return 2;
        }
        size_t len = fread(doc, 1, sizeof doc, file);
        fclose(file);
        for (size_t cut = 0; cut <= len; cut++) try_document(doc, cut);
    }
    printf("boundary: %d answers, %d wrong\n", tried, wrong);
    return wrong != 0;
}
