/* Tries yay_help.h: names, sentences, positions, and children of good and of broken tables, in memory of exactly their
 * size, so that a sanitizer sees a word read outside. */
#include <stdio.h>
#include <stdlib.h>
#include <string.h>
#include "yay_help.h"

static int tried, wrong;

static void expect(int holds, const char *what, size_t detail) {
    tried++;
    if (!holds) {
        wrong++;
        printf("FAILED: %s (%zu)\n", what, detail);
    }
}

static void try_names(void) {
    expect(strcmp(yay_number_name(YAY_SYNTAX), "SYNTAX") == 0, "a name", YAY_SYNTAX);
    expect(strcmp(yay_number_name(YAY_NOTINT), "NOTINT") == 0, "a name", YAY_NOTINT);
    expect(strcmp(yay_kind_name(YAY_KEY), "key") == 0, "a kind", YAY_KEY);
    expect(strcmp(yay_kind_name(YAY_NULL), "null") == 0, "a kind", YAY_NULL);
    expect(strcmp(yay_number_name(YAY_BADFORM), "BADFORM") == 0, "a name", YAY_BADFORM);
    expect(strcmp(yay_number_name(YAY_BADINST), "BADINST") == 0, "a name", YAY_BADINST);
    expect(strcmp(yay_number_name(YAY_CLASH), "CLASH") == 0, "a name", YAY_CLASH);
    for (uint32_t number = 0; number <= YAY_CLASH; number++) {
        int is = number != 12;
        expect((yay_number_name(number)[0] != 0) == is && (yay_number_sentence(number)[0] != 0) == is, "a number", number);
    }
    for (uint32_t none = YAY_CLASH + 1; none != 0; none = none < 0x80000000u ? none * 2 : 0) {
        expect(yay_number_name(none)[0] == 0 && yay_number_sentence(none)[0] == 0, "no number", none);
        expect(yay_kind_name(none)[0] == 0, "no kind", none);
    }
}

static void expect_position(const char *doc, size_t place, size_t line, size_t column) {
    size_t len = strlen(doc), got_line = 77, got_column = 77;
    uint8_t *lent = malloc(len + (len == 0));
    memcpy(lent, doc, len);
    yay_position(lent, len, place, &got_line, &got_column);
    expect(got_line == line && got_column == column, doc, place);
    free(lent);
}

static void try_positions(void) {
    expect_position("", 0, 1, 1);
    expect_position("a: 1 \n", 5, 1, 6);
    expect_position("a: 1\nb", 6, 2, 2);
    expect_position("a: 1\n", 5, 2, 1);
    expect_position("a: 1\n", 99, 2, 1);
    expect_position("\xe6\x97\xa5\xe6\x9c\xacx\n", 6, 1, 3);
    expect_position("\xe6\x97\xa5\xe6\x9c\xacx\n", 4, 1, 2);
    expect_position("\xe6\x97x\n", 2, 1, 3);
    expect_position("\xed\xa0\x80x\n", 3, 1, 4);
    expect_position("\xf0\x9f\x98\x80x\n", 4, 1, 2);
    expect_position("\xe6\x97", 2, 1, 3);
}

/* How many children a row has; each must stand behind the one before. */
static size_t count_children(const uint32_t *table, size_t words, size_t rows, size_t row) {
    size_t count = 0, last = row;
    for (size_t c = yay_first_child(table, words, rows, row); c < rows; c = yay_next_child(table, words, rows, row, c)) {
        expect(last < c && (c + 1) * YAY_WORDS <= words, "the place of a child", c);
        last = c;
        count++;
    }
    return count;
}

/* Line and column of each row's first byte are those that the table has. */
static void expect_positions(const uint8_t *doc, size_t len, const uint32_t *table, size_t rows) {
    for (size_t row = 0; row < rows; row++) {
        const uint32_t *words = table + YAY_WORDS * row;
        size_t line = 77, column = 77;
        yay_position(doc, len, words[YAY_FROM], &line, &column);
        expect(line == words[YAY_LINE] && column == words[YAY_COLUMN], "the position of a row", row);
    }
}

static void try_children(void) {
    static const char doc[] = "# \xc3\xa9\na: [1, [2, 3], 4]\n\"\xf0\x9f\x98\x80\": {}\nc: \"x\"\n";
    static const size_t counts[] = {6, 0, 3, 0, 2, 0, 0, 0, 0, 0, 0, 0};
    uint32_t table[YAY_TABLE_ROOM(sizeof doc)];
    uint8_t text[YAY_TEXT_ROOM(sizeof doc)];
    size_t rows, bytes, escapes;
    uint32_t number = yay_read((const uint8_t *)doc, sizeof doc - 1, table, sizeof table / sizeof *table, text,
                               sizeof text, &rows, &bytes, &escapes);
    expect(number == YAY_OK && rows == 12, "the document", rows);
    for (size_t row = 0; row < rows; row++) {
        expect(count_children(table, rows * YAY_WORDS, rows, row) == counts[row], "children", row);
    }
    expect_positions((const uint8_t *)doc, sizeof doc - 1, table, rows);
}

/* Tables that no reader made: a walk ends, and touches nothing outside. */
static void try_broken_tables(void) {
    uint32_t seed = 1;
    for (size_t round = 0; round < 20000; round++) {
        size_t words = round % (9 * YAY_WORDS), rows = round % 11;
        uint32_t *table = malloc(words * sizeof *table + (words == 0));
        for (size_t i = 0; i < words; i++) {
            seed = seed * 1664525u + 1013904223u;
            table[i] = (seed >> 16) % 50 == 0 ? 0xffffffffu : (seed >> 16) % 12;
        }
        for (size_t row = 0; row < rows + 2; row++) {
            expect(count_children(table, words, rows, row) <= rows, "a broken table", row);
            expect(yay_next_child(table, words, rows, SIZE_MAX, row) == rows, "no container", row);
        }
        free(table);
    }
}

int main(void) {
    try_names();
    try_positions();
    try_children();
    try_broken_tables();
    printf("help: %d answers, %d wrong\n", tried, wrong);
    return wrong != 0;
}
