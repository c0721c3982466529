/* Small helps for programs that use yay.h: names and sentences, line and column, the children of a row.
 *
 * NOTHING HERE IS PROVED. The proved interface is yay.h alone; these are inline functions beside it, in plain C, and
 * tested (c/help.c). Like it, they allocate nothing, keep nothing, and may be asked of any bytes and any table. */
#ifndef YAY_HELP_H
#define YAY_HELP_H

#include "yay.h"

/* The name of a number, as "SYNTAX"; "" for one that yay.h does not have. */
static inline const char *yay_number_name(uint32_t number) {
    static const char *const names[] = {"OK",     "LONG", "CHAR",   "SYNTAX", "DEEP", "END",      "REPEAT",  "ROWS", "TEXT",
                                        "BADROW", "NONE", "NOTINT", "",       "BADFORM", "BADSHEET", "BADINST", "CLASH"};
    return number < sizeof names / sizeof *names ? names[number] : "";
}

/* What a number means, in a sentence without a full stop; "" for one that yay.h does not have. */
static inline const char *yay_number_sentence(uint32_t number) {
    static const char *const sentences[] = {
        "all is good",
        "the document has more than 1048576 bytes",
        "this byte belongs to no allowed character",
        "no document goes on like this",
        "more than 32 containers stand one inside another",
        "the document ends too early",
        "this key stands in its object already",
        "the table lent has too few words",
        "the text room or output lent has too few bytes",
        "the table is not sound, or has no such row that could be asked this",
        "the key isn't in the object",
        "a text compared isn't an integer's text",
        "",
        "this is no stored form",
        "this is no release sheet",
        "this is no installed version",
        "an object is laid over another value, or another value over an object",
    };
    return number < sizeof sentences / sizeof *sentences ? sentences[number] : "";
}

/* The name of a kind, as "string"; "" for a number that is no kind. */
static inline const char *yay_kind_name(uint32_t kind) {
    static const char *const names[] = {"",       "null",  "false", "true",   "integer", "float",
                                        "string", "bytes", "array", "object", "key"};
    return kind < sizeof names / sizeof *names ? names[kind] : "";
}

/* How many of the `left` bytes are the first character of UTF-8; 1 for a byte that begins none. */
static inline size_t yay_character_length(const uint8_t *bytes, size_t left) {
    uint8_t first = bytes[0];
    size_t length = first < 0xc2 ? 1 : first < 0xe0 ? 2 : first < 0xf0 ? 3 : first < 0xf5 ? 4 : 1;
    uint8_t least = first == 0xe0 ? 0xa0 : first == 0xf0 ? 0x90 : 0x80;
    uint8_t most = first == 0xed ? 0x9f : first == 0xf4 ? 0x8f : 0xbf;
    if (length > left) return 1;
    for (size_t i = 1; i < length; i++) {
        if (bytes[i] < least || bytes[i] > most) return 1;
        least = 0x80;
        most = 0xbf;
    }
    return length;
}

/* Line and column of a place in a document, both from 1. A column is a character, or a byte that belongs to none; a
 * place inside a character has that character's column, and one past the end is the end. */
static inline void yay_position(const uint8_t *doc, size_t doc_len, size_t place, size_t *line, size_t *column) {
    size_t at = 0;
    *line = 1;
    *column = 1;
    while (at < doc_len && at < place) {
        size_t length = yay_character_length(doc + at, doc_len - at);
        if (length > place - at) return;
        if (doc[at] == '\n') {
            *line += 1;
            *column = 0;
        }
        *column += 1;
        at += length;
    }
}

/* Whether a table of `words` words and `rows` rows has a row. */
static inline int yay_has_row(size_t words, size_t rows, size_t row) {
    return row < rows && row < words / YAY_WORDS;
}

/* The child of a container behind another, or `rows` if there is none, or the table is broken there. */
static inline size_t yay_next_child(const uint32_t *table, size_t words, size_t rows, size_t row, size_t child) {
    if (!yay_has_row(words, rows, row) || !yay_has_row(words, rows, child)) return rows;
    size_t next = table[YAY_WORDS * child + YAY_NEXT];
    int inside = child < next && next < table[YAY_WORDS * row + YAY_NEXT];
    return inside && yay_has_row(words, rows, next) ? next : rows;
}

/* The first child of an array's or object's row, or `rows` if there is none. An array's children are its elements, an
 * object's are key, value, key, value. All of them, each once:
 *   for (size_t c = yay_first_child(table, words, rows, row); c < rows; c = yay_next_child(table, words, rows, row, c)) */
static inline size_t yay_first_child(const uint32_t *table, size_t words, size_t rows, size_t row) {
    if (!yay_has_row(words, rows, row)) return rows;
    uint32_t kind = table[YAY_WORDS * row + YAY_KIND];
    int holds = (kind == YAY_ARRAY || kind == YAY_OBJECT) && row + 1 < table[YAY_WORDS * row + YAY_NEXT];
    return holds && yay_has_row(words, rows, row + 1) ? row + 1 : rows;
}

#endif
