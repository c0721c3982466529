/* Reads a profile, prints which image a tablet installs, writes the profile back, decides on an upgrade, lays a site's
 * profile over a fleet's, and stores the profile and loads it again: `example FILE`. */
#include <stdio.h>
#include <string.h>
#include "yay_help.h"

static uint8_t doc[YAY_LONGEST + 1];
static uint32_t table[YAY_TABLE_ROOM(YAY_LONGEST)];
static uint8_t text[YAY_TEXT_ROOM(YAY_LONGEST)];
static uint8_t out[YAY_LONGEST];
static size_t rows, text_len, escapes;

static const size_t words = sizeof table / sizeof *table;

/* The row of a key's value in an object's row; if there is none, `rows`, of which every question is YAY_BADROW. */
static size_t find(size_t object, const char *key) {
    size_t value;
    uint32_t number = yay_find(table, words, rows, text, text_len, object, (const uint8_t *)key, strlen(key), &value);
    return number == YAY_OK ? value : rows;
}

/* Prints a row's text, bytes as hex. */
static void print_text(const char *name, size_t row) {
    size_t from, to;
    if (yay_text(table, words, rows, text, text_len, row, &from, &to) != YAY_OK) {
        printf("%s: not given\n", name);
        return;
    }
    printf("%s: ", name);
    if (table[YAY_WORDS * row + YAY_KIND] == YAY_BYTES) {
        for (; from < to; from++) printf("%02x", text[from]);
    } else {
        printf("%.*s", (int)(to - from), (const char *)text + from);
    }
    printf("\n");
}

/* Prints each element of an array of integers, and whether it is above `limit`. */
static void print_numbers(size_t array, const char *limit) {
    for (size_t row = yay_first_child(table, words, rows, array); row < rows;
         row = yay_next_child(table, words, rows, array, row)) {
        size_t from, to;
        int32_t order;
        if (yay_text(table, words, rows, text, text_len, row, &from, &to) != YAY_OK) continue;
        if (yay_compare(text + from, to - from, (const uint8_t *)limit, strlen(limit), &order) != YAY_OK) continue;
        printf("  %.*s%s\n", (int)(to - from), (const char *)text + from, order > 0 ? " (new)" : "");
    }
}

/* Writes the table back in the house style, and prints how much and its first line. */
static void print_written(void) {
    size_t count, line = 0;
    uint32_t number = yay_write(table, words, rows, text, text_len, out, sizeof out, &count);
    if (number != YAY_OK) {
        printf("not written: %s (%u)\n", yay_number_name(number), (unsigned)number);
        return;
    }
    while (out[line] != '\n') line++;
    printf("written back: %zu bytes, from %.*s\n", count, (int)line, (const char *)out);
}

/* A short document's table and text. */
#define SHORT 256
struct read {
    uint32_t table[YAY_TABLE_ROOM(SHORT)];
    uint8_t text[YAY_TEXT_ROOM(SHORT)];
    size_t rows, bytes, escapes;
};

static uint32_t read_short(const char *document, struct read *to) {
    return yay_read((const uint8_t *)document, strlen(document), to->table, sizeof to->table / sizeof *to->table,
                    to->text, sizeof to->text, &to->rows, &to->bytes, &to->escapes);
}

/* Prints whether to install what a release sheet names over what is installed. */
static void print_decision(const char *sheet, const char *installed) {
    static const char *const words[] = {"", "install", "keep", "blocked"};
    static struct read s, i;
    uint32_t decision = 0, number = read_short(sheet, &s);
    if (number == YAY_OK) number = read_short(installed, &i);
    if (number == YAY_OK) {
        number = yay_decide(s.table, sizeof s.table / sizeof *s.table, s.rows, s.text, s.bytes, i.table,
                            sizeof i.table / sizeof *i.table, i.rows, i.text, i.bytes, &decision);
    }
    if (number == YAY_OK) {
        printf("decided: %s\n", words[decision]);
    } else {
        printf("not decided: %s (%u): %s\n", yay_number_name(number), (unsigned)number, yay_number_sentence(number));
    }
}

/* Prints a site's profile laid over a fleet's, in the house style. */
static void print_overlay(const char *fleet, const char *site) {
    static struct read f, s, both;
    const size_t words = sizeof f.table / sizeof *f.table;
    size_t length;
    uint32_t number = read_short(fleet, &f);
    if (number == YAY_OK) number = read_short(site, &s);
    if (number == YAY_OK) {
        number = yay_overlay(f.table, words, f.rows, f.text, f.bytes, s.table, words, s.rows, s.text, s.bytes,
                             both.table, words, both.text, sizeof both.text, &both.rows, &both.bytes);
    }
    if (number == YAY_OK) {
        number = yay_write(both.table, words, both.rows, both.text, both.bytes, out, sizeof out, &length);
    }
    if (number == YAY_OK) {
        printf("laid over:\n%.*s", (int)length, (const char *)out);
    } else {
        printf("not laid over: %s (%u): %s\n", yay_number_name(number), (unsigned)number, yay_number_sentence(number));
    }
}

/* Stores the profile, as it lies on a tablet, and loads it from there into the same rooms: the same kinds, texts and
 * nesting, with spans in the stored bytes. */
static void print_stored(void) {
    static uint8_t stored[YAY_STORED_ROOM(YAY_LONGEST, YAY_LONGEST)];
    size_t length;
    uint32_t number = yay_store(table, words, rows, text, text_len, stored, sizeof stored, &length);
    if (number == YAY_OK) number = yay_load(stored, length, table, words, text, sizeof text, &rows, &text_len);
    if (number != YAY_OK) {
        printf("not stored: %s (%u): %s\n", yay_number_name(number), (unsigned)number, yay_number_sentence(number));
        return;
    }
    printf("stored in %zu bytes, and loaded: %zu rows, %zu bytes of text\n", length, rows, text_len);
    print_text("image-channel", find(0, "image-channel"));
    number = yay_load(stored, length - 1, table, words, text, sizeof text, &rows, &text_len);
    printf("cut short: %s (%u): %s\n", yay_number_name(number), (unsigned)number, yay_number_sentence(number));
}

int main(int count, char **args) {
    FILE *file = count == 2 ? fopen(args[1], "rb") : NULL;
    if (file == NULL) {
        fprintf(stderr, "usage: example FILE\n");
        return 2;
    }
    size_t doc_len = fread(doc, 1, sizeof doc, file);
    fclose(file);
    uint32_t number = yay_read(doc, doc_len, table, words, text, sizeof text, &rows, &text_len, &escapes);
    if (number != YAY_OK) {
        size_t line, column;
        yay_position(doc, doc_len, rows, &line, &column);
        printf("%s:%zu:%zu: %s (%u): %s\n", args[1], line, column, yay_number_name(number), (unsigned)number,
               yay_number_sentence(number));
        return 1;
    }
    print_text("image-channel", find(0, "image-channel"));
    print_text("image", find(0, "image"));
    print_text("capacity", find(find(0, "battery"), "capacity"));
    size_t version = find(0, "version");
    if (version < rows && table[YAY_WORDS * version + YAY_KIND] == YAY_ARRAY) {
        printf("version, in line %u:\n", (unsigned)table[YAY_WORDS * version + YAY_LINE]);
        print_numbers(version, "9");
    }
    print_written();
    static const char sheet[] = "version: [10]\nfloor: [9, 5]\n"
                                "image: <9f86d081884c7d659a2feaa0c55ad015a3bf4f1b2b0b822cd15d6c15b0f00a08>\n";
    print_decision(sheet, "[9, 5, 2]\n");
    print_decision(sheet, "[10, 0]\n");
    print_decision(sheet, "[9, 4]\n");
    print_decision(sheet, "[]\n");
    print_overlay("battery: {low-at: 0.15}\ndoors: [1, 2]\n", "doors: [3]\nbattery: {spare: true}\nname: 'A'\n");
    print_overlay("battery: {low-at: 0.15}\n", "battery: null\n");
    print_stored();
    return 0;
}
