/* Measures the stack that yay_read touches, and yay_sound, yay_write, yay_decide, yay_overlay, yay_store and yay_load on
 * the tables that it fills: documents of every class of size up to the longest, good, refused, repeating and hostile, with
 * many rows and with few, each read into large rooms and into none, in a thread whose stack is painted first; yay_overlay
 * on objects of many keys, 31 levels deep, in both; and yay_load on every class of stored forms, in parts and not, up to
 * the longest, and on such that are none. Fails where a class takes more than yay.h says. */
#define _DEFAULT_SOURCE
#include <pthread.h>
#include <stdio.h>
#include <stdlib.h>
#include <string.h>
#include <sys/mman.h>
#include "yay.h"

#define STACK ((size_t)512 << 10)
#define PAINT 0xa5

static uint8_t doc[YAY_LONGEST + 1], text[YAY_TEXT_ROOM(YAY_LONGEST)];
static uint32_t table[YAY_TABLE_ROOM(YAY_LONGEST)];
static size_t len, words, room, rows, bytes, escapes;
static uint32_t number;

static void *reads(void *nothing) {
    number = yay_read(doc, len, table, words, text, room, &rows, &bytes, &escapes);
    return nothing;
}

static void *writes(void *nothing) {
    static uint8_t out[YAY_LONGEST];
    size_t count;
    if (yay_sound(table, words, rows, text, bytes) == YAY_OK) {
        number = yay_write(table, words, rows, text, bytes, out, sizeof out, &count);
    }
    return nothing;
}

/* The installed version that sheets are tried with, and what was decided. */
static uint8_t installed_text[YAY_TEXT_ROOM(YAY_LONGEST)];
static uint32_t installed_table[YAY_TABLE_ROOM(YAY_LONGEST)];
static size_t installed_rows, installed_bytes;
static uint32_t decision;

static void *decides(void *nothing) {
    number = yay_decide(table, words, rows, text, bytes, installed_table, sizeof installed_table / sizeof *installed_table,
                        installed_rows, installed_text, installed_bytes, &decision);
    return nothing;
}

/* With the document as what is installed. */
static void *refuses(void *nothing) {
    number = yay_decide(table, words, rows, text, bytes, table, words, rows, text, bytes, &decision);
    return nothing;
}

/* What is laid over what, and the targets: more than any two sources here have. */
#define DEEP 31
#define KEYS ((size_t)20000)
#define MOST_ROWS (2 * KEYS + 2 * DEEP + 1)
struct made {
    uint32_t table[MOST_ROWS * YAY_WORDS];
    uint8_t text[8 * KEYS];
    size_t rows, bytes;
};
static struct made made[2];
static uint32_t laid_table[YAY_TABLE_ROOM(YAY_LONGEST)];
static uint8_t laid_text[YAY_TEXT_ROOM(YAY_LONGEST)];
static size_t laid_rows, laid_bytes;

static void *lays(void *nothing) {
    number = yay_overlay(made[0].table, made[0].rows * YAY_WORDS, made[0].rows, made[0].text, made[0].bytes,
                         made[1].table, made[1].rows * YAY_WORDS, made[1].rows, made[1].text, made[1].bytes, laid_table,
                         sizeof laid_table / sizeof *laid_table, laid_text, sizeof laid_text, &laid_rows, &laid_bytes);
    return nothing;
}

/* The document over itself. */
static void *lays_twice(void *nothing) {
    number = yay_overlay(table, words, rows, text, bytes, table, words, rows, text, bytes, laid_table,
                         sizeof laid_table / sizeof *laid_table, laid_text, sizeof laid_text, &laid_rows, &laid_bytes);
    return nothing;
}

/* Stored bytes, and where they are loaded: more rows than any document has. */
static uint8_t form[YAY_STORED_LONGEST + 1], loaded_text[YAY_STORED_TEXT_ROOM(YAY_STORED_LONGEST)];
static uint32_t loaded_table[YAY_TABLE_ROOM(YAY_LONGEST)];
static size_t form_len, loaded_words, loaded_room, loaded_rows, loaded_bytes;

/* What is stored. */
static const uint32_t *kept_table;
static const uint8_t *kept_text;
static size_t kept_rows, kept_bytes;

static void *stores(void *nothing) {
    number = yay_store(kept_table, kept_rows * YAY_WORDS, kept_rows, kept_text, kept_bytes, form, sizeof form, &form_len);
    return nothing;
}

static void *loads(void *nothing) {
    number = yay_load(form, form_len, loaded_table, loaded_words, loaded_text, loaded_room, &loaded_rows, &loaded_bytes);
    return nothing;
}

static void *rests(void *nothing) { return nothing; }

/* The bytes of a painted stack that a thread has touched. */
static size_t touched(void *(*work)(void *)) {
    uint8_t *stack = mmap(NULL, STACK, PROT_READ | PROT_WRITE, MAP_PRIVATE | MAP_ANONYMOUS, -1, 0);
    pthread_attr_t kind;
    pthread_t thread;
    size_t clean = 0;
    if (stack == MAP_FAILED) exit(2);
    memset(stack, PAINT, STACK);
    if (pthread_attr_init(&kind) || pthread_attr_setstack(&kind, stack, STACK)) exit(2);
    if (pthread_create(&thread, &kind, work, NULL) || pthread_join(thread, NULL)) exit(2);
    while (clean < STACK && stack[clean] == PAINT) clean++;
    munmap(stack, STACK);
    return STACK - clean;
}

struct class {
    const char *name;
    size_t bytes, most, seen;
};

static struct class classes[] = {
    {"at most 1,024 bytes", 1024, YAY_STACK_FEW, 0},
    {"at most 16,384 bytes", 16384, YAY_STACK, 0},
    {"any length", YAY_LONGEST + 1, YAY_STACK, 0},
};

static int documents, answers[YAY_TEXT + 1];
/* The most that writing has touched, and how many documents were written or too long for it. */
static size_t writing;
static int written[2];

/* The most that deciding has touched, and how often each decision was met. */
static size_t deciding;
static int decisions[YAY_BLOCKED + 1];

/* The most that laying has touched, and how often something was laid. */
static size_t laying;
static int laid;

/* The most that storing and loading have touched, and how often each number was met. */
static size_t storing, loading;
static int kept[YAY_BADFORM + 1];

/* What a thread touches that does nothing. */
static size_t rest;

static void measure_decision(void *(*work)(void *)) {
    size_t took = touched(work) - rest;
    if (took > deciding) deciding = took;
    if (number == YAY_OK) decisions[decision]++;
}

static void measure_overlay(void *(*work)(void *)) {
    size_t took = touched(work) - rest;
    if (took > laying) laying = took;
    laid += number == YAY_OK;
}

/* Longer documents and forms are tried in fewer rooms. */
#define LARGE ((size_t)40000)

/* The form in large rooms, in no table, and in no text room. */
static void measure_form(void) {
    for (int i = 0; i < (form_len > 2 * LARGE ? 1 : 3); i++) {
        loaded_words = i == 1 ? 0 : sizeof loaded_table / sizeof *loaded_table;
        loaded_room = i == 2 ? 0 : sizeof loaded_text;
        size_t took = touched(loads) - rest;
        if (took > loading) loading = took;
        kept[number]++;
    }
}

/* The form whole, cut, with its first length a lie, and with a wrong tag and a wrong byte behind all others. */
static void measure_forms(void) {
    if (!rest) rest = touched(rests);
    measure_form();
    form_len--;
    measure_form();
    form_len++;
    form[2]++;
    measure_form();
    form[2]--;
    if (form_len < 4) return;
    uint8_t last = form[form_len - 1], tag = form[3];
    form[form_len - 1] = 0xff;
    measure_form();
    form[form_len - 1] = last;
    form[3] = 11;
    measure_form();
    form[3] = tag;
}

/* A table is stored, and its form loaded. */
static void measure_storing(const uint32_t *words_kept, size_t rows_kept, const uint8_t *text_kept, size_t bytes_kept) {
    if (!rest) rest = touched(rests);
    kept_table = words_kept;
    kept_rows = rows_kept;
    kept_text = text_kept;
    kept_bytes = bytes_kept;
    size_t took = touched(stores) - rest;
    if (took > storing) storing = took;
    if (number == YAY_OK) measure_forms();
}

/* The document in large rooms, in no table, and in no text room. */
static void measure(void) {
    struct class *c = classes;
    if (!rest) rest = touched(rests);
    while (len > c->bytes) c++;
    for (int i = 0; i < (len > LARGE ? 2 : 3); i++) {
        words = i == 1 ? 0 : sizeof table / sizeof *table;
        room = i == 2 ? 0 : sizeof text;
        size_t took = touched(reads) - rest;
        if (took > c->seen) c->seen = took;
        answers[number]++;
        if (number != YAY_OK) continue;
        number = YAY_BADROW;
        took = touched(writes) - rest;
        if (took > writing) writing = took;
        if (number == YAY_OK || number == YAY_LONG) written[number]++;
        measure_decision(decides);
        measure_decision(refuses);
        measure_overlay(lays_twice);
        measure_storing(table, rows, text, bytes);
    }
    documents++;
}

/* A row of a made table; its text is put behind the texts before. */
static size_t put(struct made *m, uint32_t kind, uint32_t parent, const char *written) {
    size_t row = m->rows++, n = strlen(written);
    uint32_t *w = m->table + row * YAY_WORDS;
    memset(w, 0, YAY_WORDS * sizeof *w);
    memcpy(m->text + m->bytes, written, n);
    w[YAY_KIND] = kind;
    w[YAY_TEXT_FROM] = kind == YAY_KEY ? (uint32_t)m->bytes : 0;
    w[YAY_TEXT_TO] = kind == YAY_KEY ? (uint32_t)(m->bytes + n) : 0;
    w[YAY_PARENT] = parent;
    w[YAY_NEXT] = (uint32_t)row + 1;
    m->bytes += n;
    return row;
}

/* Objects inside each other, each with so many keys before the one that leads down, and many in the last. */
static void make(struct made *m, size_t depth, size_t each, size_t last, size_t first_key, int backwards) {
    size_t opened[DEEP + 1];
    m->rows = m->bytes = 0;
    for (size_t level = 0; level <= depth; level++) {
        size_t parent = level ? opened[level - 1] : 0, count = level < depth ? each : last;
        if (level) put(m, YAY_KEY, (uint32_t)parent, "k");
        opened[level] = put(m, YAY_OBJECT, (uint32_t)parent, "");
        m->table[opened[level] * YAY_WORDS + YAY_TEXT_TO] = (uint32_t)(count + (level < depth));
        for (size_t i = 0; i < count; i++) {
            char key[16];
            sprintf(key, "a%zu", first_key + (backwards ? count - 1 - i : i));
            put(m, YAY_KEY, (uint32_t)opened[level], key);
            put(m, YAY_NULL, (uint32_t)opened[level], "");
        }
    }
    for (size_t i = 0; i <= depth; i++) m->table[opened[i] * YAY_WORDS + YAY_NEXT] = (uint32_t)m->rows;
}

/* The same keys, in the same order and reversed, and others. */
static void layers(size_t depth, size_t each, size_t last) {
    for (int way = 0; way < 3; way++) {
        make(&made[0], depth, each, last, 0, 0);
        make(&made[1], depth, each, last, way == 2 ? each + last : 0, way == 1);
        number = YAY_BADROW;
        measure_overlay(lays);
        if (number != YAY_OK) {
            printf("stack: %zu levels of keys are not laid over each other: %u\n", depth, (unsigned)number);
            exit(1);
        }
        measure_storing(made[1].table, made[1].rows, made[1].text, made[1].bytes);
    }
}

/* The longest stored form, of bytes in 31 arrays or objects, which are all in parts. */
static void longest_form(uint32_t around) {
    static uint32_t longest_table[(2 * DEEP + 1) * YAY_WORDS];
    static uint8_t longest_text[YAY_STORED_LONGEST];
    size_t each = around == YAY_OBJECT ? 2 : 1, count = DEEP * each + 1, keys = DEEP * (each - 1);
    size_t content = YAY_STORED_LONGEST - (YAY_STORED_LONGEST / 65535 + 4) * 3 * (DEEP + 1) - 4 * keys;
    memset(longest_table, 0, sizeof longest_table);
    for (size_t row = 0, parent = 0; row < count; row++) {
        uint32_t *w = longest_table + row * YAY_WORDS;
        int key = each == 2 && row % 2 == 1, last = row + 1 == count;
        w[YAY_KIND] = last ? YAY_BYTES : key ? YAY_KEY : around;
        w[YAY_PARENT] = (uint32_t)parent;
        w[YAY_NEXT] = (uint32_t)(key ? row + 1 : count);
        if (key || last) w[YAY_TEXT_FROM] = (uint32_t)(last ? keys : row / 2);
        w[YAY_TEXT_TO] = (uint32_t)(last ? keys + content : key ? row / 2 + 1 : 1);
        if (!key) parent = row;
    }
    memset(longest_text, 'k', keys + content);
    measure_storing(longest_table, count, longest_text, keys + content);
    if (form_len + 8192 < YAY_STORED_LONGEST) exit(2);
    form_len = YAY_STORED_LONGEST + 1;
    measure_form();
    if (number != YAY_BADFORM) exit(2);
}

/* A field of so many bytes of content, if all has room. */
static void put_field(uint8_t tag, const char *content, size_t n) {
    if (form_len + 3 + n > 65538) exit(2);
    form[form_len] = tag;
    form[form_len + 1] = (uint8_t)(n / 256);
    form[form_len + 2] = (uint8_t)(n % 256);
    memcpy(form + form_len + 3, content, n);
    form_len += 3 + n;
}

/* An object of so many keys, so many levels down in objects or arrays; the last key may be the first again. */
static void many_keys(size_t count, size_t levels, uint8_t around, const char *key, int again) {
    char name[64];
    size_t heads[64], each = around == YAY_OBJECT ? 7 : 3;
    form_len = 0;
    for (size_t i = 0; i < levels; i++) {
        heads[i] = form_len;
        put_field(around, "", 0);
        if (around == YAY_OBJECT) put_field(YAY_KEY, "k", 1);
    }
    heads[levels] = form_len;
    put_field(YAY_OBJECT, "", 0);
    for (size_t i = 0; i < count; i++) {
        size_t n = (size_t)sprintf(name, key, again && i + 1 == count ? (size_t)0 : i);
        put_field(YAY_KEY, name, n);
        put_field(YAY_NULL, "", 0);
    }
    for (size_t i = 0; i <= levels; i++) {
        size_t n = form_len - heads[i] - 3;
        form[heads[i] + 1] = (uint8_t)(n / 256);
        form[heads[i] + 2] = (uint8_t)(n % 256);
    }
    if (heads[levels] != each * levels) exit(2);
    measure_forms();
}

/* Every class of keys, at the root and 32 levels down, also 33; keys that share all but their end, and a repeat. */
static void forms(void) {
    static const size_t counts[] = {0, 1, 16, 17, 512, 513, 2048, 2049, 5000, 6500};
    for (size_t i = 0; i < sizeof counts / sizeof *counts; i++) {
        for (int again = 0; again < 2; again++) {
            many_keys(counts[i], 0, YAY_ARRAY, "%zu", again);
            many_keys(counts[i], 31, YAY_ARRAY, "%zu", again);
            many_keys(counts[i], 31, YAY_OBJECT, "%zu", again);
            many_keys(counts[i], 32, YAY_OBJECT, "%zu", again);
            if (counts[i] < 600) many_keys(counts[i], 31, YAY_OBJECT, "a key with a long beginning %zu", again);
        }
    }
}

/* A document of about n bytes: a beginning, a line again and again with a number in it, and an end. */
static void lines(const char *begin, const char *line, const char *end, size_t n) {
    size_t spare = strlen(line) * 2 + strlen(end) + 16;
    len = (size_t)sprintf((char *)doc, "%s", begin);
    for (size_t i = 0; len + spare < n; i++) len += (size_t)sprintf((char *)doc + len, line, i);
}

/* The same whole, with its first line again, cut, with a byte that is no character, and with one that is wrong there. */
static void shape(const char *begin, const char *line, const char *end, size_t n) {
    lines(begin, line, end, n);
    len += (size_t)sprintf((char *)doc + len, "%s", end);
    measure();
    lines(begin, line, end, n);
    len += (size_t)sprintf((char *)doc + len, line, (size_t)0);
    len += (size_t)sprintf((char *)doc + len, "%s", end);
    measure();
    len--;
    measure();
    doc[len++] = 0xff;
    measure();
    doc[len - 1] = '}';
    doc[len++] = '\n';
    measure();
}

/* A document of n bytes: a beginning, one byte again and again, and an end. */
static void run(const char *begin, int byte, const char *end, size_t n) {
    size_t from = strlen(begin), to = n - strlen(end);
    memcpy(doc, begin, from);
    memset(doc + from, byte, to - from);
    memcpy(doc + to, end, n - to);
    len = n;
    measure();
}

/* Many rows first and few behind them, or few first: a key with a long text, and a list. */
static void halves(size_t n, int many_first) {
    size_t half = n / 2;
    len = (size_t)sprintf((char *)doc, many_first ? "a: [" : "b: \"");
    if (many_first) {
        while (len + 16 < half) len += (size_t)sprintf((char *)doc + len, "1, ");
        len += (size_t)sprintf((char *)doc + len, "1]\nb: \"");
    }
    while (len + 16 < (many_first ? n : half)) doc[len++] = 'x';
    len += (size_t)sprintf((char *)doc + len, many_first ? "\"\n" : "\"\na: [");
    if (!many_first) {
        while (len + 16 < n) len += (size_t)sprintf((char *)doc + len, "1, ");
        len += (size_t)sprintf((char *)doc + len, "1]\n");
    }
    measure();
}

/* Two keys of nearly half the bytes each, which are equal. */
static void long_keys(size_t n) {
    size_t half = n / 2 - 8;
    memset(doc, 'k', half);
    len = half + (size_t)sprintf((char *)doc + half, ": 1\n");
    memset(doc + len, 'k', half);
    len += half;
    len += (size_t)sprintf((char *)doc + len, ": 2\n");
    measure();
}

/* A list of eight numbers of n digits each; the last digit of the last is given. */
static size_t numbers(uint8_t *to, size_t n, char last) {
    size_t at = 0;
    to[at++] = '[';
    for (int i = 0; i < 8; i++) {
        memset(to + at, '7', n);
        at += n;
        to[at++] = ',';
        to[at++] = ' ';
    }
    to[at - 3] = (uint8_t)last;
    to[at - 2] = ']';
    to[at - 1] = '\n';
    return at;
}

/* A sheet with numbers of n digits, and what is installed with such numbers. */
static void sheet(size_t n, char version, char floor, char installed) {
    static const char image[] = "image: <9f86d081884c7d659a2feaa0c55ad015a3bf4f1b2b0b822cd15d6c15b0f00a08>\n";
    len = numbers(doc, n, installed);
    if (yay_read(doc, len, installed_table, sizeof installed_table / sizeof *installed_table, installed_text,
                 sizeof installed_text, &installed_rows, &installed_bytes, &escapes) != YAY_OK) exit(2);
    len = (size_t)sprintf((char *)doc, "version: ");
    len += numbers(doc + len, n, version);
    len += (size_t)sprintf((char *)doc + len, "floor: ");
    len += numbers(doc + len, n, floor);
    len += (size_t)sprintf((char *)doc + len, "%s", image);
    measure();
}

/* An object of so many keys: of three letters, or all of one mark; and with its first key once more. */
static void many_short_keys(size_t count, int marked) {
    static const char letters[] = "abcdefghijklmnopqrstuvwxyzABCDEFGHIJKLMNOPQRSTUVWXYZ0123456789_-";
    static const char *const pairs[] = {"ao", "bm", "ck", "di", "eg", "fe", "gc", "ha"};
    len = 0;
    for (size_t i = 0; i <= count; i++) {
        size_t key = i == count ? 0 : i;
        if (i == count) measure();
        for (int place = 0; place < (marked ? 6 : 3); place++) {
            if (marked) len += (size_t)sprintf((char *)doc + len, "%s", pairs[key >> 3 * place & 7]);
            else doc[len++] = (uint8_t)letters[key >> 6 * place & 63];
        }
        len += (size_t)sprintf((char *)doc + len, ": 1\n");
    }
    measure();
}

/* An object inside 31 arrays of one element, of as many keys as the longest document holds; and with one of them again. */
static void below_bullets(void) {
    len = 0;
    for (int i = 0; i < DEEP; i++) len += (size_t)sprintf((char *)doc + len, "- ");
    len += (size_t)sprintf((char *)doc + len, "k: 1\n");
    for (size_t i = 0; len + 200 < YAY_LONGEST; i++) len += (size_t)sprintf((char *)doc + len, "%62sk%zu: 1\n", "", i);
    measure();
    len += (size_t)sprintf((char *)doc + len, "%62sk%d: 1\n", "", 7);
    measure();
}

static void of_size(size_t n) {
    static const char *const shapes[][3] = {
        {"", "key%zu: \"a value of the key\"\n", ""},
        {"", "k%zu: 1\n", ""},
        {"", "k%zu:\n  b:\n    c: {d: 1, \"e\": 2}\n", ""},
        {"", "- name: %zu\n  door: [1, 2, {a: 3}]\n", ""},
        {"", "- a: %zu\n", ""},
        {"[", "%zu, ", "1]\n"},
        {"[", "{}, [], ", "1]\n"},
        {"[", "\"\xc3\xa9\", %zu, ", "1]\n"},
        {"{", "a%zu: \"\\u{1F600}\", ", "z: 1}\n"},
        {"{", "\"\\u{1F600}%zu\": 1, ", "z: 1}\n"},
        {"[[[[[[[[[[[[[[[[[[[[[[[[[[[[[[[{", "a%zu: 1, ", "z: 1}]]]]]]]]]]]]]]]]]]]]]]]]]]]]]]]\n"},
        {"", "- - - - - - - - - - - - - - - - - - - - - - - - - - - - - - - a%zu: 1\n", ""},
        {"", "- - - - - - - - - - - - - - - - - - - - - - - - - - - - - - - - - %zu\n", ""},
        {"", "- [[[[[[[[[[[[[[[[[[[[[[[[[[[[[[[%zu]]]]]]]]]]]]]]]]]]]]]]]]]]]]]]]\n", ""},
        {"", "- [[[[[[[[[[[[[[[[[[[[[[[[[[[[[[[[%zu]]]]]]]]]]]]]]]]]]]]]]]]]]]]]]]]\n", ""},
        {"a:\n  \"\"\n", "  '\\'%zu\\\\'\n", ""},
        {"a: `\n", "   line %zu\n", ""},
        {"a: >\n", "  00 ff  # %zu\n", ""},
    };
    for (size_t i = 0; i < sizeof shapes / sizeof *shapes; i++) shape(shapes[i][0], shapes[i][1], shapes[i][2], n);
    halves(n, 0);
    halves(n, 1);
    long_keys(n);
    run("\"", 'x', "\"\n", n);
    run("# ", 'x', "\n1\n", n);
    run("1\n", '\n', "", n);
    run("", '[', "", n);
    for (size_t i = 0; i < n; i++) doc[i] = i % 2 ? ' ' : '-';
    measure();
}

/* Prints what each class and each function has touched; how many are too much, or were not met. */
static int report(void) {
    int wrong = 0;
    for (size_t i = 0; i < sizeof classes / sizeof *classes; i++) {
        struct class *c = &classes[i];
        int more = c->seen > c->most;
        wrong += more;
        printf("stack: documents of %s touch %zu KB%s\n", c->name, (c->seen + 1023) / 1024, more ? ": TOO MUCH" : "");
    }
    for (int i = 0; i <= YAY_TEXT; i++) {
        if (!answers[i]) wrong++, printf("stack: no document was answered with %d\n", i);
    }
    printf("stack: writing touches %zu KB%s\n", (writing + 1023) / 1024, writing > YAY_STACK ? ": TOO MUCH" : "");
    wrong += writing > YAY_STACK;
    if (!written[YAY_OK] || !written[YAY_LONG]) wrong++, printf("stack: too little was written\n");
    printf("stack: deciding touches %zu KB%s\n", (deciding + 1023) / 1024, deciding > YAY_STACK ? ": TOO MUCH" : "");
    wrong += deciding > YAY_STACK;
    for (int i = YAY_INSTALL; i <= YAY_BLOCKED; i++) {
        if (!decisions[i]) wrong++, printf("stack: nothing was decided as %d\n", i);
    }
    printf("stack: laying over touches %zu KB%s\n", (laying + 1023) / 1024, laying > YAY_STACK ? ": TOO MUCH" : "");
    wrong += laying > YAY_STACK;
    if (laid < 100) wrong++, printf("stack: too little was laid over\n");
    printf("stack: storing touches %zu KB%s\n", (storing + 1023) / 1024, storing > YAY_STACK ? ": TOO MUCH" : "");
    printf("stack: loading touches %zu KB%s\n", (loading + 1023) / 1024, loading > YAY_STACK ? ": TOO MUCH" : "");
    wrong += (storing > YAY_STACK) + (loading > YAY_STACK);
    if (!kept[YAY_OK] || !kept[YAY_ROWS] || !kept[YAY_TEXT] || !kept[YAY_BADFORM]) {
        wrong++, printf("stack: too little was loaded\n");
    }
    return wrong;
}

int main(void) {
    static const size_t sizes[] = {200, 1000, 1024, 1025, 4000, 8192, 16384, 16385, 24000, 32768, 32769, YAY_LONGEST};
    static const size_t digits[] = {1, 20, 1000, 1900};
    for (size_t i = 0; i < sizeof digits / sizeof *digits; i++) {
        sheet(digits[i], '3', '1', '2');
        sheet(digits[i], '2', '1', '2');
        sheet(digits[i], '3', '3', '2');
    }
    forms();
    layers(DEEP, 0, 1);
    layers(DEEP, 20, 20);
    layers(DEEP, 600, 600);
    layers(DEEP, 0, 5000);
    layers(0, 0, 5000);
    layers(0, 0, KEYS);
    layers(DEEP, 0, KEYS);
    longest_form(YAY_ARRAY);
    longest_form(YAY_OBJECT);
    for (size_t i = 0; i < sizeof sizes / sizeof *sizes; i++) of_size(sizes[i]);
    run("\"", 'x', "\"\n", YAY_LONGEST + 1);
    many_short_keys(40000, 0);
    many_short_keys(130000, 0);
    many_short_keys(60000, 1);
    below_bullets();
    int wrong = report();
    printf("stack: %d documents, %d faults\n", documents, wrong);
    return wrong != 0;
}
