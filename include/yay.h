/* A reader and writer of YAY documents, a decision on upgrades, an overlay of profiles and a stored form for the tablet,
 * proved in Rattle. Link with -lyay.
 *
 * Every function works on lent memory alone: none allocates, keeps a pointer, or keeps anything between calls, so
 * threads may call at once. A `const` pointer is only read from. What is written (the table, the text room, the
 * answers behind the last pointers, the output) must overlap nothing else that is handed over.
 * What is trusted of a caller is that each pointer is not NULL and valid for its length, a word pointer aligned;
 * where a length is 0 the pointer is never followed. Any document, table, text and stored bytes may be handed over: for
 * every one of them the answer is the one that the documents of the project fix.
 * yay_read has rooms of its own on the stack: see YAY_STACK.
 *
 * A place is counted in bytes from 0, a row from 0, a line and a column from 1; they are never taken for one another.
 * yay_help.h has names and sentences for the numbers, line and column of any place, and a way through the
 * children of a row; it is not proved. */
#ifndef YAY_H
#define YAY_H

#include <stddef.h>
#include <stdint.h>

#ifdef __cplusplus
extern "C" {
#endif

/* The most bytes of a document, the most containers one inside another, and the words of a row. */
#define YAY_LONGEST 1048576
#define YAY_NESTING 32
#define YAY_WORDS 9

/* A lent room counts for no more than this, however long it is: a table for so many rows, a text room and an output for
 * so many bytes. */
#define YAY_MOST 16777216

/* The stack that a call of yay_read touches at most, in bytes, as c/stack.c measures it: for a document of at most
 * 1,024 bytes, and for any, up to the longest. So a thread of 128 KB reads every document. yay_sound, yay_write, yay_decide,
 * yay_overlay, yay_store and yay_load touch no more than YAY_STACK, whatever the tables and the stored bytes. */
#define YAY_STACK_FEW (48 * 1024)
#define YAY_STACK (112 * 1024)

/* The most places of a version, and the bytes of an image. */
#define YAY_PLACES 8
#define YAY_IMAGE 32

/* Words and text bytes that are enough for any document of so many bytes: rows and text are each fewer. */
#define YAY_TABLE_ROOM(doc_len) ((doc_len) * YAY_WORDS)
#define YAY_TEXT_ROOM(doc_len) (doc_len)

/* The most bytes of a stored form that is loaded. A document's is far shorter: at most
 * YAY_STORED_ROOM(YAY_LONGEST, YAY_LONGEST). */
#define YAY_STORED_LONGEST 16777216

/* Bytes that are enough for the stored form of a table of so many rows and text bytes, as yay_read gives them: three a
 * row, the text, and three for each part but the last of contents over 65,535 bytes, which are fewer than one in 512;
 * and words and text bytes that are enough for any stored form of so many bytes, since each row has three of them that
 * are no text. */
#define YAY_STORED_ROOM(rows, text_bytes) \
    (3 * (rows) + (text_bytes) + (3 * (rows) + (text_bytes)) / 512)
#define YAY_STORED_TABLE_ROOM(stored_len) ((stored_len) / 3 * YAY_WORDS)
#define YAY_STORED_TEXT_ROOM(stored_len) (stored_len)

/* Numbers. All but YAY_OK are refusals, and a refusal leaves the table, the text room and the output as they were. */
#define YAY_OK 0
#define YAY_LONG 1    /* the document, read or written, has more than YAY_LONGEST bytes; place 0 */
#define YAY_CHAR 2    /* the byte at the place belongs to no allowed character */
#define YAY_SYNTAX 3  /* no document goes on with the byte at the place */
#define YAY_DEEP 4    /* only a document with more than YAY_NESTING containers inside one another goes on so */
#define YAY_END 5     /* the document ends too early; the place is its length */
#define YAY_REPEAT 6  /* the key at the place equals an earlier key of its object */
#define YAY_ROWS 7    /* the table is too small; the place is the rows needed, of YAY_WORDS words each */
#define YAY_TEXT 8    /* the text room, or the output, is too small; the place, or count, is the bytes needed */
#define YAY_BADROW 9  /* a question met a row that the table does not have, or of the wrong kind, or broken; or the
                         table is not sound */
#define YAY_NONE 10   /* the key isn't in the object */
#define YAY_NOTINT 11 /* a text compared isn't an integer's text */
/* 12 is no number: it was that of contents over 65,535 bytes, which are stored in parts now. */
#define YAY_BADFORM 13  /* the bytes aren't a sound table's stored form, or are more than YAY_STORED_LONGEST */
#define YAY_BADSHEET 14 /* the table isn't a sound one of a release sheet */
#define YAY_BADINST 15  /* the table isn't a sound one of an installed version */
#define YAY_CLASH 16    /* a key has an object in one of two tables and another value in the other */

/* Decisions. */
#define YAY_INSTALL 1 /* the sheet's version is above the installed one, which is not below the sheet's floor */
#define YAY_KEEP 2    /* the sheet's version is not above the installed one */
#define YAY_BLOCKED 3 /* it is above, but the installed one is below the floor */

/* Words of row r: table[YAY_WORDS * r + one of these]. */
#define YAY_KIND 0       /* one of the ten kinds */
#define YAY_FROM 1       /* first byte of the span in the document, or in the stored bytes that were loaded */
#define YAY_TO 2         /* byte after the span */
#define YAY_TEXT_FROM 3  /* first byte of the text in the text room; 0 for kinds without text */
#define YAY_TEXT_TO 4    /* byte after the text; of an array its elements, of an object its pairs */
#define YAY_PARENT 5     /* row of the container; the root's is 0 */
#define YAY_NEXT 6       /* row after the last descendant */
#define YAY_LINE 7       /* line of the span's first byte, from 1; 0 where the row was loaded, or laid over another */
#define YAY_COLUMN 8     /* its column, from 1, in characters: one of several bytes is one; 0 as the line */

/* Kinds. A key's row stands just before its value's row, and the object is the parent of both. */
#define YAY_NULL 1
#define YAY_FALSE 2
#define YAY_TRUE 3
#define YAY_INTEGER 4 /* text: `-` if negative, then digits without leading zeros or spaces */
#define YAY_FLOAT 5   /* text: as written, spaces removed; also nan, infinity, -infinity */
#define YAY_STRING 6  /* text: decoded, UTF-8, not ended by a zero byte */
#define YAY_BYTES 7   /* text: the bytes themselves */
#define YAY_ARRAY 8
#define YAY_OBJECT 9
#define YAY_KEY 10    /* text: decoded, UTF-8 */

/* Reads a document of doc_len bytes into a table of table_words words and a text room of text_len bytes.
 * YAY_OK: *first is the number of rows, *second that of text bytes, *third that of escapes; words and bytes past the
 * rows and the text are as before.
 * YAY_LONG to YAY_TEXT: *first is the place, *second and *third are 0, and both rooms are as before.
 * Escapes are those of all quoted keys and strings: in double quotes a backslash and the character behind it, `\u{..}`
 * whole, is one; in single quotes `\'` and `\\` are, and any other backslash there stays as itself and is none. */
uint32_t yay_read(const uint8_t *doc, size_t doc_len, uint32_t *table, size_t table_words, uint8_t *text,
                  size_t text_len, size_t *first, size_t *second, size_t *third);

/* The text of a row of kind 4 to 7 or 10. The table has `words` words and `rows` rows.
 * YAY_OK: the text is text[*from] up to, not including, text[*to]. YAY_BADROW: both are 0. */
uint32_t yay_text(const uint32_t *table, size_t words, size_t rows, const uint8_t *text, size_t text_len, size_t row,
                  size_t *from, size_t *to);

/* The value of a key (decoded, key_len bytes) in an object's row.
 * YAY_OK: *value is the value's row. YAY_NONE, YAY_BADROW: *value is 0. */
uint32_t yay_find(const uint32_t *table, size_t words, size_t rows, const uint8_t *text, size_t text_len,
                  size_t object, const uint8_t *key, size_t key_len, size_t *value);

/* Two integers' texts by numeric order, whatever their length.
 * YAY_OK: *order is -1 if the left is less, 0 if they are equal, 1 if it is greater. YAY_NOTINT: *order is 0. */
uint32_t yay_compare(const uint8_t *left, size_t left_len, const uint8_t *right, size_t right_len, int32_t *order);

/* Whether a table of `rows` rows is sound: whether some document, of any length, gives these kinds, texts and nesting,
 * with at most YAY_NESTING containers one inside another, no key twice in an object, and at most YAY_MOST rows and text
 * bytes. Spans, lines and columns are passed over, and so are words behind the rows and bytes behind the texts.
 * A table that yay_read has filled is sound. YAY_OK if it is, else YAY_BADROW. */
uint32_t yay_sound(const uint32_t *table, size_t words, size_t rows, const uint8_t *text, size_t text_len);

/* Writes a sound table as a document, in the one house style: block objects and arrays, `[]` and `{}` where empty, an
 * array in an array on one line with all that is below it; strings in double quotes, keys without quotes wherever that
 * is allowed, bytes inline, two spaces a level. Reading it gives the same kinds, texts and nesting, and writing that
 * the same bytes. Comments, and the forms in which values were written, are not in a table, so they are lost.
 * YAY_OK: *count bytes of `out` were written, at most YAY_LONGEST; those behind them are as before.
 * YAY_BADROW: the table is not sound. YAY_LONG: the document would have more than YAY_LONGEST bytes. *count is 0.
 * YAY_TEXT: *count bytes are needed, and out_len is less. */
uint32_t yay_write(const uint32_t *table, size_t words, size_t rows, const uint8_t *text, size_t text_len,
                   uint8_t *out, size_t out_len, size_t *count);

/* Whether to install what a release sheet names over what is installed; both tables and text rooms stay as they are.
 * A sheet is a root object with exactly the keys `version`, `floor` and `image`, in any order: the first two arrays of 1
 * to YAY_PLACES integers not below zero, of any length, the last bytes of length YAY_IMAGE. An installed version is a
 * root array like the first two. Versions compare place by place as numbers, and a missing place counts as zero, so [10]
 * equals [10, 0]. No decision ever installs a version that is not above the one installed, whatever the tables hold.
 * YAY_OK: *decision is YAY_INSTALL, YAY_KEEP or YAY_BLOCKED.
 * YAY_BADINST, tested first: the installed table isn't a sound one of an installed version. YAY_BADSHEET: the other isn't
 * a sound one of a sheet. *decision is 0. */
uint32_t yay_decide(const uint32_t *sheet, size_t sheet_words, size_t sheet_rows, const uint8_t *sheet_text,
                    size_t sheet_text_len, const uint32_t *installed, size_t installed_words, size_t installed_rows,
                    const uint8_t *installed_text, size_t installed_text_len, uint32_t *decision);

/* Lays the upper table over the lower, both sound with objects as roots, into a third table and text room; the sources
 * stay as they are, and may be the same memory. A key that one of them has is kept; of one that both have, two objects
 * are laid over each other in the same way, and two other values, arrays among them, are answered by the upper. Keys
 * stand in the lower's order, then the upper's new ones in its own. Spans, lines and columns of the result are 0.
 * YAY_OK: *first is the number of rows, *second that of text bytes; words and bytes past them are as before.
 * YAY_BADROW, tested first: a table is not sound, or its root is no object. YAY_CLASH: of a key that both have, one value
 * is an object and the other is none, be it `{}` or null. *first and *second are 0.
 * YAY_ROWS, then YAY_TEXT: *first rows, or bytes, are needed, and *second is 0. */
uint32_t yay_overlay(const uint32_t *lower, size_t lower_words, size_t lower_rows, const uint8_t *lower_text,
                     size_t lower_text_len, const uint32_t *upper, size_t upper_words, size_t upper_rows,
                     const uint8_t *upper_text, size_t upper_text_len, uint32_t *table, size_t table_words,
                     uint8_t *text, size_t text_len, size_t *first, size_t *second);

/* Stores a sound table as tagged fields, one for each row: one byte tag, the row's kind; two bytes length, high byte
 * first; then the content, which is the text for kinds 4 to 7 and 10, nothing for 1 to 3, and the children's fields in
 * order for 8 and 9. While more than 65,535 bytes of a content remain, the next 65,535 of them stand in a field with the
 * tag 11, wherever that cuts the fields inside, and the field behind it goes on; the last has the true tag. One tree has
 * one stored form; spans, lines and columns are not in it.
 * YAY_OK: *count bytes of `out` were written, at most YAY_STORED_LONGEST; those behind them are as before.
 * YAY_BADROW: the table is not sound. *count is 0.
 * YAY_TEXT: *count bytes are needed, and out_len, which counts for at most YAY_MOST, is less. */
uint32_t yay_store(const uint32_t *table, size_t words, size_t rows, const uint8_t *text, size_t text_len, uint8_t *out,
                   size_t out_len, size_t *count);

/* Loads a stored form of stored_len bytes into a table of table_words words and a text room of text_len bytes. It gives
 * the same kinds, texts and nesting; the span of a row runs from its field's first tag, which is 11 where it has parts,
 * to the end of its last byte, in the stored bytes, and lines and columns are 0. What was loaded is sound, and is stored
 * as the same bytes.
 * YAY_OK: *first is the number of rows, *second that of text bytes; words and bytes past them are as before.
 * YAY_BADFORM, tested first: the bytes are no sound table's stored form, or more than YAY_STORED_LONGEST. *first and
 * *second are 0.
 * YAY_ROWS, then YAY_TEXT: *first rows, or bytes, are needed, and *second is 0. */
uint32_t yay_load(const uint8_t *stored, size_t stored_len, uint32_t *table, size_t table_words, uint8_t *text,
                  size_t text_len, size_t *first, size_t *second);

#ifdef __cplusplus
}
#endif

#endif
