/* ufmt.h: texts of values, converted, printed, read and compared, in buffers of yours. Link libufmt_c.
 *
 * Memory, threads and cost
 *   No call takes memory, keeps a pointer or has state, so any thread may make any call. From a library of C
 *   the archive needs `memmove`, and of the compiler's own library `__udivti3`, at most.
 *   The steps of each call are bounded by the sizes of its inputs and of its buffer, and a constant, whatever
 *   values the members of a struct have. Of a width, a row or decimals that are more than what the buffer
 *   shows, the rest is only counted. So a width of SIZE_MAX returns UFMT_FULL at once, also with no buffer.
 *
 * What each call that writes does
 *   It writes a text to the front of `buffer`, which has `size` bytes. No byte of zero is added.
 *   - If the text fits, it returns the text's length. `*detail` becomes the same number. The bytes of the
 *     buffer after the text stay as they were.
 *   - If it doesn't, it returns UFMT_FULL. `*detail` becomes the text's length, so a buffer of that size
 *     will do. The buffer holds as many bytes of the text as it has: the last may end inside a character.
 *   - Any other result is a code below zero, named at the call. The buffer stays as it was; but a call
 *     that returns UFMT_NO_TEXT may have overwritten any byte of the buffer.
 *   If `detail` is NULL, the call leaves nothing of what is said of `*detail` here and below.
 *
 * What you must uphold, which no call can test
 *   - A pointer and the size after it are those of an array of that many bytes, at most PTRDIFF_MAX. With
 *     a size of 0 the pointer may be NULL. Each byte of an input was given a value; a buffer's need none.
 *   - `detail` may be NULL. The pointer to a struct or to a number isn't. Each is aligned as its type is.
 *   - During a call nothing else writes what it reads, or reads or writes what it writes. So `buffer`,
 *     `*detail` and `*number` overlap neither one another nor an input. Two inputs may overlap.
 *   - A `bool` is 0 or 1.
 */
#ifndef UFMT_H
#define UFMT_H

#include <stdbool.h>
#include <stddef.h>
#include <stdint.h>

#ifdef __cplusplus
extern "C" {
#endif

/* The version of this header: 10,000 for each of its first number, 100 for each of its second, and its third. */
#define UFMT_VERSION 400
/* The version of the library, in the same way. */
uint32_t ufmt_version(void);

/* The input is no text of the kind that the call takes, or the line has no such field. */
#define UFMT_NO_TEXT ((ptrdiff_t)-1)
/* The text doesn't fit into the buffer. `*detail` is its length, or SIZE_MAX if that is more. */
#define UFMT_FULL ((ptrdiff_t)-2)
/* An input isn't UTF-8. `*detail` becomes how many bytes at its front are. */
#define UFMT_NOT_UTF8 ((ptrdiff_t)-3)
/* A class, a mode or a struct of options has a value that means nothing. `*detail` stays as it was. */
#define UFMT_BAD_OPTION ((ptrdiff_t)-4)

/* Structs of options. Each begins with its size. Begin with its UFMT_.._INIT, where every other member is 0,
 * its default. A later version may add members at the end, whose default is 0 too, and takes the sizes of all
 * versions from this one on. UFMT_BAD_OPTION is returned of a size that no version had. */

/* Texts of values. */

/* Classes of texts. A debug text is what most values of Rust print by `{:?}` (plain) or `{:#?}` (pretty). A
 * token text is a debug text whose leaves are words, `()`, and texts and characters in quotes. */
#define UFMT_TOKEN 0
#define UFMT_DEBUG 1

/* Modes of texts. */
#define UFMT_PLAIN 0
#define UFMT_PRETTY 1

/* Returns whether the input is a text of this class in this mode: false if there is no such class or mode. */
bool ufmt_is_text(uint32_t text_class, uint32_t mode, const char *input, size_t length);

/* The input is the text of a document of this class, in the other mode than `to`. Writes the text of the same
 * document in the mode `to`. Returns UFMT_BAD_OPTION if there is no such class or mode. Else it returns
 * UFMT_NO_TEXT if and only if the input is no such text. Then `*detail` becomes the number of bytes at the
 * input's front that were read before the piece that doesn't fit. A piece is a leaf, or brackets, commas,
 * colons and spaces up to the next leaf. If the input is only the beginning of a text, it may have been read
 * to its end. */
ptrdiff_t ufmt_convert(char *buffer, size_t size, uint32_t text_class, uint32_t to, const char *input, size_t length, size_t *detail);

/* Finds a field in a line of a log, which may be any bytes: of the values in the line, from the left on, the first that is a
 * struct with this field, where the field is a leaf. If a struct has several fields with this name, the first counts.
 * A value is a plain text of this class with entries. Anything may follow it, and nothing inside it is looked at. The name of a
 * struct or a tuple begins after the last space, control, quote, bracket or comma. So `&Foo { id: 3 }` isn't a value of UFMT_TOKEN,
 * which has no name `&Foo`, and a struct right after a byte that isn't UTF-8 is a value of neither class.
 * Texts in quotes are searched too, unless they are in a value: in `user="X { id: 666 }" req=Req { id: 3 }` the field `id` is 666,
 * and so it is in a line that was cut inside such a text. Whoever controls a text in the line controls the result.
 * Returns how many bytes the leaf's text has, and `*detail` becomes where it begins: it is at
 * `line + *detail`, a text in quotes with its quotes. Returns UFMT_NO_TEXT if and only if there is no such field; `*detail`
 * stays. Returns UFMT_BAD_OPTION if there is no such class, and else UFMT_NOT_UTF8 if the name isn't UTF-8. The
 * steps of most lines are as their length. With brackets in brackets that make no value they may be up to 256 times that, and in
 * a line made against it as the square of its length. */
ptrdiff_t ufmt_field(uint32_t text_class, const char *line, size_t length, const char *name, size_t name_length, size_t *detail);

/* Texts in quotes. */

/* Writes the input in quotation marks, with the escapes that `{:?}` writes; each character past ASCII is
 * written as itself. Or returns UFMT_NOT_UTF8. */
ptrdiff_t ufmt_quote(char *buffer, size_t size, const char *input, size_t length, size_t *detail);
/* The input is what ufmt_quote writes of some text. Writes that text. Returns UFMT_NO_TEXT of any other input,
 * also of one with an escape that ufmt_quote doesn't write. Then `*detail` becomes the length of the longest
 * front of the input that some output of ufmt_quote begins with, in whole characters. These are the mark,
 * characters in UTF-8 as ufmt_quote writes them, and the last mark. A character or an escape that is cut
 * doesn't count. */
ptrdiff_t ufmt_unquote(char *buffer, size_t size, const char *input, size_t length, size_t *detail);
/* The same of what Rust's `{:?}` prints of a text: it takes each character as `\u{..}` too, with the lower-case
 * hexadecimal digits of its number and no zero before them, as Rust writes those that can't be seen: "\u{200b}". */
ptrdiff_t ufmt_unquote_debug(char *buffer, size_t size, const char *input, size_t length, size_t *detail);

/* Numbers. */

/* Writes the number in decimal digits, a negative one after a minus. 20 bytes are enough. */
ptrdiff_t ufmt_unsigned(char *buffer, size_t size, uint64_t number, size_t *detail);
ptrdiff_t ufmt_signed(char *buffer, size_t size, int64_t number, size_t *detail);

/* Writes the shortest decimal that reads as the float, as Rust's {:?} does: 1.0, 0.1, 1e-7, 1.5e300, inf, NaN. 24 bytes are
 * enough. No two floats have one text, and all NaN have one. */
ptrdiff_t ufmt_float(char *buffer, size_t size, double number, size_t *detail);
/* Writes the float with so many decimals, as Rust's {:.2} does with two: 2.50, -0.00, inf, NaN. Its exact value is rounded,
 * and of two decimals that are as close the even one is taken. Without decimals there is no point. Any float takes at most
 * 311 bytes more than its decimals. */
ptrdiff_t ufmt_float_fixed(char *buffer, size_t size, double number, size_t decimals, size_t *detail);

/* The input is what ufmt_unsigned, ufmt_signed or ufmt_float writes of some number. Leaves that number in
 * `*number`, and returns 0. `*detail` stays. Of any other input it returns UFMT_NO_TEXT, and `*number` stays.
 * Other inputs are those with a plus, a space or a zero too many, a number that the type doesn't have, or a
 * float that is written otherwise, as 1 or 1.50. If such an input begins with a number, and then has a comma,
 * a closing bracket or another byte that may come after a leaf in a text of a value, `*detail` becomes how
 * many bytes the number has. Else it becomes some number up to `length`. */
ptrdiff_t ufmt_parse_unsigned(uint64_t *number, const char *input, size_t length, size_t *detail);
ptrdiff_t ufmt_parse_signed(int64_t *number, const char *input, size_t length, size_t *detail);
ptrdiff_t ufmt_parse_float(double *number, const char *input, size_t length, size_t *detail);

typedef struct ufmt_hex_style {
    size_t struct_size; /* sizeof(ufmt_hex_style) */
    size_t width;       /* how many bytes the text has at least, with its prefix */
    uint8_t pad;        /* the byte that fills it up, 0 for a space: spaces come before the prefix, other bytes after it */
    bool upper_case;    /* `A` to `F`, and `0X`; of a binary text it changes nothing */
    bool prefix;        /* whether it begins with `0x`, or a binary text with `0b` */
} ufmt_hex_style;
#define UFMT_HEX_STYLE_INIT {sizeof(ufmt_hex_style), 0, 0, false, false}

/* Writes the number in hexadecimal digits. Or returns UFMT_BAD_OPTION if `pad` is past 127. */
ptrdiff_t ufmt_hexadecimal(char *buffer, size_t size, uint64_t number, const ufmt_hex_style *style, size_t *detail);
/* The same in binary digits. */
ptrdiff_t ufmt_binary(char *buffer, size_t size, uint64_t number, const ufmt_hex_style *style, size_t *detail);

/* Dumps. */

typedef struct ufmt_dump_style {
    size_t struct_size; /* sizeof(ufmt_dump_style) */
    size_t per_row;     /* how many bytes a row has; 0 means 16 */
    size_t group;       /* how many bytes have no space between them; 0 means a row */
    uint32_t first;     /* the offset of the first byte */
    bool has_offsets;   /* whether a row begins with its offset */
    bool has_text;      /* whether it ends with its bytes as text, where `.` is any that isn't printable ASCII */
} ufmt_dump_style;
#define UFMT_DUMP_STYLE_INIT {sizeof(ufmt_dump_style), 0, 0, 0, false, false}

/* Writes the bytes in rows of hexadecimal digits. With a `group` of 1, offsets and text, it is what `xxd -g1`
 * prints. */
ptrdiff_t ufmt_dump(char *buffer, size_t size, const void *bytes, size_t length, const ufmt_dump_style *style, size_t *detail);

/* Columns. */

typedef struct ufmt_column_style {
    size_t struct_size; /* sizeof(ufmt_column_style) */
    size_t width;       /* in characters */
    uint32_t fill;      /* the code of the character that fills it, 0 for a space */
    uint8_t align;      /* UFMT_LEFT, UFMT_CENTER or UFMT_RIGHT */
} ufmt_column_style;
#define UFMT_COLUMN_STYLE_INIT {sizeof(ufmt_column_style), 0, 0, UFMT_LEFT}

#define UFMT_LEFT 0
#define UFMT_CENTER 1 /* of an odd number of fills, one more comes after the text */
#define UFMT_RIGHT 2

/* Writes the input, and fills up to the width; a text of that width or more as it is. Returns
 * UFMT_BAD_OPTION if the fill is no character or the alignment none of the three, else UFMT_NOT_UTF8 if
 * the input isn't UTF-8. */
ptrdiff_t ufmt_in_column(char *buffer, size_t size, const char *input, size_t length, const ufmt_column_style *style, size_t *detail);

/* Differences. A text is cut into lines at each line feed, so "a\n" has an empty second line. Of two inputs
 * that aren't UTF-8, `*detail` is of the first. */

/* Returns the number of the first line in which two texts differ, from 1 on, and 0 if they are equal.
 * `*detail` stays. Or returns UFMT_NOT_UTF8. */
ptrdiff_t ufmt_first_difference(const char *given, size_t given_length, const char *stored, size_t stored_length, size_t *detail);
/* Writes a message on that line, or the empty text if the texts are equal. Or returns UFMT_NOT_UTF8. Of "a\nb"
 * and "a" the message is "line 2 differs\n given: \"b\"\nstored: none": the number of the line, and after each
 * text's name its line, as ufmt_quote writes it, or `none` if it has fewer lines. */
ptrdiff_t ufmt_difference(char *buffer, size_t size, const char *given, size_t given_length, const char *stored, size_t stored_length, size_t *detail);

/* From C and C++ the calls take a `detail` at NULL: these functions give the library a place for it. The calls
 * above, as the library exports them and other languages call them, take none at NULL. */
static inline ptrdiff_t ufmt_convert_or_null(char *buffer, size_t size, uint32_t text_class, uint32_t to, const char *input, size_t length, size_t *detail) {
    size_t unused = 0;
    return ufmt_convert(buffer, size, text_class, to, input, length, detail ? detail : &unused);
}
static inline ptrdiff_t ufmt_field_or_null(uint32_t text_class, const char *line, size_t length, const char *name, size_t name_length, size_t *detail) {
    size_t unused = 0;
    return ufmt_field(text_class, line, length, name, name_length, detail ? detail : &unused);
}
static inline ptrdiff_t ufmt_quote_or_null(char *buffer, size_t size, const char *input, size_t length, size_t *detail) {
    size_t unused = 0;
    return ufmt_quote(buffer, size, input, length, detail ? detail : &unused);
}
static inline ptrdiff_t ufmt_unquote_or_null(char *buffer, size_t size, const char *input, size_t length, size_t *detail) {
    size_t unused = 0;
    return ufmt_unquote(buffer, size, input, length, detail ? detail : &unused);
}
static inline ptrdiff_t ufmt_unquote_debug_or_null(char *buffer, size_t size, const char *input, size_t length, size_t *detail) {
    size_t unused = 0;
    return ufmt_unquote_debug(buffer, size, input, length, detail ? detail : &unused);
}
static inline ptrdiff_t ufmt_unsigned_or_null(char *buffer, size_t size, uint64_t number, size_t *detail) {
    size_t unused = 0;
    return ufmt_unsigned(buffer, size, number, detail ? detail : &unused);
}
static inline ptrdiff_t ufmt_signed_or_null(char *buffer, size_t size, int64_t number, size_t *detail) {
    size_t unused = 0;
    return ufmt_signed(buffer, size, number, detail ? detail : &unused);
}
static inline ptrdiff_t ufmt_float_or_null(char *buffer, size_t size, double number, size_t *detail) {
    size_t unused = 0;
    return ufmt_float(buffer, size, number, detail ? detail : &unused);
}
static inline ptrdiff_t ufmt_float_fixed_or_null(char *buffer, size_t size, double number, size_t decimals, size_t *detail) {
    size_t unused = 0;
    return ufmt_float_fixed(buffer, size, number, decimals, detail ? detail : &unused);
}
static inline ptrdiff_t ufmt_parse_unsigned_or_null(uint64_t *number, const char *input, size_t length, size_t *detail) {
    size_t unused = 0;
    return ufmt_parse_unsigned(number, input, length, detail ? detail : &unused);
}
static inline ptrdiff_t ufmt_parse_signed_or_null(int64_t *number, const char *input, size_t length, size_t *detail) {
    size_t unused = 0;
    return ufmt_parse_signed(number, input, length, detail ? detail : &unused);
}
static inline ptrdiff_t ufmt_parse_float_or_null(double *number, const char *input, size_t length, size_t *detail) {
    size_t unused = 0;
    return ufmt_parse_float(number, input, length, detail ? detail : &unused);
}
static inline ptrdiff_t ufmt_hexadecimal_or_null(char *buffer, size_t size, uint64_t number, const ufmt_hex_style *style, size_t *detail) {
    size_t unused = 0;
    return ufmt_hexadecimal(buffer, size, number, style, detail ? detail : &unused);
}
static inline ptrdiff_t ufmt_binary_or_null(char *buffer, size_t size, uint64_t number, const ufmt_hex_style *style, size_t *detail) {
    size_t unused = 0;
    return ufmt_binary(buffer, size, number, style, detail ? detail : &unused);
}
static inline ptrdiff_t ufmt_dump_or_null(char *buffer, size_t size, const void *bytes, size_t length, const ufmt_dump_style *style, size_t *detail) {
    size_t unused = 0;
    return ufmt_dump(buffer, size, bytes, length, style, detail ? detail : &unused);
}
static inline ptrdiff_t ufmt_in_column_or_null(char *buffer, size_t size, const char *input, size_t length, const ufmt_column_style *style, size_t *detail) {
    size_t unused = 0;
    return ufmt_in_column(buffer, size, input, length, style, detail ? detail : &unused);
}
static inline ptrdiff_t ufmt_first_difference_or_null(const char *given, size_t given_length, const char *stored, size_t stored_length, size_t *detail) {
    size_t unused = 0;
    return ufmt_first_difference(given, given_length, stored, stored_length, detail ? detail : &unused);
}
static inline ptrdiff_t ufmt_difference_or_null(char *buffer, size_t size, const char *given, size_t given_length, const char *stored, size_t stored_length, size_t *detail) {
    size_t unused = 0;
    return ufmt_difference(buffer, size, given, given_length, stored, stored_length, detail ? detail : &unused);
}

#define ufmt_convert ufmt_convert_or_null
#define ufmt_field ufmt_field_or_null
#define ufmt_quote ufmt_quote_or_null
#define ufmt_unquote ufmt_unquote_or_null
#define ufmt_unquote_debug ufmt_unquote_debug_or_null
#define ufmt_unsigned ufmt_unsigned_or_null
#define ufmt_signed ufmt_signed_or_null
#define ufmt_float ufmt_float_or_null
#define ufmt_float_fixed ufmt_float_fixed_or_null
#define ufmt_parse_unsigned ufmt_parse_unsigned_or_null
#define ufmt_parse_signed ufmt_parse_signed_or_null
#define ufmt_parse_float ufmt_parse_float_or_null
#define ufmt_hexadecimal ufmt_hexadecimal_or_null
#define ufmt_binary ufmt_binary_or_null
#define ufmt_dump ufmt_dump_or_null
#define ufmt_in_column ufmt_in_column_or_null
#define ufmt_first_difference ufmt_first_difference_or_null
#define ufmt_difference ufmt_difference_or_null

#ifdef __cplusplus
}
#endif

#endif
