/* Makes the calls that its input asks for, a line each, and prints of each what it returned and left in
 * `detail` and in the buffer. x try c writes the lines and compares what is printed.
 *
 * A line is a call's name without `ufmt_`, and a word for each argument but `detail`: for a buffer its
 * size, for an input its bytes in hexadecimal digits, for a float its bits as a number, for a struct its members. `null` is a buffer or an
 * input of no bytes at NULL, and `-` one of no bytes elsewhere. Each array has exactly its size, so that
 * valgrind sees a byte that is read or written past it. A number that a call leaves is printed as a buffer of
 * eight bytes. With the argument `unset` no byte of a buffer has a value before the call, and only the
 * written text is printed. With `null` each call is made with a detail at NULL. */
#include <stdio.h>
#include <stdlib.h>
#include <string.h>

#include "ufmt.h"

enum { FILL = 0xa5, DETAIL = 777 };

typedef struct bytes {
    char *at;
    size_t size;
} bytes;

static bool is_unset, is_null;

static const char *word(void) {
    const char *found = strtok(NULL, " \n");
    if (!found) {
        fprintf(stderr, "a line has too few words\n");
        exit(2);
    }
    return found;
}

/* A float by its bits. */
static double float_of(uint64_t bits) {
    double value;
    memcpy(&value, &bits, sizeof value);
    return value;
}

static uint64_t number(void) {
    return strtoull(word(), NULL, 10);
}

static bytes room(size_t size) {
    bytes made = {malloc(size), size};
    if (!made.at) {
        fprintf(stderr, "no memory\n");
        exit(2);
    }
    return made;
}

static bytes input(void) {
    const char *digits = word();
    if (!strcmp(digits, "null")) {
        return (bytes){NULL, 0};
    }
    if (!strcmp(digits, "-")) {
        return room(0);
    }
    bytes made = room(strlen(digits) / 2);
    for (size_t i = 0; i < made.size; i++) {
        char pair[3] = {digits[2 * i], digits[2 * i + 1], 0};
        made.at[i] = (char)strtoul(pair, NULL, 16);
    }
    return made;
}

static bytes buffer(void) {
    const char *size = word();
    if (!strcmp(size, "null")) {
        return (bytes){NULL, 0};
    }
    bytes made = room(strtoull(size, NULL, 10));
    if (!is_unset && made.size) {
        memset(made.at, FILL, made.size);
    }
    return made;
}

static void print(ptrdiff_t result, size_t detail, bytes left) {
    size_t shown = !is_unset ? left.size : left.at && result > 0 ? (size_t)result : 0;
    printf("%td %zu ", result, detail);
    for (size_t i = 0; i < shown; i++) {
        printf("%02x", (unsigned char)left.at[i]);
    }
    printf("\n");
    free(left.at);
}

/* Where a call leaves its detail. */
static size_t *place(size_t *detail) {
    return is_null ? NULL : detail;
}

static void call_on_bytes(const char *name) {
    size_t detail = DETAIL;
    bytes to = buffer(), from = input();
    ptrdiff_t result;
    if (*name == 'q') {
        result = ufmt_quote(to.at, to.size, from.at, from.size, place(&detail));
    } else if (!strcmp(name, "unquote")) {
        result = ufmt_unquote(to.at, to.size, from.at, from.size, place(&detail));
    } else {
        result = ufmt_unquote_debug(to.at, to.size, from.at, from.size, place(&detail));
    }
    print(result, detail, to);
    free(from.at);
}

static void call_convert(void) {
    size_t detail = DETAIL;
    bytes written = buffer();
    uint32_t text_class = (uint32_t)number(), mode = (uint32_t)number();
    bytes from = input();
    ptrdiff_t result = ufmt_convert(written.at, written.size, text_class, mode, from.at, from.size, place(&detail));
    print(result, detail, written);
    free(from.at);
}

static void call_is_text(void) {
    uint32_t text_class = (uint32_t)number(), mode = (uint32_t)number();
    bytes from = input();
    print(ufmt_is_text(text_class, mode, from.at, from.size), DETAIL, (bytes){NULL, 0});
    free(from.at);
}

static void call_field(void) {
    size_t detail = DETAIL;
    uint32_t text_class = (uint32_t)number();
    bytes line = input(), name = input();
    ptrdiff_t result = ufmt_field(text_class, line.at, line.size, name.at, name.size, place(&detail));
    print(result, detail, (bytes){NULL, 0});
    free(line.at);
    free(name.at);
}

static void call_parse(const char *name) {
    size_t detail = DETAIL;
    bytes left = room(8), from = input();
    memset(left.at, FILL, left.size);
    void *at = left.at;
    ptrdiff_t result;
    if (!strcmp(name, "parse_float")) {
        result = ufmt_parse_float(at, from.at, from.size, place(&detail));
    } else {
        result = strcmp(name, "parse_signed") ? ufmt_parse_unsigned(at, from.at, from.size, place(&detail))
                                              : ufmt_parse_signed(at, from.at, from.size, place(&detail));
    }
    print(result, detail, left);
    free(from.at);
}

static void call_number(const char *name) {
    size_t detail = DETAIL;
    bytes to = buffer();
    ptrdiff_t result;
    if (!strcmp(name, "unsigned")) {
        result = ufmt_unsigned(to.at, to.size, number(), place(&detail));
    } else if (!strcmp(name, "float")) {
        result = ufmt_float(to.at, to.size, float_of(number()), place(&detail));
    } else if (!strcmp(name, "float_fixed")) {
        double value = float_of(number());
        result = ufmt_float_fixed(to.at, to.size, value, number(), place(&detail));
    } else if (!strcmp(name, "signed")) {
        result = ufmt_signed(to.at, to.size, strtoll(word(), NULL, 10), place(&detail));
    } else {
        uint64_t value = number();
        ufmt_hex_style style = UFMT_HEX_STYLE_INIT;
        style.struct_size = number();
        style.width = number();
        style.pad = (uint8_t)number();
        style.upper_case = number();
        style.prefix = number();
        result = (*name == 'b' ? ufmt_binary : ufmt_hexadecimal)(to.at, to.size, value, &style, place(&detail));
    }
    print(result, detail, to);
}

static void call_styled(const char *name) {
    size_t detail = DETAIL;
    bytes to = buffer(), from = input();
    ptrdiff_t result;
    if (!strcmp(name, "dump")) {
        ufmt_dump_style style = UFMT_DUMP_STYLE_INIT;
        style.struct_size = number();
        style.per_row = number();
        style.group = number();
        style.first = (uint32_t)number();
        style.has_offsets = number();
        style.has_text = number();
        result = ufmt_dump(to.at, to.size, from.at, from.size, &style, place(&detail));
    } else {
        ufmt_column_style style = UFMT_COLUMN_STYLE_INIT;
        style.struct_size = number();
        style.width = number();
        style.fill = (uint32_t)number();
        style.align = (uint8_t)number();
        result = ufmt_in_column(to.at, to.size, from.at, from.size, &style, place(&detail));
    }
    print(result, detail, to);
    free(from.at);
}

static void call_on_two(const char *name) {
    size_t detail = DETAIL;
    bool writes = !strcmp(name, "difference");
    bytes to = writes ? buffer() : (bytes){NULL, 0};
    bytes given = input(), stored = input();
    ptrdiff_t result = writes ? ufmt_difference(to.at, to.size, given.at, given.size, stored.at, stored.size, place(&detail))
                              : ufmt_first_difference(given.at, given.size, stored.at, stored.size, place(&detail));
    print(result, detail, to);
    free(given.at);
    free(stored.at);
}

static void call(const char *name) {
    if (!strcmp(name, "convert")) {
        call_convert();
    } else if (!strcmp(name, "quote") || !strcmp(name, "unquote") || !strcmp(name, "unquote_debug")) {
        call_on_bytes(name);
    } else if (!strcmp(name, "is_text")) {
        call_is_text();
    } else if (!strcmp(name, "field")) {
        call_field();
    } else if (!strcmp(name, "version")) {
        print(ufmt_version(), DETAIL, (bytes){NULL, 0});
    } else if (!strcmp(name, "parse_unsigned") || !strcmp(name, "parse_signed") || !strcmp(name, "parse_float")) {
        call_parse(name);
    } else if (!strcmp(name, "unsigned") || !strcmp(name, "signed") || !strcmp(name, "float") || !strcmp(name, "float_fixed") ||
               !strcmp(name, "hexadecimal") || !strcmp(name, "binary")) {
        call_number(name);
    } else if (!strcmp(name, "dump") || !strcmp(name, "in_column")) {
        call_styled(name);
    } else if (!strcmp(name, "difference") || !strcmp(name, "first_difference")) {
        call_on_two(name);
    } else {
        fprintf(stderr, "no such call: %s\n", name);
        exit(2);
    }
}

int main(int count, char **words) {
    char *line = NULL;
    size_t size = 0;
    is_unset = count > 1 && !strcmp(words[1], "unset");
    is_null = count > 1 && !strcmp(words[1], "null");
    while (getline(&line, &size, stdin) > 0) {
        call(strtok(line, " \n"));
    }
    free(line);
    return 0;
}
