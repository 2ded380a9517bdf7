/* Calls each function of ufmt.h with string literals, and with no detail, as C and as C++: without a warning. It ends with 0
 * if each does what the header says. */
#include <string.h>

#include "ufmt.h"
/* Once more, as a file does that includes two headers over this one. */
#include "ufmt.h"

static char buffer[256];

static int wrote(ptrdiff_t length, const char *text) {
    return length == (ptrdiff_t)strlen(text) && !memcmp(buffer, text, strlen(text));
}

static int numbers(void) {
    ufmt_hex_style style = UFMT_HEX_STYLE_INIT;
    uint64_t natural = 7;
    int64_t integer = 7;
    double real = 7;
    int right = wrote(ufmt_hexadecimal(buffer, sizeof buffer, 255, &style, NULL), "ff");
    style.width = 6;
    style.prefix = true;
    right = right && wrote(ufmt_binary(buffer, sizeof buffer, 5, &style, NULL), " 0b101");
    right = right && wrote(ufmt_unsigned(buffer, sizeof buffer, 12, NULL), "12") && wrote(ufmt_signed(buffer, sizeof buffer, -12, NULL), "-12");
    right = right && !ufmt_parse_unsigned(&natural, "12", 2, NULL) && !ufmt_parse_signed(&integer, "-12", 3, NULL);
    right = right && wrote(ufmt_float(buffer, sizeof buffer, 1.5, NULL), "1.5") && !ufmt_parse_float(&real, "-0.25", 5, NULL);
    right = right && wrote(ufmt_float_fixed(buffer, sizeof buffer, 2.675, 2, NULL), "2.67");
    return right && natural == 12 && integer == -12 && real < -0.2 && real > -0.3 && ufmt_parse_unsigned(&natural, "x", 1, NULL) == UFMT_NO_TEXT && natural == 12;
}

static int padded(void) {
    ufmt_dump_style rows = UFMT_DUMP_STYLE_INIT;
    ufmt_column_style column = UFMT_COLUMN_STYLE_INIT;
    rows.group = 1;
    rows.has_text = true;
    column.width = 4;
    column.align = UFMT_RIGHT;
    return wrote(ufmt_dump(buffer, 6, "ab", 2, &rows, NULL), "") + 1 && ufmt_dump(buffer, 6, "ab", 2, &rows, NULL) == UFMT_FULL && !memcmp(buffer, "61 62 ", 6) &&
           wrote(ufmt_in_column(buffer, sizeof buffer, "ab", 2, &column, NULL), "  ab");
}

static int differences(void) {
    return ufmt_first_difference("a\nb", 3, "a", 1, NULL) == 2 &&
           wrote(ufmt_difference(buffer, sizeof buffer, "a\nb", 3, "a", 1, NULL), "line 2 differs\n given: \"b\"\nstored: none");
}

int main(void) {
    int texts = ufmt_is_text(UFMT_DEBUG, UFMT_PLAIN, "[1.5]", 5) && !ufmt_is_text(UFMT_TOKEN, UFMT_PLAIN, "[1.5]", 5) &&
                wrote(ufmt_convert(buffer, sizeof buffer, UFMT_TOKEN, UFMT_PRETTY, "[1]", 3, NULL), "[\n    1,\n]");
    int quotes = wrote(ufmt_quote(buffer, sizeof buffer, "a\n", 2, NULL), "\"a\\n\"") && wrote(ufmt_unquote(buffer, sizeof buffer, "\"a\\n\"", 5, NULL), "a\n");
    int fields = ufmt_field(UFMT_DEBUG, "got P { x: 1.5 }", 16, "x", 1, NULL) == 3 && ufmt_field(UFMT_DEBUG, "got P { x: 1.5 }", 16, "y", 1, NULL) == UFMT_NO_TEXT;
    return texts && fields && quotes && numbers() && padded() && differences() && ufmt_version() == UFMT_VERSION ? 0 : 1;
}
