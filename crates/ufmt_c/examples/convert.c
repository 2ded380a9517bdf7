/* Prints a value's plain text as pretty text: convert '[Pair { x: 1, y: -2 }]' */
#include <stdio.h>
#include <string.h>

#include "ufmt.h"

int main(int count, char **words) {
    if (count != 2) {
        return 2;
    }
    char buffer[256];
    size_t detail = 0;
    ptrdiff_t length = ufmt_convert(buffer, sizeof buffer, UFMT_TOKEN, UFMT_PRETTY, words[1], strlen(words[1]), &detail);
    if (length == UFMT_FULL) {
        fprintf(stderr, "a buffer of %zu bytes will do\n", detail);
        return 1;
    }
    if (length < 0) {
        fprintf(stderr, "not a text from byte %zu on\n", detail);
        return 1;
    }
    printf("%.*s\n", (int)length, buffer);
    return 0;
}
