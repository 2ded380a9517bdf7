/* What a program without a C library needs: one copy of each, as small as it can be. */
typedef unsigned long size;

__attribute__((noinline)) void *memmove(void *to, const void *from, size count) {
    char *target = to;
    const char *source = from;
    if (target < source)
        while (count--) *target++ = *source++;
    else
        while (count--) target[count] = source[count];
    return to;
}

__attribute__((noinline)) void *memcpy(void *to, const void *from, size count) {
    char *target = to;
    const char *source = from;
    while (count--) *target++ = *source++;
    return to;
}

__attribute__((noinline)) void *memset(void *to, int byte, size count) {
    char *target = to;
    while (count--) *target++ = (char)byte;
    return to;
}

int memcmp(const void *left, const void *right, size count) {
    const unsigned char *a = left, *b = right;
    for (; count--; a++, b++)
        if (*a != *b) return *a - *b;
    return 0;
}

int bcmp(const void *left, const void *right, size count) { return memcmp(left, right, count); }
