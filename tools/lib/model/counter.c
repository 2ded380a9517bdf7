/* Counts what a program takes: a library that is put before it by LD_PRELOAD, in place of the C library's calls.
 *
 * An allocation of MARK bytes is a mark of probe_model: a call begins, it ended and its result is held, or the result
 * was dropped. No memory is given for a mark. At the third one a line of counts is written to the file that COUNTS names.
 * A program without marks gets a line when it ends.
 * With COUNTS_REFUSE=N the Nth allocation or growth of each call is refused. With COUNTS_REFUSE_OF=run it is the Nth of the whole run,
 * in a program without marks. Then each block is filled before the program has it and before it is freed, and moves when it grows: a read
 * of memory that isn't written yet, or is freed, finds other bytes. A program that wrote past the end of a block is ended when it frees
 * that. With COUNTS_READ=N a read takes at most N bytes, with COUNTS_WRITE=N a write.
 *
 * In a line are, in order: allocations, bytes, growths, bytes held at the second mark, most bytes held at once, blocks
 * that were never freed, reads, writes, nanoseconds of the processor. callgrind is asked for the steps from counts_begin to counts_end.
 */
#define _GNU_SOURCE
#include <dlfcn.h>
#include <errno.h>
#include <fcntl.h>
#include <stdint.h>
#include <stdio.h>
#include <stdlib.h>
#include <string.h>
#include <time.h>
#include <unistd.h>

#define MARK ((size_t)1 << 62)
/* Where the whole run is one call: what memory is filled with, and how many bytes after each block are filled too. */
#define FRESH 0xa5
#define FREED 0x5a
#define AFTER 16

/* These are the C library's own. */
void *__libc_malloc(size_t);
void *__libc_realloc(void *, size_t);
void *__libc_memalign(size_t, size_t);
void __libc_free(void *);

struct counts {
    uint64_t allocations, bytes, growths, frees, reads, writes;
    int64_t held, held_at_end, most, began;
};

/* What is before each block: how many bytes were asked for, and how many are before the block. */
struct header {
    size_t size, offset;
};

static struct counts counts;
static ssize_t (*real_read)(int, void *, size_t);
static ssize_t (*real_write)(int, const void *, size_t);
static int file = -1;
/* Which allocation of a call is refused, 0 for none; how many it asked for so far; whether it hasn't ended; whether the whole run is
 * that call. */
static uint64_t refused, asked;
static int is_in_call, is_of_run;
/* How many bytes a read or a write takes at most. */
static size_t most_read = SIZE_MAX, most_written = SIZE_MAX;
static int64_t nanoseconds(void) {
    struct timespec now;
    clock_gettime(CLOCK_PROCESS_CPUTIME_ID, &now);
    return (int64_t)now.tv_sec * 1000000000 + now.tv_nsec;
}

__attribute__((noinline)) void counts_begin(void) {
    memset(&counts, 0, sizeof counts);
    counts.began = nanoseconds();
    __asm__ volatile("");
}

__attribute__((noinline)) void counts_end(void) {
    __asm__ volatile("");
}

static void write_line(void) {
    char line[256];
    int length = snprintf(line, sizeof line, "%llu %llu %llu %lld %lld %lld %llu %llu %lld\n",
        (unsigned long long)counts.allocations, (unsigned long long)counts.bytes, (unsigned long long)counts.growths,
        (long long)counts.held_at_end, (long long)counts.most, (long long)(counts.allocations - counts.frees),
        (unsigned long long)counts.reads, (unsigned long long)counts.writes, (long long)(nanoseconds() - counts.began));
    if (file >= 0 && real_write(file, line, length) != length)
        _exit(99);
}

__attribute__((constructor)) static void start(void) {
    const char *name = getenv("COUNTS");
    real_read = (ssize_t(*)(int, void *, size_t))dlsym(RTLD_NEXT, "read");
    real_write = (ssize_t(*)(int, const void *, size_t))dlsym(RTLD_NEXT, "write");
    if (name)
        file = open(name, O_WRONLY | O_CREAT | O_APPEND | O_CLOEXEC, 0644);
    const char *which = getenv("COUNTS_REFUSE");
    const char *refused_of = getenv("COUNTS_REFUSE_OF");
    const char *most = getenv("COUNTS_READ");
    const char *written = getenv("COUNTS_WRITE");
    refused = which ? strtoull(which, NULL, 10) : 0;
    is_in_call = is_of_run = refused_of && strcmp(refused_of, "run") == 0;
    if (most)
        most_read = strtoull(most, NULL, 10);
    if (written)
        most_written = strtoull(written, NULL, 10);
    counts_begin();
}

__attribute__((destructor)) static void finish(void) {
    counts_end();
    counts.held_at_end = counts.held;
    write_line();
}

static void hold(int64_t bytes) {
    counts.held += bytes;
    if (counts.held > counts.most)
        counts.most = counts.held;
}

static void note_mark(size_t number) {
    if (number < 2) {
        is_in_call = number == 0;
        asked = 0;
    }
    if (number == 0)
        counts_begin();
    else if (number == 1)
        counts.held_at_end = counts.held;
    else if (number == 2) {
        counts_end();
        write_line();
        counts_begin();
    }
}

static int is_refused(void) {
    return is_in_call && ++asked == refused;
}

static void *with_header(char *base, size_t offset, size_t size) {
    if (!base)
        return NULL;
    struct header *header = (struct header *)(base + offset) - 1;
    header->size = size;
    header->offset = offset;
    if (is_of_run)
        memset(base + offset, FRESH, size + AFTER);
    counts.allocations++;
    counts.bytes += size;
    hold(size);
    return base + offset;
}

static size_t bytes_after(void) {
    return is_of_run ? AFTER : 0;
}

/* Fills a block that is freed, if no byte after it was written. */
static void fill_freed(unsigned char *block, size_t size) {
    for (size_t at = size; at < size + AFTER; at++)
        if (block[at] != FRESH)
            abort();
    memset(block, FREED, size);
}

void *malloc(size_t size) {
    if (size >= MARK) {
        note_mark(size - MARK);
        errno = ENOMEM;
        return NULL;
    }
    if (is_refused())
        return NULL;
    return with_header(__libc_malloc(size + sizeof(struct header) + bytes_after()), sizeof(struct header), size);
}

void free(void *block) {
    if (!block)
        return;
    struct header *header = (struct header *)block - 1;
    if (is_of_run)
        fill_freed(block, header->size);
    counts.frees++;
    hold(-(int64_t)header->size);
    __libc_free((char *)block - header->offset);
}

void *memalign(size_t alignment, size_t size) {
    if (is_refused())
        return NULL;
    size_t offset = alignment < sizeof(struct header) ? sizeof(struct header) : alignment;
    return with_header(__libc_memalign(offset, size + offset + bytes_after()), offset, size);
}

void *aligned_alloc(size_t alignment, size_t size) {
    return memalign(alignment, size);
}

int posix_memalign(void **block, size_t alignment, size_t size) {
    *block = memalign(alignment, size);
    return *block ? 0 : ENOMEM;
}

void *calloc(size_t count, size_t size) {
    size_t bytes;
    if (__builtin_mul_overflow(count, size, &bytes))
        return NULL;
    void *block = malloc(bytes);
    return block ? memset(block, 0, bytes) : NULL;
}

void *realloc(void *block, size_t size) {
    if (!block)
        return malloc(size);
    struct header *header = (struct header *)block - 1;
    size_t old = header->size;
    /* Blocks of another alignment aren't grown in place. */
    if (is_of_run || header->offset != sizeof(struct header)) {
        void *next = memalign(header->offset, size);
        if (next) {
            memcpy(next, block, old < size ? old : size);
            free(block);
        }
        return next;
    }
    if (is_refused())
        return NULL;
    header = __libc_realloc(header, size + sizeof(struct header));
    if (!header)
        return NULL;
    header->size = size;
    counts.growths++;
    counts.bytes += size;
    hold((int64_t)size - (int64_t)old);
    return header + 1;
}

ssize_t read(int device, void *bytes, size_t count) {
    counts.reads++;
    return real_read(device, bytes, count < most_read ? count : most_read);
}

ssize_t write(int device, const void *bytes, size_t count) {
    counts.writes++;
    count = count < most_written ? count : most_written;
    return real_write(device, bytes, count);
}
