/* Memory for the tests of the archive: blocks that are given away after a call, and fenced pages. The sanitizers watch
 * the tests; the archive has no instrumented code, so pages that cannot be touched watch that. In C and in C++. A file
 * that includes this first defines _DEFAULT_SOURCE. */
#ifndef FENCE_H
#define FENCE_H

#include <stdint.h>
#include <stdio.h>
#include <stdlib.h>
#include <string.h>
#include <sys/mman.h>
#include <unistd.h>

static inline void *ensure(void *memory)
{
    if (memory == NULL || memory == MAP_FAILED) {
        perror("no memory");
        exit(2);
    }
    return memory;
}

/* A heap block of just these bytes. */
static inline uint8_t *block(const void *text, size_t length)
{
    return (uint8_t *)memcpy(ensure(malloc(length)), text, length);
}

/* The same of one byte so many times. */
static inline uint8_t *filled(int byte, size_t length)
{
    return (uint8_t *)memset(ensure(malloc(length)), byte, length);
}

/* Called through this, as a compiler leaves out what it sees written before a free. */
static void *(*const volatile overwrite)(void *, int, size_t) = memset;

/* What the terminal does with a block after a call: other bytes, then another owner. */
static inline void give_away(uint8_t *bytes, size_t length)
{
    overwrite(bytes, 'x', length);
    free(bytes);
}

/* Bytes as the first or the last of pages between two that cannot be touched: a call that reads or writes outside of
 * them, or comes back to them after they are unmapped, ends the program. */
struct fenced {
    uint8_t *pages;
    size_t whole;
    uint8_t *bytes;
};

static inline struct fenced fence_room(size_t length, int first)
{
    size_t page = (size_t)sysconf(_SC_PAGESIZE);
    size_t room = (length / page + 1) * page;
    struct fenced f;

    f.whole = room + 2 * page;
    f.pages = (uint8_t *)ensure(mmap(NULL, f.whole, PROT_NONE, MAP_PRIVATE | MAP_ANONYMOUS, -1, 0));
    f.bytes = first ? f.pages + page : f.pages + page + room - length;
    if (mprotect(f.pages + page, room, PROT_READ | PROT_WRITE) != 0)
        ensure(NULL);
    return f;
}

/* From now on the bytes cannot be written. */
static inline void seal(struct fenced f)
{
    size_t page = (size_t)sysconf(_SC_PAGESIZE);

    if (mprotect(f.pages + page, f.whole - 2 * page, PROT_READ) != 0)
        ensure(NULL);
}

/* The same with these bytes, sealed. */
static inline struct fenced fence(const void *text, size_t length, int first)
{
    struct fenced f = fence_room(length, first);

    memcpy(f.bytes, text, length);
    seal(f);
    return f;
}

static inline void unfence(struct fenced f)
{
    munmap(f.pages, f.whole);
}

/* Whether each of these bytes is this one. */
static inline int all_are(const uint8_t *bytes, size_t length, int byte)
{
    size_t i = 0;

    while (i < length && bytes[i] == byte)
        i++;
    return i == length;
}

#endif
