/* How much stack a call takes: a thread whose stack was painted makes it once, and the paint that is left tells. */
#define _DEFAULT_SOURCE
#include "../expect.h"
#include "../fence.h"
#include "appleounce.h"
#include "scans.h"

#include <pthread.h>

enum { STACK = 1 << 17, MOST = 12 << 10, PAINT = 0x5a };

static uint8_t buffer[512];
static appleounce_reading longest;

static void nothing(void)
{
}

static void judge(void)
{
    buffer[0] = appleounce_judge((const uint8_t *)LONGEST, sizeof LONGEST - 1).number;
}

static void read_values(void)
{
    longest = appleounce_read((const uint8_t *)LONGEST, sizeof LONGEST - 1);
}

static void write_values(void)
{
    buffer[0] = appleounce_write(longest.message, buffer, sizeof buffer).number;
}

static void export_values(void)
{
    buffer[511] = appleounce_export(longest.message, buffer, sizeof buffer).number;
}

static void import_values(void)
{
    longest = appleounce_import(buffer, 344);
}

static void extract(void)
{
    buffer[0] = appleounce_extract((const uint8_t *)LONGEST, sizeof LONGEST - 1, buffer, sizeof buffer).number;
}

static void keyboard(void)
{
    buffer[0] = appleounce_keyboard((const uint8_t *)"W000021123456A", 14).number;
}

/* In this order: what is exported is what was read, and what is imported is what was exported. */
static const struct {
    const char *name;
    void (*call)(void);
} calls[] = {
    {"judge", judge}, {"read", read_values}, {"write", write_values}, {"export", export_values},
    {"import", import_values}, {"extract", extract}, {"keyboard", keyboard},
};

static void *made(void *call)
{
    (*(void (*const *)(void))call)();
    return NULL;
}

/* The bytes from the last one on that the call, or the thread itself, wrote to. */
static size_t taken(void (*call)(void))
{
    struct fenced stack = fence_room(STACK, 1);
    pthread_attr_t attributes;
    pthread_t thread;
    size_t left = 0;

    memset(stack.bytes, PAINT, STACK);
    if (pthread_attr_init(&attributes) != 0 || pthread_attr_setstack(&attributes, stack.bytes, STACK) != 0
        || pthread_create(&thread, &attributes, made, &call) != 0 || pthread_join(thread, NULL) != 0)
        ensure(NULL);
    while (left < STACK && stack.bytes[left] == PAINT)
        left++;
    unfence(stack);
    return STACK - left;
}

int main(void)
{
    size_t own = taken(nothing), i;

    for (i = 0; i < COUNT(calls); i++) {
        size_t took = taken(calls[i].call) - own;

        printf("%s: %u bytes of stack\n", calls[i].name, (unsigned)took);
        expect_of(took <= MOST, "more stack than the header says for", calls[i].name);
    }
    expect(longest.number == APPLEOUNCE_ACCEPTED && longest.message.count == 16, "the calls were made");
    return told();
}
