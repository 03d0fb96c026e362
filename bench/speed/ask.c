/* ask QUESTION TIMES: has the archive answer a question about each line of standard input, so many times over.
 * bench/speed/count counts what that takes. */
#define _POSIX_C_SOURCE 200809L
#include "appleounce.h"

#include <stdio.h>
#include <stdlib.h>
#include <string.h>

enum { SCANS = 4096 };

static volatile size_t sum; /* so that no call is left out */

/* What the loop and a call take by themselves. */
static void nothing(const uint8_t *scan, size_t length)
{
    (void)scan;
    sum += length;
}

static void refusal(const uint8_t *scan, size_t length)
{
    sum += appleounce_refusal(scan, length);
}

static void place(const uint8_t *scan, size_t length)
{
    sum += appleounce_place(scan, length);
}

static void check(const uint8_t *scan, size_t length)
{
    sum += appleounce_check(scan, length);
}

#ifndef THREE_ANSWERS /* an archive from before the values has these three alone */
static void judge(const uint8_t *scan, size_t length)
{
    appleounce_verdict verdict = appleounce_judge(scan, length);

    sum += verdict.number + verdict.place + verdict.count;
}

static void read_values(const uint8_t *scan, size_t length)
{
    appleounce_reading reading = appleounce_read(scan, length);

    sum += reading.number + reading.message.count;
}

static void read_and_write(const uint8_t *scan, size_t length)
{
    static uint8_t buffer[512];

    sum += appleounce_write(appleounce_read(scan, length).message, buffer, sizeof buffer).place;
}
#endif

static const struct {
    const char *name;
    void (*ask)(const uint8_t *scan, size_t length);
} questions[] = {
    {"nothing", nothing},
    {"refusal", refusal},
    {"place", place},
    {"check", check},
#ifndef THREE_ANSWERS
    {"judge", judge},
    {"read", read_values},
    {"write", read_and_write},
#endif
};

int main(int argc, char **argv)
{
    static char *scans[SCANS];
    static size_t lengths[SCANS];
    size_t question = 0, count = 0, room, i;
    long times = argc == 3 ? atol(argv[2]) : 0;
    ssize_t got;

    while (question < sizeof questions / sizeof questions[0] && (argc != 3 || strcmp(argv[1], questions[question].name)))
        question++;
    if (question == sizeof questions / sizeof questions[0])
        return 2;
    for (room = 0; count < SCANS && (got = getline(&scans[count], &room, stdin)) > 0; room = 0)
        lengths[count++] = (size_t)got - 1;
    for (; times > 0; times--)
        for (i = 0; i < count; i++)
            questions[question].ask((const uint8_t *)scans[i], lengths[i]);
    return 0;
}
