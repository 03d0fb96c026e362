/* Nanoseconds that the archive takes for a scan, as the least mean of three rounds over the lines of standard input, in
 * the order of the table of questions: its number; that and its place by two calls; both and the count by one; its values.
 * bench/src/bin/speed.rs does the same with the second program, which gives number and place in one call, and with the
 * peer. */
#define _POSIX_C_SOURCE 200809L
#include "appleounce.h"

#include <stdio.h>
#include <stdlib.h>
#include <time.h>

#define ROUNDS 3
#define ROUND 5e7 /* nanoseconds, at least */
#define TURN 1000 /* scans, at least, between two looks at the clock */

struct scan {
    uint8_t *bytes;
    size_t length;
};

static volatile size_t sum; /* so that no call is left out */

static double now(void)
{
    struct timespec t;

    clock_gettime(CLOCK_MONOTONIC, &t);
    return 1e9 * (double)t.tv_sec + (double)t.tv_nsec;
}

static void refusal(const struct scan *scan)
{
    sum += appleounce_refusal(scan->bytes, scan->length);
}

static void both(const struct scan *scan)
{
    refusal(scan);
    sum += appleounce_place(scan->bytes, scan->length);
}

static void judge(const struct scan *scan)
{
    appleounce_verdict verdict = appleounce_judge(scan->bytes, scan->length);

    sum += verdict.number + verdict.place + verdict.count;
}

static void read_values(const struct scan *scan)
{
    appleounce_reading reading = appleounce_read(scan->bytes, scan->length);

    sum += reading.number + reading.message.count;
}

static void (*const questions[])(const struct scan *scan) = {refusal, both, judge, read_values};

static double mean_of_round(const struct scan *scans, size_t count, void (*ask)(const struct scan *scan))
{
    double start = now(), took;
    size_t done = 0, turn, i;

    do {
        for (turn = done + TURN; done < turn; done += count)
            for (i = 0; i < count; i++)
                ask(&scans[i]);
        took = now() - start;
    } while (took < ROUND);
    return took / (double)done;
}

static double least_of_rounds(const struct scan *scans, size_t count, void (*ask)(const struct scan *scan))
{
    double least = 1e18, mean;
    int round;

    for (round = 0; round < ROUNDS; round++) {
        mean = mean_of_round(scans, count, ask);
        least = mean < least ? mean : least;
    }
    return least;
}

int main(void)
{
    struct scan *scans = NULL;
    char *line = NULL;
    size_t count = 0, room = 0, i;
    ssize_t got;

    for (; (got = getline(&line, &room, stdin)) > 0; line = NULL, room = 0) {
        scans = realloc(scans, (count + 1) * sizeof *scans);
        if (scans == NULL)
            return 2;
        scans[count].bytes = (uint8_t *)line;
        scans[count++].length = (size_t)got - 1;
    }
    if (count == 0)
        return 2;
    for (i = 0; i < sizeof questions / sizeof questions[0]; i++)
        printf("%.1f\n", least_of_rounds(scans, count, questions[i]));
    return 0;
}
