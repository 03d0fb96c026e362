/* Nanoseconds for a look-up that passes 10,000 records, as the least mean of five rounds: the unit is not there, and
 * every record is in use and differs from it in the sequence number alone. */
#define _POSIX_C_SOURCE 200809L
#include "appleounce.h"

#include <stdio.h>
#include <time.h>

#define RECORDS 10000
#define ROUNDS 5
#define ROUND 5e7 /* nanoseconds, at least */

static appleounce_record list[RECORDS];
static volatile size_t sum; /* so that no call is left out */

static double now(void)
{
    struct timespec t;

    clock_gettime(CLOCK_MONOTONIC, &t);
    return 1e9 * (double)t.tv_sec + (double)t.tv_nsec;
}

static double mean_of_round(appleounce_unit unit)
{
    double start = now(), took;
    size_t done = 0;

    do {
        sum += appleounce_shelf_look_up(list, RECORDS, unit.donation, unit.product).number;
        done++;
        took = now() - start;
    } while (took < ROUND);
    return took / (double)done;
}

int main(void)
{
    appleounce_unit unit = {{0, 21, 'W', 24}, {'E', '0', '1', '7', '8', 'V', '0', '0'}, {2026, 1, 0, 0, 0}};
    double least = 1e18, mean;
    uint32_t i;

    for (i = 0; i < RECORDS; i++) {
        list[i].unit = unit;
        list[i].unit.donation.sequence = i + 1;
        list[i].used = 1;
    }
    for (i = 0; i < ROUNDS; i++) {
        mean = mean_of_round(unit);
        least = mean < least ? mean : least;
    }
    printf("%.1f %d\n", least, RECORDS);
    return 0;
}
