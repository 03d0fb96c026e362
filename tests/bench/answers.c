/* The archive's three answers to scans in hexadecimal digits, one on each line, so that a scan may have any bytes.
 * Prints what `second answers` does: the line's number, refusal number, place, the check character of all the bytes as
 * a number, and that of the 13 after the first, where a donation label has its donation number. */
#define _POSIX_C_SOURCE 200809L
#include "appleounce.h"

#include <stdio.h>
#include <stdlib.h>
#include <sys/types.h>

static unsigned worth(char digit)
{
    return digit <= '9' ? (unsigned)(digit - '0') : (unsigned)(digit - 'a' + 10);
}

/* Puts the bytes over the front of their digits. */
static size_t decode(char *digits, size_t count)
{
    uint8_t *bytes = (uint8_t *)digits;
    size_t i;

    for (i = 0; i < count / 2; i++)
        bytes[i] = (uint8_t)(16 * worth(digits[2 * i]) + worth(digits[2 * i + 1]));
    return count / 2;
}

int main(void)
{
    char *line = NULL;
    size_t room = 0;
    unsigned long number = 0;
    ssize_t got;

    while ((got = getline(&line, &room, stdin)) > 0) {
        const uint8_t *scan = (const uint8_t *)line;
        size_t length = decode(line, (size_t)got - 1);
        size_t within = length < 14 ? 0 : 13;

        printf("%lu %d %zu %d %d\n", ++number, appleounce_refusal(scan, length), appleounce_place(scan, length),
            appleounce_check(scan, length), appleounce_check(scan + 1, within));
    }
    free(line);
    return ferror(stdin) || fflush(stdout) != 0;
}
