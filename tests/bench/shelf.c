/* The archive's shelf list, asked by what `lines shelf` writes; bench/src/shelf.rs says how. Prints what `second shelf`
 * does. Records are read and shown field by field: the bytes between the fields differ, and must not matter. */
#include "appleounce.h"

#include <stdio.h>
#include <string.h>

enum { ASKING = 32, HEAD = 8, SHOWN = 24, MOST = 255 };

static appleounce_record list[MOST];
static size_t count;
static char digits[2 * SHOWN * MOST + 1];

static uint32_t number(const uint8_t **at, int width)
{
    uint32_t all = 0;

    while (width-- > 0)
        all = all << 8 | *(*at)++;
    return all;
}

static appleounce_product product(const uint8_t *at)
{
    appleounce_product p;

    p.letter = at[0];
    p.o0 = at[1];
    p.o1 = at[2];
    p.o2 = at[3];
    p.o3 = at[4];
    p.t = at[5];
    p.d = at[6];
    p.s = at[7];
    return p;
}

static appleounce_record given(const uint8_t *at)
{
    static unsigned between;
    appleounce_record r;

    memset(&r, (int)(between++ & 255), sizeof r);
    r.unit.donation.sequence = number(&at, 4);
    r.unit.donation.facility = (uint16_t)number(&at, 2);
    r.unit.donation.first = *at++;
    r.unit.donation.year = *at++;
    r.unit.product = product(at);
    at += 8;
    r.unit.expiry.year = (uint16_t)number(&at, 2);
    r.unit.expiry.day = (uint16_t)number(&at, 2);
    r.unit.expiry.timed = *at++;
    r.unit.expiry.hour = *at++;
    r.unit.expiry.minute = *at++;
    r.used = *at;
    return r;
}

static char *put(char *to, uint32_t value, int width)
{
    int shift;

    for (shift = 8 * width - 4; shift >= 0; shift -= 4)
        *to++ = "0123456789abcdef"[value >> shift & 15];
    return to;
}

static char *put_product(char *to, appleounce_product p)
{
    to = put(to, p.letter, 1);
    to = put(to, p.o0, 1);
    to = put(to, p.o1, 1);
    to = put(to, p.o2, 1);
    to = put(to, p.o3, 1);
    to = put(to, p.t, 1);
    to = put(to, p.d, 1);
    return put(to, p.s, 1);
}

static char *put_record(char *to, const appleounce_record *r)
{
    to = put(to, r->unit.donation.sequence, 4);
    to = put(to, r->unit.donation.facility, 2);
    to = put(to, r->unit.donation.first, 1);
    to = put(to, r->unit.donation.year, 1);
    to = put_product(to, r->unit.product);
    to = put(to, r->unit.expiry.year, 2);
    to = put(to, r->unit.expiry.day, 2);
    to = put(to, r->unit.expiry.timed, 1);
    to = put(to, r->unit.expiry.hour, 1);
    to = put(to, r->unit.expiry.minute, 1);
    return put(to, r->used, 1);
}

static void show(void)
{
    char *to = digits;
    size_t i;

    for (i = 0; i < count; i++)
        to = put_record(to, &list[i]);
    *to = 0;
    printf("S %s\n", digits);
}

static void call(int asked, const appleounce_unit *unit)
{
    appleounce_record *lent = count ? list : NULL;
    appleounce_shelf_answer answer;

    if (asked == 'E')
        answer = appleounce_shelf_enter(lent, count, *unit);
    else if (asked == 'L')
        answer = appleounce_shelf_look_up(lent, count, unit->donation, unit->product);
    else
        answer = appleounce_shelf_remove(lent, count, unit->donation, unit->product);
    printf("%c %d %zu\n", asked, answer.number, answer.place);
}

static void answer_to(const uint8_t *asked)
{
    appleounce_record r = given(asked + HEAD);

    if (asked[0] == 'N') {
        memset(list, 0, sizeof list);
        count = asked[1];
        printf("N %zu\n", count);
    } else if (asked[0] == 'H' && asked[1] < count) {
        list[asked[1]] = r;
        printf("H %d\n", asked[1]);
    } else if (asked[0] == 'E' || asked[0] == 'L' || asked[0] == 'F')
        call(asked[0], &r.unit);
    else if (asked[0] == 'S')
        show();
    else
        puts("?");
}

int main(void)
{
    uint8_t asked[ASKING];

    while (fread(asked, ASKING, 1, stdin) == 1)
        answer_to(asked);
    return ferror(stdin) || fflush(stdout) != 0;
}
