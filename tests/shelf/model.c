/* Long random sequences of calls on lists of 0 to 40 records, beside a list written the plain way, and, where no unit
 * stood twice at first, beside a plain set that holds as many. */
#include "appleounce.h"

#include <stdio.h>
#include <string.h>

#define RECORDS 40
#define UNITS 48
#define ROUNDS 400
#define CALLS 300

static uint32_t state = 2463534242u;
static long passed;

static uint32_t below(uint32_t limit)
{
    state ^= state << 13;
    state ^= state >> 17;
    state ^= state << 5;
    return state % limit;
}

/* One of UNITS units, of which the last three are none that a reading gives; neighbours differ in one part alone. */
static appleounce_unit unit_of(unsigned number)
{
    appleounce_unit unit;

    memset(&unit, 0, sizeof unit);
    unit.donation.sequence = 7 + (number & 1) * 65536;
    unit.donation.facility = number & 2 ? 256 : 1;
    unit.donation.first = number < UNITS - 3 ? (number & 4 ? 'A' : '1') : 'O';
    unit.donation.year = number & 8 ? 21 : 22;
    memcpy(&unit.product, number & 16 ? "E0178V00" : "E0178VA0", 8);
    unit.product.o3 = number & 32 ? '8' : '9';
    unit.expiry.year = (uint16_t)(2024 + below(3));
    unit.expiry.day = (uint16_t)(1 + below(365));
    unit.expiry.timed = (uint8_t)below(2);
    unit.expiry.hour = unit.expiry.timed ? (uint8_t)below(24) : 0;
    return unit;
}

static int one_unit(const appleounce_unit *x, const appleounce_unit *y)
{
    return memcmp(&x->donation, &y->donation, 8) == 0 && memcmp(&x->product, &y->product, 8) == 0;
}

/* The index of the first record that holds the unit, or of the first free one where there is no unit; count for none. */
static size_t find(const appleounce_record *list, size_t count, const appleounce_unit *unit)
{
    size_t i;

    for (i = 0; i < count; i++)
        if (unit == NULL ? list[i].used == 0 : list[i].used != 0 && one_unit(&list[i].unit, unit))
            return i;
    return count;
}

static appleounce_shelf_answer answer(size_t place, unsigned number)
{
    appleounce_shelf_answer a;

    a.place = number == 0 ? place : 0;
    a.number = (uint8_t)number;
    return a;
}

/* What a call does to the model of the list; a call is 0 enter, 1 look up, 2 remove. */
static appleounce_shelf_answer modelled(appleounce_record *list, size_t count, int call, unsigned which, appleounce_unit unit)
{
    size_t at = find(list, count, &unit), free_at = find(list, count, NULL);

    if (call != 0) {
        if (at < count && call == 2)
            memset(&list[at], 0, sizeof list[at]);
        return answer(at, at < count ? 0 : APPLEOUNCE_ABSENT);
    }
    if (which >= UNITS - 3)
        return answer(0, APPLEOUNCE_FIELD);
    if (at < count)
        return answer(0, APPLEOUNCE_ALREADY);
    if (free_at == count)
        return answer(0, APPLEOUNCE_FULL);
    list[free_at].unit = unit;
    list[free_at].used = 1;
    return answer(free_at, 0);
}

/* A plain set of units by number, and what it answers to a call. */
struct set {
    int has[UNITS];
    size_t size;
};

static unsigned of_set(struct set *set, size_t count, int call, unsigned which)
{
    if (call == 0) {
        if (which >= UNITS - 3)
            return APPLEOUNCE_FIELD;
        if (set->has[which])
            return APPLEOUNCE_ALREADY;
        if (set->size == count)
            return APPLEOUNCE_FULL;
        set->has[which] = 1;
        set->size++;
        return 0;
    }
    if (!set->has[which])
        return APPLEOUNCE_ABSENT;
    if (call == 2) {
        set->has[which] = 0;
        set->size--;
    }
    return 0;
}

static appleounce_shelf_answer asked(appleounce_record *list, size_t count, int call, appleounce_unit unit)
{
    if (call == 0)
        return appleounce_shelf_enter(list, count, unit);
    if (call == 1)
        return appleounce_shelf_look_up(list, count, unit.donation, unit.product);
    return appleounce_shelf_remove(list, count, unit.donation, unit.product);
}

static int alike(const appleounce_record *x, const appleounce_record *y, size_t count)
{
    size_t i;

    for (i = 0; i < count; i++)
        if (!one_unit(&x[i].unit, &y[i].unit) || memcmp(&x[i].unit.expiry, &y[i].unit.expiry, 7) != 0
            || x[i].used != y[i].used)
            return 0;
    return 1;
}

/* A list of the host's making: units, some twice unless each is to stand once, free records that keep a unit. */
static void fill(appleounce_record *list, size_t count, struct set *set, int once)
{
    size_t i;

    memset(list, 0, RECORDS * sizeof *list);
    memset(set, 0, sizeof *set);
    for (i = 0; i < count; i++) {
        unsigned which = below(UNITS);

        list[i].unit = unit_of(which);
        list[i].used = (uint8_t)(below(2) * (1 + below(255)));
        if (list[i].used != 0 && set->has[which] && once)
            list[i].used = 0;
        set->size += list[i].used != 0;
        set->has[which] |= list[i].used != 0;
    }
}

static int run(size_t count, int once)
{
    appleounce_record list[RECORDS], model[RECORDS];
    struct set set;
    int turn;

    fill(list, count, &set, once);
    memcpy(model, list, sizeof list);
    for (turn = 0; turn < CALLS; turn++) {
        int call = (int)below(3);
        unsigned which = below(UNITS);
        appleounce_unit unit = unit_of(which);
        appleounce_shelf_answer got = asked(list, count, call, unit), due = modelled(model, count, call, which, unit);

        if (got.place != due.place || got.number != due.number || !alike(list, model, count))
            return 0;
        if (once && got.number != of_set(&set, count, call, which))
            return 0;
    }
    passed += once ? 2 : 1; /* beside the list, and beside the set */
    return 1;
}

int main(void)
{
    int round;

    for (round = 0; round < ROUNDS; round++)
        if (!run(below(RECORDS + 1), round % 2)) {
            printf("round %d: another answer or another list\n0 passed, 1 failed\n", round);
            return 1;
        }
    printf("%ld passed, 0 failed\n", passed);
    return 0;
}
