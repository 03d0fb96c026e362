/* The list of a fridge: reads scans, one to a line, and prints its units with the time that each has left at a moment.
 *
 *     fridge 2026-05-02 13:30 < scans
 *
 * A bag begins with its donation number, and is a unit once product code and expiry are known; its blood groups come
 * between. Each scan is laid into the same block, over the one before it: all that is kept of it are values. */
#include "appleounce.h"

#include <stdio.h>
#include <string.h>

/* The longest message has 327 bytes. Of a longer line one byte more is enough: it is refused at the same place. */
enum { ROOM = 328, UNITS = 100 };

/* The parts of a bag, in the order of the kinds that say them: 1, 2, 3, and 4 or 5. */
enum { NUMBER, GROUPS, PRODUCT, EXPIRY, PARTS };

static uint8_t block[ROOM];
static appleounce_structure bag[PARTS]; /* what is known of the bag in hand: kind is 0 where nothing is */
static appleounce_record shelf[UNITS];  /* all free: used is 0 */
static appleounce_group groups[UNITS];  /* no part of a unit: each stands at the index of the unit's record */

/* Lays the next line into the block; 0 if there is none. */
static int next_scan(size_t *length)
{
    int c;

    for (*length = 0; (c = getchar()) != EOF && c != '\n';)
        if (*length < ROOM)
            block[(*length)++] = (uint8_t)c;
    return c != EOF || (*length > 0 && !ferror(stdin));
}

/* Prints a donation number from its values, as its characters are gone by now, and its check character. */
static void print_number(appleounce_donation donation)
{
    char number[24];

    snprintf(number, sizeof number, "%c%04u%02u%06lu", donation.first, (unsigned)donation.facility,
             (unsigned)donation.year, (unsigned long)donation.sequence);
    printf("%s %c", number, appleounce_check((const uint8_t *)number, 13));
}

/* Puts the bag out of hand, and says so: every bag comes onto the list or is told. */
static void leave_out(const char *why)
{
    if (bag[NUMBER].kind != 0) {
        printf("not entered, %s: ", why);
        print_number(bag[NUMBER].donation);
        putchar('\n');
    }
    memset(bag, 0, sizeof bag);
}

/* Shows the scan with marks below it. It may be a label of another bag, so the one in hand has to be scanned anew. */
static void refuse(const char *why, size_t length, size_t place, size_t marks)
{
    size_t i;

    printf("not taken, %s:\n  ", why);
    for (i = 0; i < length; i++)
        putchar(block[i] >= ' ' && block[i] <= '~' ? block[i] : '.'); /* one column for each byte */
    printf("\n  %*s%.*s\n", (int)place, "", (int)marks, "^^^^^^^^^^^^^^^^^^^^");
    leave_out("unfinished");
}

/* Takes a structure into the bag, by value; 0 if the bag has no donation number yet, or has this part already. */
static int take(const appleounce_structure *structure)
{
    unsigned part = structure->kind - 1u;

    if (structure->kind == 5)
        part = EXPIRY;
    if (part >= PARTS)
        return 1; /* nothing that the list shows */
    if (part == NUMBER)
        leave_out("unfinished");
    else if (bag[NUMBER].kind == 0 || bag[part].kind != 0)
        return 0;
    bag[part] = *structure;
    return 1;
}

/* Puts the bag onto the shelf list. In hand is none then: a product code that comes next is another bag's. */
static void enter(void)
{
    appleounce_unit unit = {bag[NUMBER].donation, bag[PRODUCT].product, bag[EXPIRY].date};
    appleounce_shelf_answer answer = appleounce_shelf_enter(shelf, UNITS, unit);

    if (answer.number == APPLEOUNCE_ACCEPTED) {
        groups[answer.place] = appleounce_group_of(bag[GROUPS].gg0, bag[GROUPS].gg1);
        memset(bag, 0, sizeof bag);
    } else {
        leave_out(appleounce_refusal_name(answer.number));
    }
}

/* Takes a whole message into the bag, which may be a unit then. */
static void add(const appleounce_message *message, size_t length)
{
    size_t i = 0;

    while (i < message->count && take(&message->structures[i]))
        i++;
    if (i < message->count)
        refuse("out of turn", length, message->structures[i].place, message->structures[i].length);
    else if (bag[NUMBER].kind != 0 && bag[PRODUCT].kind != 0 && bag[EXPIRY].kind != 0)
        enter();
}

/* The minutes are not refused: the moment was tried, and the shelf list takes only an expiry that a label can have. */
static void print_unit(const appleounce_unit *unit, appleounce_group group, appleounce_moment now)
{
    static const char *const rows[] = {"O negative", "O positive", "A negative", "A positive",
                                       "B negative", "B positive", "AB negative", "AB positive"};
    static const char *const columns[] = {"", ", directed", ", emergency", ", directed biohazard",
        ", directed crossover", ", autologous crossover", ", autologous only", ", autologous biohazard"};
    const appleounce_product *p = &unit->product;
    long left = appleounce_minutes_left(now, unit->expiry).minutes, span = left < 0 ? -left : left;

    print_number(unit->donation);
    printf("  %c%c%c%c%c%c%c%c", p->letter, p->o0, p->o1, p->o2, p->o3, p->t, p->d, p->s);
    printf("  %-7s %4ld d %2ld h %2ld min", left < 0 ? "expired" : "left", span / 1440, span / 60 % 24, span % 60);
    printf("  %s%s\n", group.known ? rows[group.row] : "group not known", columns[group.column]);
}

/* Makes a moment of the arguments; 0 if they are none. The widths keep each number small enough to be read. */
static int moment_of(const char *date, const char *time, appleounce_moment *now)
{
    appleounce_day day;
    char more;

    if (sscanf(date, "%4hu-%2hhu-%2hhu%c", &day.year, &day.month, &day.day, &more) != 3
        || sscanf(time, "%2hhu:%2hhu%c", &now->hour, &now->minute, &more) != 2)
        return 0;
    now->year = day.year;
    now->day = appleounce_day_of_year(day);
    return now->day != 0 && now->hour < 24 && now->minute < 60;
}

int main(int argc, char **argv)
{
    appleounce_moment now;
    size_t length, i;

    if (argc != 3 || !moment_of(argv[1], argv[2], &now)) {
        fputs("usage: fridge yyyy-mm-dd hh:mm < scans, from 1900 to 2899\n", stderr);
        return 2;
    }
    while (next_scan(&length)) {
        appleounce_reading reading = appleounce_read(block, length);

        if (reading.number == APPLEOUNCE_ACCEPTED)
            add(&reading.message, length);
        else
            refuse(appleounce_refusal_name(reading.number), length, reading.place, 1);
    }
    leave_out("unfinished");
    for (i = 0; i < UNITS; i++)
        if (shelf[i].used)
            print_unit(&shelf[i].unit, groups[i], now);
    return ferror(stdin) || ferror(stdout) || fflush(stdout) != 0;
}
