/* Calls the shelf list as a host does: each answer, every record afterwards, and the layout both sides agree on. */
#define _DEFAULT_SOURCE
#include "../expect.h"
#include "../fence.h"
#include "../layout.h"

/* =W00002112345600, =<E0178VBb and &>0203661330 */
static const appleounce_unit bag = {
    {123456, 0, 'W', 21}, {'E', '0', '1', '7', '8', 'V', 'B', 'b'}, {2020, 366, 1, 13, 30}};

static appleounce_unit numbered(uint32_t sequence)
{
    appleounce_unit unit = bag;

    unit.donation.sequence = sequence;
    return unit;
}

static int is(appleounce_shelf_answer answer, size_t place, unsigned number)
{
    return answer.place == place && answer.number == number;
}

static int same_unit(const appleounce_unit *x, const appleounce_unit *y)
{
    return memcmp(&x->donation, &y->donation, 8) == 0 && memcmp(&x->product, &y->product, 8) == 0
        && memcmp(&x->expiry, &y->expiry, 7) == 0;
}

static int same_records(const appleounce_record *x, const appleounce_record *y, size_t count)
{
    size_t i;

    for (i = 0; i < count; i++)
        if (!same_unit(&x[i].unit, &y[i].unit) || x[i].used != y[i].used)
            return 0;
    return 1;
}

/* A call on a list, after which every record has to be as expected. */
static void expect_enter(appleounce_record *list, const appleounce_record *after, size_t count, appleounce_unit unit,
                         size_t place, unsigned number, const char *what)
{
    expect(is(appleounce_shelf_enter(list, count, unit), place, number), what);
    expect(same_records(list, after, count), what);
}

static void expect_remove(appleounce_record *list, const appleounce_record *after, size_t count, appleounce_unit unit,
                          size_t place, unsigned number, const char *what)
{
    expect(is(appleounce_shelf_remove(list, count, unit.donation, unit.product), place, number), what);
    expect(same_records(list, after, count), what);
}

static int looked(const appleounce_record *list, size_t count, appleounce_unit unit, size_t place, unsigned number)
{
    return is(appleounce_shelf_look_up(list, count, unit.donation, unit.product), place, number);
}

static void expect_turns(void)
{
    appleounce_record list[3], after[3];
    appleounce_unit other = bag;

    memset(list, 0, sizeof list);
    memset(after, 0, sizeof after);
    other.expiry.timed = other.expiry.hour = other.expiry.minute = 0;
    after[0].unit = bag;
    after[0].used = 1;
    expect_enter(list, after, 3, bag, 0, APPLEOUNCE_ACCEPTED, "the first unit goes into record 0");
    expect_enter(list, after, 3, other, 0, APPLEOUNCE_ALREADY, "another expiry is the same unit");
    after[1].unit = numbered(1);
    after[1].used = 1;
    expect_enter(list, after, 3, numbered(1), 1, APPLEOUNCE_ACCEPTED, "the second into record 1");
    after[2].unit = numbered(2);
    after[2].used = 1;
    expect_enter(list, after, 3, numbered(2), 2, APPLEOUNCE_ACCEPTED, "the third into record 2");
    expect_enter(list, after, 3, numbered(3), 0, APPLEOUNCE_FULL, "no fourth");
    expect_enter(list, after, 3, bag, 0, APPLEOUNCE_ALREADY, "ALREADY before FULL");
    expect(looked(list, 3, numbered(2), 2, APPLEOUNCE_ACCEPTED), "a look-up tells the index");
    expect(looked(list, 3, numbered(3), 0, APPLEOUNCE_ABSENT), "a look-up of what is not there");
    expect_remove(list, after, 3, numbered(3), 0, APPLEOUNCE_ABSENT, "a removal of what is not there");
    memset(&after[1], 0, sizeof after[1]);
    expect_remove(list, after, 3, numbered(1), 1, APPLEOUNCE_ACCEPTED, "a freed record holds zeros in every field");
    expect_remove(list, after, 3, numbered(1), 0, APPLEOUNCE_ABSENT, "what was removed is not there");
    after[1].unit = numbered(3);
    after[1].used = 1;
    expect_enter(list, after, 3, numbered(3), 1, APPLEOUNCE_ACCEPTED, "a freed record is used again");
}

/* Lists that the host made: units twice, values of its own, free records that have a unit. */
static void expect_hosts_own(void)
{
    appleounce_record list[4], after[4];
    appleounce_unit odd;

    memset(&odd, 0xff, sizeof odd);
    memset(list, 0, sizeof list);
    list[0].unit = bag;
    list[1].unit = list[3].unit = bag;
    list[1].used = 255;
    list[3].used = 2;
    list[2].unit = odd;
    list[2].used = 1;
    memcpy(after, list, sizeof list);
    expect(looked(list, 4, bag, 1, APPLEOUNCE_ACCEPTED), "a free record does not match, and any used but 0 does");
    expect(looked(list, 4, odd, 2, APPLEOUNCE_ACCEPTED), "a value of the host's own is compared");
    expect_enter(list, after, 4, odd, 0, APPLEOUNCE_FIELD, "FIELD before ALREADY");
    memset(&after[1], 0, sizeof after[1]);
    expect_remove(list, after, 4, bag, 1, APPLEOUNCE_ACCEPTED, "the lowest of two is removed");
    expect(looked(list, 4, bag, 3, APPLEOUNCE_ACCEPTED), "and the other stands");
    expect_enter(list, after, 4, bag, 0, APPLEOUNCE_ALREADY, "it is there already");
    memset(&after[3], 0, sizeof after[3]);
    expect_remove(list, after, 4, bag, 3, APPLEOUNCE_ACCEPTED, "then the other is removed");
    after[0].used = 1;
    expect_enter(list, after, 4, bag, 0, APPLEOUNCE_ACCEPTED, "what a free record has is overwritten");
}

/* The bytes of a unit that a reading cannot give: offset, value. */
static void expect_fields(void)
{
    static const struct {
        size_t byte;
        uint8_t value;
        const char *what;
    } wrong[] = {
        {3, 1, "nnnnnn over 999999"},   {5, 0xff, "pppp over 9999"},  {6, 'O', "first character O"},
        {6, '0', "first character 0"},  {7, 100, "yy over 99"},       {8, 'e', "small product letter"},
        {9, 'a', "small o0"},           {10, '.', "o1"},              {11, 0, "o2"},
        {12, 'z', "o3"},                {13, '*', "t"},               {14, '0', "0b as a division of E"},
        {14, 'b', "small d"},           {15, 'B', "large s"},         {15, '1', "B1 as a division of E"},
        {17, 0, "year 228"},            {17, 0xff, "year 65508"},     {18, 0x6f, "day 367"},
        {20, 0, "an 004 with a time"},  {20, 2, "timed 2"},           {20, 255, "timed 255"},
        {21, 24, "hour 24"},            {22, 60, "minute 60"},
    };
    appleounce_record list[2], after[2];
    size_t i;

    memset(list, 0, sizeof list);
    memset(after, 0, sizeof after);
    for (i = 0; i < COUNT(wrong); i++) {
        appleounce_unit unit = bag;

        ((uint8_t *)&unit)[wrong[i].byte] = wrong[i].value;
        expect_enter(list, after, 2, unit, 0, APPLEOUNCE_FIELD, wrong[i].what);
        expect(is(appleounce_shelf_enter(NULL, 0, unit), 0, APPLEOUNCE_FIELD), "FIELD before FULL");
        expect(looked(list, 2, unit, 0, APPLEOUNCE_ABSENT), "no FIELD for a look-up");
    }
}

/* Days and times at their limits: a call accepts, or tells FIELD. */
static void expect_expiries(void)
{
    static const struct {
        appleounce_expiry expiry;
        unsigned number;
    } dates[] = {
        {{2021, 365, 0, 0, 0}, APPLEOUNCE_ACCEPTED}, {{2021, 366, 0, 0, 0}, APPLEOUNCE_FIELD},
        {{2000, 366, 0, 0, 0}, APPLEOUNCE_ACCEPTED}, {{2100, 366, 0, 0, 0}, APPLEOUNCE_FIELD},
        {{1900, 1, 0, 0, 0}, APPLEOUNCE_ACCEPTED},   {{1899, 1, 0, 0, 0}, APPLEOUNCE_FIELD},
        {{2899, 1, 0, 0, 0}, APPLEOUNCE_ACCEPTED},   {{2900, 1, 0, 0, 0}, APPLEOUNCE_FIELD},
        {{2021, 0, 0, 0, 0}, APPLEOUNCE_FIELD},      {{2021, 1, 1, 0, 0}, APPLEOUNCE_ACCEPTED},
        {{2021, 1, 1, 23, 59}, APPLEOUNCE_ACCEPTED}, {{2021, 1, 0, 0, 1}, APPLEOUNCE_FIELD},
        {{2021, 1, 0, 1, 0}, APPLEOUNCE_FIELD},      {{2021, 0, 1, 0, 0}, APPLEOUNCE_FIELD},
    };
    size_t i;

    for (i = 0; i < COUNT(dates); i++) {
        appleounce_record one;
        appleounce_unit unit = bag;

        memset(&one, 0, sizeof one);
        unit.expiry = dates[i].expiry;
        expect(is(appleounce_shelf_enter(&one, 1, unit), 0, dates[i].number), "an expiry");
        expect(one.used == (dates[i].number == APPLEOUNCE_ACCEPTED), "entered or not");
    }
}

/* Records as the first or the last of fenced pages, and a list that cannot be written. */
static void expect_fences(int first)
{
    size_t count = 2 * (size_t)sysconf(_SC_PAGESIZE) / sizeof(appleounce_record), i;
    struct fenced f = fence_room(count * sizeof(appleounce_record), first);
    appleounce_record *list = (appleounce_record *)f.bytes;

    for (i = 0; i < count; i++)
        expect(is(appleounce_shelf_enter(list, count, numbered((uint32_t)i)), i, 0), "entered between fences");
    expect(is(appleounce_shelf_enter(list, count, numbered(999999)), 0, APPLEOUNCE_FULL), "full between fences");
    seal(f);
    expect(looked(list, count, numbered((uint32_t)count - 1), count - 1, 0), "looked up in what cannot be written");
    expect(looked(list, count, numbered(999999), 0, APPLEOUNCE_ABSENT), "not found there");
    expect(is(appleounce_shelf_enter(list, count, bag), 0, APPLEOUNCE_FULL), "a refusal writes nothing");
    unfence(f);
}

int main(void)
{
    expect_turns();
    expect_hosts_own();
    expect_fields();
    expect_expiries();
    expect(is(appleounce_shelf_enter(NULL, 0, bag), 0, APPLEOUNCE_FULL), "a list of no records is full");
    expect(looked(NULL, 0, bag, 0, APPLEOUNCE_ABSENT), "and holds nothing");
    expect(is(appleounce_shelf_remove(NULL, 0, bag.donation, bag.product), 0, APPLEOUNCE_ABSENT), "nor is it removed");
    expect_fences(1);
    expect_fences(0);
    return told();
}
