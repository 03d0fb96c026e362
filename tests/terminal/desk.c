/* What a terminal shows and takes beside a scan's values: typed numbers, blood groups, minutes, days, lines of the
 * extract, verdicts, and the names of refusals. In C and in C++. */
#define _DEFAULT_SOURCE
#include "../expect.h"
#include "../fence.h"
#include "appleounce.h"
#include "scans.h"

/* An entry that is accepted has these parts; one that is refused has zeros. */
struct entry {
    struct scan typed;
    appleounce_donation donation;
};

static const struct entry entries[] = {
    {GOOD("W000021123456A", 0), {123456, 0, 'W', 21}},
    {GOOD("A9999211234563", 0), {123456, 9999, 'A', 21}},
    {GOOD("A999912123456K", 0), {123456, 9999, 'A', 12}},
    {GOOD("A999921123458*", 0), {123458, 9999, 'A', 21}},
    {SCAN("", APPLEOUNCE_SHORT, 0), {0, 0, 0, 0}},
    {SCAN("W", APPLEOUNCE_SHORT, 1), {0, 0, 0, 0}},
    {SCAN("W000021123456", APPLEOUNCE_SHORT, 13), {0, 0, 0, 0}},
    {SCAN("O000021123456A", APPLEOUNCE_CHARACTER, 0), {0, 0, 0, 0}},
    {SCAN("0", APPLEOUNCE_CHARACTER, 0), {0, 0, 0, 0}},
    {SCAN("w000021123456A", APPLEOUNCE_CHARACTER, 0), {0, 0, 0, 0}},
    {SCAN("=W00002112345600", APPLEOUNCE_CHARACTER, 0), {0, 0, 0, 0}},
    {SCAN("WA00021123456A", APPLEOUNCE_CHARACTER, 1), {0, 0, 0, 0}},
    {SCAN("W00002112345\377A", APPLEOUNCE_CHARACTER, 12), {0, 0, 0, 0}},
    {SCAN("W00002112345\0A", APPLEOUNCE_CHARACTER, 12), {0, 0, 0, 0}},
    {SCAN("W000021123457A", APPLEOUNCE_CHECK, 13), {0, 0, 0, 0}},
    {SCAN("W000021132456A", APPLEOUNCE_CHECK, 13), {0, 0, 0, 0}},
    {SCAN("W000021123456BA", APPLEOUNCE_CHECK, 13), {0, 0, 0, 0}},
    {SCAN("W000021123456AA", APPLEOUNCE_TRAILING, 14), {0, 0, 0, 0}},
    {SCAN("W000021123456A\n", APPLEOUNCE_TRAILING, 14), {0, 0, 0, 0}},
};

static int entered(const struct entry *entry, appleounce_typed typed)
{
    return typed.number == entry->typed.number && typed.place == entry->typed.place
        && memcmp(&typed.donation, &entry->donation, sizeof typed.donation) == 0;
}

static int typed_right(const struct entry *entry)
{
    size_t length = entry->typed.length;
    uint8_t *lent = block(entry->typed.text, length);
    struct fenced first = fence(entry->typed.text, length, 1), last = fence(entry->typed.text, length, 0);
    appleounce_typed in_block = appleounce_keyboard(lent, length);
    appleounce_typed at_first = appleounce_keyboard(first.bytes, length);
    appleounce_typed at_last = appleounce_keyboard(last.bytes, length);

    give_away(lent, length);
    unfence(first);
    unfence(last);
    return entered(entry, in_block) && entered(entry, at_first) && entered(entry, at_last);
}

/* The same number with each byte there is as its check character. */
static void expect_checks(void)
{
    char text[15] = "W000021123456?";
    struct entry entry = {{text, 14, APPLEOUNCE_CHECK, 13, 0}, {0, 0, 0, 0}};
    int byte;

    for (byte = 0; byte < 256; byte++) {
        int lawful = (byte >= '0' && byte <= '9') || (byte >= 'A' && byte <= 'Z') || byte == '*';

        text[13] = (char)byte;
        entry.typed.number = lawful ? APPLEOUNCE_CHECK : APPLEOUNCE_CHARACTER;
        expect_of(typed_right(byte == 'A' ? &entries[0] : &entry), "check typed in", text);
    }
}

static void expect_typed(void)
{
    size_t i;

    for (i = 0; i < COUNT(entries); i++)
        expect_of(typed_right(&entries[i]), "typed", entries[i].typed.text);
    expect(entered(&entries[4], appleounce_keyboard(NULL, 0)), "typed: a null pointer");
    expect_checks();
}

static const uint8_t codes[8][8] = {
    {95, 91, 92, 93, 94, 96, 97, 98}, {51, 47, 48, 49, 50, 52, 53, 54},
    { 6,  2,  3,  4,  5,  7,  8,  9}, {62, 58, 59, 60, 61, 63, 64, 65},
    {17, 13, 14, 15, 16, 18, 19, 20}, {73, 69, 70, 71, 72, 74, 75, 76},
    {28, 24, 25, 26, 27, 29, 30, 31}, {84, 80, 81, 82, 83, 85, 86, 87},
};

/* Searched in the table; zeros for what is not there. */
static appleounce_group searched(int gg0, int gg1)
{
    int digits = gg0 >= '0' && gg0 <= '9' && gg1 >= '0' && gg1 <= '9', code = 10 * (gg0 - '0') + gg1 - '0';
    appleounce_group group = {0, 0, 0};
    uint8_t i;

    for (i = 0; digits && i < 64; i++)
        if (codes[i / 8][i % 8] == code) {
            group.known = 1;
            group.row = i / 8;
            group.column = i % 8;
        }
    return group;
}

static void expect_groups(void)
{
    int gg0, gg1, right;

    for (gg0 = 0; gg0 < 256; gg0++) {
        right = 1;
        for (gg1 = 0; gg1 < 256; gg1++) {
            appleounce_group due = searched(gg0, gg1), got = appleounce_group_of((uint8_t)gg0, (uint8_t)gg1);

            right = right && memcmp(&due, &got, sizeof due) == 0;
        }
        expect(right, "groups of a first character");
    }
}

static void expect_codes(void)
{
    static const size_t outside[] = {8, 9, 255, 256, 264, (size_t)1 << 32, (size_t)1 << 63, (size_t)-8, (size_t)-1};
    size_t i, j;

    for (i = 0; i < 64; i++) {
        size_t row = i / 8, column = i % 8;
        uint8_t code = appleounce_code_at(row, column);
        appleounce_group group = appleounce_group_of((uint8_t)('0' + code / 10), (uint8_t)('0' + code % 10));

        expect(code == codes[row][column], "the code at a row and column");
        expect(group.known == 1 && group.row == row && group.column == column, "and back");
    }
    for (i = 0; i < COUNT(outside); i++)
        for (j = 0; j < COUNT(outside); j++) {
            expect(appleounce_code_at(outside[i], j % 8) == APPLEOUNCE_NO_CODE, "no such row");
            expect(appleounce_code_at(i % 8, outside[j]) == APPLEOUNCE_NO_CODE, "no such column");
            expect(appleounce_code_at(outside[i], outside[j]) == APPLEOUNCE_NO_CODE, "neither");
        }
}

static int leaves(appleounce_moment now, appleounce_expiry expiry, long minutes, unsigned place, unsigned number)
{
    appleounce_left left = appleounce_minutes_left(now, expiry);

    return left.minutes == minutes && left.place == place && left.number == number;
}

static void expect_minutes(void)
{
    static const struct {
        appleounce_moment now;
        appleounce_expiry expiry;
        long minutes;
    } spans[] = {
        {{2021, 150, 13, 30}, {2021, 150, 1, 13, 30}, 0},
        {{2021, 150, 13, 29}, {2021, 150, 1, 13, 30}, 1},
        {{2021, 150, 13, 31}, {2021, 150, 1, 13, 30}, -1},
        {{2021, 150, 13, 31}, {2021, 150, 2, 13, 30}, -1},
        {{2021, 150, 13, 31}, {2021, 150, 255, 13, 30}, -1},
        {{2021, 150, 23, 59}, {2021, 150, 0, 0, 0}, 0},
        {{2021, 150, 0, 0}, {2021, 150, 0, 0, 0}, 1439},
        {{2021, 151, 0, 0}, {2021, 150, 0, 0, 0}, -1},
        {{2021, 150, 0, 0}, {2021, 150, 0, 24, 60}, 1439},
        {{2021, 150, 0, 0}, {2021, 150, 0, 255, 255}, 1439},
        {{2021, 150, 0, 0}, {2021, 150, 0, 13, 30}, 1439},
        {{2020, 366, 23, 59}, {2021, 1, 1, 0, 0}, 1},
        {{2100, 365, 23, 59}, {2101, 1, 1, 0, 0}, 1},
        {{2020, 1, 0, 0}, {2021, 1, 1, 0, 0}, 366 * 1440},
        {{1900, 1, 0, 0}, {2899, 365, 1, 23, 59}, 525949919},
        {{2899, 365, 23, 59}, {1900, 1, 1, 0, 0}, -525949919},
    };
    size_t i;

    for (i = 0; i < COUNT(spans); i++)
        expect(leaves(spans[i].now, spans[i].expiry, spans[i].minutes, 0, APPLEOUNCE_ACCEPTED), "minutes left");
}

/* Each as now, as the expiry with any timed but 0, and as both, where now is judged first; without a time an expiry is
 * refused only for what it looks at. */
static void expect_no_minutes(void)
{
    static const appleounce_moment good = {2021, 150, 13, 30};
    static const struct {
        appleounce_moment moment;
        unsigned number;
    } wrong[] = {
        {{1899, 1, 0, 0}, APPLEOUNCE_VALUE},   {{2900, 1, 0, 0}, APPLEOUNCE_VALUE},
        {{0, 1, 0, 0}, APPLEOUNCE_VALUE},      {{65535, 0, 24, 60}, APPLEOUNCE_VALUE},
        {{2021, 0, 0, 0}, APPLEOUNCE_DAY},     {{2021, 366, 0, 0}, APPLEOUNCE_DAY},
        {{2100, 366, 0, 0}, APPLEOUNCE_DAY},   {{2020, 367, 0, 0}, APPLEOUNCE_DAY},
        {{2020, 65535, 0, 0}, APPLEOUNCE_DAY}, {{2020, 367, 24, 60}, APPLEOUNCE_DAY},
        {{2021, 1, 24, 0}, APPLEOUNCE_TIME},   {{2021, 1, 23, 60}, APPLEOUNCE_TIME},
        {{2021, 1, 0, 255}, APPLEOUNCE_TIME},  {{2021, 1, 255, 0}, APPLEOUNCE_TIME},
    };
    static const uint8_t timed[] = {1, 2, 128, 255};
    size_t i, j;

    for (i = 0; i < COUNT(wrong); i++) {
        appleounce_moment moment = wrong[i].moment;
        appleounce_expiry expiry = {moment.year, moment.day, 0, moment.hour, moment.minute};

        if (wrong[i].number != APPLEOUNCE_TIME)
            expect(leaves(good, expiry, 0, 1, wrong[i].number), "refused expiry without a time");
        for (j = 0; j < COUNT(timed); j++) {
            expiry.timed = timed[j];
            expect(leaves(good, expiry, 0, 1, wrong[i].number), "refused expiry");
            expect(leaves(wrong[0].moment, expiry, 0, 0, APPLEOUNCE_VALUE), "now before the expiry");
        }
        expiry.year = 2021, expiry.day = 1, expiry.hour = 0, expiry.minute = 0;
        expect(leaves(moment, expiry, 0, 0, wrong[i].number), "refused now");
    }
}

static int is_leap(unsigned year)
{
    return year % 4 == 0 && (year % 100 != 0 || year % 400 == 0);
}

static unsigned days_in(unsigned year, unsigned month)
{
    static const uint8_t days[] = {31, 28, 31, 30, 31, 30, 31, 31, 30, 31, 30, 31};

    if (year < 1900 || year > 2899 || month < 1 || month > 12)
        return 0;
    return days[month - 1] + (month == 2 && is_leap(year));
}

static int is_day(appleounce_day day, unsigned year, unsigned month, unsigned of_month)
{
    return day.year == year && day.month == month && day.day == of_month;
}

/* Every month and day that a byte can hold, and every day of the year that sixteen bits can. */
static int right_year(unsigned year)
{
    unsigned month, day, of_year = 0;
    int right = 1;

    for (month = 0; month < 256; month++)
        for (day = 0; day < (month < 14 ? 256 : 2); day++) {
            appleounce_day asked = {(uint16_t)year, (uint8_t)month, (uint8_t)day};
            int lawful = day >= 1 && day <= days_in(year, month);

            of_year += (unsigned)lawful;
            right = right && appleounce_day_of_year(asked) == (lawful ? of_year : 0)
                && (!lawful || is_day(appleounce_calendar_day((uint16_t)year, (uint16_t)of_year), year, month, day));
        }
    right = right && is_day(appleounce_calendar_day((uint16_t)year, 0), year, 0, 0);
    for (of_year++; of_year < 65536; of_year += of_year < 400 ? 1 : 4999)
        right = right && is_day(appleounce_calendar_day((uint16_t)year, (uint16_t)of_year), year, 0, 0);
    return right && is_day(appleounce_calendar_day((uint16_t)year, 65535), year, 0, 0);
}

static void expect_days(void)
{
    static const unsigned none[] = {0, 1, 1899, 2900, 2901, 32768, 65535};
    unsigned year, i;

    for (year = 1900; year < 2900; year++)
        expect(right_year(year), "a year's days");
    for (i = 0; i < COUNT(none); i++)
        expect(right_year(none[i]), "a year without days");
}

/* Whether a buffer with this room gets this answer, the line if the number is ACCEPTED, and no other byte changes. */
static int extracts(const void *scan, size_t length, size_t room, unsigned number, size_t place, const char *line)
{
    size_t stored = number == APPLEOUNCE_ACCEPTED ? place : 0;
    struct fenced lent = fence(scan, length, 0), buffer = fence_room(room, 0);
    appleounce_written written;
    int right;

    memset(buffer.bytes, '.', room);
    written = appleounce_extract(lent.bytes, length, buffer.bytes, room);
    unfence(lent);
    right = written.number == number && written.place == place && memcmp(buffer.bytes, line, stored) == 0
        && all_are(buffer.bytes + stored, room - stored, '.');
    unfence(buffer);
    return right;
}

static void expect_line(const char *scan, const char *line)
{
    size_t length = strlen(scan), due = strlen(line);
    appleounce_written written = appleounce_extract((const uint8_t *)scan, length, NULL, 0);

    expect_of(written.number == APPLEOUNCE_ROOM && written.place == due, "no buffer for the line of", scan);
    expect_of(extracts(scan, length, due - 1, APPLEOUNCE_ROOM, due, ""), "too short for the line of", scan);
    expect_of(extracts(scan, length, due, APPLEOUNCE_ACCEPTED, due, line), "just the line of", scan);
    expect_of(extracts(scan, length, due + 50, APPLEOUNCE_ACCEPTED, due, line), "more than the line of", scan);
}

static void expect_extracts(void)
{
    appleounce_written nothing = appleounce_extract(NULL, 0, NULL, 0);
    size_t i;

    expect_line("=W00002112345600=%5100", "P000 001 W000021 002 5100\n");
    expect_line("=W00002165432159=%5100", "P000 001 W000021 002 5100\n");
    expect_line("=+03042=W00002112345600=<E0178V00&>0203661330", "C042 001 W000021 003 E0178V00 005 0203661330\n");
    expect_line("=(1002202402290900", "S000 031 1002202402290900\n");
    expect_line(LONGEST, "C000" SIXTEEN(" 012 979999999999924799") "\n");
    for (i = 0; i < COUNT(scans); i++)
        if (scans[i].number != APPLEOUNCE_ACCEPTED)
            expect_of(extracts(scans[i].text, scans[i].length, 400, scans[i].number, scans[i].place, ""), "no line of",
                      scans[i].text);
    expect(nothing.number == APPLEOUNCE_SHORT && nothing.place == 0, "extract of a null pointer");
}

/* A verdict is what the two answers say that it joins, and what a reading says. */
static int judged_right(const uint8_t *scan, size_t length)
{
    appleounce_verdict verdict = appleounce_judge(scan, length);
    appleounce_reading reading = appleounce_read(scan, length);

    return verdict.number == appleounce_refusal(scan, length) && verdict.place == appleounce_place(scan, length)
        && verdict.number == reading.number && verdict.place == reading.place && verdict.count == reading.message.count;
}

/* Of every scan, with one byte replaced. */
static void expect_verdicts(void)
{
    static const char other[] = "=&+%0156<>(9AZaz*";
    size_t i, at, j;

    for (i = 0; i < COUNT(scans); i++) {
        uint8_t *scan = block(scans[i].text, scans[i].length);
        int right = judged_right(scan, scans[i].length);

        for (at = 0; at < scans[i].length && at < 40; at++)
            for (j = 0; j < sizeof other; j++) {
                scan[at] = (uint8_t)other[j];
                right = right && judged_right(scan, scans[i].length);
                scan[at] = (uint8_t)scans[i].text[at];
            }
        expect_of(right, "verdicts about changes of", scans[i].text);
        free(scan);
    }
}

#define NAMED(name) {APPLEOUNCE_##name, #name}

static void expect_names(void)
{
    static const struct {
        unsigned number;
        const char *name;
    } names[] = {
        NAMED(ACCEPTED), NAMED(SHORT), NAMED(IDENTIFIER), NAMED(NESTED), NAMED(CHARACTER), NAMED(VALUE),
        NAMED(TRAILING), NAMED(SHAPE), NAMED(FIELD), NAMED(ROOM), NAMED(CHECK), NAMED(DAY), NAMED(TIME), NAMED(REPEAT),
        NAMED(ALREADY), NAMED(FULL), NAMED(ABSENT), NAMED(TAG), NAMED(LENGTH),
    };
    char version[32];
    unsigned i;

    for (i = 0; i < COUNT(names); i++)
        expect_of(names[i].number == i && strcmp(appleounce_refusal_name((uint8_t)i), names[i].name) == 0, "name",
                  names[i].name);
    for (; i < 256; i++)
        expect(appleounce_refusal_name((uint8_t)i) == NULL, "a name for no refusal");
    snprintf(version, sizeof version, "%d.%d.%d", APPLEOUNCE_VERSION_MAJOR, APPLEOUNCE_VERSION_MINOR,
             APPLEOUNCE_VERSION_PATCH);
    expect(strcmp(version, APPLEOUNCE_VERSION) == 0 && strcmp(version, "1.0.0") == 0, "version");
}

int main(void)
{
    expect_typed();
    expect_groups();
    expect_codes();
    expect_minutes();
    expect_no_minutes();
    expect_days();
    expect_extracts();
    expect_verdicts();
    expect_names();
    return told();
}
