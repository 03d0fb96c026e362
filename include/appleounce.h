/* Appleounce: ISBT 128 labels for the firmware of a scan terminal, and for a host, in C or C++ on x86-64: what a
 * scan says, as values that point at nothing, and back; typed numbers, blood groups, days and minutes; extracts,
 * host records, the shelf list.
 *
 * Bytes are lent by a pointer and a length. They may have any values; with length 0 the pointer may be null. While a
 * call runs nothing else writes to bytes that it reads, and nothing else uses a buffer that it fills. No call keeps
 * a pointer, allocates or frees anything, or keeps anything from one call to the next: calls may run side by side in
 * any threads, about the same bytes too.
 *
 * Every argument has an answer, and one answer: nothing has to be tested before a call. A struct may hold whatever
 * bits; padding bytes are never looked at, and are 0 in an appleounce_reading. What is promised here is proved of
 * the code in the archive, but for the text of this header and appleounce_refusal_name: docs/CONTRACTS.md. The archive
 * calls memcpy and memset, and nothing else. A call takes at most 12 kB of stack (tests/terminal/stack.c measures it).
 */
#ifndef APPLEOUNCE_H
#define APPLEOUNCE_H

#include <stddef.h>
#include <stdint.h>

#define APPLEOUNCE_VERSION_MAJOR 1
#define APPLEOUNCE_VERSION_MINOR 0
#define APPLEOUNCE_VERSION_PATCH 0
#define APPLEOUNCE_VERSION "1.0.0"

#ifdef __cplusplus
extern "C" {
#endif

/* The refusal numbers. A scan gets one of 0 to 6 or 10 to 13; a typed number 0, 1, 4, 6 or 10; writing and exporting
 * 0 or 7 to 9; an extract those of a scan, or 9; minutes 0, 5, 11 or 12; the shelf list 0, 8, 14, 15 or 16; an
 * imported record those of a scan but 2, and 17 or 18. */
enum {
    APPLEOUNCE_ACCEPTED = 0,
    APPLEOUNCE_SHORT = 1,      /* a message begins so, and bytes are missing */
    APPLEOUNCE_IDENTIFIER = 2, /* no identifier where a structure is due */
    APPLEOUNCE_NESTED = 3,     /* a compound message within a compound message */
    APPLEOUNCE_CHARACTER = 4,  /* a byte outside the set of its position */
    APPLEOUNCE_VALUE = 5,      /* a byte of the set, but no lawful value goes on with it */
    APPLEOUNCE_TRAILING = 6,   /* a complete message, and what follows makes no pair of it */
    APPLEOUNCE_SHAPE = 7,      /* no message has this form, number and kinds of structures, and bbb */
    APPLEOUNCE_FIELD = 8,      /* values that no reading of a label could give */
    APPLEOUNCE_ROOM = 9,       /* the buffer is too short; the place is the bytes needed */
    APPLEOUNCE_CHECK = 10,     /* flags from 60 on, or a check character, that are not those of their number */
    APPLEOUNCE_DAY = 11,       /* VALUE, but among the digits of a day, or of month and day */
    APPLEOUNCE_TIME = 12,      /* VALUE, but in an hour or minute */
    APPLEOUNCE_REPEAT = 13,    /* a second donation number in a compound message */
    APPLEOUNCE_ALREADY = 14,   /* the unit stands on the shelf list */
    APPLEOUNCE_FULL = 15,      /* no record of the shelf list is free */
    APPLEOUNCE_ABSENT = 16,    /* no record of the shelf list holds the unit */
    APPLEOUNCE_TAG = 17,       /* a tag in a record of the hospital host that fits nothing there */
    APPLEOUNCE_LENGTH = 18     /* a length in it that is not its kind's */
};

/* The name of a refusal number, without APPLEOUNCE_; NULL for a number that is none. Plain C, and not proved. */
static inline const char *appleounce_refusal_name(uint8_t number)
{
    static const char *const names[] = {
        "ACCEPTED", "SHORT", "IDENTIFIER", "NESTED", "CHARACTER", "VALUE", "TRAILING", "SHAPE", "FIELD", "ROOM",
        "CHECK", "DAY", "TIME", "REPEAT", "ALREADY", "FULL", "ABSENT", "TAG", "LENGTH",
    };

    return number < sizeof names / sizeof names[0] ? names[number] : NULL;
}

/* What a scan comes to. All functions but appleounce_read_2001 and appleounce_write_2001 are of the current edition: a
 * label of 2001 is judged by reading it. */

/* The refusal number of a scan. */
uint8_t appleounce_refusal(const uint8_t *scan, size_t length);

/* The place of a scan, counted from 0: of its fatal byte; its length if it is accepted or SHORT. */
size_t appleounce_place(const uint8_t *scan, size_t length);

/* Both, and the number of structures of an accepted scan, 0 of a refused one. */
typedef struct appleounce_verdict {
    size_t place;
    size_t count;
    uint8_t number;
} appleounce_verdict;

/* All three from one reading. */
appleounce_verdict appleounce_judge(const uint8_t *scan, size_t length);

/* The check character of a donation number of 13 bytes; 0 if the bytes are no donation number. */
uint8_t appleounce_check(const uint8_t *number, size_t length);

/* What a scan says. */

/* A donation number without flags: its first character as a byte, and pppp, yy and nnnnnn as numbers. */
typedef struct appleounce_donation {
    uint32_t sequence;
    uint16_t facility;
    uint8_t first;
    uint8_t year;
} appleounce_donation;

/* The eight characters of a product code: the letter, oooo, t, d and s. */
typedef struct appleounce_product {
    uint8_t letter, o0, o1, o2, o3, t, d, s;
} appleounce_product;

/* A date by its full year and day of the year. timed is 0 for one without a time, with hour and minute 0, and 1 for
 * one with a time. */
typedef struct appleounce_expiry {
    uint16_t year;
    uint16_t day;
    uint8_t timed;
    uint8_t hour;
    uint8_t minute;
} appleounce_expiry;

/* One structure by value. kind is the number of the data structure: 1 donation number, 2 blood groups, 3 product code,
 * 4 and 5 expiry, 6 and 7 collection, 8 and 9 production (the odd ones with a time), 10 special testing, 12 red cell
 * antigens, 18 container lot, 31 flexible date and time; 200 is the antigen structure of 2001, and 0 no structure. The
 * 023 of a compound is none: its numbers are the message's. Beside each field stand the kinds that have it: it is 0 in
 * a reading for every other kind, and not looked at by the writer. The writer takes a kind that is none for 0, and goes
 * by the kind and not by timed. */
typedef struct appleounce_structure {
    size_t place, length;            /* where it stood in the scan, and its total bytes; the writer ignores both */
    uint64_t antigens;               /* 12: its eighteen digits as a number; 200: its sixteen */
    appleounce_donation donation;    /* 1 */
    appleounce_product product;      /* 3 */
    appleounce_expiry date;          /* 4, 6, 8: timed 0; 5, 7, 9: timed 1; 31: year, hour, minute, timed 1, day 0 */
    uint8_t kind;
    uint8_t flags;                   /* 1 */
    uint8_t gg0, gg1, r;             /* 2 */
    uint8_t characters[10];          /* 10: the first five; 18: all ten; no NUL ends them */
    uint8_t first, type, month, day; /* 31: first character as printed, type, month, day of the month */
    uint8_t ii;                      /* 200 */
} appleounce_structure;

/* A message. form is 0 for a single, 1 for a pair and 2 for a compound; the writer refuses any other with SHAPE at
 * 0. bbb is 0 but in a compound. Past the count a reading has zeros, and the writer looks at nothing. */
typedef struct appleounce_message {
    appleounce_structure structures[16];
    size_t count;
    uint16_t bbb;
    uint8_t form;
} appleounce_message;

/* A reading: the refusal number, 0 if accepted; the place of the fatal byte in what was read, or its length if accepted
 * or SHORT; and the message, which has zeros alone where the number is not 0. */
typedef struct appleounce_reading {
    appleounce_message message;
    size_t place;
    uint8_t number;
} appleounce_reading;

/* Reads a scan of the current edition, or of that of 2001. */
appleounce_reading appleounce_read(const uint8_t *scan, size_t length);
appleounce_reading appleounce_read_2001(const uint8_t *scan, size_t length);

/* What filling a buffer gives: number 0 and how many bytes were stored, from the buffer's first on; or a refusal's
 * number and place, and then the buffer is as it was. No byte past those stored changes. */
typedef struct appleounce_written {
    size_t place;
    uint8_t number;
} appleounce_written;

/* Writes a message as a label of the current edition, or of that of 2001. SHAPE at 0; then FIELD at the index of the
 * first structure that no reading could give; then ROOM at the bytes needed. 327 bytes, or 22 in 2001, are enough
 * for any message. */
appleounce_written appleounce_write(appleounce_message message, uint8_t *buffer, size_t room);
appleounce_written appleounce_write_2001(appleounce_message message, uint8_t *buffer, size_t room);

/* What a terminal shows and takes beside that. */

/* What was typed: the donation number and its place, 14; or zeros with a refusal's number and place. */
typedef struct appleounce_typed {
    appleounce_donation donation;
    size_t place;
    uint8_t number;
} appleounce_typed;

/* A typed entry: the 13 characters of a donation number, then its check character. */
appleounce_typed appleounce_keyboard(const uint8_t *entry, size_t length);

/* known 1, with the row and column of a blood group code in the table, counted from 0; zeros for a gg that is not
 * interpreted. Rows: O neg, O pos, A neg, A pos, B neg, B pos, AB neg, AB pos. Columns: default, directed,
 * emergency, directed biohazard, directed crossover, autologous crossover, autologous only, autologous biohazard. */
typedef struct appleounce_group {
    uint8_t known, row, column;
} appleounce_group;

enum { APPLEOUNCE_NO_CODE = 255 };

appleounce_group appleounce_group_of(uint8_t gg0, uint8_t gg1);

/* The code at a row and a column as a number, 6 for the gg 06; APPLEOUNCE_NO_CODE outside the table. */
uint8_t appleounce_code_at(size_t row, size_t column);

/* A minute: a full year, the day of the year, and the time. */
typedef struct appleounce_moment {
    uint16_t year, day;
    uint8_t hour, minute;
} appleounce_moment;

/* The minutes from now to an expiry, below zero once it has passed; or 0 with a refusal: VALUE for the year, then
 * DAY, then TIME, at place 0 of now, else at place 1 of the expiry. */
typedef struct appleounce_left {
    int32_t minutes;
    uint8_t place, number;
} appleounce_left;

/* An expiry with timed 0 counts as 23:59, and its hour and minute are not looked at; with any other it has a time. The
 * date of a kind 31 has day 0: give it the day by appleounce_day_of_year first. */
appleounce_left appleounce_minutes_left(appleounce_moment now, appleounce_expiry expiry);

/* A calendar day. */
typedef struct appleounce_day {
    uint16_t year;
    uint8_t month, day;
} appleounce_day;

/* The number of a calendar day in its year, from 1900 to 2899; 0 for what is no day there. */
uint16_t appleounce_day_of_year(appleounce_day day);

/* The calendar day with this number in the year, from 1900 to 2899; month and day 0, with the year as given, where
 * there is none. */
appleounce_day appleounce_calendar_day(uint16_t year, uint16_t day_of_year);

/* The line of the research extract, without the donor's sequence number and flags: docs/EXTRACT.md. Refused as the
 * scan is, then with ROOM at the bytes needed; 373 are enough for any line. Scan and buffer must not overlap. */
appleounce_written appleounce_extract(const uint8_t *scan, size_t length, uint8_t *buffer, size_t room);

/* Records of the hospital host: docs/HOST.md. */

/* Reads a record; the places of its structures are those in the label. */
appleounce_reading appleounce_import(const uint8_t *record, size_t length);

/* Makes the record of a message, and refuses as appleounce_write does. 344 bytes are enough for any message. */
appleounce_written appleounce_export(appleounce_message message, uint8_t *buffer, size_t room);

/* The shelf list: docs/SHELF.md. */

/* Two units are one if donation number and product code are equal; the expiry goes with them: an 004 with timed 0,
 * or an 005 with 1. */
typedef struct appleounce_unit {
    appleounce_donation donation;
    appleounce_product product;
    appleounce_expiry expiry;
} appleounce_unit;

/* A record is free if used is 0, whatever unit it has; with any other value it holds the unit. */
typedef struct appleounce_record {
    appleounce_unit unit;
    uint8_t used;
} appleounce_record;

/* Accepted: the record's index, and 0. Refused: 0, and the number. */
typedef struct appleounce_shelf_answer {
    size_t place;
    uint8_t number;
} appleounce_shelf_answer;

/* The shelf list is count records, which may be 0 of them at a null pointer. It may hold a unit twice, or values of the
 * host's own: they are compared and not judged. A call changes at most one record, after a refusal none, and keeps
 * nothing. During enter and remove nothing else may use the records; look-ups may run side by side. */

/* Puts the unit, as given and with used 1, into the lowest free record. FIELD if no reading could give it, then ALREADY
 * if the look-up finds it, with whichever expiry, then FULL. */
appleounce_shelf_answer appleounce_shelf_enter(appleounce_record *records, size_t count, appleounce_unit unit);

/* The lowest record that holds the unit; ABSENT if none does. */
appleounce_shelf_answer appleounce_shelf_look_up(const appleounce_record *records, size_t count,
                                                 appleounce_donation donation, appleounce_product product);

/* Frees that record: zeros in every field. ABSENT if none holds the unit. */
appleounce_shelf_answer appleounce_shelf_remove(appleounce_record *records, size_t count,
                                                appleounce_donation donation, appleounce_product product);

#ifdef __cplusplus
}
#endif

#endif
