/* Which fields of an appleounce_structure each kind has: the tests print, set and copy these and no others. The order
 * is that of an entry in the bench's records, where a field has as many bytes as in C. */
#ifndef FIELDS_H
#define FIELDS_H

#include "appleounce.h"

#include <string.h>

#define FIELD(kind, name) {kind, offsetof(appleounce_structure, name), sizeof(((appleounce_structure *)0)->name)}
#define DAY(kind) FIELD(kind, date.year), FIELD(kind, date.day)
#define TIME(kind) FIELD(kind, date.hour), FIELD(kind, date.minute)
#define FIVE(kind, from) \
    FIELD(kind, characters[from]), FIELD(kind, characters[from + 1]), FIELD(kind, characters[from + 2]), \
    FIELD(kind, characters[from + 3]), FIELD(kind, characters[from + 4])

struct field {
    unsigned kind;
    size_t at, width;
};

/* By kind, with one past every kind at the end. date.timed is none of them: it goes with the kind. */
static const struct field fields[] = {
    FIELD(1, donation.first), FIELD(1, donation.facility), FIELD(1, donation.year), FIELD(1, donation.sequence),
    FIELD(1, flags),
    FIELD(2, gg0), FIELD(2, gg1), FIELD(2, r),
    FIELD(3, product.letter), FIELD(3, product.o0), FIELD(3, product.o1), FIELD(3, product.o2), FIELD(3, product.o3),
    FIELD(3, product.t), FIELD(3, product.d), FIELD(3, product.s),
    DAY(4),
    DAY(5), TIME(5),
    DAY(6),
    DAY(7), TIME(7),
    DAY(8),
    DAY(9), TIME(9),
    FIVE(10, 0),
    FIELD(12, antigens),
    FIVE(18, 0), FIVE(18, 5),
    FIELD(31, first), FIELD(31, type), FIELD(31, date.year), FIELD(31, month), FIELD(31, day), TIME(31),
    FIELD(200, antigens), FIELD(200, ii),
    {256, 0, 0},
};

/* The first field of a kind; of one that has none, some other's. */
static inline const struct field *first_field(unsigned kind)
{
    const struct field *field = fields;

    while (field->kind < kind)
        field++;
    return field;
}

/* Numbers have their lowest byte first, as the archive is for x86-64. */
static inline uint64_t field_value(const appleounce_structure *structure, const struct field *field)
{
    uint64_t value = 0;

    memcpy(&value, (const char *)structure + field->at, field->width);
    return value;
}

static inline void set_field(appleounce_structure *structure, const struct field *field, uint64_t value)
{
    memcpy((char *)structure + field->at, &value, field->width);
}

/* What date.timed is in a reading. */
static inline uint8_t timed_in(unsigned kind)
{
    return kind == 5 || kind == 7 || kind == 9 || kind == 31;
}

/* Sets the kind and its fields: every other byte is left as it is. */
static inline void copy_values(appleounce_structure *to, const appleounce_structure *from)
{
    const struct field *field;

    to->kind = from->kind;
    for (field = first_field(from->kind); field->kind == from->kind; field++)
        set_field(to, field, field_value(from, field));
}

#endif
