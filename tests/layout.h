/* The size of every struct of the header, and where each field stands: to include this is to assert it. A type with a
 * negative number of elements is none, in any C and C++. */
#ifndef LAYOUT_H
#define LAYOUT_H

#include "appleounce.h"

#define HOLDS(name, condition) typedef char name[(condition) ? 1 : -1]
#define SIZE(type, bytes) HOLDS(type##_size, sizeof(appleounce_##type) == (bytes))
#define AT(type, field, place) HOLDS(type##_##field, offsetof(appleounce_##type, field) == (place))

SIZE(verdict, 24);
AT(verdict, place, 0);
AT(verdict, count, 8);
AT(verdict, number, 16);

SIZE(donation, 8);
AT(donation, sequence, 0);
AT(donation, facility, 4);
AT(donation, first, 6);
AT(donation, year, 7);

SIZE(product, 8);
AT(product, letter, 0);
AT(product, o0, 1);
AT(product, o1, 2);
AT(product, o2, 3);
AT(product, o3, 4);
AT(product, t, 5);
AT(product, d, 6);
AT(product, s, 7);

SIZE(expiry, 8);
AT(expiry, year, 0);
AT(expiry, day, 2);
AT(expiry, timed, 4);
AT(expiry, hour, 5);
AT(expiry, minute, 6);

SIZE(structure, 72);
AT(structure, place, 0);
AT(structure, length, 8);
AT(structure, antigens, 16);
AT(structure, donation, 24);
AT(structure, product, 32);
AT(structure, date, 40);
AT(structure, kind, 48);
AT(structure, flags, 49);
AT(structure, gg0, 50);
AT(structure, gg1, 51);
AT(structure, r, 52);
AT(structure, characters, 53);
AT(structure, first, 63);
AT(structure, type, 64);
AT(structure, month, 65);
AT(structure, day, 66);
AT(structure, ii, 67);

SIZE(message, 1168);
AT(message, structures, 0);
AT(message, count, 1152);
AT(message, bbb, 1160);
AT(message, form, 1162);

SIZE(reading, 1184);
AT(reading, message, 0);
AT(reading, place, 1168);
AT(reading, number, 1176);

SIZE(written, 16);
AT(written, place, 0);
AT(written, number, 8);

SIZE(typed, 24);
AT(typed, donation, 0);
AT(typed, place, 8);
AT(typed, number, 16);

SIZE(group, 3);
AT(group, known, 0);
AT(group, row, 1);
AT(group, column, 2);

SIZE(moment, 6);
AT(moment, year, 0);
AT(moment, day, 2);
AT(moment, hour, 4);
AT(moment, minute, 5);

SIZE(left, 8);
AT(left, minutes, 0);
AT(left, place, 4);
AT(left, number, 5);

SIZE(day, 4);
AT(day, year, 0);
AT(day, month, 2);
AT(day, day, 3);

SIZE(unit, 24);
AT(unit, donation, 0);
AT(unit, product, 8);
AT(unit, expiry, 16);

SIZE(record, 28);
AT(record, unit, 0);
AT(record, used, 24);

SIZE(shelf_answer, 16);
AT(shelf_answer, place, 0);
AT(shelf_answer, number, 8);

#endif
