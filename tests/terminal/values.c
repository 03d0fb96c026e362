/* Reads and writes labels of both editions, and records of the host, by value. Whatever is read is given away before a
 * value is looked at, and whatever is filled has a page behind it that cannot be touched. In C and in C++. */
#define _DEFAULT_SOURCE
#include "../expect.h"
#include "../fence.h"
#include "../fields.h"
#include "../layout.h"
#include "scans.h"

enum { NOISE = 0x5a, SINGLE = 0, PAIR = 1, COMPOUND = 2 };

/* What is read and written: labels of an edition, or records. */
struct language {
    const char *name;
    appleounce_reading (*read)(const uint8_t *bytes, size_t length);
    appleounce_written (*write)(appleounce_message message, uint8_t *buffer, size_t room);
};

static const struct language current = {"label", appleounce_read, appleounce_write};
static const struct language of_2001 = {"label of 2001", appleounce_read_2001, appleounce_write_2001};
static const struct language host = {"record", appleounce_import, appleounce_export};
static const struct language *const languages[] = {&current, &of_2001, &host};

/* One structure of every kind: as on the label, its kind, date.timed, and its values in the order of fields.h. The two
 * pairs that a message can be stand side by side, and the kind of 2001 is the last. */
static const struct value {
    const char *text;
    unsigned kind, timed;
    uint64_t fields[10];
} values[] = {
    {"=A99992112345663", 1, 0, {'A', 9999, 21, 123456, 63}},
    {"=%6410", 2, 0, {'6', '4', '1'}},
    {"=<E0178VBb", 3, 0, {'E', '0', '1', '7', '8', 'V', 'B', 'b'}},
    {"&>0203661330", 5, 1, {2020, 366, 13, 30}},
    {"=>900001", 4, 0, {1900, 1}},
    {"=*021365", 6, 0, {2021, 365}},
    {"&*1000602359", 7, 1, {2100, 60, 23, 59}},
    {"=}899364", 8, 0, {2899, 364}},
    {"&}0210010000", 9, 1, {2021, 1, 0, 0}},
    {"&(N0A08", 10, 0, {'N', '0', 'A', '0', '8'}},
    {"=\\979999999999924799", 12, 0, {979999999999924799}},
    {"&)Ab12345xyZ", 18, 0, {'A', 'b', '1', '2', '3', '4', '5', 'x', 'y', 'Z'}},
    {"=(1002202402291437", 31, 1, {'1', 2, 2024, 2, 29, 14, 37}},
    {"={880000000087000099C", 200, 0, {8800000000870000, 99}},
};

enum { ALL = COUNT(values), ALL_CURRENT = ALL - 1 };

struct bytes {
    uint8_t at[400];
    size_t length;
};

/* A message as a label, as a record, and as a reading of the label. */
struct sample {
    struct bytes label, record;
    appleounce_reading due;
};

static void append(struct bytes *to, const void *bytes, size_t length)
{
    memcpy(to->at + to->length, bytes, length);
    to->length += length;
}

/* In a record the data follows tag and length: all behind the identifier, of a donation number all behind its =. */
static void add(struct sample *to, const struct value *value)
{
    appleounce_structure *structure = &to->due.message.structures[to->due.message.count++];
    size_t length = strlen(value->text), skipped = value->kind == 1 ? 1 : 2, i = 0;
    uint8_t head[3] = {(uint8_t)value->kind, 0, (uint8_t)(length - skipped)};
    const struct field *field;

    structure->kind = (uint8_t)value->kind;
    structure->place = to->label.length;
    structure->length = length;
    structure->date.timed = (uint8_t)value->timed;
    for (field = first_field(value->kind); field->kind == value->kind; field++)
        set_field(structure, field, value->fields[i++]);
    append(&to->label, value->text, length);
    append(&to->record, head, sizeof head);
    append(&to->record, value->text + skipped, length - skipped);
}

static void make(struct sample *made, unsigned form, unsigned bbb, size_t from, size_t count)
{
    char head[32];
    size_t i;

    memset(made, 0, sizeof *made);
    made->due.message.form = (uint8_t)form;
    made->due.message.bbb = (uint16_t)bbb;
    if (form == COMPOUND) {
        snprintf(head, sizeof head, "=+%02u%03u", (unsigned)count, bbb);
        append(&made->label, head, 7);
        append(&made->record, "\27\0\5", 3);
        append(&made->record, head + 2, 5);
    }
    for (i = 0; i < count; i++)
        add(made, &values[from + i]);
    made->due.place = made->label.length;
}

/* Whether the bytes are read so, padding too, from a heap block and from either end of fenced pages. */
static int reads(const struct language *in, const void *bytes, size_t length, const appleounce_reading *due)
{
    uint8_t *lent = block(bytes, length);
    appleounce_reading got = in->read(lent, length);
    int same, first;

    give_away(lent, length);
    same = memcmp(&got, due, sizeof got) == 0;
    for (first = 0; first < 2; first++) {
        struct fenced f = fence(bytes, length, first);

        got = in->read(f.bytes, length);
        unfence(f);
        same = same && memcmp(&got, due, sizeof got) == 0;
    }
    return same;
}

/* Whether the bytes are refused so, with zeros in all but number and place. */
static int refused(const struct language *in, const void *bytes, size_t length, unsigned number, size_t place)
{
    appleounce_reading due;

    memset(&due, 0, sizeof due);
    due.number = (uint8_t)number;
    due.place = place;
    return reads(in, bytes, length, &due);
}

/* Whether a buffer with this room gets this answer, the bytes if the number is ACCEPTED, and no other byte changes. */
static int fills(const struct language *in, const appleounce_message *message, size_t room, unsigned number,
                 size_t place, const void *bytes)
{
    size_t stored = number == APPLEOUNCE_ACCEPTED ? place : 0;
    int right = 1, first;

    for (first = 0; first < 2; first++) {
        struct fenced f = fence_room(room, first);
        appleounce_written written;

        memset(f.bytes, '.', room);
        written = in->write(*message, f.bytes, room);
        right = right && written.number == number && written.place == place && memcmp(f.bytes, bytes, stored) == 0
            && all_are(f.bytes + stored, room - stored, '.');
        unfence(f);
    }
    return right;
}

/* Whether the message is refused, whatever the room. */
static int unwritten(const struct language *in, const appleounce_message *message, unsigned number, size_t place)
{
    appleounce_written written = in->write(*message, NULL, 0);

    return written.number == number && written.place == place && fills(in, message, 400, number, place, "");
}

/* Whether the message is written as these bytes if there is room for them. */
static int writes(const struct language *in, const appleounce_message *message, const void *bytes, size_t length)
{
    appleounce_written written = in->write(*message, NULL, 0);

    return written.number == APPLEOUNCE_ROOM && written.place == length
        && fills(in, message, length - 1, APPLEOUNCE_ROOM, length, "")
        && fills(in, message, length, APPLEOUNCE_ACCEPTED, length, bytes)
        && fills(in, message, length + 40, APPLEOUNCE_ACCEPTED, length, bytes);
}

/* The same values with noise in all that the writer has not to look at: places, lengths, foreign fields, padding, and
 * what is past the count. */
static void add_noise(appleounce_message *noisy, const appleounce_message *message)
{
    size_t i;

    memset(noisy, NOISE, sizeof *noisy);
    noisy->form = message->form;
    noisy->bbb = message->bbb;
    noisy->count = message->count;
    for (i = 0; i < message->count; i++)
        copy_values(&noisy->structures[i], &message->structures[i]);
}

/* Tells what was tried as which language, about the message with this label. */
static void expect_in(int holds, const struct language *in, const char *tried, const char *label)
{
    char what[64];

    snprintf(what, sizeof what, "%s, %s", in->name, tried);
    expect_of(holds, what, label);
}

/* Read, then written, gives the bytes; written, then read, gives the reading. */
static void expect_both_ways(const struct language *in, const void *bytes, size_t length, const appleounce_reading *due,
                             const char *label)
{
    uint8_t *buffer = filled('.', length);
    appleounce_message noisy;

    add_noise(&noisy, &due->message);
    expect_in(reads(in, bytes, length, due), in, "read", label);
    expect_in(writes(in, &due->message, bytes, length), in, "written", label);
    expect_in(writes(in, &noisy, bytes, length), in, "written from noise", label);
    in->write(noisy, buffer, length);
    expect_in(reads(in, buffer, length, due), in, "written and read", label);
    free(buffer);
}

static void expect_scans(void)
{
    size_t i;

    for (i = 0; i < COUNT(scans); i++) {
        const struct scan *s = &scans[i];
        uint8_t *lent = block(s->text, s->length);
        appleounce_reading reading = appleounce_read(lent, s->length);

        give_away(lent, s->length);
        expect_of(reading.number == s->number && reading.place == s->place && reading.message.count == s->count,
                  "reading of", s->text);
        if (s->number == APPLEOUNCE_ACCEPTED)
            expect_both_ways(&current, s->text, s->length, &reading, s->text);
        else
            expect_of(refused(&current, s->text, s->length, s->number, s->place), "zeros for", s->text);
    }
}

/* Behind a label there are zeros in a sample, so that it is a string too. */
static void expect_label(const struct language *in, const struct sample *sample)
{
    expect_both_ways(in, sample->label.at, sample->label.length, &sample->due, (const char *)sample->label.at);
}

/* A record is read as its label is, but for the place, which is its own length. */
static void expect_record(const struct sample *sample)
{
    appleounce_reading due = sample->due;

    due.place = sample->record.length;
    expect_both_ways(&host, sample->record.at, sample->record.length, &due, (const char *)sample->label.at);
}

/* What one edition has, and not the other. */
static void expect_alien(const struct language *to, const struct sample *sample)
{
    const char *label = (const char *)sample->label.at;

    expect_in(refused(to, label, sample->label.length, APPLEOUNCE_IDENTIFIER, 1), to, "alien", label);
    expect_in(unwritten(to, &sample->due.message, APPLEOUNCE_SHAPE, 0), to, "alien to the writer", label);
}

static int is_of_2001(const struct value *value)
{
    return value->kind < 10 || value->kind == 200;
}

static void expect_singles(void)
{
    struct sample made;
    size_t i;

    for (i = 0; i < ALL_CURRENT; i++) {
        make(&made, SINGLE, 0, i, 1);
        expect_label(&current, &made);
        expect_record(&made);
        if (is_of_2001(&values[i]))
            expect_label(&of_2001, &made);
        else
            expect_alien(&of_2001, &made);
    }
    make(&made, SINGLE, 0, ALL_CURRENT, 1);
    expect_label(&of_2001, &made);
    expect_alien(&current, &made);
    expect(unwritten(&host, &made.due.message, APPLEOUNCE_SHAPE, 0), "200 to write as a record");
    expect(refused(&host, made.record.at, made.record.length, APPLEOUNCE_TAG, 0), "200 as a tag");
}

static void expect_pairs_and_compounds(void)
{
    struct sample made;
    size_t i;

    for (i = 0; i < 4; i += 2) {
        make(&made, PAIR, 0, i, 2);
        expect_label(&current, &made);
        expect_label(&of_2001, &made);
        expect_record(&made);
    }
    for (i = 1; i <= ALL_CURRENT; i++) {
        make(&made, COMPOUND, 999 - (unsigned)i, 0, i);
        expect_label(&current, &made);
        expect_alien(&of_2001, &made);
        expect_record(&made);
    }
}

/* The fields of the compound of every kind, by their names. */
static void expect_names(void)
{
    struct sample made;
    const appleounce_structure *s = made.due.message.structures;

    make(&made, COMPOUND, 42, 0, ALL_CURRENT);
    made.due = appleounce_read(made.label.at, made.label.length);
    memset(&made.label, NOISE, sizeof made.label);
    expect(made.due.message.form == 2 && made.due.message.bbb == 42, "form and bbb");
    expect(made.due.message.count == 13, "count");
    expect(s[0].donation.first == 'A' && s[0].donation.facility == 9999 && s[0].donation.year == 21, "donation number");
    expect(s[0].donation.sequence == 123456 && s[0].flags == 63, "sequence and flags");
    expect(s[1].gg0 == '6' && s[1].gg1 == '4' && s[1].r == '1', "groups");
    expect(memcmp(&s[2].product, "E0178VBb", 8) == 0, "product code");
    expect(s[3].date.year == 2020 && s[3].date.day == 366 && s[3].date.timed == 1, "expiry");
    expect(s[3].date.hour == 13 && s[3].date.minute == 30, "time of the expiry");
    expect(s[4].date.year == 1900 && s[4].date.day == 1 && s[4].date.timed == 0, "expiry without a time");
    expect(memcmp(s[9].characters, "N0A08\0\0\0\0", 10) == 0, "special testing");
    expect(s[10].antigens == 979999999999924799, "antigens");
    expect(memcmp(s[11].characters, "Ab12345xyZ", 10) == 0, "lot");
    expect(s[12].first == '1' && s[12].type == 2 && s[12].month == 2 && s[12].day == 29, "flexible date");
    expect(s[12].date.year == 2024 && s[12].date.day == 0 && s[12].date.hour == 14, "its year and hour");
    expect(s[12].place == 138 && s[12].length == 18 && s[12].kind == 31, "where it stood");
}

static void expect_forms(void)
{
    struct sample made;
    unsigned form, i;

    for (form = 3; form < 256; form++)
        for (i = 0; i < COUNT(languages); i++) {
            make(&made, SINGLE, 0, 0, 1);
            made.due.message.form = (uint8_t)form;
            expect_of(unwritten(languages[i], &made.due.message, APPLEOUNCE_SHAPE, 0), "a form that is none",
                      languages[i]->name);
        }
}

/* Those that would be lawful with some of their bits gone are among them. */
static void expect_counts(void)
{
    static const size_t counts[] = {0, 17, 18, 255, 256, 257, 65537, ((size_t)1 << 32) + 1, (size_t)1 << 63,
                                    ((size_t)1 << 63) + 1, (size_t)-16, (size_t)-1};
    struct sample made;
    unsigned i, j;

    for (i = 0; i < COUNT(counts); i++)
        for (j = 0; j < 3 * COUNT(languages); j++) {
            make(&made, SINGLE, 0, 0, 2);
            made.due.message.form = (uint8_t)(j % 3);
            made.due.message.count = counts[i];
            expect_of(unwritten(languages[j / 3], &made.due.message, APPLEOUNCE_SHAPE, 0), "a count that is none",
                      languages[j / 3]->name);
        }
}

/* An empty structure is looked for after the others have been seen to fit. */
static void expect_kind_that_is_none(unsigned kind)
{
    size_t at = kind % ALL_CURRENT, i;
    struct sample made;

    for (i = 0; i < COUNT(languages); i++) {
        make(&made, SINGLE, 0, 0, 1);
        made.due.message.structures[0].kind = (uint8_t)kind;
        expect_of(unwritten(languages[i], &made.due.message, APPLEOUNCE_FIELD, 0), "no kind, as a", languages[i]->name);
        make(&made, PAIR, 0, 2, 2);
        made.due.message.structures[1].kind = (uint8_t)kind;
        expect_of(unwritten(languages[i], &made.due.message, APPLEOUNCE_FIELD, 1), "no kind in a", languages[i]->name);
        made.due.message.structures[0].kind = 2;
        expect_of(unwritten(languages[i], &made.due.message, APPLEOUNCE_SHAPE, 0), "SHAPE first", languages[i]->name);
    }
    make(&made, COMPOUND, 0, 0, ALL_CURRENT);
    made.due.message.structures[at].kind = (uint8_t)kind;
    made.due.message.structures[ALL_CURRENT - 1].type = 6;
    expect(unwritten(&current, &made.due.message, APPLEOUNCE_FIELD, at), "no kind in a compound");
    expect(unwritten(&host, &made.due.message, APPLEOUNCE_FIELD, at), "no kind in a compound's record");
}

static void expect_kinds(void)
{
    unsigned kind, i;

    for (kind = 0; kind < 256; kind++) {
        for (i = 0; i < ALL && values[i].kind != kind; i++)
            ;
        if (i == ALL)
            expect_kind_that_is_none(kind);
    }
}

/* No field of any kind can have ones in all its bits. */
static void expect_fields(void)
{
    const uint64_t ones = ~(uint64_t)0;
    const struct field *field;
    struct sample made;
    size_t i;

    for (i = 0; i < ALL; i++)
        for (field = first_field(values[i].kind); field->kind == values[i].kind; field++) {
            make(&made, SINGLE, 0, i, 1);
            set_field(&made.due.message.structures[0], field, ones);
            if (is_of_2001(&values[i]))
                expect_of(unwritten(&of_2001, &made.due.message, APPLEOUNCE_FIELD, 0), "a field, 2001", values[i].text);
            if (i == ALL_CURRENT)
                continue;
            make(&made, COMPOUND, 0, 0, ALL_CURRENT);
            set_field(&made.due.message.structures[i], field, ones);
            expect_of(unwritten(&current, &made.due.message, APPLEOUNCE_FIELD, i), "a field", values[i].text);
            expect_of(unwritten(&host, &made.due.message, APPLEOUNCE_FIELD, i), "a record's field", values[i].text);
        }
}

/* What no label has, though each structure of it is lawful. */
static void expect_shapes(void)
{
    struct sample made;
    size_t i;

    for (i = 0; i < COUNT(languages); i++) {
        make(&made, SINGLE, 1, 0, 1);
        expect_of(unwritten(languages[i], &made.due.message, APPLEOUNCE_SHAPE, 0), "bbb, single", languages[i]->name);
        make(&made, PAIR, 0, 1, 2);
        expect_of(unwritten(languages[i], &made.due.message, APPLEOUNCE_SHAPE, 0), "002 and 003", languages[i]->name);
        make(&made, PAIR, 0, 3, 2);
        expect_of(unwritten(languages[i], &made.due.message, APPLEOUNCE_SHAPE, 0), "005 and 004", languages[i]->name);
        make(&made, COMPOUND, 1000, 0, 2);
        expect_of(unwritten(languages[i], &made.due.message, APPLEOUNCE_SHAPE, 0), "bbb over 999", languages[i]->name);
        make(&made, COMPOUND, 0, 0, 3);
        made.due.message.structures[2] = made.due.message.structures[0];
        expect_of(unwritten(languages[i], &made.due.message, APPLEOUNCE_SHAPE, 0), "001 twice", languages[i]->name);
        memset(&made, 0, sizeof made);
        expect_of(unwritten(languages[i], &made.due.message, APPLEOUNCE_SHAPE, 0), "zeros", languages[i]->name);
        memset(&made, 0xff, sizeof made);
        expect_of(unwritten(languages[i], &made.due.message, APPLEOUNCE_SHAPE, 0), "ones", languages[i]->name);
    }
}

static void expect_2001(void)
{
    static const struct scan refusals[] = {
        SCAN("={8800000000870000998", APPLEOUNCE_CHECK, 20),
        SCAN("={880000000087000099*", APPLEOUNCE_CHECK, 20),
        SCAN("={880000000087000099c", APPLEOUNCE_CHARACTER, 20),
        SCAN("={88000000008700009CC", APPLEOUNCE_CHARACTER, 19),
        SCAN("={880000000087000099", APPLEOUNCE_SHORT, 20),
        SCAN("={880000000087000099C=", APPLEOUNCE_TRAILING, 21),
        SCAN("=<E0178VBb=>020366", APPLEOUNCE_TRAILING, 10),
        SCAN("=W00002112345671", APPLEOUNCE_CHECK, 15),
        SCAN("=>021366", APPLEOUNCE_DAY, 7),
        SCAN("", APPLEOUNCE_SHORT, 0),
    };
    size_t i;

    for (i = 0; i < COUNT(refusals); i++)
        expect_of(refused(&of_2001, refusals[i].text, refusals[i].length, refusals[i].number, refusals[i].place),
                  "in 2001", refusals[i].text);
}

static void expect_records(void)
{
    static const struct scan refusals[] = {
        SCAN("", APPLEOUNCE_SHORT, 0),
        SCAN("\2\0\4" "510", APPLEOUNCE_SHORT, 6),
        SCAN("\2\0\5", APPLEOUNCE_LENGTH, 2),
        SCAN("\2\1", APPLEOUNCE_LENGTH, 1),
        SCAN("\1\0\17*", APPLEOUNCE_CHARACTER, 3),
        SCAN("\1\0\17W00002112345600\3", APPLEOUNCE_TRAILING, 18),
        SCAN("\1\0\17W00002112345600\2\1", APPLEOUNCE_LENGTH, 19),
        SCAN("\1\0\17W00002112345671", APPLEOUNCE_CHECK, 17),
        SCAN("\5\0\12" "0213661330", APPLEOUNCE_DAY, 8),
        SCAN("\5\0\12" "0203662400", APPLEOUNCE_TIME, 10),
        SCAN("\27\0\5" "17", APPLEOUNCE_VALUE, 4),
        SCAN("\27\0\5" "02000\27", APPLEOUNCE_NESTED, 8),
        SCAN("\27\0\5" "02000\1\0\17W00002112345600\1", APPLEOUNCE_REPEAT, 26),
        SCAN("\13", APPLEOUNCE_TAG, 0),
        SCAN("\0", APPLEOUNCE_TAG, 0),
        SCAN("=W00002112345600", APPLEOUNCE_TAG, 0),
    };
    size_t i;

    for (i = 0; i < COUNT(refusals); i++)
        expect_of(refused(&host, refusals[i].text, refusals[i].length, refusals[i].number, refusals[i].place),
                  "record that is refused with", appleounce_refusal_name((uint8_t)refusals[i].number));
}

static void expect_nothing(void)
{
    appleounce_reading due;
    size_t i;

    memset(&due, 0, sizeof due);
    due.number = APPLEOUNCE_SHORT;
    for (i = 0; i < COUNT(languages); i++) {
        appleounce_reading got = languages[i]->read(NULL, 0);

        expect_of(memcmp(&got, &due, sizeof got) == 0, "a null pointer as a", languages[i]->name);
    }
}

int main(void)
{
    expect_scans();
    expect_singles();
    expect_pairs_and_compounds();
    expect_names();
    expect_forms();
    expect_counts();
    expect_kinds();
    expect_fields();
    expect_shapes();
    expect_2001();
    expect_records();
    expect_nothing();
    return told();
}
