/* The archive's answers to the records of standard input, a line for each; bench/src/asked.rs says how records are laid
 * out. Prints what `second asked` does. Every scan is given away before a value of its answer is looked at, every
 * message that is to be written has noise wherever its kinds have no field, and every reading is seen to have zeros
 * there. Eight threads answer side by side, each a share of the records. */
#define _DEFAULT_SOURCE
#include "../fence.h"
#include "../fields.h"

#include <pthread.h>

#define COUNT(table) (sizeof(table) / sizeof((table)[0]))

enum { RECORD = 384, HEAD = 16, ENTRY = 11, ENTRIES = 16 };
enum { MOST_SCAN = 368, MOST_TYPED = 176, MOST_LABEL = 340, MOST_LINE = 400, MOST_EXPORT = 368 };
enum { NOISE = 0x5a, THREADS = 8, SHARE = 2000 };

/* As long as it has to be. */
struct text {
    char *bytes;
    size_t length, room;
};

/* What one thread is given and gives. */
struct share {
    pthread_t thread;
    const uint8_t *records;
    size_t count;
    struct text answers;
};

static void put(struct text *to, const void *bytes, size_t length)
{
    if (to->room - to->length < length) {
        to->room = 2 * (to->room + length);
        to->bytes = ensure(realloc(to->bytes, to->room));
    }
    memcpy(to->bytes + to->length, bytes, length);
    to->length += length;
}

static void put_decimal(struct text *to, uint64_t number)
{
    char digits[20];
    char *first = digits + sizeof digits;

    do {
        *--first = (char)('0' + number % 10);
        number /= 10;
    } while (number > 0);
    put(to, first, (size_t)(digits + sizeof digits - first));
}

/* A blank and a number. */
static void tell(struct text *to, uint64_t number)
{
    put(to, " ", 1);
    put_decimal(to, number);
}

/* The same of a number that may be below zero; wider, as the least has no opposite. */
static void tell_signed(struct text *to, int64_t number)
{
    put(to, " -", number < 0 ? 2 : 1);
    put_decimal(to, (uint64_t)(number < 0 ? -number : number));
}

/* A dash for what has no answer. */
static void tell_none(struct text *to)
{
    put(to, " -", 2);
}

static void tell_donation(struct text *to, const appleounce_donation *donation)
{
    tell(to, donation->first);
    tell(to, donation->facility);
    tell(to, donation->year);
    tell(to, donation->sequence);
}

static void tell_structure(struct text *to, const appleounce_structure *structure)
{
    const struct field *field;

    tell(to, structure->kind);
    tell(to, structure->place);
    tell(to, structure->length);
    for (field = first_field(structure->kind); field->kind == structure->kind; field++)
        tell(to, field_value(structure, field));
}

/* Whether a reading has nothing but what is told of it: zeros in every other field, and between the fields. */
static int all_is_told(const appleounce_reading *reading)
{
    const appleounce_message *message = &reading->message;
    appleounce_reading told;
    size_t i;

    memset(&told, 0, sizeof told);
    told.number = reading->number;
    told.place = reading->place;
    told.message.form = message->form;
    told.message.bbb = message->bbb;
    told.message.count = message->count;
    for (i = 0; i < ENTRIES; i++) {
        told.message.structures[i].place = message->structures[i].place;
        told.message.structures[i].length = message->structures[i].length;
        told.message.structures[i].date.timed = timed_in(message->structures[i].kind);
        copy_values(&told.message.structures[i], &message->structures[i]);
    }
    return memcmp(&told, reading, sizeof told) == 0;
}

static void tell_reading(struct text *to, const appleounce_reading *reading)
{
    size_t i;

    tell(to, reading->number);
    tell(to, reading->place);
    tell(to, reading->message.form);
    tell(to, reading->message.bbb);
    tell(to, reading->message.count);
    for (i = 0; i < ENTRIES; i++)
        tell_structure(to, &reading->message.structures[i]);
    if (!all_is_told(reading))
        put(to, " and foreign fields", 19);
}

/* Numbers begin with their highest byte. */
static uint64_t number(const uint8_t *at, size_t width)
{
    uint64_t all = 0;

    while (width-- > 0)
        all = all << 8 | *at++;
    return all;
}

static size_t limited(uint64_t asked, size_t most)
{
    return asked < most ? (size_t)asked : most;
}

/* A verdict is of the current edition. */
static int is_verdict(const appleounce_reading *reading, appleounce_verdict verdict)
{
    return verdict.number == reading->number && verdict.place == reading->place && verdict.count == reading->message.count;
}

static void answer_reading(const uint8_t *asked, struct text *to)
{
    size_t length = limited(number(asked + 1, 2), MOST_SCAN);
    uint8_t *scan = block(asked + HEAD, length);
    appleounce_reading reading;
    appleounce_verdict verdict;

    if (asked[0] == 'I')
        reading = appleounce_import(scan, length);
    else if (asked[3] == 1)
        reading = appleounce_read_2001(scan, length);
    else
        reading = appleounce_read(scan, length);
    verdict = appleounce_judge(scan, length);
    give_away(scan, length);
    tell_reading(to, &reading);
    if (asked[0] == 'R' && asked[3] != 1 && !is_verdict(&reading, verdict))
        put(to, " and another verdict", 20);
}

/* Any kind and any values: what is unlawful has to reach the writer. */
static void set_structure(appleounce_structure *structure, const uint8_t *entry)
{
    const struct field *field;
    size_t at = 1;

    structure->kind = entry[0];
    for (field = first_field(entry[0]); field->kind == entry[0]; field++) {
        set_field(structure, field, number(entry + at, field->width));
        at += field->width;
    }
}

/* Noise in padding, in the fields that a kind has not, and in places and lengths: the writer looks at none of these. */
static void set_message(appleounce_message *message, const uint8_t *asked)
{
    size_t i;

    memset(message, NOISE, sizeof *message);
    message->form = asked[1] < 2 ? asked[1] : 2;
    message->bbb = (uint16_t)number(asked + 2, 2);
    message->count = number(asked + 8, 8);
    for (i = 0; i < ENTRIES; i++)
        set_structure(&message->structures[i], asked + HEAD + ENTRY * i);
}

static void tell_written(struct text *to, appleounce_written written)
{
    tell(to, written.number);
    tell(to, written.place);
    put(to, " ", 1);
}

/* In hexadecimal digits, as what was stored may have LF, and an answer has one line. */
static void put_digits(struct text *to, const uint8_t *bytes, size_t length)
{
    static const char digits[] = "0123456789abcdef";
    size_t i;

    for (i = 0; i < length; i++) {
        put(to, &digits[bytes[i] >> 4], 1);
        put(to, &digits[bytes[i] & 15], 1);
    }
}

static void answer_label(const uint8_t *asked, struct text *to)
{
    size_t room = limited(number(asked + 4, 2), MOST_LABEL);
    uint8_t *buffer = filled('.', room);
    appleounce_message message;

    set_message(&message, asked);
    if (asked[6] == 1)
        tell_written(to, appleounce_write_2001(message, buffer, room));
    else
        tell_written(to, appleounce_write(message, buffer, room));
    put(to, buffer, room);
    free(buffer);
}

static void answer_export(const uint8_t *asked, struct text *to)
{
    size_t room = limited(number(asked + 4, 2), MOST_EXPORT);
    uint8_t *buffer = filled('.', room);
    appleounce_message message;

    set_message(&message, asked);
    tell_written(to, appleounce_export(message, buffer, room));
    put_digits(to, buffer, room);
    free(buffer);
}

static void answer_extract(const uint8_t *asked, struct text *to)
{
    size_t length = limited(number(asked + 1, 2), MOST_SCAN), room = limited(number(asked + 4, 2), MOST_LINE);
    uint8_t *scan = block(asked + HEAD, length), *buffer = filled('.', room);
    appleounce_written written = appleounce_extract(scan, length, buffer, room);

    give_away(scan, length);
    tell_written(to, written);
    put_digits(to, buffer, room);
    free(buffer);
}

static void answer_typed(const uint8_t *asked, struct text *to)
{
    size_t length = limited(asked[1], MOST_TYPED);
    uint8_t *entry = block(asked + HEAD, length);
    appleounce_typed typed = appleounce_keyboard(entry, length);

    give_away(entry, length);
    tell(to, typed.number);
    tell(to, typed.place);
    tell_donation(to, &typed.donation);
}

static void answer_group(const uint8_t *asked, struct text *to)
{
    appleounce_group group = appleounce_group_of(asked[1], asked[2]);

    if (group.known == 0) {
        tell_none(to);
    } else {
        tell(to, group.row);
        tell(to, group.column);
    }
}

static void answer_code(const uint8_t *asked, struct text *to)
{
    uint8_t code = appleounce_code_at(number(asked + 8, 8), number(asked + 16, 8));

    if (code == APPLEOUNCE_NO_CODE)
        tell_none(to);
    else
        tell(to, code);
}

static void answer_day_of_year(const uint8_t *asked, struct text *to)
{
    appleounce_day day = {(uint16_t)number(asked + 1, 2), asked[3], asked[4]};
    uint16_t day_of_year = appleounce_day_of_year(day);

    if (day_of_year == 0)
        tell_none(to);
    else
        tell(to, day_of_year);
}

static void answer_calendar_day(const uint8_t *asked, struct text *to)
{
    appleounce_day day = appleounce_calendar_day((uint16_t)number(asked + 1, 2), (uint16_t)number(asked + 3, 2));

    if (day.month == 0) {
        tell_none(to);
    } else {
        tell(to, day.month);
        tell(to, day.day);
    }
}

/* An expiry without a time keeps the hour and minute of its record, which are not to be looked at. */
static void answer_minutes(const uint8_t *asked, struct text *to)
{
    const uint8_t *now = asked + 8, *end = asked + 16;
    appleounce_moment moment = {(uint16_t)number(now, 2), (uint16_t)number(now + 2, 2), now[4], now[5]};
    appleounce_expiry expiry;
    appleounce_left left;

    memset(&expiry, NOISE, sizeof expiry);
    expiry.year = (uint16_t)number(end, 2);
    expiry.day = (uint16_t)number(end + 2, 2);
    expiry.timed = asked[1] == 1;
    expiry.hour = end[4];
    expiry.minute = end[5];
    left = appleounce_minutes_left(moment, expiry);
    tell(to, left.number);
    tell(to, left.place);
    tell_signed(to, left.minutes);
}

static const struct {
    uint8_t asked;
    void (*answer)(const uint8_t *asked, struct text *to);
} questions[] = {
    {'R', answer_reading}, {'I', answer_reading}, {'W', answer_label}, {'X', answer_export}, {'T', answer_extract},
    {'K', answer_typed}, {'G', answer_group}, {'C', answer_code}, {'O', answer_day_of_year},
    {'Q', answer_calendar_day}, {'M', answer_minutes},
};

/* A question mark for what nothing asks. */
static void answer(const uint8_t *asked, struct text *to)
{
    size_t i = 0;

    while (i < COUNT(questions) && questions[i].asked != asked[0])
        i++;
    if (i < COUNT(questions)) {
        put(to, asked, 1);
        questions[i].answer(asked, to);
    } else {
        put(to, "?", 1);
    }
    put(to, "\n", 1);
}

static void *answer_share(void *argument)
{
    struct share *share = argument;
    size_t i;

    share->answers.length = 0;
    for (i = 0; i < share->count; i++)
        answer(share->records + RECORD * i, &share->answers);
    return NULL;
}

static void ensure_thread(int error)
{
    if (error != 0) {
        fprintf(stderr, "asked: no thread, error %d\n", error);
        exit(2);
    }
}

static void start(struct share *shares, const uint8_t *records, size_t count)
{
    size_t i;

    for (i = 0; i < THREADS; i++) {
        size_t from = count * i / THREADS;

        shares[i].records = records + RECORD * from;
        shares[i].count = count * (i + 1) / THREADS - from;
        ensure_thread(pthread_create(&shares[i].thread, NULL, answer_share, &shares[i]));
    }
}

/* In the order of the shares, so that the answers have that of the records. */
static void print(struct share *shares)
{
    size_t i;

    for (i = 0; i < THREADS; i++) {
        ensure_thread(pthread_join(shares[i].thread, NULL));
        if (shares[i].count > 0)
            fwrite(shares[i].answers.bytes, 1, shares[i].answers.length, stdout);
    }
}

/* A last record that is not whole is none. */
int main(void)
{
    static struct share shares[THREADS];
    uint8_t *records = filled(0, (size_t)THREADS * SHARE * RECORD);
    size_t count;

    while ((count = fread(records, RECORD, THREADS * SHARE, stdin)) > 0) {
        start(shares, records, count);
        print(shares);
    }
    free(records);
    return ferror(stdin) || fflush(stdout) != 0;
}
