/* Eight threads ask about the same bytes side by side: each has to get the answers that one alone got before. */
#define _POSIX_C_SOURCE 200809L
#include "../expect.h"
#include "appleounce.h"

#include <pthread.h>
#include <stdlib.h>
#include <string.h>

#define THREADS 8
#define ROUNDS 600
#define SCAN(text) {(const uint8_t *)(text), sizeof(text) - 1}
#define FOUR(text) text text text text

struct scan {
    const uint8_t *bytes;
    size_t length;
};

/* All zeros before the first answer comes in: so two can be compared whole, as a reading has zeros in its padding. */
struct answers {
    appleounce_reading read, read_2001, imported;
    uint8_t label[400], label_2001[400], record[400], line[400];
    uint64_t numbers[40];
    size_t told;
};

struct asker {
    pthread_t thread;
    size_t first;
    unsigned long wrong;
};

/* Neighbours have other answers, so that a call which got into another would show. */
static const struct scan scans[] = {
    SCAN("=W00002112345600=%5100"),
    SCAN("=W00002112345600=<"),
    SCAN("W000021123456"),
    SCAN("=<E0178VBb&>0203661330"),
    SCAN("A999921123458*"),
    SCAN("=%6201"),
    SCAN("=+16000" FOUR(FOUR("=\\979999999999924799"))),
    SCAN("={880000000087000099C"),
    SCAN("=+02000=+"),
    SCAN("\27\0\5" "02042\1\0\17W00002112345600\2\0\4" "6410"),
    SCAN("=+03042=A99992112345663=%6410&)Ab12345xyZ"),
    SCAN("&>0213661330"),
    SCAN("\2\0\4" "9500"),
    SCAN("=+02000=%5100"),
    SCAN("W000021123456A"),
    SCAN("=(1002202402291437"),
    SCAN(""),
    SCAN("=O00002112345600"),
};
static struct answers alone[COUNT(scans)];
static pthread_barrier_t start;

static void tell(struct answers *to, uint64_t number)
{
    to->numbers[to->told++] = number;
}

static void tell_written(struct answers *to, appleounce_written written)
{
    tell(to, written.number);
    tell(to, written.place);
}

static void ask_scan(struct answers *to, const struct scan *s)
{
    appleounce_verdict verdict = appleounce_judge(s->bytes, s->length);
    appleounce_typed typed = appleounce_keyboard(s->bytes, s->length);

    tell(to, appleounce_refusal(s->bytes, s->length));
    tell(to, appleounce_place(s->bytes, s->length));
    tell(to, appleounce_check(s->bytes, s->length));
    tell(to, verdict.number);
    tell(to, verdict.place);
    tell(to, verdict.count);
    tell(to, typed.number);
    tell(to, typed.place);
    tell(to, typed.donation.first);
    tell(to, typed.donation.facility);
    tell(to, typed.donation.year);
    tell(to, typed.donation.sequence);
    to->read = appleounce_read(s->bytes, s->length);
    to->read_2001 = appleounce_read_2001(s->bytes, s->length);
    to->imported = appleounce_import(s->bytes, s->length);
    tell_written(to, appleounce_extract(s->bytes, s->length, to->line, sizeof to->line));
}

/* That of the reading that was accepted, or the empty one. */
static const appleounce_message *message_in(const struct answers *answers)
{
    if (answers->imported.number == APPLEOUNCE_ACCEPTED)
        return &answers->imported.message;
    if (answers->read_2001.number == APPLEOUNCE_ACCEPTED)
        return &answers->read_2001.message;
    return &answers->read.message;
}

static void ask_message(struct answers *to, const appleounce_message *message)
{
    tell_written(to, appleounce_write(*message, to->label, sizeof to->label));
    tell_written(to, appleounce_write_2001(*message, to->label_2001, sizeof to->label_2001));
    tell_written(to, appleounce_export(*message, to->record, sizeof to->record));
}

/* With bytes of the scan as numbers, lawful or not. */
static void ask_desk(struct answers *to, const struct scan *s)
{
    uint8_t of[8] = {0};
    appleounce_group group;
    appleounce_left left;
    appleounce_moment now = {2021, 0, 0, 0};
    appleounce_expiry expiry = {2021, 0, 0, 0, 0};
    appleounce_day day = {2021, 0, 0};

    memcpy(of, s->bytes, s->length < sizeof of ? s->length : sizeof of);
    group = appleounce_group_of(of[2], of[3]);
    now.day = of[4];
    expiry.day = (uint16_t)(of[5] * 4);
    expiry.timed = of[6] & 1;
    left = appleounce_minutes_left(now, expiry);
    day = appleounce_calendar_day(day.year, of[1]);
    tell(to, group.known * 256u + group.row * 16u + group.column);
    tell(to, appleounce_code_at(of[1] % 10, of[2] % 10));
    tell(to, (uint64_t)left.minutes);
    tell(to, left.place * 256u + left.number);
    tell(to, day.month * 256u + day.day);
    tell(to, appleounce_day_of_year(day));
}

static void ask(struct answers *to, const struct scan *s)
{
    memset(to, 0, sizeof *to);
    ask_scan(to, s);
    ask_message(to, message_in(to));
    ask_desk(to, s);
}

/* Each thread begins at another scan, and none before all are there. */
static void *ask_all(void *argument)
{
    struct asker *asker = argument;
    size_t i;

    pthread_barrier_wait(&start);
    for (i = 0; i < ROUNDS * COUNT(scans); i++) {
        size_t at = (asker->first + i) % COUNT(scans);
        struct answers answers;

        ask(&answers, &scans[at]);
        asker->wrong += memcmp(&answers, &alone[at], sizeof answers) != 0;
    }
    return NULL;
}

static void ensure(int error)
{
    if (error != 0) {
        fprintf(stderr, "threads: error %d\n", error);
        exit(2);
    }
}

int main(void)
{
    static struct asker askers[THREADS];
    size_t i;

    for (i = 0; i < COUNT(scans); i++)
        ask(&alone[i], &scans[i]);
    ensure(pthread_barrier_init(&start, NULL, THREADS));
    for (i = 0; i < THREADS; i++) {
        askers[i].first = i;
        ensure(pthread_create(&askers[i].thread, NULL, ask_all, &askers[i]));
    }
    for (i = 0; i < THREADS; i++) {
        ensure(pthread_join(askers[i].thread, NULL));
        expect(askers[i].wrong == 0, "answers of a thread");
    }
    return told();
}
