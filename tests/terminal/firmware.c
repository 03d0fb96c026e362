/* Asks the archive as a terminal's firmware does, about scans whose memory is given away between the calls. */
#define _DEFAULT_SOURCE
#include "../expect.h"
#include "../fence.h"
#include "scans.h"

#define MEGABYTE ((size_t)1 << 20)

static const struct {
    const char *text;
    size_t length;
    int character;
} numbers[] = {
    {"W000021123456", 13, 'A'},
    {"A999921123456", 13, '3'},
    {"A999912123456", 13, 'K'},
    {"A999921123458", 13, '*'},
    {"", 0, 0},
    {"W00002112345", 12, 0},
    {"W000021123456A", 14, 0},
    {"O000021123456", 13, 0},
    {"0000021123456", 13, 0},
    {"w000021123456", 13, 0},
    {"WA00021123456", 13, 0},
    {"W00002112345\0", 13, 0},
    {"W00002112345\377", 13, 0},
};

static int judged(const struct scan *s, appleounce_verdict verdict)
{
    return verdict.number == s->number && verdict.place == s->place && verdict.count == s->count;
}

static int right_in_blocks(const struct scan *s)
{
    uint8_t *bytes = block(s->text, s->length);
    unsigned number = appleounce_refusal(bytes, s->length);
    appleounce_verdict verdict;
    size_t place;

    give_away(bytes, s->length);
    bytes = block(s->text, s->length);
    place = appleounce_place(bytes, s->length);
    give_away(bytes, s->length);
    bytes = block(s->text, s->length);
    verdict = appleounce_judge(bytes, s->length);
    give_away(bytes, s->length);
    return number == s->number && place == s->place && judged(s, verdict);
}

/* One scan buffer in which the second scan takes the place of the first between the calls. */
static int right_in_turn(uint8_t *buffer, const struct scan *first, const struct scan *second)
{
    appleounce_verdict verdict, verdict_again;
    unsigned number, number_again;
    size_t place, place_again;

    memcpy(buffer, first->text, first->length);
    number = appleounce_refusal(buffer, first->length);
    memcpy(buffer, second->text, second->length);
    place = appleounce_place(buffer, second->length);
    number_again = appleounce_refusal(buffer, second->length);
    verdict_again = appleounce_judge(buffer, second->length);
    memcpy(buffer, first->text, first->length);
    place_again = appleounce_place(buffer, first->length);
    verdict = appleounce_judge(buffer, first->length);
    return number == first->number && place_again == first->place && judged(first, verdict)
        && number_again == second->number && place == second->place && judged(second, verdict_again);
}

static int right_in_fences(const struct scan *s, int first)
{
    struct fenced f = fence(s->text, s->length, first);
    unsigned number = appleounce_refusal(f.bytes, s->length);
    appleounce_verdict verdict;
    size_t place;

    unfence(f);
    f = fence(s->text, s->length, first);
    place = appleounce_place(f.bytes, s->length);
    unfence(f);
    f = fence(s->text, s->length, first);
    verdict = appleounce_judge(f.bytes, s->length);
    unfence(f);
    return number == s->number && place == s->place && judged(s, verdict);
}

static int right_check(const char *text, size_t length, int character)
{
    uint8_t *bytes = block(text, length);
    struct fenced first = fence(text, length, 1), last = fence(text, length, 0);
    int answer = appleounce_check(bytes, length);
    int right = answer == character && appleounce_check(first.bytes, length) == character
        && appleounce_check(last.bytes, length) == character;

    give_away(bytes, length);
    unfence(first);
    unfence(last);
    return right;
}

static void expect_scan(const struct scan *s)
{
    expect_of(right_in_blocks(s), "in a heap block", s->text);
    expect_of(right_in_fences(s, 1), "as the first bytes of a page", s->text);
    expect_of(right_in_fences(s, 0), "as the last bytes of a page", s->text);
}

/* Each part of a pair from its front is SHORT, but for the whole first structure. */
static void expect_parts(void)
{
    struct scan part = SCAN("=W00002112345600=%5100", APPLEOUNCE_SHORT, 0);

    for (part.length = 0; part.length < 22; part.length++) {
        part.place = part.length;
        part.count = part.length == 16;
        part.number = part.length == 16 ? APPLEOUNCE_ACCEPTED : APPLEOUNCE_SHORT;
        expect_of(right_in_blocks(&part) && right_in_fences(&part, 0), "for a part of", part.text);
    }
}

/* A megabyte of one byte with a scan laid over its front. */
static void expect_megabyte(const char *front, int filler, unsigned number, size_t place)
{
    char *text = (char *)filled(filler, MEGABYTE);
    struct scan s = {text, MEGABYTE, number, place, 0};

    memcpy(text, front, strlen(front));
    expect_scan(&s);
    expect_of(right_check(text, MEGABYTE, 0), "check character of a megabyte", text);
    free(text);
}

static void expect_nothing(void)
{
    static const struct scan nothing = SCAN("", APPLEOUNCE_SHORT, 0);

    expect(appleounce_refusal(NULL, 0) == APPLEOUNCE_SHORT, "refusal number of a null pointer");
    expect(appleounce_place(NULL, 0) == 0, "place of a null pointer");
    expect(judged(&nothing, appleounce_judge(NULL, 0)), "verdict of a null pointer");
    expect(appleounce_check(NULL, 0) == 0, "check character of a null pointer");
}

int main(void)
{
    uint8_t *buffer = filled('x', 512);
    size_t i;

    for (i = 0; i < COUNT(scans); i++) {
        expect_scan(&scans[i]);
        expect_of(right_in_turn(buffer, &scans[i], &scans[(i + 1) % COUNT(scans)]), "in a reused block", scans[i].text);
    }
    free(buffer);
    expect_nothing();
    expect_parts();
    expect_megabyte("=%5100", '=', APPLEOUNCE_TRAILING, 6);
    expect_megabyte(LONGEST, '9', APPLEOUNCE_TRAILING, 327);
    expect_megabyte("", '=', APPLEOUNCE_IDENTIFIER, 1);
    expect_megabyte("=", '\0', APPLEOUNCE_IDENTIFIER, 1);
    for (i = 0; i < COUNT(numbers); i++)
        expect_of(right_check(numbers[i].text, numbers[i].length, numbers[i].character), "check", numbers[i].text);
    return told();
}
