/* Two bags come off one tray, platelets first, then red cells. The first is scanned; then its block of memory is given
 * to the second scan, and later to something else. The parser that this one replaces kept pointers into the scan, so
 * the first bag's record told about the second bag, and both had one product code. Here nothing is kept: the answers
 * are numbers and values, and the records below hold them.
 *
 * crates/try_incident is this story with the proved reader itself. */
#include "../expect.h"
#include "appleounce.h"

#include <stdlib.h>
#include <string.h>

enum { BLOCK = 64 };

/* What the terminal keeps of a scan. */
struct record {
    size_t length;
    unsigned refusal;
    size_t place;
    int check; /* of the donation number, after the =; 0 where there is none */
    appleounce_reading reading;
};

/* Lays the scan into the block, from its first byte, and asks for the answers. */
static struct record scan_into(uint8_t *block, const char *scan)
{
    struct record r;

    r.length = strlen(scan);
    memcpy(block, scan, r.length);
    r.refusal = appleounce_refusal(block, r.length);
    r.place = appleounce_place(block, r.length);
    r.check = r.length < 14 ? 0 : appleounce_check(block + 1, 13);
    r.reading = appleounce_read(block, r.length);
    return r;
}

/* The reading has to say of number and place what the answers do. */
static int is(const struct record *r, unsigned refusal, size_t place, int check)
{
    return r->refusal == refusal && r->place == place && r->check == check && r->reading.number == refusal
        && r->reading.place == place;
}

/* The label with the donation number and the groups, gg. */
static int is_donation(const struct record *r, const char *first, unsigned facility, const char *gg)
{
    const appleounce_structure *s = r->reading.message.structures;

    return r->reading.message.count == 2 && s[0].kind == 1 && s[0].donation.first == *first
        && s[0].donation.facility == facility && s[0].donation.year == 21 && s[0].donation.sequence == 123456
        && s[1].kind == 2 && s[1].gg0 == gg[0] && s[1].gg1 == gg[1];
}

/* The label with the product code, and the expiry at the last minute of a day of 2026. */
static int is_product(const struct record *r, const char *code, unsigned day)
{
    const appleounce_structure *s = r->reading.message.structures;

    return r->reading.message.count == 2 && s[0].kind == 3 && memcmp(&s[0].product, code, 8) == 0 && s[1].kind == 5
        && s[1].date.year == 2026 && s[1].date.day == day && s[1].date.timed == 1 && s[1].date.hour == 23
        && s[1].date.minute == 59;
}

/* A donation number and blood groups, O positive, accepted; the second bag is O negative, and its label is damaged: the
 * last character of its blood groups is 1, and only 0 is lawful there. */
static void expect_answers(uint8_t *block, uint8_t *other)
{
    struct record first = scan_into(block, "=W00002112345600=%5100"), second, third;

    expect(is(&first, APPLEOUNCE_ACCEPTED, 22, 'A'), "the first bag is accepted, its check character is A");

    /* The second scan takes the block of the first. */
    second = scan_into(block, "=A99992112345600=%9501");
    expect(is(&second, APPLEOUNCE_VALUE, 21, '3'), "the second bag is refused at its last character");
    expect(second.reading.message.count == 0, "and nothing of it is taken");
    expect(is(&first, APPLEOUNCE_ACCEPTED, 22, 'A'), "the first bag's record is as it was, with the block reused");
    expect(is_donation(&first, "W", 0, "51"), "and so are its values");

    /* The block gets another owner, who writes over it. */
    memset(block, 0xff, BLOCK);
    free(block);
    expect(is(&first, APPLEOUNCE_ACCEPTED, 22, 'A'), "the first bag's record is as it was, with the block given away");
    expect(is_donation(&first, "W", 0, "51"), "and so are its values, with the block given away");
    expect(is(&second, APPLEOUNCE_VALUE, 21, '3'), "the second bag's record is as it was");

    /* The answers come from the bytes of the call alone: the first label again, in another block, after all that. */
    third = scan_into(other, "=W00002112345600=%5100");
    expect(is(&third, APPLEOUNCE_ACCEPTED, 22, 'A'), "the first label gets the same answers again");
    expect(memcmp(&third.reading, &first.reading, sizeof first.reading) == 0, "and the same reading, byte for byte");
}

/* Both labels of both bags go through one block, which has a third owner before anything is looked at. */
static void expect_two_bags(uint8_t *block)
{
    struct record platelets, platelets_code, red_cells, red_cells_code;

    platelets = scan_into(block, "=W00002112345600=%5100");
    platelets_code = scan_into(block, "=<E3087V00&>0261232359");
    red_cells = scan_into(block, "=A99992112345600=%9500");
    red_cells_code = scan_into(block, "=<E0336V00&>0261502359");
    memset(block, '?', BLOCK);

    expect(is_donation(&platelets, "W", 0, "51"), "the platelets have their donation number, and are O positive");
    expect(is_product(&platelets_code, "E3087V00", 123), "the platelets have their product code and expiry");
    expect(is_donation(&red_cells, "A", 9999, "95"), "the red cells have their donation number, and are O negative");
    expect(is_product(&red_cells_code, "E0336V00", 150), "the red cells have their product code and expiry");
}

/* A compound message says that two structures follow, and its last one is missing. In the block there still lie bytes
 * of the scan before it, just past the end, that would complete it. */
static void expect_compound(uint8_t *block)
{
    struct record whole = scan_into(block, "=+02000=W00002112345600=%5100");
    struct record cut = scan_into(block, "=+02000=W00002112345600");

    expect(cut.refusal == APPLEOUNCE_SHORT, "a compound without its last structure is SHORT");
    expect(cut.place == cut.length && cut.length == 23, "and its place is its length");
    expect(cut.reading.number == APPLEOUNCE_SHORT && cut.reading.message.count == 0, "and nothing of it is taken");
    expect(is_donation(&whole, "W", 0, "51"), "the whole one before it is as it was");
    whole = scan_into(block, "=+02000=W00002112345600=%5100");
    expect(whole.refusal == APPLEOUNCE_ACCEPTED && whole.place == 29, "with that structure it is accepted");
}

int main(void)
{
    uint8_t *block = malloc(BLOCK), *other = malloc(BLOCK);

    if (block == NULL || other == NULL)
        return 2;
    expect_answers(block, other);
    expect_two_bags(other);
    expect_compound(other);
    free(other);
    return told();
}
