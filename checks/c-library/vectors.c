/* The library against the rows of docs/PAYLOADS.md and docs/FORMATS.md, and against itself on random payloads.
 * The argument says how many random payloads are read. */
#include "layout.h"

#include <stdio.h>
#include <stdlib.h>
#include <string.h>

static unsigned failures;

static void expect(int holds, const char *what) {
    if (!holds) {
        failures++;
        printf("fails: %s\n", what);
    }
}

static size_t octets_of(const char *digits, uint8_t *octets) {
    size_t length = strlen(digits) / 2;
    for (size_t i = 0; i < length; i++) {
        unsigned octet;
        sscanf(digits + 2 * i, "%2x", &octet);
        octets[i] = (uint8_t)octet;
    }
    return length;
}

struct refused_row {
    const char *payload;
    uint32_t bit;
    uint8_t reason, number, octet;
};

static const struct refused_row refused_rows[] = {
    {"", 0, 9, 0, 1},
    {"05", 0, 7, 0, 1},
    {"07", 8, 9, 0, 2},
    {"07010BA50BA5", 32, 2, 1, 5},
    {"07010D010D01", 32, 1, 1, 5},
    {"07010A08", 16, 7, 1, 3},
    {"0801", 16, 3, 1, 3},
    {"08010A00", 24, 13, 1, 4},
    {"08011200", 24, 11, 1, 4},
    {"08011327", 24, 9, 1, 4},
    {"08041327102710", 40, 10, 4, 6},
    {"08011380008000", 40, 10, 1, 6},
    {"0701150100", 32, 12, 1, 5},
    {"0101010101", 32, 8, 0, 5},
};

static void refused_payloads(void) {
    for (size_t i = 0; i < sizeof refused_rows / sizeof refused_rows[0]; i++) {
        const struct refused_row *row = &refused_rows[i];
        uint8_t octets[255];
        size_t length = octets_of(row->payload, octets);
        adsc_uplink uplink = {0};
        adsc_uplink_refusal refusal = {0};
        uint8_t status = adsc_decode_uplink(octets, length, &uplink, &refusal);
        expect(status == ADSC_REFUSED && refusal.bit == row->bit && refusal.reason == row->reason
                   && refusal.number == row->number && refusal.octet == row->octet && uplink.count == 0,
               row->payload);
    }
}

/* A payload is read, and written back as these octets. */
static adsc_uplink read_back(const char *payload, const char *written) {
    uint8_t octets[255], due[255];
    size_t length = octets_of(payload, octets), size = octets_of(written, due);
    adsc_uplink uplink = {0};
    adsc_uplink_refusal refusal = {0};
    adsc_payload back = {0};
    expect(adsc_decode_uplink(octets, length, &uplink, &refusal) == ADSC_DONE, payload);
    expect(adsc_encode_uplink(&uplink, &back) == ADSC_DONE, payload);
    expect(back.count == size && memcmp(back.octets, due, size) == 0, payload);
    return uplink;
}

static void read_payloads(void) {
    adsc_uplink demand = read_back("0701", "0701");
    expect(demand.count == 1 && demand.messages[0].tag == ADSC_PERIODIC && demand.messages[0].number == 1
               && !demand.messages[0].reporting.interval.present, "a demand");
    adsc_uplink periodic = read_back("07020D020BA5", "07020BA50D02");
    const adsc_reporting *asked = &periodic.messages[0].reporting;
    expect(asked->interval.present && asked->interval.value == 0xA5 && asked->moduli.route.present
               && asked->moduli.route.value == 2 && !asked->moduli.flight_id.present && !asked->intent.present, "a periodic request");
    adsc_uplink event = read_back("08031327102328", "08031327102328");
    const adsc_range *range = &event.messages[0].limits.range;
    expect(range->present && range->ceiling == 10000 && range->floor == 9000, "40,000 ft down to 36,000 ft");
    adsc_uplink two = read_back("07010BA5080214", "07010BA5080214");
    expect(two.count == 2 && two.messages[1].tag == ADSC_EVENT && two.messages[1].limits.waypoint == 1, "two messages");
    adsc_uplink four = read_back("01020906" "0A08010A0812FD14", "01020906" "0A08010A0812FD14");
    expect(four.count == 4 && four.messages[0].tag == ADSC_CANCEL_ALL && four.messages[1].number == 9
               && four.messages[2].tag == ADSC_CANCEL_EMERGENCY && four.messages[3].limits.lateral.value == 8
               && four.messages[3].limits.vertical_rate.value == -3, "four messages");
}

static void kinds_and_intervals(void) {
    static const uint8_t octets[] = {0xA5, 0xCF, 0x40, 0x3F, 0xFF};
    static const uint32_t seconds[] = {304, 1024, 1, 0, 4096};
    for (size_t i = 0; i < sizeof octets; i++) {
        expect(adsc_interval_seconds(octets[i]) == seconds[i], "an interval");
    }
    static const char *payloads[] = {"01", "0701", "07020BA5", "080214", "09020BA5"};
    adsc_uplink read[5];
    for (size_t i = 0; i < 5; i++) {
        uint8_t kind = 99, same = 99;
        read[i] = read_back(payloads[i], payloads[i]);
        expect(adsc_kind_of(&read[i].messages[0], &kind) == ADSC_DONE && kind == i, payloads[i]);
        expect(adsc_same_message(&read[i].messages[0], &read[0].messages[0], &same) == ADSC_DONE
                   && same == (i == 0), payloads[i]);
    }
    expect(adsc_check_code((const uint8_t *)"123456789", 9) == 0xD64E, "the check of 123456789");
    expect(adsc_check_code((const uint8_t *)"", 0) == 0, "the check of nothing");
}

static void wrong_structs(void) {
    adsc_uplink right = read_back("07020BA50D02", "07020BA50D02");
    adsc_payload payload = {0};
    uint8_t kind = 99;
    adsc_uplink wrong = right;
    wrong.count = 0;
    expect(adsc_encode_uplink(&wrong, &payload) == ADSC_NO_STRUCT, "no message");
    wrong.count = 200;
    expect(adsc_encode_uplink(&wrong, &payload) == ADSC_NO_STRUCT, "200 messages");
    wrong = right;
    wrong.messages[0].tag = 3;
    expect(adsc_encode_uplink(&wrong, &payload) == ADSC_NO_STRUCT, "an unknown tag");
    expect(adsc_kind_of(&wrong.messages[0], &kind) == ADSC_NO_STRUCT && kind == 99, "the kind of an unknown tag");
    wrong = right;
    wrong.messages[0].reporting.interval.present = 2;
    expect(adsc_encode_uplink(&wrong, &payload) == ADSC_NO_STRUCT, "present 2");
    wrong = right;
    wrong.messages[0].limits.waypoint = 1;
    expect(adsc_encode_uplink(&wrong, &payload) == ADSC_NO_STRUCT, "limits of a periodic request");
    wrong = right;
    wrong.messages[3].number = 1;
    expect(adsc_encode_uplink(&wrong, &payload) == ADSC_NO_STRUCT, "a message behind the last");
    wrong = right;
    memset(&wrong, 0xFF, sizeof wrong);
    expect(adsc_encode_uplink(&wrong, &payload) == ADSC_NO_STRUCT, "all ones");
    expect(payload.count == 0, "nothing was written");
}

struct text_row {
    const char *text;
    uint8_t status, application, count, why;
    uint32_t place;
    uint16_t found, due;
};

static const struct text_row text_rows[] = {
    {"/AKLCDYA.ADS.N123450701BD4F", ADSC_DONE, ADSC_ADS, 2, 0, 0, 0, 0},
    {"/AKLCDYA.AFN/FMHANZ1,.N12345/FAK0/FARADS,05087", ADSC_DONE, ADSC_AFN, 30, 0, 0, 0, 0},
    {"/AKLCDYA.ADS.N123450701BD4E", ADSC_REFUSED, 0, 0, ADSC_WHY_CHECK, 23, 0xBD4E, 0xBD4F},
    {"", ADSC_REFUSED, 0, 0, ADSC_WHY_TOO_SHORT, 0, 0, 0},
    {"AKLCDYA", ADSC_REFUSED, 0, 0, ADSC_WHY_SLASH, 0, 0, 0},
    {"/AKLCdYA.ADS.N123450701BD4F", ADSC_REFUSED, 0, 0, ADSC_WHY_ADDRESS, 5, 0, 0},
    {"/AKLCDYA,ADS.N123450701BD4F", ADSC_REFUSED, 0, 0, ADSC_WHY_DOT, 8, 0, 0},
    {"/AKLCDYA.AT1.N123450701BD4F", ADSC_REFUSED, 0, 0, ADSC_WHY_LETTERS, 9, 0, 0},
    {"/AKLCDYA.ADS.......0701BD4F", ADSC_REFUSED, 0, 0, ADSC_WHY_REGISTRATION, 18, 0, 0},
    {"/AKLCDYA.ADS.N12345070bBD4F", ADSC_REFUSED, 0, 0, ADSC_WHY_DIGIT, 22, 0, 0},
};

static void texts(void) {
    for (size_t i = 0; i < sizeof text_rows / sizeof text_rows[0]; i++) {
        const struct text_row *row = &text_rows[i];
        adsc_envelope envelope = {0};
        adsc_envelope_refusal refusal = {0};
        uint8_t status = adsc_unseal((const uint8_t *)row->text, strlen(row->text), &envelope, &refusal);
        expect(status == row->status && envelope.application == row->application && envelope.count == row->count
                   && refusal.why == row->why && refusal.place == row->place && refusal.found == row->found
                   && refusal.due == row->due, row->text);
        if (row->application == ADSC_ADS) {
            expect(memcmp(envelope.address, "AKLCDYA", 7) == 0 && memcmp(envelope.registration, ".N12345", 7) == 0
                       && envelope.body[0] == 7 && envelope.body[1] == 1, "what an ADS text carries");
        }
    }
}

static uint32_t drawn(uint32_t *state) {
    *state ^= *state << 13;
    *state ^= *state >> 17;
    *state ^= *state << 5;
    return *state;
}

/* Random octets, most of them tags, so that many payloads are right; what is right is written and read again. */
static void random_payloads(unsigned long count) {
    static const uint8_t likely[] = {1, 2, 6, 7, 8, 9, 10, 11, 12, 13, 14, 15, 16, 17, 18, 19, 20, 21};
    uint32_t state = 2463534242u;
    unsigned long right = 0;
    for (unsigned long i = 0; i < count; i++) {
        uint8_t octets[32];
        size_t length = drawn(&state) % 14;
        for (size_t k = 0; k < length; k++) {
            uint32_t draw = drawn(&state);
            octets[k] = draw % 4 == 0 ? (uint8_t)(draw >> 8) : likely[(draw >> 8) % sizeof likely];
        }
        adsc_uplink uplink = {0}, again = {0};
        adsc_uplink_refusal refusal = {0};
        adsc_payload payload = {0}, back = {0};
        if (adsc_decode_uplink(octets, length, &uplink, &refusal) == ADSC_REFUSED) {
            expect(refusal.reason >= 1 && refusal.reason <= 13 && refusal.octet == refusal.bit / 8 + 1
                       && refusal.octet <= length + 1, "a refusal's place");
            continue;
        }
        right++;
        expect(adsc_encode_uplink(&uplink, &payload) == ADSC_DONE && payload.count == length, "a right payload is written");
        expect(adsc_decode_uplink(payload.octets, payload.count, &again, &refusal) == ADSC_DONE, "and read");
        expect(adsc_encode_uplink(&again, &back) == ADSC_DONE && memcmp(&back, &payload, sizeof back) == 0, "the same");
        for (size_t k = 0; k < uplink.count; k++) {
            uint8_t same = 0;
            expect(adsc_same_message(&uplink.messages[k], &again.messages[k], &same) == ADSC_DONE && same == 1, "same messages");
        }
    }
    printf("random payloads: %lu, right ones: %lu\n", count, right);
}

int main(int argc, char **argv) {
    refused_payloads();
    read_payloads();
    kinds_and_intervals();
    wrong_structs();
    texts();
    random_payloads(argc > 1 ? strtoul(argv[1], NULL, 10) : 1000000);
    printf(failures == 0 ? "vectors: all hold\n" : "vectors: %u fail\n", failures);
    return failures == 0 ? 0 : 1;
}
