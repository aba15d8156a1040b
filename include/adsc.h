/* ADS-C contracts of FANS 1/A: the proved codecs for C, C++ and whatever calls C.
 *
 * The messages follow RTCA DO-258A / EUROCAE ED-100A; the octets of a group's data, the limits, the reasons and the check
 * code are this project's profile. Link with libadsc_c.a; docs/C-LIBRARY.md says how it is built.
 *
 * Every call reads and writes only what it is given. It takes no memory, keeps no state, never waits, and may be made from
 * any thread. Nothing has to be started or freed.
 *
 * What the caller must keep, and what nothing checks:
 *   - a pointer is not null, points to readable (for a result: writable) memory of the size that its type or the length
 *     beside it says, and is aligned for its type; a pointer with length 0 is not null either;
 *   - what a call writes overlaps nothing else that the same call is given, and no other thread uses it meanwhile.
 * The contents are free: each struct may hold any numbers. A call tests a struct that it reads.
 *
 * A value has one struct: a field that a value doesn't have is 0. Begin each struct with '= {0}'.
 *
 * Not here: contact and answer texts, downlinks, the table of contracts, and what waits for its moment.
 */
#ifndef ADSC_H
#define ADSC_H

#include <stddef.h>
#include <stdint.h>

#ifdef __cplusplus
extern "C" {
#endif

/* The statuses. */
#define ADSC_DONE 0u      /* the call did what it is for */
#define ADSC_REFUSED 1u   /* what was given is refused, and a struct says where and why */
#define ADSC_NO_STRUCT 2u /* a struct that was given spells no value; nothing was written */

/* The tags of messages. */
#define ADSC_CANCEL_ALL 1u
#define ADSC_CANCEL 2u
#define ADSC_CANCEL_EMERGENCY 6u
#define ADSC_PERIODIC 7u
#define ADSC_EVENT 8u
#define ADSC_EMERGENCY 9u

/* An octet that may be absent: then both fields are 0. */
typedef struct adsc_octet {
    uint8_t present; /* 1 where the octet is there, else 0 */
    uint8_t value;   /* the octet */
} adsc_octet;

/* A vertical rate threshold that may be absent: then both fields are 0. */
typedef struct adsc_rate {
    uint8_t present; /* 1 where the threshold is there, else 0 */
    int8_t value;    /* in 64 ft/min, not 0 */
} adsc_rate;

/* An aircraft intent that may be absent: then all fields are 0. */
typedef struct adsc_intent {
    uint8_t present; /* 1 where the intent is there, else 0 */
    uint8_t modulus; /* in every how many reports it stands; 0 means never */
    uint8_t minutes; /* how far ahead it is projected, in minutes, 1 to 255 */
} adsc_intent;

/* An altitude range that may be absent: then all fields are 0. */
typedef struct adsc_range {
    uint8_t present; /* 1 where the range is there, else 0 */
    int16_t ceiling; /* in 4 ft */
    int16_t floor;   /* in 4 ft, below the ceiling */
} adsc_range;

/* In every how many reports of a periodic contract each of the groups 12 to 17 stands; 0 means never. */
typedef struct adsc_moduli {
    adsc_octet flight_id; /* group 12 */
    adsc_octet route;     /* group 13 */
    adsc_octet earth;     /* group 14 */
    adsc_octet air;       /* group 15 */
    adsc_octet weather;   /* group 16 */
    adsc_octet airframe;  /* group 17 */
} adsc_moduli;

/* What a periodic or an emergency request asks for. In every other message all fields are 0. */
typedef struct adsc_reporting {
    adsc_octet interval; /* the octet of the reporting interval: see adsc_interval_seconds */
    adsc_moduli moduli;  /* the moduli of the groups */
    adsc_intent intent;  /* the aircraft intent */
} adsc_reporting;

/* What an event request watches, at least one of the four. In every other message all fields are 0. */
typedef struct adsc_limits {
    adsc_octet lateral;      /* the lateral deviation threshold in 0.125 NM, not 0 */
    adsc_rate vertical_rate; /* the vertical rate threshold */
    uint8_t waypoint;        /* 1 where the active waypoint is watched, else 0 */
    adsc_range range;        /* the altitude range */
} adsc_limits;

/* A message of an uplink. */
typedef struct adsc_message {
    uint8_t tag;              /* one of the tags of messages */
    uint8_t number;           /* the contract number that its sender chose; 0 for a cancel of all */
    adsc_reporting reporting; /* what a periodic or an emergency request asks for */
    adsc_limits limits;       /* what an event request watches */
} adsc_message;

/* An uplink. */
typedef struct adsc_uplink {
    uint8_t count;            /* how many messages it has, 1 to 4 */
    adsc_message messages[4]; /* the messages in their order; behind them all is 0 */
} adsc_uplink;

/* The first fault of a payload that is no uplink. */
typedef struct adsc_uplink_refusal {
    uint32_t bit;   /* the first bit of the faulty octet or field, counted from 0 */
    uint8_t reason; /* the reason that a negative acknowledgement carries, 1 to 13 */
    uint8_t number; /* the number of the message that was being read, or 0 */
    uint8_t octet;  /* the octet of the bit, counted from 1 */
} adsc_uplink_refusal;

/* The octets of a payload. */
typedef struct adsc_payload {
    uint8_t count;       /* how many octets it has */
    uint8_t octets[255]; /* the octets; behind them all is 0 */
} adsc_payload;

/* An envelope: the ground facility that it goes to or comes from, and what it carries (ARINC 622). */
typedef struct adsc_envelope {
    uint8_t address[7];      /* the facility's address: seven of A to Z and 0 to 9 */
    uint8_t application;     /* ADSC_ADS or ADSC_AFN */
    uint8_t registration[7]; /* for ADS the aircraft's registration, dots before its mark; for AFN all 0 */
    uint8_t count;           /* how many octets or characters the body has, 1 to 255 */
    uint8_t body[255];       /* the octets of a payload, or the characters of an AFN text */
} adsc_envelope;

#define ADSC_ADS 1u
#define ADSC_AFN 2u

/* The first bad place of a text that is no envelope's. */
typedef struct adsc_envelope_refusal {
    uint32_t place; /* the first bad place, counted from 0 */
    uint8_t why;    /* what is wrong there, one of the next ten */
    uint16_t found; /* the check that stands in the text, where it is wrong; else 0 */
    uint16_t due;   /* the check that is due, where another stands in the text; else 0 */
} adsc_envelope_refusal;

#define ADSC_WHY_SLASH 1u        /* the first character is no slash */
#define ADSC_WHY_ADDRESS 2u      /* a character of the address is no capital letter or digit */
#define ADSC_WHY_DOT 3u          /* no dot stands behind the address */
#define ADSC_WHY_LETTERS 4u      /* the letters behind the dot are neither ADS nor AFN */
#define ADSC_WHY_REGISTRATION 5u /* a character isn't allowed there in a registration, or all are dots */
#define ADSC_WHY_DIGIT 6u        /* no hexadecimal digit with capital letters, or a digit of a pair is missing */
#define ADSC_WHY_CHARACTER 7u    /* a character of an AFN text isn't from 20 to 7E hexadecimal */
#define ADSC_WHY_TOO_SHORT 8u    /* the text ends before this place */
#define ADSC_WHY_TOO_LONG 9u     /* the text goes on behind its greatest length */
#define ADSC_WHY_CHECK 10u       /* the check isn't the code that is due */

/* The check code of 'length' octets (this project's profile: generator x^16 + x^12 + x^5 + 1, first value all ones, end
 * value complemented). The code of the nine characters 123456789 is D64E hexadecimal. */
uint16_t adsc_check_code(const uint8_t *octets, size_t length);

/* The reporting interval, 0 to 4096 seconds, that an octet of group 11 stands for. */
uint32_t adsc_interval_seconds(uint8_t octet);

/* Reads the payload of an uplink, of any length.
 * ADSC_DONE: '*uplink' spells the one uplink that the payload encodes; '*refusal' is as it was.
 * ADSC_REFUSED: '*refusal' is the payload's first fault; '*uplink' is as it was. */
uint8_t adsc_decode_uplink(const uint8_t *payload, size_t length, adsc_uplink *uplink, adsc_uplink_refusal *refusal);

/* Writes the payload of an uplink.
 * ADSC_DONE: '*payload' has the octets, at most 76, from which adsc_decode_uplink reads the uplink.
 * ADSC_NO_STRUCT: '*uplink' spells no uplink; '*payload' is as it was. */
uint8_t adsc_encode_uplink(const adsc_uplink *uplink, adsc_payload *payload);

/* Tells which kind of contract a message asks for: '*kind' is 0 for none, 1 for a demand (one report), 2 for a periodic,
 * 3 for an event, 4 for an emergency contract.
 * ADSC_NO_STRUCT: '*message' spells no message; '*kind' is as it was. */
uint8_t adsc_kind_of(const adsc_message *message, uint8_t *kind);

/* Tells whether two messages are the same: '*same' is then 1, else 0.
 * ADSC_NO_STRUCT: one of the two spells no message; '*same' is as it was. */
uint8_t adsc_same_message(const adsc_message *first, const adsc_message *second, uint8_t *same);

/* Reads the text of an envelope, of any length: a slash, the address, a dot, ADS or AFN, the body and the check.
 * ADSC_DONE: '*envelope' spells the one envelope that the text is of; '*refusal' is as it was.
 * ADSC_REFUSED: '*refusal' is the text's first bad place; '*envelope' is as it was. */
uint8_t adsc_unseal(const uint8_t *text, size_t length, adsc_envelope *envelope, adsc_envelope_refusal *refusal);

#ifdef __cplusplus
}
#endif

#endif
