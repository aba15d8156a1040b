/* The sizes of the structs and the places of their fields, as the library has them. */
#ifndef LAYOUT_H
#define LAYOUT_H

#include "adsc.h"

#ifdef __cplusplus
#define HOLDS(condition) static_assert(condition, #condition)
#else
#define HOLDS(condition) _Static_assert(condition, #condition)
#endif

HOLDS(sizeof(adsc_octet) == 2);
HOLDS(sizeof(adsc_rate) == 2);
HOLDS(sizeof(adsc_intent) == 3);
HOLDS(sizeof(adsc_range) == 6);
HOLDS(offsetof(adsc_range, ceiling) == 2);
HOLDS(offsetof(adsc_range, floor) == 4);
HOLDS(sizeof(adsc_moduli) == 12);
HOLDS(offsetof(adsc_moduli, route) == 2);
HOLDS(offsetof(adsc_moduli, airframe) == 10);
HOLDS(sizeof(adsc_reporting) == 17);
HOLDS(offsetof(adsc_reporting, moduli) == 2);
HOLDS(offsetof(adsc_reporting, intent) == 14);
HOLDS(sizeof(adsc_limits) == 12);
HOLDS(offsetof(adsc_limits, vertical_rate) == 2);
HOLDS(offsetof(adsc_limits, waypoint) == 4);
HOLDS(offsetof(adsc_limits, range) == 6);
HOLDS(sizeof(adsc_message) == 32);
HOLDS(offsetof(adsc_message, reporting) == 2);
HOLDS(offsetof(adsc_message, limits) == 20);
HOLDS(sizeof(adsc_uplink) == 130);
HOLDS(offsetof(adsc_uplink, messages) == 2);
HOLDS(sizeof(adsc_uplink_refusal) == 8);
HOLDS(offsetof(adsc_uplink_refusal, reason) == 4);
HOLDS(offsetof(adsc_uplink_refusal, number) == 5);
HOLDS(offsetof(adsc_uplink_refusal, octet) == 6);
HOLDS(sizeof(adsc_payload) == 256);
HOLDS(offsetof(adsc_payload, octets) == 1);
HOLDS(sizeof(adsc_envelope) == 271);
HOLDS(offsetof(adsc_envelope, application) == 7);
HOLDS(offsetof(adsc_envelope, registration) == 8);
HOLDS(offsetof(adsc_envelope, count) == 15);
HOLDS(offsetof(adsc_envelope, body) == 16);
HOLDS(sizeof(adsc_envelope_refusal) == 12);
HOLDS(offsetof(adsc_envelope_refusal, why) == 4);
HOLDS(offsetof(adsc_envelope_refusal, found) == 6);
HOLDS(offsetof(adsc_envelope_refusal, due) == 8);

#endif
