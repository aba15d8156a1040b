/* Reads an uplink's payload: a periodic contract of 304 s, then an event contract on a change of the active waypoint. */
#include "adsc.h"

#include <stdio.h>

int main(void) {
    const uint8_t payload[] = {0x07, 0x01, 0x0B, 0xA5, 0x08, 0x02, 0x14};
    adsc_uplink uplink = {0};
    adsc_uplink_refusal refusal = {0};
    if (adsc_decode_uplink(payload, sizeof payload, &uplink, &refusal) == ADSC_REFUSED) {
        printf("refused for reason %u at octet %u\n", (unsigned)refusal.reason, (unsigned)refusal.octet);
        return 1;
    }
    printf("%u messages, the first every %u s\n", (unsigned)uplink.count,
           (unsigned)adsc_interval_seconds(uplink.messages[0].reporting.interval.value));
    return 0;
}
