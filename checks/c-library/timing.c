/* How long a call takes, in nanoseconds. */
#define _POSIX_C_SOURCE 200809L
#include "adsc.h"

#include <stdio.h>
#include <time.h>

static double now(void) {
    struct timespec t;
    clock_gettime(CLOCK_MONOTONIC, &t);
    return (double)t.tv_sec * 1e9 + (double)t.tv_nsec;
}

int main(void) {
    static const uint8_t payload[] = {7, 1, 0x0B, 0xA5, 8, 2, 0x14};
    const long count = 2000000;
    adsc_uplink uplink = {0};
    adsc_uplink_refusal refusal = {0};
    adsc_payload back = {0};
    unsigned long sum = 0;
    double start = now();
    for (long i = 0; i < count; i++) {
        sum += adsc_decode_uplink(payload, sizeof payload, &uplink, &refusal);
    }
    double middle = now();
    for (long i = 0; i < count; i++) {
        sum += adsc_encode_uplink(&uplink, &back);
    }
    double end = now();
    printf("decode %.0f ns, encode %.0f ns\n", (middle - start) / (double)count, (end - middle) / (double)count);
    return sum == 0 ? 0 : 1;
}
