/* av1ts_read_descriptor, av1ts_write_descriptor and av1ts_rewrite_descriptor, through the header. */
#include <stdio.h>
#include <string.h>

#include "av1ts.h"

#if AV1TS_VERSION < 2
#error "a descriptor is written without a delay from version 2 on"
#endif

static int wrong;

static void expect(const char *what, int holds) {
    if (!holds) {
        printf("descriptor.c: %s\n", what);
        wrong = 1;
    }
}

static int is(av1ts_answer a, uint64_t number, uint64_t place, uint64_t count, uint64_t bytes, uint64_t dropped) {
    return a.number == number && a.place == place && a.count == count && a.bytes == bytes && a.dropped == dropped;
}

static int says(av1ts_descriptor d, uint64_t number, const uint8_t field[10], uint64_t delay_present, uint64_t delay) {
    int same = d.number == number && d.place == 0 && d.delay_present == delay_present && d.delay == delay;
    for (int i = 0; i < 10; i++) {
        same = same && d.field[i] == field[i];
    }
    return same;
}

static int rewrote(av1ts_rewritten r, uint64_t number, uint64_t count, uint64_t dropped_delay) {
    return r.number == number && r.place == 0 && r.count == count && r.dropped_delay == dropped_delay;
}

int main(void) {
    const uint8_t bytes[6] = {0x80, 0x04, 0x81, 0x08, 0x0C, 0xC0};
    const uint8_t field[10] = {0, 8, 0, 0, 0, 0, 1, 1, 0, 3};
    const uint8_t none[10] = {0, 0, 0, 0, 0, 0, 0, 0, 0, 0};
    const uint8_t widest[10] = {7, 31, 1, 1, 1, 1, 1, 1, 3, 3};
    const uint8_t widest_bytes[6] = {0x80, 0x04, 0x81, 0xFF, 0xFF, 0xDF};
    uint8_t past[10] = {0, 32, 0, 0, 0, 0, 0, 0, 0, 0};
    uint8_t damaged[6];
    uint8_t out[8];

    expect("the descriptor is read", says(av1ts_read_descriptor(bytes, 6), 0, field, 0, 0));
    expect("every bit of the fields", says(av1ts_read_descriptor(widest_bytes, 6), 0, widest, 1, 15));
    expect("five bytes", says(av1ts_read_descriptor(bytes, 5), 40, none, 0, 0));
    memcpy(damaged, bytes, 6);
    damaged[5] = 0xE0;
    expect("the reserved bit", says(av1ts_read_descriptor(damaged, 6), 40, none, 0, 0));
    damaged[5] = 0xC1;
    expect("low bits where no delay is present", says(av1ts_read_descriptor(damaged, 6), 40, none, 0, 0));

    memset(out, 0xEE, sizeof out);
    expect("the descriptor is written", is(av1ts_write_descriptor(field, out, 8), 0, 0, 6, 0, 0));
    expect("it stands at the front, the rest is as it was", memcmp(out, bytes, 6) == 0 && out[6] == 0xEE && out[7] == 0xEE);
    expect("the widest fields are written", is(av1ts_write_descriptor(widest, out, 6), 0, 0, 6, 0, 0));
    expect("every bit of them, and no delay", memcmp(out, widest_bytes, 5) == 0 && out[5] == 0xC0);

    memset(out, 0xEE, sizeof out);
    expect("a level of six bits, before the room", is(av1ts_write_descriptor(past, out, 5), 41, 0, 0, 0, 0));
    expect("five bytes are too few", is(av1ts_write_descriptor(field, out, 5), 8, 0, 0, 0, 0));
    expect("a rewrite of five bytes", rewrote(av1ts_rewrite_descriptor(bytes, 5, out, 5), 40, 0, 0));
    expect("a rewrite into five bytes", rewrote(av1ts_rewrite_descriptor(widest_bytes, 6, out, 5), 8, 0, 0));
    expect("a refusal leaves the output", out[0] == 0xEE && out[5] == 0xEE && out[7] == 0xEE);

    expect("a rewrite that drops a delay", rewrote(av1ts_rewrite_descriptor(widest_bytes, 6, out, 8), 0, 6, 1));
    expect("its fields, and no delay", memcmp(out, widest_bytes, 5) == 0 && out[5] == 0xC0 && out[6] == 0xEE);
    expect("a rewrite that drops nothing", rewrote(av1ts_rewrite_descriptor(bytes, 6, out, 6), 0, 6, 0));
    expect("the same bytes", memcmp(out, bytes, 6) == 0);
    expect("null pointers of length 0", av1ts_read_descriptor(NULL, 0).number == 40 && is(av1ts_write_descriptor(field, NULL, 0), 8, 0, 0, 0, 0));
    return wrong;
}
