/* av1ts_escape and av1ts_unescape, through the header. */
#include <stdio.h>
#include <string.h>

#include "av1ts.h"

static int wrong;

static void expect(const char *what, int holds) {
    if (!holds) {
        printf("payload.c: %s\n", what);
        wrong = 1;
    }
}

static int is(av1ts_answer a, uint64_t number, uint64_t place, uint64_t count, uint64_t bytes, uint64_t dropped) {
    return a.number == number && a.place == place && a.count == count && a.bytes == bytes && a.dropped == dropped;
}

int main(void) {
    const uint8_t five_zeros[5] = {0, 0, 0, 0, 0};
    const uint8_t escaped[7] = {0, 0, 3, 0, 0, 3, 0};
    const uint8_t illegal[4] = {0x41, 0, 0, 0};
    uint8_t out[8];

    memset(out, 0xEE, sizeof out);
    expect("five zeros are escaped", is(av1ts_escape(five_zeros, 5, out, 8), 0, 0, 7, 0, 0));
    expect("the escaped form stands at the front, the rest is as it was", memcmp(out, escaped, 7) == 0 && out[7] == 0xEE);

    memset(out, 0xEE, sizeof out);
    expect("six bytes are too few", is(av1ts_escape(five_zeros, 5, out, 6), 8, 0, 0, 0, 0));
    expect("a refusal leaves the output", out[0] == 0xEE && out[7] == 0xEE);

    expect("the payload is unescaped, two bytes dropped", is(av1ts_unescape(escaped, 7, out, 8), 0, 0, 5, 0, 2));
    expect("the OBU is back", memcmp(out, five_zeros, 5) == 0 && out[5] == 0xEE);
    expect("an illegal payload, at its place", is(av1ts_unescape(illegal, 4, out, 8), 10, 1, 0, 0, 0));
    expect("nothing is escaped to nothing", is(av1ts_escape(five_zeros, 0, out, 0), 0, 0, 0, 0, 0));
    expect("null pointers of length 0", is(av1ts_escape(NULL, 0, NULL, 0), 0, 0, 0, 0, 0) && is(av1ts_unescape(NULL, 0, NULL, 0), 0, 0, 0, 0, 0));
    return wrong;
}
