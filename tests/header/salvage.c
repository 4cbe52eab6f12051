/* Salvaging a damaged unit, through the header. */
#include <stdio.h>
#include <string.h>

#include "av1ts.h"

static int wrong;

static void expect(const char *what, int holds) {
    if (!holds) {
        printf("salvage.c: %s\n", what);
        wrong = 1;
    }
}

static int is(av1ts_salvaged a, uint64_t number, uint64_t bytes, uint64_t tsobus, uint64_t kept, uint64_t leading, uint64_t accepted) {
    return a.number == number && a.place == 0 && a.bytes == bytes && a.tsobus == tsobus && a.kept == kept && a.leading == leading && a.accepted == accepted;
}

int main(void) {
    /* Zeros in front of the first start code, a delimiter, an OBU with its forbidden bit set, none at all, and a frame with a closing 03. */
    const uint8_t damaged[24] = {0, 0, 0, 1, 0x12, 0, 0, 0, 1, 0x80, 0, 0, 1, 0, 0, 1, 0x30, 0xAA, 0, 0, 3};
    const size_t length = 21;
    const uint8_t saved[12] = {0, 0, 1, 0x12, 0, 0, 0, 1, 0x30, 0xAA, 0, 0};
    const uint8_t saved_marks[4] = {0, 4, 3, 1};
    /* A tile list, a frame header without content, an illegal payload, a size that is wrong. */
    const uint8_t bad[20] = {0, 0, 1, 0x40, 0, 0, 1, 0x18, 0, 0, 1, 0x30, 0, 0, 2, 0, 0, 1, 0x32, 5};
    const uint8_t bad_marks[4] = {6, 42, 10, 5};
    uint8_t out[32], marks[8], codes[65 * 3];
    size_t i;

    memset(out, 0xEE, sizeof out);
    memset(marks, 0xEE, sizeof marks);
    expect("a damaged unit is salvaged", is(av1ts_salvage(damaged, length, out, 32, marks, 8), 0, 12, 4, 2, 1, 1));
    expect("what was kept", memcmp(out, saved, 12) == 0 && out[12] == 0xEE);
    expect("a mark for each", memcmp(marks, saved_marks, 4) == 0 && marks[4] == 0xEE);
    expect("reading accepts it", av1ts_check_unit(out, 12).number == 0);
    expect("outputs as long as needed", is(av1ts_salvage(damaged, length, out, 12, marks, 4), 0, 12, 4, 2, 1, 1));
    expect("again, nothing changes", is(av1ts_salvage(saved, 12, out, 12, marks, 2), 0, 12, 2, 2, 0, 1) && memcmp(out, saved, 12) == 0);
    expect("and no mark is set", marks[0] == 0 && marks[1] == 0);

    memset(out, 0xEE, sizeof out);
    memset(marks, 0xEE, sizeof marks);
    expect("eleven bytes are too few", is(av1ts_salvage(damaged, length, out, 11, marks, 8), 8, 0, 0, 0, 0, 0));
    expect("three marks are too few", is(av1ts_salvage(damaged, length, out, 32, marks, 3), 8, 0, 0, 0, 0, 0));
    expect("a refusal leaves both outputs", out[0] == 0xEE && marks[0] == 0xEE);

    expect("nothing is good", is(av1ts_salvage(bad, 20, out, 0, marks, 4), 0, 0, 4, 0, 0, 0));
    expect("its marks", memcmp(marks, bad_marks, 4) == 0);
    expect("a delimiter alone is no unit", is(av1ts_salvage(saved, 5, out, 32, marks, 8), 0, 5, 1, 1, 0, 0));
    expect("no start code", is(av1ts_salvage(saved + 1, 4, out, 0, marks, 0), 0, 0, 0, 0, 4, 0));
    expect("null pointers of length 0", is(av1ts_salvage(NULL, 0, NULL, 0, NULL, 0), 0, 0, 0, 0, 0, 0));

    for (i = 0; i < 65; i++) {
        codes[3 * i] = 0;
        codes[3 * i + 1] = 0;
        codes[3 * i + 2] = 1;
    }
    expect("64 tsOBUs", is(av1ts_salvage(codes, 64 * 3, NULL, 0, marks, 8), 8, 0, 0, 0, 0, 0));
    expect("65 tsOBUs", is(av1ts_salvage(codes, 65 * 3, NULL, 0, NULL, 0), 1, 0, 0, 0, 0, 0));
    return wrong;
}
