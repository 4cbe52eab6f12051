/* av1ts_read_mastering and av1ts_write_mastering, through the header. */
#include <stdio.h>
#include <string.h>

#include "av1ts.h"

static int wrong;

static void expect(const char *what, int holds) {
    if (!holds) {
        printf("mastering.c: %s\n", what);
        wrong = 1;
    }
}

static int is(av1ts_answer a, uint64_t number, uint64_t count) {
    return a.number == number && a.place == 0 && a.count == count && a.bytes == 0 && a.dropped == 0;
}

/* bit for bit */
static int says(av1ts_mastering m, uint64_t number, const double figure[10]) {
    return m.number == number && m.place == 0 && memcmp(m.figure, figure, sizeof m.figure) == 0;
}

int main(void) {
    /* BT.2020 primaries, D65, 1,000 and 0.0001 candelas per square metre */
    const uint64_t value[10] = {35400, 14600, 8500, 39850, 6550, 2300, 15635, 16450, 10000000, 1};
    const uint8_t content[26] = {0x02, 0xB5, 0x3F, 0x4A, 0xC1, 0x2B, 0x85, 0xCC, 0x08, 0x21, 0x89, 0x0B, 0xC7,
                                 0x50, 0x0D, 0x54, 0x39, 0x00, 0x03, 0xE8, 0x00, 0x00, 0x00, 0x00, 0x02, 0x80};
    const double figure[10] = {46399 / 65536.0, 19137 / 65536.0, 11141 / 65536.0, 52232 / 65536.0, 8585 / 65536.0,
                               3015 / 65536.0,  20493 / 65536.0, 21561 / 65536.0, 256000 / 256.0,  2 / 16384.0};
    const double none[10] = {0, 0, 0, 0, 0, 0, 0, 0, 0, 0};
    uint64_t bound[10] = {50000, 0, 0, 0, 0, 0, 0, 49999, UINT64_C(167772159980), UINT64_C(2621439999)};
    uint8_t longer[28];
    uint8_t out[28];

    expect("the figures", says(av1ts_read_mastering(content, 26), 0, figure));
    memcpy(longer + 1, content, 26);
    longer[0] = 0x82;
    longer[1] = 0x00;
    expect("a longer leb128", says(av1ts_read_mastering(longer, 27), 0, figure));
    longer[27] = 0x80;
    expect("a second byte 80", says(av1ts_read_mastering(longer, 28), 48, none));
    expect("no trailing bits", says(av1ts_read_mastering(content, 25), 48, none));
    expect("no content", says(av1ts_read_mastering(content, 0), 48, none));
    memcpy(longer, content, 26);
    longer[0] = 0x01;
    expect("another type", says(av1ts_read_mastering(longer, 26), 48, none));
    longer[0] = 0x02;
    longer[25] = 0x40;
    expect("other trailing bits", says(av1ts_read_mastering(longer, 26), 48, none));

    memset(out, 0xEE, sizeof out);
    expect("25 bytes are too few", is(av1ts_write_mastering(value, out, 25), 8, 0));
    expect("a refusal leaves the output", out[0] == 0xEE && out[24] == 0xEE);
    expect("it is written", is(av1ts_write_mastering(value, out, 28), 0, 26));
    expect("the nearest numbers", memcmp(out, content, 26) == 0 && out[26] == 0xEE && out[27] == 0xEE);
    expect("the greatest", is(av1ts_write_mastering(bound, out, 26), 0, 26));
    expect("50,000 as 65,535", out[1] == 0xFF && out[2] == 0xFF && out[15] == 0xFF && out[16] == 0xFF);
    expect("32 bits", memcmp(out + 17, "\xFF\xFF\xFF\xFF\xFF\xFF\xFF\xFE", 8) == 0);
    bound[0] = 50001;
    expect("a chromaticity past 50,000, before the room", is(av1ts_write_mastering(bound, out, 25), 49, 0));
    bound[0] = 50000;
    bound[8] += 1;
    expect("a maximum past 32 bits", is(av1ts_write_mastering(bound, out, 26), 49, 0));
    bound[8] -= 1;
    bound[9] += 1;
    expect("a minimum past 32 bits", is(av1ts_write_mastering(bound, out, 26), 49, 0));
    return wrong;
}
