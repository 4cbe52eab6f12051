/* The names of the refusals, and the version, through the header. */
#include <stdio.h>

#include "av1ts.h"

static int wrong;

static void expect(const char *what, int holds) {
    if (!holds) {
        printf("names.c: %s\n", what);
        wrong = 1;
    }
}

/* A refusal's number in a switch, as a caller has it. */
static int kind(uint64_t number) {
    switch (number) {
    case AV1TS_NOT_REFUSED: return 0;
    case AV1TS_REFUSED_NO_ROOM: return 1;
    case AV1TS_REFUSED_ORDER:
    case AV1TS_REFUSED_NO_START_CODE: return 2;
    default: return 3;
    }
}

int main(void) {
    const uint8_t delimiter[5] = {0, 0, 1, 0x12, 0};
    uint8_t out[8];
    size_t lengths[1];

    expect("a version", AV1TS_VERSION > 0);
    expect("not refused", av1ts_escape(delimiter, 5, out, 8).number == AV1TS_NOT_REFUSED);
    expect("no room", av1ts_escape(delimiter, 5, out, 4).number == AV1TS_REFUSED_NO_ROOM && kind(8) == 1);
    expect("order", kind(av1ts_read_unit(delimiter, 5, out, 8, lengths, 1).number) == 2);
    expect("no start code", kind(av1ts_check_unit(delimiter + 1, 4).number) == 2);
    expect("an illegal payload", av1ts_unescape(delimiter, 5, out, 8).number == AV1TS_REFUSED_ILLEGAL_PAYLOAD && kind(10) == 3);
    expect("no segment", av1ts_check_segment(delimiter, 5, out, 8, lengths, 1, NULL, 0).number == AV1TS_REFUSED_SEGMENT_LENGTH);
    expect("no descriptor", av1ts_read_descriptor(delimiter, 5).number == AV1TS_REFUSED_DESCRIPTOR);
    return wrong;
}
