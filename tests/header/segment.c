/* The check of a segment, through the header. */
#include <stdio.h>
#include <string.h>

#include "av1ts.h"

static int wrong;

static void expect(const char *what, int holds) {
    if (!holds) {
        printf("segment.c: %s\n", what);
        wrong = 1;
    }
}

static int refused(av1ts_segment s, uint64_t number, uint64_t place) {
    return s.number == number && s.place == place && s.program == 0 && s.pid == 0 && s.units == 0 && s.null_packets == 0 && s.section == 0 && s.av1 == 0 &&
           s.other_listed == 0 && s.unlisted == 0 && s.compared == 0 && s.unit == 0 && s.field == 0;
}

/* A packet that begins with these bytes, filled with 0xFF. */
static void fill(uint8_t packet[188], const uint8_t *bytes, size_t count) {
    memset(packet, 0xFF, 188);
    memcpy(packet, bytes, count);
}

/* A PAT (program 1, map PID 0x100), a PMT (AV1 on PID 0x101), a PCR, and a unit of two OBUs in one packet; then with the draft's PMT and without times. */
static void accepted(void) {
    static const uint8_t pat[] = {0x47, 0x40, 0x00, 0x10, 0x00, 0x00, 0xB0, 0x0D, 0x00, 0x01, 0xC1,
                                  0x00, 0x00, 0x00, 0x01, 0xE1, 0x00, 0xE8, 0xF9, 0x5E, 0x7D};
    static const uint8_t pmt[] = {0x47, 0x41, 0x00, 0x10, 0x00, 0x02, 0xB0, 0x1E, 0x00, 0x01, 0xC1, 0x00, 0x00, 0xE1, 0x01, 0xF0, 0x00, 0x06, 0xE1,
                                  0x01, 0xF0, 0x0C, 0x05, 0x04, 0x41, 0x56, 0x30, 0x31, 0x80, 0x04, 0x81, 0x08, 0x0C, 0xC0, 0x34, 0xDD, 0x11, 0x23};
    static const uint8_t draft[] = {0x47, 0x41, 0x00, 0x10, 0x00, 0x02, 0xB0, 0x18, 0x00, 0x01, 0xC1, 0x00, 0x00, 0xE1, 0x01, 0xF0,
                                    0x00, 0x06, 0xE1, 0x01, 0xF0, 0x06, 0x05, 0x04, 0x41, 0x56, 0x31, 0x20, 0x05, 0x97, 0x16, 0x89};
    static const uint8_t pcr[] = {0x47, 0x01, 0x01, 0x27, 0xB7, 0x10, 0x00, 0x00, 0xAF, 0xC8, 0x7E, 0x05};
    static const uint8_t start[] = {0x47, 0x41, 0x01, 0x38, 159, 0x00};
    static const uint8_t pes[] = {0x00, 0x00, 0x01, 0xBD, 0x00, 0x12, 0x84, 0x80, 0x05, 0x21, 0x00, 0x01, 0x00, 0x03};
    static const uint8_t unit[] = {0x00, 0x00, 0x01, 0x12, 0x00, 0x00, 0x00, 0x01, 0x30, 0xAA};
    static const uint8_t cut_short[] = {0x00, 0x00, 0x01, 0x08, 0x01, 0x00, 0x00, 0x01, 0x30, 0xAA};
    uint8_t packet[4 * 188], out[12];
    size_t lengths[2] = {7, 7};
    uint64_t times[3] = {7, 7, 7};
    av1ts_segment s;

    fill(packet, pat, sizeof pat);
    fill(packet + 188, pmt, sizeof pmt);
    fill(packet + 376, pcr, sizeof pcr);
    fill(packet + 564, start, sizeof start);
    memcpy(packet + 752 - sizeof unit - sizeof pes, pes, sizeof pes);
    memcpy(packet + 752 - sizeof unit, unit, sizeof unit);
    memset(out, 0xEE, sizeof out);
    s = av1ts_check_segment(packet, 752, out, 12, lengths, 2, times, 3);
    expect("accepted", s.number == 0 && s.place == 0 && s.program == 1 && s.pid == 0x101 && s.units == 1);
    expect("no sequence header to compare", s.compared == 0 && s.unit == 0 && s.field == 0);
    expect("packets by class", s.null_packets == 0 && s.section == 2 && s.av1 == 2 && s.other_listed == 0 && s.unlisted == 0);
    expect("the unit stands at the front, the rest is as it was", memcmp(out, unit, 10) == 0 && out[10] == 0xEE && out[11] == 0xEE);
    expect("its length", lengths[0] == 10 && lengths[1] == 7);
    expect("its times", times[0] == 1 && times[1] == 1 && times[2] == 7);
    expect("no room for the unit", refused(av1ts_check_segment(packet, 752, out, 9, lengths, 2, times, 3), 8, 3));
    expect("no room for its length", refused(av1ts_check_segment(packet, 752, out, 12, NULL, 0, times, 3), 8, 3));

    memset(out, 0xEE, sizeof out);
    s = av1ts_check_segment_edition(0, packet, 752, out, 12, lengths, 2, times, 3);
    expect("edition 0 is the current one", s.number == 0 && s.units == 1 && s.pid == 0x101 && memcmp(out, unit, 10) == 0 && out[10] == 0xEE && lengths[0] == 10);
    expect("a current segment under draft", refused(av1ts_check_segment_edition(1, packet, 752, out, 12, lengths, 2, times, 3), 28, 1));
    expect("zeros in its outputs", out[0] == 0 && out[11] == 0 && lengths[0] == 0 && times[0] == 0);
    memset(out, 0xEE, sizeof out);
    expect("an unknown edition", refused(av1ts_check_segment_edition(2, packet, 751, out, 12, lengths, 2, times, 3), 44, 0));
    expect("zeros there too", out[0] == 0 && out[11] == 0);
    expect("the greatest number", refused(av1ts_check_segment_edition(UINT64_MAX, packet, 752, out, 12, lengths, 2, times, 3), 44, 0));

    memcpy(packet + 752 - sizeof unit, cut_short, sizeof cut_short);
    s = av1ts_check_segment(packet, 752, out, 12, lengths, 2, times, 3);
    expect("a sequence header that is cut short", s.number == 0 && s.units == 1 && s.compared == 1 && s.unit == 0 && s.field == AV1TS_REFUSED_CUT_SHORT);
    expect("its unit is accepted all the same", memcmp(out, cut_short, 10) == 0 && lengths[0] == 10 && times[0] == 1);

    fill(packet + 188, draft, sizeof draft);
    packet[752 - sizeof unit - sizeof pes + 7] = 0;
    memset(out, 0xEE, sizeof out);
    times[0] = times[1] = times[2] = 7;
    expect("a draft recording as current", refused(av1ts_check_segment(packet, 752, out, 12, lengths, 2, times, 3), 28, 1));
    memset(out, 0xEE, sizeof out);
    times[2] = 7;
    s = av1ts_check_segment_edition(1, packet, 752, out, 12, lengths, 2, times, 3);
    expect("under draft nothing is compared", s.number == 0 && s.compared == 0 && s.unit == 0 && s.field == 0);
    memcpy(packet + 752 - sizeof unit, unit, sizeof unit);
    memset(out, 0xEE, sizeof out);
    times[2] = 7;
    s = av1ts_check_segment_edition(1, packet, 752, out, 12, lengths, 2, times, 3);
    expect("a draft recording", s.number == 0 && s.units == 1 && s.program == 1 && s.pid == 0x101 && s.section == 2 && s.av1 == 2);
    expect("its unit", memcmp(out, unit, 10) == 0 && out[10] == 0xEE && lengths[0] == 10);
    expect("no times", times[0] == UINT64_C(8589934592) && times[1] == UINT64_C(8589934592) && times[2] == 7);
}

int main(void) {
    uint8_t packet[2 * 188], out[4];
    size_t lengths[2];
    uint64_t times[2];

    accepted();
    expect("null pointers of length 0", refused(av1ts_check_segment(NULL, 0, NULL, 0, NULL, 0, NULL, 0), 20, 0));

    memset(packet, 0xFF, sizeof packet);
    memset(out, 0xEE, sizeof out);
    memset(lengths, 0xEE, sizeof lengths);
    memset(times, 0xEE, sizeof times);
    expect("no bytes", refused(av1ts_check_segment(packet, 0, out, 4, lengths, 2, times, 2), 20, 0));
    expect("zeros throughout", out[0] == 0 && out[3] == 0 && lengths[0] == 0 && lengths[1] == 0 && times[0] == 0 && times[1] == 0);
    expect("not a multiple of 188", refused(av1ts_check_segment(packet, 189, out, 4, lengths, 2, times, 2), 20, 0));
    expect("first byte not 0x47", refused(av1ts_check_segment(packet, 188, out, 4, lengths, 2, times, 2), 21, 0));

    packet[0] = packet[188] = 0x47;
    packet[1] = packet[189] = 0x1F;
    packet[3] = packet[191] = 0x10;
    expect("null packets alone have no PAT", refused(av1ts_check_segment(packet, 376, out, 4, lengths, 2, times, 2), 33, 2));
    packet[189] = 0x9F;
    expect("transport_error_indicator", refused(av1ts_check_segment(packet, 376, out, 4, lengths, 2, times, 2), 22, 1));
    return wrong;
}
