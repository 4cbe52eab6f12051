/* av1ts_write_sheet, av1ts_read_sheet and av1ts_sheet_unit, through the header. */
#include <stdio.h>
#include <string.h>

#include "av1ts.h"

static int wrong;

static void expect(const char *what, int holds) {
    if (!holds) {
        printf("sheet.c: %s\n", what);
        wrong = 1;
    }
}

/* the numbers of a sheet as its bytes */
static size_t bytes_of(const uint64_t *number, size_t count, uint8_t *sheet) {
    size_t i, k;
    for (i = 0; i < count; i++) {
        for (k = 0; k < 8; k++) {
            sheet[8 * i + k] = (uint8_t)(number[i] >> (56 - 8 * k));
        }
    }
    return 8 * count;
}

static int is(av1ts_sheet a, uint64_t number, uint64_t streams, uint64_t units, uint64_t obus) {
    return a.number == number && a.place == 0 && a.streams == streams && a.units == units && a.obus == obus;
}

static int found(av1ts_sheet_found a, uint64_t number, uint64_t f, uint64_t first_packet, uint64_t length, uint64_t pts, uint64_t dts) {
    return a.number == number && a.place == 0 && a.found == f && a.first_packet == first_packet && a.length == length && a.pts == pts && a.dts == dts;
}

int main(void) {
    const uint64_t number[23] = {
        2, 0x1FFE, 255, 0, 0,                                      /* streams */
        2, 3, 11, 8589934592, 7, 65534, 1573056, 1, 0,             /* units */
        2, 0, 2, 3, 2, 1, 6, 0, 1573056,                           /* OBUs */
    };
    const uint64_t old[10] = {9, 9, 9, 9, 9, 9, 9, 9, 9, 9};
    uint64_t other[23], streams[5], units[9], obus[10];
    uint8_t sheet[23 * 8];
    const size_t count = 23;
    size_t bytes = bytes_of(number, count, sheet), i;

    memcpy(streams, old, sizeof streams);
    memcpy(units, old, sizeof units);
    memcpy(obus, old, sizeof obus);
    expect("read", is(av1ts_read_sheet(sheet, bytes, streams, 5, units, 9, obus, 10), 0, 2, 2, 2));
    expect("streams", memcmp(streams, number + 1, 4 * 8) == 0 && streams[4] == 9);
    expect("units", memcmp(units, number + 6, 8 * 8) == 0 && units[8] == 9);
    expect("obus", memcmp(obus, number + 15, 8 * 8) == 0 && obus[8] == 9 && obus[9] == 9);
    expect("unit 0", found(av1ts_sheet_unit(sheet, bytes, 0), 0, 1, 3, 11, 8589934592, 7));
    expect("unit 1", found(av1ts_sheet_unit(sheet, bytes, 1), 0, 1, 65534, 1573056, 1, 0));
    expect("no unit 2", found(av1ts_sheet_unit(sheet, bytes, 2), 0, 0, 0, 0, 0, 0));
    expect("no unit of the highest number", found(av1ts_sheet_unit(sheet, bytes, UINT64_MAX), 0, 0, 0, 0, 0, 0));

    memcpy(streams, old, sizeof streams);
    memcpy(units, old, sizeof units);
    memcpy(obus, old, sizeof obus);
    expect("rooms that suffice", is(av1ts_read_sheet(sheet, bytes, streams, 4, units, 8, obus, 8), 0, 2, 2, 2));
    expect("a short output of streams", is(av1ts_read_sheet(sheet, bytes, streams, 3, units, 8, obus, 8), 8, 0, 0, 0));
    expect("a short output of units", is(av1ts_read_sheet(sheet, bytes, streams, 4, units, 7, obus, 8), 8, 0, 0, 0));
    memcpy(streams, old, sizeof streams);
    memcpy(units, old, sizeof units);
    memcpy(obus, old, sizeof obus);
    expect("a short output of OBUs", is(av1ts_read_sheet(sheet, bytes, streams, 4, units, 8, obus, 7), 8, 0, 0, 0));
    expect("45 before 8", is(av1ts_read_sheet(sheet, bytes - 1, streams, 0, units, 0, obus, 0), 45, 0, 0, 0));
    expect("a refusal leaves the outputs",
           memcmp(streams, old, sizeof streams) == 0 && memcmp(units, old, sizeof units) == 0 && memcmp(obus, old, sizeof obus) == 0);
    expect("no bytes", is(av1ts_read_sheet(NULL, 0, NULL, 0, NULL, 0, NULL, 0), 45, 0, 0, 0));
    expect("finding in a bad sheet", found(av1ts_sheet_unit(sheet, bytes - 8, 0), 45, 0, 0, 0, 0, 0));

    /* each number one past its bound, or against the order */
    static const struct { size_t at; uint64_t value; const char *what; } bad[] = {
        {0, 3, "another count of streams"}, {0, UINT64_C(1) << 60, "counts that would wrap"}, {1, 0x1FFF, "a PID"}, {2, 256, "a stream_type"},
        {5, UINT64_C(1) << 61, "a count of units that would wrap"}, {6, 65534, "equal first packets"}, {10, 65535, "a first packet"},
        {11, 1573057, "a carried length"}, {8, 8589934593, "a PTS"}, {9, 8589934593, "a DTS"}, {14, UINT64_C(1) << 61, "a count of OBUs that would wrap"},
        {15, 1, "a unit without OBU"}, {19, 0, "another unit without OBU"}, {19, 2, "an OBU that names no unit"}, {16, 16, "a type"},
        {18, 0, "an empty payload"}, {17, 10, "a payload that passes its unit"}, {17, UINT64_MAX, "an end that would wrap"}, {21, 1, "a payload that passes"},
    };
    for (i = 0; i < sizeof bad / sizeof bad[0]; i++) {
        memcpy(other, number, sizeof number);
        other[bad[i].at] = bad[i].value;
        bytes = bytes_of(other, count, sheet);
        expect(bad[i].what, is(av1ts_read_sheet(sheet, bytes, streams, 5, units, 9, obus, 10), 45, 0, 0, 0));
    }

    /* two OBUs of one unit: touching, overlapping, not ascending */
    {
        uint64_t two[15] = {0, 1, 0, 20, 0, 0, 2, 0, 2, 3, 2, 0, 6, 5, 2};
        bytes = bytes_of(two, 15, sheet);
        expect("payloads that touch", is(av1ts_read_sheet(sheet, bytes, streams, 0, units, 4, obus, 8), 0, 0, 1, 2));
        two[13] = 4;
        bytes = bytes_of(two, 15, sheet);
        expect("payloads that overlap", is(av1ts_read_sheet(sheet, bytes, streams, 0, units, 4, obus, 8), 45, 0, 0, 0));
        two[9] = 8;
        bytes = bytes_of(two, 15, sheet);
        expect("payloads that don't ascend", is(av1ts_read_sheet(sheet, bytes, streams, 0, units, 4, obus, 8), 45, 0, 0, 0));
    }
    {
        av1ts_sheet_written refused = av1ts_write_sheet(0, (const uint8_t *)"G", 1, NULL, 0, NULL, 0, NULL, 0, sheet, sizeof sheet);
        expect("a refused segment", refused.number == 20 && refused.place == 0 && refused.count == 0);
    }
    expect("no edition", av1ts_write_sheet(2, NULL, 0, NULL, 0, NULL, 0, NULL, 0, NULL, 0).number == 44);
    return wrong;
}
