/* The sheet beside a segment: written from a segment that is damaged more often than not, read back, and read with changed bytes. */
#include "boundary.h"

enum { MOST_SHEET = 1 << 16, MANY = 80 };

static void put(uint8_t *at, uint64_t number) {
    for (int k = 0; k < 8; k++)
        at[k] = (uint8_t)(number >> (56 - 8 * k));
}

/* Each unit of a written sheet, by its number, against the check's outputs; none behind the last. */
static void look_up(const uint8_t *sheet, size_t size, uint64_t units, const size_t *lengths, const uint64_t *times) {
    uint64_t first = 0;
    for (uint64_t i = 0; i < units; i++) {
        av1ts_sheet_found unit = av1ts_sheet_unit(sheet, size, i);
        expect(unit.number == 0 && unit.found == 1 && unit.length == lengths[i] && unit.pts == times[2 * i] && unit.dts == times[2 * i + 1] &&
                   (i == 0 || unit.first_packet > first),
               "sheet_unit: the unit that the check gave");
        first = unit.first_packet;
    }
    expect(av1ts_sheet_unit(sheet, size, units).found == 0 && av1ts_sheet_unit(sheet, size, next() | units).found == 0, "sheet_unit: none from the count on");
}

/* Reading a sheet into outputs that may be short. */
static void try_read(const uint8_t *bytes, size_t size, int written) {
    size_t rooms[3] = {one_in(4) ? below(26) : 24, one_in(4) ? below(330) : 4 * MANY, one_in(4) ? below(1000) : 1 << 14};
    av1ts_sheet both[2];
    uint64_t left[2];
    for (int side = 0; side < 2; side++) {
        const uint8_t *in = give(4, side, bytes, size);
        uint64_t *streams = lend(5, side, rooms[0] * 8), *units = lend(6, side, rooms[1] * 8), *obus = lend(7, side, rooms[2] * 8);
        calls("av1ts_read_sheet");
        av1ts_sheet a = both[side] = av1ts_read_sheet(in, size, streams, rooms[0], units, rooms[1], obus, rooms[2]);
        expect(kept(5, a.streams * 16) && kept(6, a.units * 32) && kept(7, a.obus * 32), "read_sheet: what it leaves");
        expect(a.number == 0 || (a.place == 0 && all_zero(&a.streams, 3)), "read_sheet: a refusal says nothing else");
        expect(a.number != 0 || size == 24 + 16 * a.streams + 32 * a.units + 32 * a.obus, "read_sheet: the length is the counts'");
        calls("av1ts_sheet_unit");
        av1ts_sheet_found unit = av1ts_sheet_unit(in, size, one_in(2) ? below(MANY) : next());
        expect((unit.number == 45) == (a.number == 45) && (unit.found != 0 || all_zero(&unit.first_packet, 4)), "sheet_unit: its answer");
        left[side] = content(5) ^ content(6) ^ content(7);
    }
    expect(memcmp(&both[0], &both[1], sizeof both[0]) == 0 && left[0] == left[1], "read_sheet: the same on both sides");
    expect(both[0].number == 0 || both[0].number == 8 || (both[0].number == 45 && !written), "read_sheet: its number");
}

void try_sheet(void) {
    static uint8_t segment[1 << 16], sheet[MOST_SHEET];
    uint64_t edition = one_in(20) ? next() : below(2);
    size_t size = make_segment(segment, edition == 1), word = sizeof(size_t), sheet_room = one_in(4) ? length_up_to(4000) : MOST_SHEET, count = 0;
    size_t room = one_in(6) ? length_up_to(size) : size, many = one_in(6) ? below(MANY) : MANY;
    uint64_t left[2], units = 0;
    av1ts_sheet_written both[2];
    for (int side = 0; side < 2; side++) {
        const uint8_t *in = give(0, side, segment, size);
        uint8_t *out = lend(1, side, room), *lent = lend(4, side, sheet_room);
        size_t *lengths = lend(2, side, many * word);
        uint64_t *times = lend(3, side, many * 16);
        calls("av1ts_write_sheet");
        both[side] = av1ts_write_sheet(edition, in, size, out, room, lengths, many, times, 2 * many, lent, sheet_room);
        expect(kept(4, (size_t)both[side].count), "write_sheet: what it leaves of the sheet");
        if (both[side].number == 0) {
            count = (size_t)both[side].count;
            memcpy(sheet, lent, count);
            units = 0;
            while (units < many && av1ts_sheet_unit(sheet, count, units).found == 1)
                units++;
            look_up(sheet, count, units, lengths, times);
        }
        left[side] = content(1) ^ content(2) ^ content(3) ^ content(4);
    }
    av1ts_sheet_written a = both[0];
    expect(memcmp(&both[0], &both[1], sizeof a) == 0 && left[0] == left[1], "write_sheet: the same on both sides");
    expect(a.number == 0 || a.count == 0, "write_sheet: a refusal says nothing else");
    /* the check alone says the same, and leaves the same where it is not the sheet that is short */
    uint8_t *out = lend(1, 1, room);
    size_t *lengths = lend(2, 1, many * word);
    uint64_t *times = lend(3, 1, many * 16);
    av1ts_segment checked = av1ts_check_segment_edition(edition, give(0, 1, segment, size), size, out, room, lengths, many, times, 2 * many);
    expect(checked.number != 0 ? a.number == checked.number && a.place == checked.place : a.number == 0 || (a.number == 8 && a.place == 0),
           "write_sheet: the check's refusals come first");
    if (a.number != 0)
        return;
    expect(units == checked.units, "write_sheet: the check's units");
    try_read(sheet, count, 1);
    for (size_t k = length_up_to(3); k > 0; k--)
        put(sheet + below(count / 8) * 8, one_in(3) ? next() : below(70));
    try_read(sheet, one_in(4) ? damage(sheet, count, MOST_SHEET) : count, 0);
}
