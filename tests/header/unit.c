/* Access units and the walk, through the header. */
#include <stdio.h>
#include <string.h>

#include "av1ts.h"

static int wrong;

static void expect(const char *what, int holds) {
    if (!holds) {
        printf("unit.c: %s\n", what);
        wrong = 1;
    }
}

static int is(av1ts_answer a, uint64_t number, uint64_t place, uint64_t count, uint64_t bytes, uint64_t dropped) {
    return a.number == number && a.place == place && a.count == count && a.bytes == bytes && a.dropped == dropped;
}

static int at(av1ts_step s, uint64_t number, uint64_t place, uint64_t end, uint64_t start, uint64_t length, uint64_t next_at) {
    return s.number == number && s.place == place && s.end == end && s.start == start && s.length == length && s.next_at == next_at;
}

int main(void) {
    const uint8_t unit[12] = {0, 0, 1, 0x12, 0, 0, 0, 1, 0x30, 0xAA, 0, 0};
    const uint8_t obus[6] = {0x12, 0, 0x30, 0xAA, 0, 0};
    const size_t lengths[2] = {2, 4};
    const uint8_t wide[14] = {0, 0, 1, 0x2A, 0x81, 0, 5, 0, 0, 1, 0x30, 0xAA, 0, 0};
    const uint8_t shown_again[10] = {0, 0, 1, 0x18, 0x80, 0, 0, 1, 0x20, 0xAA};
    uint8_t out[16];
    size_t read[3] = {7, 7, 7}, widths[3] = {7, 7, 7};

    memset(out, 0xEE, sizeof out);
    expect("two OBUs are written", is(av1ts_write_unit(obus, 6, lengths, 2, out, 16), 0, 0, 12, 0, 0));
    expect("the carried unit stands at the front", memcmp(out, unit, 12) == 0 && out[12] == 0xEE);
    expect("eleven bytes are too few", is(av1ts_write_unit(obus, 6, lengths, 2, out, 11), 8, 0, 0, 0, 0));

    memset(out, 0xEE, sizeof out);
    expect("the unit is read", is(av1ts_read_unit(unit, 12, out, 16, read, 3), 0, 0, 2, 6, 0));
    expect("its OBUs and lengths", memcmp(out, obus, 6) == 0 && out[6] == 0xEE && read[0] == 2 && read[1] == 4 && read[2] == 7);
    expect("the widths are read", is(av1ts_read_unit_widths(wide, 14, out, 16, read, 3, widths, 3), 0, 0, 2, 8, 0));
    expect("a size of two bytes, and none", widths[0] == 2 && widths[1] == 0 && widths[2] == 7);
    expect("one width is too few", is(av1ts_read_unit_widths(wide, 14, out, 16, read, 3, widths + 2, 1), 8, 0, 0, 0, 0) && widths[2] == 7);
    expect("the unit is checked", is(av1ts_check_unit(unit, 12), 0, 0, 2, 6, 0));
    expect("a delimiter alone ends too soon", is(av1ts_check_unit(unit, 5), 7, 1, 0, 0, 0));
    expect("a frame shown again is a whole unit", is(av1ts_check_unit(shown_again, 5), 0, 0, 1, 2, 0));
    expect("nothing may follow it", is(av1ts_check_unit(shown_again, 10), 7, 1, 0, 0, 0));
    expect("a frame header without content", is(av1ts_check_unit(shown_again, 4), 42, 0, 0, 0, 0));

    expect("the walk starts", at(av1ts_walk_start(unit, 12), 0, 0, 0, 0, 0, 0));
    expect("the first payload", at(av1ts_walk_step(unit, 12, 0), 0, 0, 0, 3, 2, 5));
    expect("the second payload", at(av1ts_walk_step(unit, 12, 5), 0, 0, 0, 8, 4, 12));
    expect("the end, and it stays", at(av1ts_walk_step(unit, 12, 12), 0, 0, 1, 0, 0, 12));
    expect("no start code at the head", at(av1ts_walk_start(unit + 1, 11), 9, 0, 0, 0, 0, 0));
    expect("the first step finds none either", at(av1ts_walk_step(unit + 1, 11, 0), 9, 0, 0, 0, 0, 0));
    expect("nor in no bytes", at(av1ts_walk_start(unit, 0), 9, 0, 0, 0, 0, 0) && at(av1ts_walk_step(unit, 0, 0), 9, 0, 0, 0, 0, 0));
    expect("a payload of no bytes", at(av1ts_walk_step(unit, 8, 5), 3, 1, 0, 0, 0, 5));
    expect("null pointers of length 0: no OBU to write", is(av1ts_write_unit(NULL, 0, NULL, 0, NULL, 0), 1, 0, 0, 0, 0));
    expect("null pointers of length 0: nothing to read", is(av1ts_read_unit(NULL, 0, NULL, 0, NULL, 0), 9, 0, 0, 0, 0));
    expect("null pointers of length 0: nothing to check", is(av1ts_check_unit(NULL, 0), 9, 0, 0, 0, 0));
    expect("null pointers of length 0: no walk", at(av1ts_walk_start(NULL, 0), 9, 0, 0, 0, 0, 0));
    return wrong;
}
