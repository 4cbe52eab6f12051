/* One OBU, one access unit, the walk. Every call is made on both sides of the guard pages, and the two must answer alike. */
#include "boundary.h"

static void answered(const char *what, const av1ts_answer *both, const uint64_t *numbers) {
    av1ts_answer a = both[0];
    expect(memcmp(&both[0], &both[1], sizeof a) == 0, what);
    expect(a.number == 0 || is_one_of(a.number, numbers), what);
    expect(a.number == 0 || (a.count == 0 && a.bytes == 0 && a.dropped == 0), what);
}

static void try_escape(void) {
    static const uint64_t numbers[] = {2, 8, 0};
    uint8_t obu[MOST_MADE];
    size_t size = length_up_to(600), room = length_up_to(900);
    av1ts_answer both[2];
    uint64_t left[2];
    for (size_t i = 0; i < size; i++)
        obu[i] = byte();
    for (int side = 0; side < 2; side++) {
        const uint8_t *in = give(0, side, obu, size);
        uint8_t *out = lend(1, side, room);
        calls("av1ts_escape");
        both[side] = av1ts_escape(in, size, out, room);
        expect(both[side].count <= room && kept(1, both[side].count), "escape: what it leaves");
        left[side] = content(1);
    }
    answered("escape: its answer", both, numbers);
    expect(left[0] == left[1], "escape: the same on both sides");
    expect(both[0].number == 0 ? both[0].count >= size && both[0].count <= size + size / 2 : both[0].number == 8, "escape: how long it is");
}

static void try_unescape(void) {
    static const uint64_t numbers[] = {2, 8, 10, 0};
    uint8_t payload[MOST_MADE];
    size_t size = length_up_to(600), room = length_up_to(700);
    av1ts_answer both[2];
    uint64_t left[2];
    for (size_t i = 0; i < size; i++)
        payload[i] = i >= 2 && payload[i - 1] == 0 && payload[i - 2] == 0 && !one_in(20) ? (one_in(2) ? 3 : 0x80) : byte();
    for (int side = 0; side < 2; side++) {
        const uint8_t *in = give(0, side, payload, size);
        uint8_t *out = lend(1, side, room);
        calls("av1ts_unescape");
        both[side] = av1ts_unescape(in, size, out, room);
        expect(both[side].count <= room && kept(1, both[side].count), "unescape: what it leaves");
        left[side] = content(1);
    }
    answered("unescape: its answer", both, numbers);
    expect(left[0] == left[1], "unescape: the same on both sides");
    expect(both[0].number != 0 || both[0].count + both[0].dropped == size, "unescape: the bytes and the dropped ones are the payload's");
    expect(both[0].number != 10 || both[0].place + 2 < size, "unescape: the place lies in the payload");
}

void try_payload(void) {
    if (one_in(2))
        try_escape();
    else
        try_unescape();
}

static void try_write(void) {
    static const uint64_t numbers[] = {1, 2, 3, 4, 5, 6, 7, 8, 42, 0};
    uint8_t obus[MOST_MADE];
    size_t lengths[80], count, size = make_obus(obus, lengths, &count), room = one_in(3) ? length_up_to(200) : size * 3 / 2 + 3 * count;
    av1ts_answer both[2];
    uint64_t left[2];
    if (one_in(3))
        size = damage(obus, size, MOST_MADE);
    if (one_in(4))
        lengths[below(count)] = one_in(2) ? below(50) : (size_t)next();
    if (one_in(20))
        count = length_up_to(count);
    for (int side = 0; side < 2; side++) {
        const uint8_t *in = give(0, side, obus, size);
        const size_t *lens = give(2, side, lengths, count * sizeof lengths[0]);
        uint8_t *out = lend(1, side, room);
        calls("av1ts_write_unit");
        both[side] = av1ts_write_unit(in, size, lens, count, out, room);
        expect(both[side].count <= room && kept(1, both[side].count), "write_unit: what it leaves");
        left[side] = content(1);
    }
    answered("write_unit: its answer", both, numbers);
    expect(left[0] == left[1], "write_unit: the same on both sides");
    expect(both[0].number != 0 || both[0].count >= size + 3 * count, "write_unit: how long it is");
}

static void try_read(void) {
    static const uint64_t numbers[] = {1, 2, 3, 4, 5, 6, 7, 8, 9, 10, 42, 0};
    uint8_t unit[MOST_MADE + 8];
    size_t size = make_unit(unit), room = one_in(3) ? length_up_to(200) : size, many = one_in(4) ? below(8) : 64, wide = one_in(4) ? below(8) : 64;
    size_t word = sizeof(size_t);
    av1ts_answer both[2], widths[2], checked[2];
    uint64_t left[2], left_with_widths[2];
    for (int side = 0; side < 2; side++) {
        const uint8_t *in = give(0, side, unit, size);
        uint8_t *out = lend(1, side, room);
        size_t *lengths = lend(2, side, many * word);
        calls("av1ts_read_unit");
        both[side] = av1ts_read_unit(in, size, out, room, lengths, many);
        expect(both[side].bytes <= room && kept(1, both[side].bytes), "read_unit: the bytes that it leaves");
        expect(both[side].count <= many && kept(2, both[side].count * word), "read_unit: the lengths that it leaves");
        left[side] = content(1) ^ content(2);

        out = lend(1, side, room);
        lengths = lend(2, side, many * word);
        size_t *sizes = lend(3, side, wide * word);
        calls("av1ts_read_unit_widths");
        widths[side] = av1ts_read_unit_widths(in, size, out, room, lengths, many, sizes, wide);
        expect(widths[side].bytes <= room && kept(1, widths[side].bytes), "read_unit_widths: the bytes that it leaves");
        expect(widths[side].count <= many && kept(2, widths[side].count * word), "read_unit_widths: the lengths that it leaves");
        expect(widths[side].count <= wide && kept(3, widths[side].count * word), "read_unit_widths: the widths that it leaves");
        left_with_widths[side] = content(1) ^ content(2) ^ content(3);

        calls("av1ts_check_unit");
        checked[side] = av1ts_check_unit(in, size);
    }
    answered("read_unit: its answer", both, numbers);
    answered("read_unit_widths: its answer", widths, numbers);
    answered("check_unit: its answer", checked, numbers);
    expect(left[0] == left[1] && left_with_widths[0] == left_with_widths[1], "read_unit: the same on both sides");
    expect(checked[0].number != 8, "check_unit: it has no output that may be too short");
    expect(both[0].number == 8 ? checked[0].number == 0 : memcmp(&both[0], &checked[0], sizeof both[0]) == 0, "check_unit: as reading");
    expect(widths[0].number == 8 ? checked[0].number == 0 : memcmp(&widths[0], &checked[0], sizeof both[0]) == 0, "check_unit: as reading with widths");
    expect(checked[0].number != 0 || checked[0].bytes + checked[0].dropped + 3 * checked[0].count == size, "check_unit: its figures add up");
}

void try_unit(void) {
    if (one_in(3))
        try_write();
    else
        try_read();
}

void try_walk(void) {
    static const uint64_t numbers[] = {3, 9, 10, 0};
    uint8_t unit[MOST_MADE + 8];
    size_t size = make_unit(unit), at = one_in(2) ? below(size + 2) : one_in(2) ? 0 : (size_t)next();
    av1ts_step both[2], starts[2];
    for (int turn = 0; turn < 70; turn++) {
        for (int side = 0; side < 2; side++) {
            const uint8_t *in = give(0, side, unit, size);
            calls("av1ts_walk_start");
            starts[side] = av1ts_walk_start(in, size);
            calls("av1ts_walk_step");
            both[side] = av1ts_walk_step(in, size, at);
        }
        av1ts_step step = both[0];
        expect(memcmp(&both[0], &both[1], sizeof step) == 0, "walk_step: the same on both sides");
        expect(memcmp(&starts[0], &starts[1], sizeof step) == 0, "walk_start: the same on both sides");
        expect(starts[0].number == 0 || starts[0].number == 9, "walk_start: its answer");
        expect(step.number == 0 || is_one_of(step.number, numbers), "walk_step: its answer");
        if (step.number != 0 || step.end != 0) {
            expect(step.next_at == at && step.start == 0 && step.length == 0, "walk_step: it stays");
            return;
        }
        expect(step.length > 0 && step.start <= size && step.length <= size - step.start, "walk_step: the payload lies in the unit");
        expect(step.next_at == step.start + step.length, "walk_step: the next place");
        at = step.next_at;
    }
}

void try_salvage(void) {
    static const uint64_t numbers[] = {1, 2, 8, 0};
    uint8_t unit[MOST_MADE + 8];
    size_t size = make_unit(unit), room = one_in(3) ? length_up_to(200) : size, many = one_in(4) ? below(8) : 64;
    av1ts_salvaged both[2];
    uint64_t left[2];
    for (int side = 0; side < 2; side++) {
        const uint8_t *in = give(0, side, unit, size);
        uint8_t *out = lend(1, side, room), *marks = lend(2, side, many);
        calls("av1ts_salvage");
        both[side] = av1ts_salvage(in, size, out, room, marks, many);
        expect(both[side].bytes <= room && kept(1, both[side].bytes), "salvage: the bytes that it leaves");
        expect(both[side].tsobus <= many && kept(2, both[side].tsobus), "salvage: the marks that it leaves");
        if (both[side].accepted == 1)
            expect(av1ts_check_unit(out, both[side].bytes).number == 0, "salvage: reading accepts the result");
        left[side] = content(1) ^ content(2);
    }
    expect(memcmp(&both[0], &both[1], sizeof both[0]) == 0 && left[0] == left[1], "salvage: the same on both sides");
    expect(both[0].number == 0 || is_one_of(both[0].number, numbers), "salvage: its answer");
    expect(both[0].number == 0 || all_zero(&both[0].bytes, 5), "salvage: a refusal says nothing else");
    expect(both[0].kept <= both[0].tsobus && both[0].leading <= size && both[0].bytes <= size, "salvage: its figures");
}

/* The longest inputs that are taken, and one byte more, at the guard pages. */
void try_limits(void) {
    enum { OBU = 1048576, PAYLOAD = 1572864, CARRIED = 1573056 };
    static uint8_t bytes[CARRIED + 1];
    for (int side = 0; side < 2; side++)
        for (size_t more = 0; more < 2; more++) {
            uint8_t *out = lend(1, side, PAYLOAD);
            calls("av1ts_escape");
            av1ts_answer answer = av1ts_escape(give(0, side, bytes, OBU + more), OBU + more, out, PAYLOAD);
            expect(more ? answer.number == 2 : answer.number == 0 && answer.count == OBU + OBU / 2 - 1, "escape: the limit");
            expect(kept(1, answer.count), "escape: what it leaves at the limit");

            memset(bytes, 0xAA, sizeof bytes);
            out = lend(1, side, PAYLOAD);
            calls("av1ts_unescape");
            answer = av1ts_unescape(give(0, side, bytes, PAYLOAD + more), PAYLOAD + more, out, PAYLOAD);
            expect(more ? answer.number == 2 : answer.number == 0 && answer.count == PAYLOAD, "unescape: the limit");
            expect(kept(1, answer.count), "unescape: what it leaves at the limit");

            memcpy(bytes, "\0\0\1\060", 4);
            calls("av1ts_check_unit");
            answer = av1ts_check_unit(give(0, side, bytes, CARRIED + more), CARRIED + more);
            expect(answer.number == 2, "check_unit: the limit");
            answer = av1ts_check_unit(give(0, side, bytes, 3 + OBU + more), 3 + OBU + more);
            expect(more ? answer.number == 2 : answer.number == 0 && answer.bytes == OBU, "check_unit: the limit of its OBUs");
            memset(bytes, 0, sizeof bytes);
        }
}
