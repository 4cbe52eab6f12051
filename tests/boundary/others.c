/* Descriptors, segments, the replay, mastering figures, and null pointers. */
#include "boundary.h"

void try_descriptor(void) {
    static const uint8_t whole[] = {0x80, 4, 0x81, 8, 0x0C, 0xC0};
    uint8_t bytes[16], fields[10];
    size_t size = sizeof whole, room = length_up_to(12);
    av1ts_descriptor read[2];
    av1ts_answer written[2];
    av1ts_rewritten rewritten[2];
    uint64_t left[2];
    memcpy(bytes, whole, size);
    bytes[3 + below(3)] = (uint8_t)next();
    if (one_in(3))
        size = damage(bytes, size, sizeof bytes);
    for (size_t i = 0; i < 10; i++)
        fields[i] = one_in(8) ? (uint8_t)next() : (uint8_t)below(2);
    for (int side = 0; side < 2; side++) {
        const uint8_t *in = give(0, side, bytes, size);
        calls("av1ts_read_descriptor");
        read[side] = av1ts_read_descriptor(in, size);
        uint8_t *out = lend(1, side, room);
        calls("av1ts_rewrite_descriptor");
        rewritten[side] = av1ts_rewrite_descriptor(in, size, out, room);
        expect(rewritten[side].count <= room && kept(1, rewritten[side].count), "rewrite_descriptor: what it leaves");
        left[side] = content(1);
        const uint8_t *field = give(2, side, fields, sizeof fields);
        out = lend(1, side, room);
        calls("av1ts_write_descriptor");
        written[side] = av1ts_write_descriptor(field, out, room);
        expect(written[side].count <= room && kept(1, written[side].count), "write_descriptor: what it leaves");
        left[side] ^= content(1);
    }
    expect(memcmp(&read[0], &read[1], sizeof read[0]) == 0 && memcmp(&written[0], &written[1], sizeof written[0]) == 0 &&
               memcmp(&rewritten[0], &rewritten[1], sizeof rewritten[0]) == 0 && left[0] == left[1],
           "descriptor: the same on both sides");
    expect(read[0].number == 0 || read[0].number == 40, "read_descriptor: its answer");
    expect(read[0].number == 0 || all_zero(read[0].field, 12), "read_descriptor: a refusal says nothing else");
    expect(rewritten[0].number == (read[0].number != 0 ? 40 : room < 6 ? 8 : 0), "rewrite_descriptor: its answer");
    expect(written[0].number == 0 ? written[0].count == 6 : written[0].number == 41 || (written[0].number == 8 && room < 6), "write_descriptor: its answer");
}

/* The CRC of a section (13818-1 Annex A). */
static uint32_t crc(const uint8_t *bytes, size_t size) {
    uint32_t sum = 0xFFFFFFFF;
    for (size_t i = 0; i < size; i++) {
        sum ^= (uint32_t)bytes[i] << 24;
        for (int bit = 0; bit < 8; bit++)
            sum = sum << 1 ^ (sum >> 31 ? 0x04C11DB7 : 0);
    }
    return sum;
}

/* A packet of the sample as the draft has it: the registration of a PMT is 'AV1 ', and now and then a PES has no times. */
static void make_draft(uint8_t *packet) {
    uint8_t *payload = packet + 4 + (packet[3] & 0x20 ? 1 + packet[4] : 0);
    if ((packet[1] & 0x40) == 0)
        return;
    if (memcmp(payload, "\0\2", 2) == 0) {
        size_t length = (size_t)(payload[2] & 15) << 8 | payload[3];
        for (size_t i = 0; i + 6 <= length; i++)
            if (memcmp(payload + i, "\5\4AV01", 6) == 0)
                memcpy(payload + i, "\5\4AV1 ", 6);
        uint32_t sum = crc(payload + 1, length - 1);
        for (int i = 0; i < 4; i++)
            payload[length + (size_t)i] = (uint8_t)(sum >> (24 - 8 * i));
    }
    if (memcmp(payload, "\0\0\1\275", 4) == 0 && one_in(3))
        payload[7] &= 0x3F;
}

/* A part of the sample, or of the sample as a draft recording, damaged more often than not. */
size_t make_segment(uint8_t *segment, int draft) {
    size_t packets = sample_length / 188, first = one_in(8) ? below(packets) : 0;
    size_t size = (1 + length_up_to(packets - first - 1)) * 188;
    memcpy(segment, sample + first * 188, size);
    for (size_t k = 0; draft && k < size; k += 188)
        make_draft(segment + k);
    if (one_in(3))
        return size;
    for (size_t k = length_up_to(4); k > 0; k--) {
        size_t packet = below(size / 188), at = one_in(2) ? below(20) : below(188);
        segment[packet * 188 + at] = one_in(2) ? (uint8_t)next() : (uint8_t)(segment[packet * 188 + at] ^ 1 << below(8));
    }
    if (one_in(6) && size > 188) {
        size_t packet = below(size / 188);
        memmove(segment + packet * 188, segment + (packet + 1) * 188, size - (packet + 1) * 188);
        size -= 188;
    }
    return one_in(20) ? below(size + 1) : size;
}

void try_segment(void) {
    static const uint64_t numbers[] = {1, 2, 3, 4, 5, 6, 7, 8, 9, 10, 20, 21, 22, 23, 24, 25, 26, 27, 28, 29, 30, 31, 32, 33, 34, 42, 44, 0};
    static uint8_t segment[1 << 16];
    uint64_t edition = one_in(20) ? next() : below(2);
    size_t size = make_segment(segment, one_in(10) ? one_in(2) : edition == 1), word = sizeof(size_t), packets = size / 188;
    size_t room = one_in(4) ? length_up_to(size) : size, many = one_in(4) ? below(80) : 80, times_room = one_in(4) ? below(160) : 160;
    av1ts_segment both[2];
    uint64_t left[2], most_time = (UINT64_C(1) << 33) - (edition != 1);
    for (int side = 0; side < 2; side++) {
        const uint8_t *in = give(0, side, segment, size);
        uint8_t *out = lend(1, side, room);
        size_t *lengths = lend(2, side, many * word);
        uint64_t *times = lend(3, side, times_room * 8);
        size_t sum = 0;
        if (edition == 0 && one_in(2)) {
            calls("av1ts_check_segment");
            both[side] = av1ts_check_segment(in, size, out, room, lengths, many, times, times_room);
        } else {
            calls("av1ts_check_segment_edition");
            both[side] = av1ts_check_segment_edition(edition, in, size, out, room, lengths, many, times, times_room);
        }
        if (both[side].number != 0) {
            expect(cleared(1) && cleared(2) && cleared(3), "check_segment: a refusal clears its outputs");
        } else {
            for (uint64_t i = 0; i < both[side].units && i < many; i++)
                sum += lengths[i];
            for (uint64_t i = 0; i < 2 * both[side].units && i < times_room; i++)
                expect(times[i] <= most_time, "check_segment: its times");
            expect(both[side].units <= many && 2 * both[side].units <= times_room && sum <= room, "check_segment: its units have room");
            expect(kept(1, sum) && kept(2, both[side].units * word) && kept(3, both[side].units * 16), "check_segment: what it leaves");
        }
        left[side] = content(1) ^ content(2) ^ content(3);
    }
    av1ts_segment a = both[0];
    expect(memcmp(&both[0], &both[1], sizeof a) == 0 && left[0] == left[1], "check_segment: the same on both sides");
    expect(a.number == 0 || is_one_of(a.number, numbers), "check_segment: its answer");
    expect((a.number == 44) == (edition > 1) && (a.number != 44 || a.place == 0), "check_segment: its edition");
    expect(a.number != 30 || edition == 0, "check_segment: a draft recording may have no times");
    expect(a.number == 0 || all_zero(&a.program, (sizeof a - offsetof(av1ts_segment, program)) / 8), "check_segment: a refusal says nothing else");
    expect(a.number == 0 || a.place <= packets, "check_segment: its place");
    expect(a.compared <= 1 && (a.compared == 1 || (a.unit == 0 && a.field == 0)) && (a.field <= 8 || a.field == 43), "check_segment: its comparison");
    expect(a.compared == 0 || (edition == 0 && a.unit < a.units), "check_segment: the unit compared");
    expect(a.number != 0 || a.null_packets + a.section + a.av1 + a.other_listed + a.unlisted == packets, "check_segment: its totals add up");
}

void try_replay(void) {
    uint64_t times[40], counts[40], rate = one_in(10) ? next() : 1 + below(1000000000);
    size_t n = length_up_to(40), m = one_in(10) ? length_up_to(40) : n;
    av1ts_replay_state state;
    av1ts_replayed both[2];
    uint64_t time = one_in(4) ? next() : below(1000);
    memset(&state, 0, sizeof state);
    if (one_in(3)) {
        uint64_t *fields = &state.fill;
        for (size_t k = 1 + below(3); k > 0; k--)
            fields[below(7)] = one_in(2) ? next() : below(3);
    }
    for (size_t i = 0; i < 40; i++) {
        time += one_in(20) ? next() : below(60000);
        times[i] = time;
        counts[i] = one_in(30) ? next() : below(189);
    }
    for (int side = 0; side < 2; side++) {
        const uint64_t *given_times = give(0, side, times, n * 8), *given_counts = give(1, side, counts, m * 8);
        calls("av1ts_replay");
        both[side] = av1ts_replay(state, rate, given_times, n, given_counts, m);
    }
    expect(memcmp(&both[0], &both[1], sizeof both[0]) == 0, "replay: the same on both sides");
    expect(both[0].number == 0 || both[0].number == 46 || both[0].number == 47, "replay: its answer");
    expect(both[0].place == 0 || (both[0].number != 0 && both[0].place < n), "replay: its place");
    expect(both[0].number == 0 || both[0].place != 0 || memcmp(&both[0].state, &state, sizeof state) == 0, "replay: a state that is handed back");
}

void try_mastering(void) {
    uint8_t content_bytes[48] = {2};
    uint64_t values[10];
    size_t size = 26, room = length_up_to(40);
    av1ts_mastering read[2];
    av1ts_answer written[2];
    uint64_t left[2];
    for (size_t i = 1; i < 25; i++)
        content_bytes[i] = byte();
    content_bytes[25] = 0x80;
    if (one_in(2))
        size = damage(content_bytes, size, sizeof content_bytes);
    for (size_t i = 0; i < 10; i++)
        values[i] = one_in(10) ? next() : below(50001);
    for (int side = 0; side < 2; side++) {
        const uint8_t *in = give(0, side, content_bytes, size);
        calls("av1ts_read_mastering");
        read[side] = av1ts_read_mastering(in, size);
        const uint64_t *value = give(2, side, values, sizeof values);
        uint8_t *out = lend(1, side, room);
        calls("av1ts_write_mastering");
        written[side] = av1ts_write_mastering(value, out, room);
        expect(written[side].count <= room && kept(1, written[side].count), "write_mastering: what it leaves");
        left[side] = content(1);
    }
    expect(memcmp(&read[0], &read[1], sizeof read[0]) == 0 && memcmp(&written[0], &written[1], sizeof written[0]) == 0 && left[0] == left[1],
           "mastering: the same on both sides");
    expect(read[0].number == 0 || read[0].number == 48, "read_mastering: its answer");
    for (size_t i = 0; i < 10; i++)
        expect(read[0].number == 0 ? read[0].figure[i] >= 0 : read[0].figure[i] == 0, "read_mastering: its figures");
    expect(written[0].number == 0 ? written[0].count == 26 : written[0].number == 49 || (written[0].number == 8 && room < 26), "write_mastering: its answer");
}

/* A null pointer with length 0 is fine, for each buffer of each function. */
void try_null_pointers(void) {
    av1ts_replay_state fresh = {0, 0, 0, 0, 0, 0, 0};
    uint8_t field[10] = {0};
    uint64_t value[10] = {0};
    uint8_t unit[] = {0, 0, 1, 0x30, 0xAA}, video[] = {0x80, 4, 0x81, 8, 0x0C, 0xC0};
    const av1ts_channel channel = {1, 0x20, 0x30, 0, 0, 0, 0};
    av1ts_queue queue;
    calls("a call with null pointers");
    expect(av1ts_escape(NULL, 0, NULL, 0).number == 0, "escape of no bytes");
    expect(av1ts_escape(unit, 5, NULL, 0).number == 8, "escape to no room");
    expect(av1ts_unescape(NULL, 0, NULL, 0).number == 0, "unescape of no bytes");
    expect(av1ts_unescape(unit + 3, 2, NULL, 0).number == 8, "unescape to no room");
    expect(av1ts_write_unit(NULL, 0, NULL, 0, NULL, 0).number == 1, "write_unit of nothing");
    expect(av1ts_read_unit(NULL, 0, NULL, 0, NULL, 0).number == 9, "read_unit of nothing");
    expect(av1ts_read_unit(unit, 5, NULL, 0, NULL, 0).number == 8, "read_unit to no room");
    expect(av1ts_read_unit_widths(unit, 5, NULL, 0, NULL, 0, NULL, 0).number == 8, "read_unit_widths to no room");
    expect(av1ts_check_unit(NULL, 0).number == 9, "check_unit of nothing");
    expect(av1ts_walk_start(NULL, 0).number == 9, "walk_start over nothing");
    expect(av1ts_walk_step(NULL, 0, 0).number == 9, "walk_step over nothing");
    expect(av1ts_walk_step(NULL, 0, 7).end == 1, "walk_step behind the end of nothing");
    expect(av1ts_salvage(NULL, 0, NULL, 0, NULL, 0).number == 0, "salvage of nothing");
    expect(av1ts_read_descriptor(NULL, 0).number == 40, "read_descriptor of nothing");
    expect(av1ts_write_descriptor(field, NULL, 0).number == 8, "write_descriptor to no room");
    expect(av1ts_rewrite_descriptor(NULL, 0, NULL, 0).number == 40, "rewrite_descriptor of nothing");
    expect(av1ts_check_segment(NULL, 0, NULL, 0, NULL, 0, NULL, 0).number == 20, "check_segment of nothing");
    expect(av1ts_check_segment_edition(1, NULL, 0, NULL, 0, NULL, 0, NULL, 0).number == 20, "check_segment_edition of nothing");
    expect(av1ts_check_segment_edition(2, NULL, 0, NULL, 0, NULL, 0, NULL, 0).number == 44, "check_segment_edition of nothing in no edition");
    expect(av1ts_replay(fresh, 1, NULL, 0, NULL, 0).number == 0, "replay of nothing");
    expect(av1ts_read_mastering(NULL, 0).number == 48, "read_mastering of nothing");
    expect(av1ts_write_mastering(value, NULL, 0).number == 8, "write_mastering to no room");
    expect(av1ts_write_sheet(0, NULL, 0, NULL, 0, NULL, 0, NULL, 0, NULL, 0).number == 20, "write_sheet of nothing");
    expect(av1ts_write_sheet(2, NULL, 0, NULL, 0, NULL, 0, NULL, 0, NULL, 0).number == 44, "write_sheet of nothing in no edition");
    expect(av1ts_read_sheet(NULL, 0, NULL, 0, NULL, 0, NULL, 0).number == 45, "read_sheet of nothing");
    expect(av1ts_sheet_unit(NULL, 0, 0).number == 45, "sheet_unit of nothing");
    memset(&queue, 0, sizeof queue);
    expect(av1ts_queue_add(queue, NULL, 0, NULL, 0, 0, 0, 0).number == 51, "queue_add of nothing");
    expect(av1ts_queue_add(queue, NULL, 0, unit, 5, 0, 0, 0).number == 8, "queue_add to no store");
    expect(av1ts_queue_drop(queue, NULL, 0).empty == 1, "queue_drop of nothing");
    expect(av1ts_queue_send(queue, NULL, 0, channel, NULL, 0, NULL, 0).number == 52, "queue_send without a descriptor");
    expect(av1ts_queue_send(queue, NULL, 0, channel, video, sizeof video, NULL, 0).number == 8, "queue_send to no room");
    memset(&queue, 0xFF, sizeof queue);
    expect(av1ts_queue_add(queue, NULL, 0, unit, 5, 0, 0, 0).number == 50, "queue_add to a queue of ones");
    expect(av1ts_queue_drop(queue, NULL, 0).number == 0, "queue_drop of a queue of ones");
    expect(av1ts_queue_send(queue, NULL, 0, channel, video, sizeof video, NULL, 0).number != 0, "queue_send of a queue of ones");
}
