/* The queue and av1ts_queue_send, through the header. */
#include <stdio.h>
#include <string.h>
#include "av1ts.h"

static int passed, failed;

static void expect(const char *what, int holds) {
    if (holds) {
        passed++;
    } else {
        printf("queue.c: %s\n", what);
        failed++;
    }
}

static int same(av1ts_queue a, av1ts_queue b) {
    return memcmp(&a, &b, sizeof a) == 0;
}

int main(void) {
    static const uint8_t unit[] = {0, 0, 1, 0x12, 0, 0, 0, 1, 0x32, 2, 0xAA, 0xBB};
    static const uint8_t other[] = {0, 0, 1, 0x30, 0xCC};
    static const uint8_t video[] = {0x80, 4, 0x81, 8, 0x0C, 0xC0};
    av1ts_queue empty;
    const av1ts_channel channel = {1, 0x20, 0x30, 27000000, 3, 7, 15};
    uint8_t store[40], before[40], out[1880], clean[1880];
    av1ts_queued q, r;
    av1ts_sent s;
    int i;
    memset(&empty, 0, sizeof empty);
    memset(store, 0xEE, sizeof store);
    memset(out, 0xDD, sizeof out);
    memset(clean, 0xDD, sizeof clean);

    q = av1ts_queue_drop(empty, store, sizeof store);
    expect("drop on the empty queue", q.number == 0 && q.empty == 1 && same(q.queue, empty));
    q = av1ts_queue_add(empty, store, sizeof store, unit, sizeof unit, 9000, 8000, 1);
    expect("add", q.number == 0 && q.queue.units == 1 && q.queue.length[0] == 12 && q.queue.pts[0] == 9000 && q.queue.dts[0] == 8000 && q.queue.marked[0] == 1);
    expect("its bytes", memcmp(store, unit, 12) == 0 && store[12] == 0xEE);
    r = av1ts_queue_add(q.queue, store, sizeof store, unit, 11, 9000, 8000, 1);
    expect("51 for a unit", r.number == 51 && r.place == 0 && same(r.queue, q.queue));
    r = av1ts_queue_add(q.queue, store, sizeof store, unit, sizeof unit, UINT64_C(1) << 33, 0, 1);
    expect("51 for a time", r.number == 51 && same(r.queue, q.queue));
    r = av1ts_queue_add(q.queue, store, 23, unit, sizeof unit, 1, 1, 1);
    expect("8 for the store", r.number == 8 && same(r.queue, q.queue) && store[12] == 0xEE);
    q = av1ts_queue_add(q.queue, store, sizeof store, other, sizeof other, 12000, 12000, 0);
    expect("the total after refusals", av1ts_queue_total(r.queue) == 12);
    expect("a second", q.number == 0 && q.queue.units == 2 && q.queue.length[1] == 5 && memcmp(store + 12, other, 5) == 0);

    s = av1ts_queue_send(q.queue, store, sizeof store, channel, video, 5, out, sizeof out);
    expect("52 for the descriptor", s.number == 52 && same(s.queue, q.queue) && s.next.av1_counter == 15 && memcmp(out, clean, sizeof out) == 0);
    s = av1ts_queue_send(q.queue, store, sizeof store, channel, video, sizeof video, out, 939);
    expect("8 for the output", s.number == 8 && s.bytes == 0 && memcmp(out, clean, sizeof out) == 0);
    s = av1ts_queue_send(q.queue, store, sizeof store, channel, video, sizeof video, out, sizeof out);
    expect("send", s.number == 0 && s.bytes == 940 && s.packets == 5 && same(s.queue, empty));
    expect("totals", av1ts_queue_total(q.queue) == 17 && q.queue.total == 17 && av1ts_queue_total(s.queue) == 0);
    expect("the next counters", s.next.pat_counter == 4 && s.next.map_counter == 8 && s.next.av1_counter == 1 && s.next.program == 1);
    expect("the rest of the output", memcmp(out + 940, clean + 940, sizeof out - 940) == 0);
    expect("PCR: no payload, one less", out[376] == 0x47 && out[379] == (0x20 | 14) && out[380] == 183 && out[381] == 0x10);
    expect("marked, and the frame in it", out[564 + 1] == 0x40 && out[564 + 3] == (0x30 | 15) && out[564 + 5] == 0x60);
    expect("both times", out[564 + 188 - 31 + 7] == 0xC0 && out[564 + 188 - 31 + 8] == 10);
    expect("its unit", memcmp(out + 564 + 188 - 12, unit, 12) == 0);
    expect("not marked, one time", out[752 + 3] == (0x30 | 0) && out[752 + 5] == 0 && out[752 + 188 - 19 + 7] == 0x80);

    memcpy(before, store, sizeof store);
    r = av1ts_queue_drop(q.queue, store, sizeof store);
    expect("drop", r.number == 0 && r.empty == 0 && r.queue.units == 1 && r.queue.length[0] == 5 && r.queue.length[1] == 0);
    expect("the total then", av1ts_queue_total(r.queue) == 5);
    expect("the bytes move", memcmp(store, other, 5) == 0 && memcmp(store + 5, before + 5, sizeof store - 5) == 0);
    r = av1ts_queue_clear(r.queue);
    expect("clear", r.number == 0 && same(r.queue, empty));
    q.queue = empty;
    for (i = 0; i < 8; i++) {
        q = av1ts_queue_add(q.queue, store, 40, other, 5, 1, 1, 0);
    }
    r = av1ts_queue_add(q.queue, store, 40, other, 5, 1, 1, 0);
    expect("50", q.number == 0 && q.queue.units == 8 && r.number == 50 && same(r.queue, q.queue));
    memset(&q.queue, 0xFF, sizeof q.queue);
    r = av1ts_queue_drop(q.queue, store, sizeof store);
    s = av1ts_queue_send(q.queue, store, sizeof store, channel, video, sizeof video, out, sizeof out);
    expect("a queue that is none gets an answer", s.number != 0);
    printf("%d passed, %d failed\n", passed, failed);
    return failed != 0;
}
