/* The queue of units to send: runs of calls on a queue that grows and shrinks, and calls with a queue that no run leads to. */
#include "boundary.h"

enum { STEPS = 12, MOST_STORE = 1 << 14, MOST_SENT = 1 << 15 };

/* One call of a run, which is made on both sides of the guard pages. */
struct step {
    int drops;
    size_t size;
    uint8_t unit[MOST_MADE + 8];
    uint64_t pts, dts, marked;
};

static uint64_t make_time(void) {
    return one_in(40) ? next() : next() >> 31;
}

static void make_step(struct step *step) {
    step->drops = one_in(5);
    do
        step->size = make_unit(step->unit);
    while (av1ts_check_unit(step->unit, step->size).number != 0 && !one_in(4));
    step->pts = make_time();
    step->dts = one_in(2) ? step->pts : make_time();
    step->marked = one_in(10) ? next() : below(2);
}

static int same(av1ts_queue a, av1ts_queue b) {
    return memcmp(&a, &b, sizeof a) == 0;
}

/* A queue that the functions led to: its total is that of its units, and behind them all is 0. */
static int proper(av1ts_queue queue) {
    uint64_t total = 0;
    if (queue.units > 8)
        return 0;
    for (uint64_t i = 0; i < 8; i++) {
        total += queue.length[i];
        if (i >= queue.units && (queue.length[i] | queue.pts[i] | queue.dts[i] | queue.marked[i]) != 0)
            return 0;
        if (queue.marked[i] > 1)
            return 0;
    }
    return total == queue.total && av1ts_queue_total(queue) == total;
}

/* What add refuses a unit by. */
static uint64_t due_to_add(av1ts_queue queue, size_t room, const struct step *step) {
    if (queue.units == 8)
        return 50;
    if (av1ts_check_unit(step->unit, step->size).number != 0 || step->pts >> 33 != 0 || step->dts >> 33 != 0)
        return 51;
    return room - queue.total < step->size ? 8 : 0;
}

static av1ts_queued add(int side, av1ts_queue queue, uint8_t *store, size_t room, const struct step *step) {
    const uint8_t *in = give(0, side, step->unit, step->size);
    calls("av1ts_queue_add");
    return av1ts_queue_add(queue, store, room, in, step->size, step->pts, step->dts, step->marked);
}

static void try_add(int side, av1ts_queue *queue, uint8_t *store, size_t room, const struct step *step) {
    static uint8_t before[MOST_STORE];
    uint64_t due = due_to_add(*queue, room, step), last = queue->units;
    if (room != 0)
        memcpy(before, store, room);
    av1ts_queued answer = add(side, *queue, store, room, step);
    expect(answer.number == due && answer.place == 0 && answer.empty == 0, "queue_add: its answer");
    expect(proper(answer.queue), "queue_add: its queue");
    if (due != 0) {
        expect(same(answer.queue, *queue) && (room == 0 || memcmp(store, before, room) == 0), "queue_add: a refusal changes nothing");
        return;
    }
    if (step->size != 0)
        memcpy(before + queue->total, step->unit, step->size);
    expect(answer.queue.units == last + 1 && answer.queue.total == queue->total + step->size && answer.queue.length[last] == step->size &&
               answer.queue.pts[last] == step->pts && answer.queue.dts[last] == step->dts && answer.queue.marked[last] == (step->marked != 0),
           "queue_add: what it remembers");
    expect(room == 0 || memcmp(store, before, room) == 0, "queue_add: what it leaves");
    *queue = answer.queue;
}

static void try_drop(av1ts_queue *queue, uint8_t *store, size_t room) {
    static uint8_t before[MOST_STORE];
    if (room != 0)
        memcpy(before, store, room);
    calls("av1ts_queue_drop");
    av1ts_queued answer = av1ts_queue_drop(*queue, store, room);
    expect(answer.number == 0 && answer.place == 0 && answer.empty == (queue->units == 0), "queue_drop: its answer");
    expect(proper(answer.queue), "queue_drop: its queue");
    if (queue->units == 0) {
        expect(same(answer.queue, *queue) && (room == 0 || memcmp(store, before, room) == 0), "queue_drop: an empty queue changes nothing");
        return;
    }
    size_t first = queue->length[0], others = queue->total - first;
    expect(answer.queue.units == queue->units - 1 && answer.queue.total == others, "queue_drop: what it remembers");
    memmove(before, before + first, others);
    expect(memcmp(store, before, room) == 0, "queue_drop: what it leaves");
    *queue = answer.queue;
}

static av1ts_channel make_channel(void) {
    av1ts_channel channel = {1 + below(65535), 0x10 + below(0x1FEF), 1 + below(0x1FFE), next() >> 23, below(16), below(16), below(16)};
    if (one_in(4)) {
        uint64_t fields[7];
        memcpy(fields, &channel, sizeof fields);
        fields[below(7)] = one_in(2) ? next() : one_in(2) ? 0 : below(0x2001);
        memcpy(&channel, fields, sizeof fields);
    }
    return channel;
}

static int channel_wrong(av1ts_channel c, const uint8_t *descriptor, size_t size) {
    return av1ts_read_descriptor(descriptor, size).number != 0 || c.map_pid < 0x10 || c.map_pid > 0x1FFE || c.av1_pid == 0 || c.av1_pid > 0x1FFE ||
           c.av1_pid == c.map_pid || c.program == 0 || c.program > 65535 || c.pat_counter > 15 || c.map_counter > 15 || c.av1_counter > 15 ||
           c.pcr >= (UINT64_C(300) << 33);
}

/* The fewest packets: a header of 14 or 19 bytes and the unit; a mark needs an adaptation field of two bytes. */
static uint64_t fewest(av1ts_queue queue) {
    uint64_t packets = 3;
    for (uint64_t i = 0; i < queue.units; i++)
        packets += (queue.length[i] + (queue.pts[i] == queue.dts[i] ? 14 : 19) + (queue.marked[i] ? 2 : 0) + 183) / 184;
    return packets;
}

/* The check accepts what was sent, and gives the units back. */
static int comes_back(av1ts_queue queue, const uint8_t *store, av1ts_channel channel, const uint8_t *sent, size_t size) {
    static uint8_t out[MOST_STORE];
    size_t lengths[8];
    uint64_t times[16];
    av1ts_segment segment = av1ts_check_segment(sent, size, out, sizeof out, lengths, 8, times, 16);
    if (segment.number != 0 || segment.units != queue.units || segment.program != channel.program || segment.pid != channel.av1_pid)
        return 0;
    for (uint64_t i = 0; i < queue.units; i++)
        if (lengths[i] != queue.length[i] || times[2 * i] != queue.pts[i] || times[2 * i + 1] != queue.dts[i])
            return 0;
    return queue.total == 0 || memcmp(out, store, queue.total) == 0;
}

struct sending {
    av1ts_channel channel;
    uint8_t descriptor[16];
    size_t size, room;
};

static void make_sending(struct sending *sending) {
    static const uint8_t whole[] = {0x80, 4, 0x81, 8, 0x0C, 0xC0};
    sending->channel = make_channel();
    sending->size = sizeof whole;
    memcpy(sending->descriptor, whole, sizeof whole);
    if (one_in(6))
        sending->size = damage(sending->descriptor, sizeof whole, sizeof sending->descriptor);
    sending->room = one_in(4) ? length_up_to(8000) : MOST_SENT;
}

static av1ts_sent send(int side, av1ts_queue queue, const uint8_t *store, size_t room, const struct sending *sending, uint8_t **out) {
    const uint8_t *in = give(2, side, store, room), *descriptor = give(3, side, sending->descriptor, sending->size);
    *out = lend(4, side, sending->room);
    calls("av1ts_queue_send");
    return av1ts_queue_send(queue, in, room, sending->channel, descriptor, sending->size, *out, sending->room);
}

static void try_send(int side, av1ts_queue queue, const uint8_t *store, size_t room, const struct sending *sending) {
    av1ts_channel c = sending->channel, next_channel = c;
    av1ts_queue empty;
    uint8_t *out;
    uint64_t packets = fewest(queue), due = channel_wrong(c, sending->descriptor, sending->size) ? 52 : sending->room < 188 * packets ? 8 : 0;
    memset(&empty, 0, sizeof empty);
    av1ts_sent answer = send(side, queue, store, room, sending, &out);
    expect(answer.number == due && answer.place == 0, "queue_send: its answer");
    if (due != 0) {
        expect(answer.bytes == 0 && answer.packets == 0 && same(answer.queue, queue) && memcmp(&answer.next, &c, sizeof c) == 0 && kept(4, 0),
               "queue_send: a refusal changes nothing");
        return;
    }
    next_channel.pat_counter = (c.pat_counter + 1) % 16;
    next_channel.map_counter = (c.map_counter + 1) % 16;
    next_channel.av1_counter = (c.av1_counter + packets - 3) % 16;
    expect(answer.packets == packets && answer.bytes == 188 * packets && same(answer.queue, empty), "queue_send: its figures");
    expect(memcmp(&answer.next, &next_channel, sizeof c) == 0, "queue_send: the next counters");
    expect(kept(4, answer.bytes), "queue_send: what it leaves");
    expect(comes_back(queue, store, c, out, answer.bytes), "queue_send: the check gives it back");
}

/* A queue with some fields changed, as no function leaves them. */
static av1ts_queue spoilt(av1ts_queue queue) {
    uint64_t fields[sizeof queue / 8];
    memcpy(fields, &queue, sizeof fields);
    for (size_t k = 1 + below(4); k > 0; k--) {
        size_t field = one_in(3) ? 0 : one_in(3) ? sizeof queue / 8 - 1 : below(sizeof queue / 8);
        fields[field] = one_in(2) ? next() : one_in(2) ? UINT64_MAX - below(3) : below(MOST_STORE);
    }
    memcpy(&queue, fields, sizeof fields);
    return queue;
}

/* Each function takes a queue that no run leads to: it returns, and stays in what it was lent. */
static void try_spoilt(int side, av1ts_queue queue, size_t room, const struct step *step, const struct sending *sending, uint64_t *said) {
    static const uint64_t adding[] = {8, 50, 51, 0}, sent[] = {8, 52, 53, 0};
    uint8_t *store = lend(1, side, room), *out;
    av1ts_queued answers[3];
    memset(answers, 0, sizeof answers);
    answers[0] = add(side, queue, store, room, step);
    expect(answers[0].number == 0 || (is_one_of(answers[0].number, adding) && kept(1, 0)), "queue_add: a queue that is none");
    said[0] = content(1);
    store = lend(1, side, room);
    calls("av1ts_queue_drop");
    answers[1] = av1ts_queue_drop(queue, store, room);
    expect(answers[1].number == 0 && kept(1, room), "queue_drop: a queue that is none");
    said[1] = content(1);
    calls("av1ts_queue_clear");
    answers[2] = av1ts_queue_clear(queue);
    expect(answers[2].number == 0 && answers[2].queue.units == 0 && proper(answers[2].queue), "queue_clear: a queue that is none");
    calls("av1ts_queue_total");
    expect(av1ts_queue_total(queue) == queue.total, "queue_total: a queue that is none");
    av1ts_sent answer = send(side, queue, store, room, sending, &out);
    expect(answer.number == 0 || (is_one_of(answer.number, sent) && kept(4, 0)), "queue_send: a queue that is none");
    expect(answer.bytes <= sending->room && kept(4, answer.bytes), "queue_send: what a queue that is none leaves");
    said[2] = content(4);
    said[3] = answers[0].number ^ answers[1].empty << 8 ^ answer.number << 16 ^ answer.packets << 32;
}

void try_queue(void) {
    static struct step steps[STEPS];
    static struct sending sending;
    size_t count = length_up_to(STEPS), room = one_in(3) ? length_up_to(2000) : MOST_STORE;
    av1ts_queue queues[2];
    uint64_t said[2][4], left[2];
    make_sending(&sending);
    for (size_t k = 0; k < STEPS; k++)
        make_step(&steps[k]);
    for (int side = 0; side < 2; side++) {
        uint8_t *store = lend(1, side, room);
        memset(&queues[side], 0, sizeof queues[side]);
        for (size_t k = 0; k < count; k++) {
            if (steps[k].drops)
                try_drop(&queues[side], store, room);
            else
                try_add(side, &queues[side], store, room, &steps[k]);
        }
        expect(kept(1, room), "queue: what stands around the store");
        try_send(side, queues[side], store, room, &sending);
        calls("av1ts_queue_clear");
        av1ts_queued cleared_queue = av1ts_queue_clear(queues[side]);
        expect(cleared_queue.number == 0 && cleared_queue.queue.units == 0 && proper(cleared_queue.queue), "queue_clear: its answer");
        left[side] = content(1) ^ content(4);
    }
    expect(same(queues[0], queues[1]) && left[0] == left[1], "queue: the same on both sides");
    av1ts_queue none = spoilt(queues[0]);
    for (int side = 0; side < 2; side++)
        try_spoilt(side, none, room, &steps[0], &sending, said[side]);
    expect(memcmp(said[0], said[1], sizeof said[0]) == 0, "a queue that is none: the same on both sides");
}

/* The longest unit, which fills its store to the last byte and is sent. */
void try_queue_limits(void) {
    enum { OBU = 1048576, SIZE = OBU + 3, ROOM = 188 * (3 + (SIZE + 19 + 2 + 183) / 184) };
    static uint8_t bytes[SIZE + 1], kept_store[SIZE];
    static const uint8_t video[] = {0x80, 4, 0x81, 8, 0x0C, 0xC0};
    const av1ts_channel channel = {1, 0x20, 0x30, 27000000, 3, 7, 15};
    av1ts_queue empty;
    memset(&empty, 0, sizeof empty);
    memset(bytes, 0xAA, sizeof bytes);
    memcpy(bytes, "\0\0\1\060", 4);
    for (int side = 0; side < 2; side++)
        for (size_t more = 0; more < 2; more++) {
            uint8_t *store = lend(1, side, SIZE);
            calls("av1ts_queue_add");
            av1ts_queued added = av1ts_queue_add(empty, store, SIZE, give(0, side, bytes, SIZE + more), SIZE + more, 9, 8, 1);
            expect(added.number == (more ? 51 : 0) && (more ? kept(1, 0) : memcmp(store, bytes, SIZE) == 0), "queue_add: the limit");
            if (more)
                continue;
            memcpy(kept_store, store, SIZE);
            for (size_t less = 0; less < 2; less++) {
                const uint8_t *in = give(2, side, kept_store, SIZE), *descriptor = give(3, side, video, sizeof video);
                uint8_t *out = lend(4, side, ROOM - less);
                calls("av1ts_queue_send");
                av1ts_sent sent = av1ts_queue_send(added.queue, in, SIZE, channel, descriptor, sizeof video, out, ROOM - less);
                expect(less ? sent.number == 8 && kept(4, 0) : sent.number == 0 && sent.bytes == ROOM, "queue_send: the limit");
            }
        }
}
