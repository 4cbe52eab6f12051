/* av1ts_replay, through the header. */
#include <stdio.h>

#include "av1ts.h"

static int wrong;

static void expect(const char *what, int holds) {
    if (!holds) {
        printf("replay.c: %s\n", what);
        wrong = 1;
    }
}

static int same(av1ts_replay_state a, av1ts_replay_state b) {
    return a.fill == b.fill && a.highest == b.highest && a.has_last == b.has_last && a.last == b.last && a.arrivals == b.arrivals &&
           a.has_above == b.has_above && a.above == b.above;
}

static int is(av1ts_replayed r, uint64_t number, uint64_t place, av1ts_replay_state state) {
    return r.number == number && r.place == place && same(r.state, state);
}

int main(void) {
    const uint64_t packet = UINT64_C(188) * 8 * 27000000;
    const av1ts_replay_state fresh = {0, 0, 0, 0, 0, 0, 0};
    const uint64_t times[4] = {10, 10, 11, 12};
    const uint64_t counts[4] = {188, 188, 188, 0};
    const uint64_t back[2] = {10, 9};
    const uint64_t late[2] = {10, 27000011};
    const uint64_t last[2] = {10, 27000010};
    const uint64_t much[2] = {188, 189};
    const av1ts_replay_state one = {packet, packet, 1, 10, 1, 0, 0};
    const av1ts_replay_state two = {2 * packet, 2 * packet, 1, 10, 2, 0, 0};
    /* the third fills above the buffer, one tick of draining before it and one after it */
    const av1ts_replay_state four = {3 * packet - 2000, 3 * packet - 1000, 1, 12, 4, 1, 2};
    const av1ts_replay_state drained = {packet, packet, 1, 27000010, 2, 0, 0};
    av1ts_replay_state odd;

    expect("no arrivals", is(av1ts_replay(fresh, 1, times, 0, counts, 0), 0, 0, fresh));
    expect("one run", is(av1ts_replay(fresh, 1000, times, 4, counts, 4), 0, 0, four));
    expect("a first run", is(av1ts_replay(fresh, 1000, times, 2, counts, 2), 0, 0, two));
    expect("and a second", is(av1ts_replay(two, 1000, times + 2, 2, counts + 2, 2), 0, 0, four));
    expect("never below zero", is(av1ts_replay(fresh, 1000000000, last, 2, counts, 2), 0, 0, drained));

    expect("rate 0", is(av1ts_replay(fresh, 0, times, 2, counts, 2), 47, 0, fresh));
    expect("the rate above its bound", is(av1ts_replay(two, 1000000001, times + 2, 2, counts + 2, 2), 47, 0, two));
    expect("unlike in number", is(av1ts_replay(fresh, 1, times, 2, counts, 1), 47, 0, fresh));
    expect("a time that goes back", is(av1ts_replay(fresh, 1000, back, 2, counts, 2), 46, 1, one));
    expect("over a second", is(av1ts_replay(fresh, 1000, late, 2, much, 2), 46, 1, one));
    expect("189 bytes", is(av1ts_replay(fresh, 1000, times, 2, much, 2), 47, 1, one));

    odd = two;
    odd.has_last = 2;
    expect("has_last 2", is(av1ts_replay(odd, 1000, times + 2, 2, counts + 2, 2), 47, 0, odd));
    odd = fresh;
    odd.above = 1;
    expect("above without has_above", is(av1ts_replay(odd, 1000, times, 2, counts, 2), 47, 0, odd));
    odd = two;
    odd.fill = 3 * packet;
    expect("a fill above the highest", is(av1ts_replay(odd, 1000, times + 2, 2, counts + 2, 2), 47, 0, odd));
    odd = one;
    odd.arrivals = 1000000;
    expect("the 1,000,001st arrival", is(av1ts_replay(odd, 1000, times, 1, counts, 1), 47, 0, odd));
    return wrong;
}
