/* Buffers between guard pages, and random numbers. */
#define _GNU_SOURCE
#include <stdio.h>
#include <stdlib.h>
#include <sys/mman.h>
#include <unistd.h>

#include "boundary.h"

enum { SPAN = 4 << 20, AROUND = 64 };

static uint64_t state;

void seed_with(uint64_t seed) {
    state = seed;
}

uint64_t next(void) {
    uint64_t z = state += 0x9E3779B97F4A7C15u;
    z = (z ^ (z >> 30)) * 0xBF58476D1CE4E5B9u;
    z = (z ^ (z >> 27)) * 0x94D049BB133111EBu;
    return z ^ (z >> 31);
}

size_t below(size_t limit) {
    return (size_t)(next() % limit);
}

int one_in(size_t n) {
    return below(n) == 0;
}

size_t length_up_to(size_t most) {
    size_t top = most + 1;
    while (top > 1 && one_in(2))
        top = (top + 1) / 2;
    return below(top);
}

uint8_t byte(void) {
    uint64_t word = next();
    return word & 256 ? (uint8_t)(word & 3) : (uint8_t)word;
}

struct slot {
    uint8_t *region, *at, *was;
    size_t size;
    uint8_t *read_only; /* the pages that were made so, and how many bytes they have */
    size_t read_only_size;
};

static struct slot slots[SLOTS];

static void protect(uint8_t *from, size_t size, int how) {
    if (size != 0 && mprotect(from, size, how) != 0) {
        perror("mprotect");
        exit(2);
    }
}

/* The slot, with pages that may be written. */
static struct slot *writable(int number) {
    struct slot *slot = &slots[number];
    if (slot->region == NULL) {
        size_t page = (size_t)sysconf(_SC_PAGESIZE);
        uint8_t *whole = mmap(NULL, SPAN + 2 * page, PROT_NONE, MAP_PRIVATE | MAP_ANONYMOUS, -1, 0);
        slot->was = malloc(SPAN + 2 * AROUND);
        if (whole == MAP_FAILED || slot->was == NULL) {
            perror("cannot have memory");
            exit(2);
        }
        slot->region = whole + page;
        slot->read_only = slot->region;
        slot->read_only_size = SPAN;
    }
    protect(slot->read_only, slot->read_only_size, PROT_READ | PROT_WRITE);
    slot->read_only_size = 0;
    return slot;
}

static uint8_t *place(struct slot *slot, int side, size_t size) {
    slot->size = size;
    slot->at = side == 0 ? slot->region : slot->region + SPAN - size;
    return size == 0 && one_in(2) ? NULL : slot->at;
}

const void *give(int number, int side, const void *bytes, size_t size) {
    struct slot *slot = writable(number);
    uint8_t *at = place(slot, side, size);
    if (size != 0)
        memcpy(slot->at, bytes, size);
    /* all pages that have a byte of it */
    size_t page = (size_t)sysconf(_SC_PAGESIZE), first = (size_t)(slot->at - slot->region) / page * page;
    slot->read_only = slot->region + first;
    slot->read_only_size = ((size_t)(slot->at - slot->region) + size + page - 1) / page * page - first;
    protect(slot->read_only, slot->read_only_size, PROT_READ);
    return at;
}

/* What stands around a lent part, inside the region: so many bytes before it and behind it. */
static size_t before(const struct slot *slot) {
    return slot->at == slot->region ? 0 : AROUND;
}

static size_t behind(const struct slot *slot) {
    return slot->at + slot->size == slot->region + SPAN ? 0 : AROUND;
}

void *lend(int number, int side, size_t size) {
    struct slot *slot = writable(number);
    uint8_t *at = place(slot, side, size);
    uint8_t *from = slot->at - before(slot);
    size_t count = before(slot) + size + behind(slot);
    /* the pattern begins at the lent part, so that it is the same on both sides */
    for (size_t i = 0; i < count; i++)
        from[i] = (uint8_t)((i - before(slot)) * 167 + (size_t)number * 31 + 89);
    memcpy(slot->was, from, count);
    return at;
}

int kept(int number, size_t from) {
    const struct slot *slot = &slots[number];
    const uint8_t *start = slot->at - before(slot);
    size_t head = before(slot), tail = slot->size + behind(slot);
    return from <= slot->size && memcmp(start, slot->was, head) == 0 && memcmp(slot->at + from, slot->was + head + from, tail - from) == 0;
}

int cleared(int number) {
    const struct slot *slot = &slots[number];
    for (size_t i = 0; i < slot->size; i++)
        if (slot->at[i] != 0)
            return 0;
    return kept(number, slot->size);
}

uint64_t content(int number) {
    const struct slot *slot = &slots[number];
    uint64_t sum = slot->size;
    for (size_t i = 0; i < slot->size; i++)
        sum = (sum ^ slot->at[i]) * 0x100000001B3u;
    return sum;
}
