/* Hostile calls over guard pages: boundary SAMPLE.ts SEED COUNT [SECONDS]
 * COUNT rounds from the seed, or as many as SECONDS have; each round is a case of every topic. The last line is 'N passed, M failed'. */
#define _GNU_SOURCE
#include <signal.h>
#include <stdio.h>
#include <stdlib.h>
#include <time.h>
#include <unistd.h>

#include "boundary.h"

void seed_with(uint64_t seed);

static uint64_t seed, round_number, passed, failed;
static const char *volatile called = "no function";

static const struct {
    void (*try)(void);
    int times; /* in a round */
} topics[] = {{try_payload, 8}, {try_unit, 8}, {try_walk, 2}, {try_salvage, 2}, {try_descriptor, 2}, {try_segment, 1}, {try_replay, 2}, {try_mastering, 2}, {try_queue, 1}, {try_sheet, 1}};

void calls(const char *function) {
    called = function;
}

void expect(int holds, const char *what) {
    if (holds) {
        passed++;
        return;
    }
    failed++;
    if (failed <= 20)
        printf("failed: %s (seed %llu, round %llu)\n", what, (unsigned long long)seed, (unsigned long long)round_number);
}

int all_zero(const uint64_t *fields, size_t count) {
    for (size_t i = 0; i < count; i++)
        if (fields[i] != 0)
            return 0;
    return 1;
}

int is_one_of(uint64_t number, const uint64_t *list) {
    while (*list != 0 && *list != number)
        list++;
    return *list != 0;
}

/* A page that may not be touched was, or a call does not end: that is a failure, and the last thing said. */
static void stopped(int sign) {
    printf("failed: %s: %s (seed %llu, round %llu)\n%llu passed, %llu failed\n", called, sign == SIGALRM ? "does not end" : "touches what it was not lent",
           (unsigned long long)seed, (unsigned long long)round_number, (unsigned long long)passed, (unsigned long long)failed + 1);
    fflush(stdout);
    _exit(1);
}

static uint64_t number(const char *word) {
    char *end;
    uint64_t value = strtoull(word, &end, 10);
    if (*word == '\0' || *end != '\0') {
        fprintf(stderr, "boundary: '%s' is no number\n", word);
        exit(2);
    }
    return value;
}

static void read_sample(const char *name) {
    static uint8_t bytes[1 << 16];
    FILE *file = fopen(name, "rb");
    if (file == NULL) {
        perror(name);
        exit(2);
    }
    sample_length = fread(bytes, 1, sizeof bytes, file) / 188 * 188;
    sample = bytes;
    fclose(file);
}

static void one_round(void) {
    seed_with(seed * 0x9E3779B97F4A7C15u + round_number);
    alarm(30);
    for (size_t topic = 0; topic < sizeof topics / sizeof topics[0]; topic++)
        for (int k = 0; k < topics[topic].times; k++)
            topics[topic].try();
    round_number++;
}

int main(int argc, char **argv) {
    if (argc < 4 || argc > 5) {
        fprintf(stderr, "usage: %s SAMPLE.ts SEED COUNT [SECONDS]\n", argv[0]);
        return 2;
    }
    read_sample(argv[1]);
    seed = number(argv[2]);
    uint64_t count = number(argv[3]), seconds = argc == 5 ? number(argv[4]) : 0;
    time_t began = time(NULL), told = began;
    signal(SIGSEGV, stopped);
    signal(SIGBUS, stopped);
    signal(SIGALRM, stopped);
    seed_with(seed);
    try_null_pointers();
    while (seconds == 0 ? round_number < count : (uint64_t)(time(NULL) - began) < seconds) {
        one_round();
        if (seconds != 0 && time(NULL) - told >= 60) {
            told = time(NULL);
            printf("%llu s: %llu rounds, %llu failed\n", (unsigned long long)(told - began), (unsigned long long)round_number, (unsigned long long)failed);
            fflush(stdout);
        }
    }
    try_limits();
    try_queue_limits();
    printf("%llu passed, %llu failed\n", (unsigned long long)passed, (unsigned long long)failed);
    return failed != 0;
}
