/* Walks over a carried access unit that is given in hexadecimal on the command line, then reads it.
 *   unit 00 00 01 12 00 00 00 01 30 AA */
#include "hex.h"
#include "words.h"

#define MOST_BYTES 4096
#define MOST_OBUS 64

static void refused(uint64_t number, uint64_t place) {
    printf("refused %llu at OBU %llu: %s\n", (unsigned long long)number, (unsigned long long)place, words(number));
}

/* One payload at a time, where it lies: the walk's state is the place of its next step. */
static void walk(const uint8_t *unit, size_t length) {
    uint64_t at = 0;
    for (;;) {
        av1ts_step step = av1ts_walk_step(unit, length, at);
        if (step.number != AV1TS_NOT_REFUSED) {
            refused(step.number, step.place);
            return;
        }
        if (step.end)
            return;
        printf("payload at %llu:", (unsigned long long)step.start);
        print_bytes(unit + step.start, step.length);
        at = step.next_at;
    }
}

/* All OBUs at once, unescaped, back to back, with their lengths. */
static int read_all(const uint8_t *unit, size_t length) {
    uint8_t obus[MOST_BYTES];
    size_t lengths[MOST_OBUS];
    av1ts_answer answer = av1ts_read_unit(unit, length, obus, sizeof obus, lengths, MOST_OBUS);
    if (answer.number != AV1TS_NOT_REFUSED) {
        refused(answer.number, answer.place);
        return 1;
    }
    const uint8_t *obu = obus;
    for (uint64_t i = 0; i < answer.count; i++) {
        printf("OBU %llu, type %d:", (unsigned long long)i, obu[0] >> 3 & 15);
        print_bytes(obu, lengths[i]);
        obu += lengths[i];
    }
    printf("%llu bytes in %llu OBUs, %llu dropped\n", (unsigned long long)answer.bytes, (unsigned long long)answer.count, (unsigned long long)answer.dropped);
    return 0;
}

int main(int argc, char **argv) {
    uint8_t unit[MOST_BYTES];
    if (argc == 1) {
        fprintf(stderr, "usage: %s BYTE..   a carried unit in hexadecimal, as 00 00 01 12 00 00 00 01 30 AA\n", argv[0]);
        return 2;
    }
    size_t length = bytes_given(argc, argv, unit, sizeof unit);
    walk(unit, length);
    return read_all(unit, length);
}
