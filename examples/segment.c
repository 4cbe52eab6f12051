/* Checks a segment, which is a file of transport packets, and prints the verdict and the access units.
 *   segment FILE.ts
 * The status is 0 where the segment is accepted, 1 where it is refused, 2 where it cannot be read. */
#include <errno.h>
#include <stdio.h>
#include <stdlib.h>
#include <string.h>

#include "words.h"

#define MOST_BYTES (65535 * (size_t)188)
#define MOST_UNITS 1024
#define MOST_OBUS 64
#define MOST_UNIT_BYTES 1048576

static uint8_t segment[MOST_BYTES + 1], units[MOST_BYTES], obus[MOST_UNIT_BYTES];
static size_t lengths[MOST_UNITS];
static uint64_t times[2 * MOST_UNITS];

static const char *kind(uint8_t first) {
    static const char *const names[16] = {"reserved",   "sequence header", "delimiter", "frame header", "tile group", "metadata", "frame",    "redundant frame header",
                                          "tile list", "reserved",        "reserved",  "reserved",     "reserved",   "reserved", "reserved", "padding"};
    return names[first >> 3 & 15];
}

/* The OBUs of a unit in words. The check has read the unit, so reading it again with this room refuses nothing. */
static void print_obus(const uint8_t *unit, size_t length) {
    size_t sizes[MOST_OBUS];
    av1ts_answer answer = av1ts_read_unit(unit, length, obus, sizeof obus, sizes, MOST_OBUS);
    const uint8_t *obu = obus;
    for (uint64_t i = 0; i < answer.count; i++) {
        printf("%s%s", i == 0 ? "" : ", ", kind(obu[0]));
        obu += sizes[i];
    }
}

static void print_accepted(const char *name, av1ts_segment answer) {
    const uint8_t *unit = units;
    printf("%s: accepted\n", name);
    printf("program %llu, AV1 on PID %llu, %llu access units\n", (unsigned long long)answer.program, (unsigned long long)answer.pid, (unsigned long long)answer.units);
    printf("packets: %llu AV1, %llu section, %llu other listed, %llu unlisted, %llu null\n", (unsigned long long)answer.av1, (unsigned long long)answer.section,
           (unsigned long long)answer.other_listed, (unsigned long long)answer.unlisted, (unsigned long long)answer.null_packets);
    for (uint64_t i = 0; i < answer.units; i++) {
        printf("unit %4llu %7zu bytes  pts %10llu  dts %10llu  ", (unsigned long long)i, lengths[i], (unsigned long long)times[2 * i], (unsigned long long)times[2 * i + 1]);
        print_obus(unit, lengths[i]);
        printf("\n");
        unit += lengths[i];
    }
}

static size_t read_file(const char *program, const char *name) {
    FILE *file = fopen(name, "rb");
    if (file == NULL) {
        fprintf(stderr, "%s: cannot open %s: %s\n", program, name, strerror(errno));
        exit(2);
    }
    size_t length = fread(segment, 1, sizeof segment, file);
    if (ferror(file)) {
        fprintf(stderr, "%s: cannot read %s: %s\n", program, name, strerror(errno));
        exit(2);
    }
    fclose(file);
    return length;
}

int main(int argc, char **argv) {
    if (argc != 2) {
        fprintf(stderr, "usage: %s FILE.ts   a segment of transport packets of 188 bytes\n", argv[0]);
        return 2;
    }
    size_t length = read_file(argv[0], argv[1]);
    av1ts_segment answer = av1ts_check_segment(segment, length, units, sizeof units, lengths, MOST_UNITS, times, 2 * MOST_UNITS);
    if (answer.number != AV1TS_NOT_REFUSED) {
        printf("%s: refused %llu at packet %llu: %s\n", argv[1], (unsigned long long)answer.number, (unsigned long long)answer.place, words(answer.number));
        return 1;
    }
    print_accepted(argv[1], answer);
    return 0;
}
