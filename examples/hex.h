/* Bytes in hexadecimal from the command line, for the examples. */
#ifndef HEX_H
#define HEX_H

#include <ctype.h>
#include <stdint.h>
#include <stdio.h>
#include <stdlib.h>

/* The bytes of the arguments, each of one or two hexadecimal digits. What is none of these ends the program with a line that says so. */
static size_t bytes_given(int argc, char **argv, uint8_t *bytes, size_t room) {
    size_t count = (size_t)(argc - 1);
    if (count > room) {
        fprintf(stderr, "%s: %zu bytes are given, and at most %zu are taken\n", argv[0], count, room);
        exit(2);
    }
    for (size_t i = 0; i < count; i++) {
        const char *word = argv[i + 1];
        if (!isxdigit((unsigned char)word[0]) || (word[1] != '\0' && (!isxdigit((unsigned char)word[1]) || word[2] != '\0'))) {
            fprintf(stderr, "%s: '%s' is no byte in hexadecimal (00 to FF)\n", argv[0], word);
            exit(2);
        }
        bytes[i] = (uint8_t)strtoul(word, NULL, 16);
    }
    return count;
}

static void print_bytes(const uint8_t *bytes, uint64_t count) {
    for (uint64_t i = 0; i < count; i++)
        printf(" %02X", bytes[i]);
    printf("\n");
}

#endif
