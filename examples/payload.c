/* Escapes the OBU that is given in hexadecimal on the command line, and unescapes the payload again.
 *   payload 32 04 00 00 01 80 */
#include "hex.h"
#include "words.h"

static int refused(av1ts_answer answer) {
    if (answer.number == AV1TS_NOT_REFUSED)
        return 0;
    printf("refused %llu at %llu: %s\n", (unsigned long long)answer.number, (unsigned long long)answer.place, words(answer.number));
    return 1;
}

int main(int argc, char **argv) {
    uint8_t obu[256], payload[384], back[256];
    if (argc == 1) {
        fprintf(stderr, "usage: %s BYTE..   the bytes of an OBU in hexadecimal, as 32 04 00 00 01 80\n", argv[0]);
        return 2;
    }
    size_t length = bytes_given(argc, argv, obu, sizeof obu);

    av1ts_answer escaped = av1ts_escape(obu, length, payload, sizeof payload);
    if (refused(escaped))
        return 1;
    av1ts_answer unescaped = av1ts_unescape(payload, escaped.count, back, sizeof back);
    if (refused(unescaped))
        return 1;
    printf("OBU     ");
    print_bytes(obu, length);
    printf("payload ");
    print_bytes(payload, escaped.count);
    printf("OBU     ");
    print_bytes(back, unescaped.count);
    printf("inserted %llu, dropped %llu\n", (unsigned long long)(escaped.count - length), (unsigned long long)unescaped.dropped);
    return 0;
}
