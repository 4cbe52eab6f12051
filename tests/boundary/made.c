/* Bytes to try: OBUs, units, and damage. */
#include "boundary.h"

const uint8_t *sample;
size_t sample_length;

/* Adds an OBU of this type with some content, with or without a size and an extension byte. */
static size_t add(uint8_t *out, int type) {
    size_t at = 0, size = length_up_to(40);
    int extension = one_in(5), sized = one_in(2);
    if (type == 2)
        size = 0;
    if ((type == 1 || type == 3) && size == 0)
        size = 1;
    out[at++] = (uint8_t)(type << 3 | extension << 2 | sized << 1);
    if (extension)
        out[at++] = byte();
    if (sized) {
        out[at++] = (uint8_t)(size | (one_in(4) ? 0x80 : 0));
        if (out[at - 1] & 0x80)
            out[at++] = 0;
    }
    for (size_t i = 0; i < size; i++)
        out[at + i] = byte();
    if (size != 0 && type == 1)
        out[at] &= 0xF7;
    if (size != 0 && type == 3)
        out[at] &= 0x7F;
    return at + size;
}

size_t make_obus(uint8_t *obus, size_t *lengths, size_t *count) {
    static const int heads[] = {0, 1, 5, 15, 1, 5}, parts[] = {4, 7, 15, 4};
    size_t at = 0, n = 0;
    if (one_in(2))
        at += lengths[n++] = add(obus + at, 2);
    for (size_t k = below(4); k > 0; k--)
        at += lengths[n++] = add(obus + at, heads[below(6)]);
    if (one_in(2)) {
        at += lengths[n++] = add(obus + at, 6);
    } else {
        at += lengths[n++] = add(obus + at, 3);
        for (size_t k = below(4); k > 0; k--)
            at += lengths[n++] = add(obus + at, parts[below(4)]);
        at += lengths[n++] = add(obus + at, 4);
    }
    if (one_in(30))
        while (n < 60 + below(8))
            at += lengths[n++] = add(obus + at, 15);
    *count = n;
    return at;
}

size_t damage(uint8_t *bytes, size_t length, size_t room) {
    static const uint8_t hostile[] = {0, 1, 2, 3, 4, 0x12, 0x30, 0x40, 0x47, 0x80, 0xFF};
    for (size_t k = length_up_to(6); k > 0 && length > 0; k--) {
        size_t at = below(length);
        switch (below(4)) {
        case 0:
            memmove(bytes + at, bytes + at + 1, length - at - 1);
            length--;
            break;
        case 1:
            if (length < room) {
                memmove(bytes + at + 1, bytes + at, length - at);
                bytes[at] = hostile[below(sizeof hostile)];
                length++;
            }
            break;
        case 2:
            bytes[at] ^= (uint8_t)(1 << below(8));
            break;
        default:
            bytes[at] = hostile[below(sizeof hostile)];
        }
    }
    return one_in(10) ? below(length + 1) : length;
}

size_t make_unit(uint8_t *unit) {
    uint8_t obus[MOST_MADE];
    size_t lengths[80], count, size, at = 0;
    if (one_in(8)) {
        size = length_up_to(300);
        for (size_t i = 0; i < size; i++)
            unit[i] = byte();
        return size;
    }
    make_obus(obus, lengths, &count);
    const uint8_t *obu = obus;
    for (size_t k = 0; k < count; k++) {
        size_t zeros = 0;
        memcpy(unit + at, "\0\0\1", 3);
        at += 3;
        for (size_t i = 0; i < lengths[k]; i++) {
            if (zeros >= 2 && obu[i] <= 3) {
                unit[at++] = 3;
                zeros = 0;
            }
            zeros = obu[i] == 0 ? zeros + 1 : 0;
            unit[at++] = obu[i];
        }
        if (zeros >= 2 && one_in(3))
            unit[at++] = 3;
        obu += lengths[k];
    }
    return one_in(3) ? at : damage(unit, at, MOST_MADE);
}
