/* Copying the units out of a segment. */

#include <string.h>

#include "plain.h"

/* Copies what the packets of one PID carry, PES headers left out, and gives the bytes copied.
   Nothing is checked but that no byte outside the packet or the output is touched. */
size_t plain_copy_payloads(const uint8_t *segment, size_t len, unsigned pid, uint8_t *out,
                           size_t room)
{
    size_t n = 0;
    for (; len >= PACKET_BYTES; len -= PACKET_BYTES, segment += PACKET_BYTES) {
        size_t start = 4;
        if ((unsigned)((segment[1] & 0x1F) << 8 | segment[2]) != pid || !(segment[3] & 0x10))
            continue;
        if (segment[3] & 0x20)
            start += 1 + (size_t)segment[4];
        if (segment[1] & 0x40 && start + 9 <= PACKET_BYTES)
            start += 9 + (size_t)segment[start + 8];
        if (start > PACKET_BYTES || PACKET_BYTES - start > room - n)
            return n;
        memcpy(out + n, segment + start, PACKET_BYTES - start);
        n += PACKET_BYTES - start;
    }
    return n;
}
