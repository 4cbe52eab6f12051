/* Copying units into packets. */

#include <string.h>

#include "plain.h"

/* Copies bytes into packets, 184 behind each header of four bytes, and gives the bytes written. No
   table, no PES header, no counter: a loop that only copies. */
size_t plain_copy_into_packets(const uint8_t *bytes, size_t len, uint8_t *out, size_t room)
{
    size_t n = 0;
    while (len > 0 && room - n >= PACKET_BYTES) {
        size_t part = len < PACKET_BYTES - 4 ? len : PACKET_BYTES - 4;
        out[n] = 0x47;
        out[n + 1] = 0x01;
        out[n + 2] = 0x01;
        out[n + 3] = 0x10;
        memcpy(out + n + 4, bytes, part);
        bytes += part;
        len -= part;
        n += PACKET_BYTES;
    }
    return n;
}
