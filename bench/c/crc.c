/* The CRC of ISO/IEC 13818-1 Annex A, byte by byte with a table. */

#include "plain.h"

static uint32_t table[256];

static void fill_table(void)
{
    for (uint32_t i = 0; i < 256; i++) {
        uint32_t r = i << 24;
        for (int k = 0; k < 8; k++)
            r = r << 1 ^ (r >> 31 ? POLYNOMIAL : 0);
        table[i] = r;
    }
}

uint64_t plain_crc32(const uint8_t *bytes, size_t len)
{
    uint32_t r = 0xFFFFFFFF;
    /* Only an empty table has 0 here. */
    if (table[1] == 0)
        fill_table();
    for (size_t i = 0; i < len; i++)
        r = r << 8 ^ table[r >> 24 ^ bytes[i]];
    return r;
}
