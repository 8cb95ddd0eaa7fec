/*
 * CRC-16/CCITT by nibbles and CRC-32 by a table that is built on first use.
 */
#include <stdbool.h>
#include <string.h>
#include "crc.h"

#ifndef CRC_NIBBLES
#define CRC_NIBBLES 1
#endif

#define REVERSED_POLY 0xEDB88320ul
#define ARRAY_LEN(a) (sizeof(a) / sizeof((a)[0]))

static const uint16_t nibble_table[16] = {
    0x0000, 0x1021, 0x2042, 0x3063, 0x4084, 0x50A5, 0x60C6, 0x70E7,
    0x8108, 0x9129, 0xA14A, 0xB16B, 0xC18C, 0xD1AD, 0xE1CE, 0xF1EF,
};

static uint32_t table[256];
static bool table_ready = false;

static inline uint16_t crc16_byte(register uint16_t crc, uint8_t byte)
{
    crc = (uint16_t)((crc << 4) ^ nibble_table[(crc >> 12) ^ (byte >> 4)]);
    crc = (uint16_t)((crc << 4) ^ nibble_table[(crc >> 12) ^ (byte & 0x0F)]);
    return crc;
}

uint16_t crc16_ccitt(uint16_t crc, const void *data, size_t len)
{
    const uint8_t *p = (const uint8_t *)data;

    while (len-- > 0) {
#if CRC_NIBBLES
        crc = crc16_byte(crc, *p++);
#else
        int i;
        crc ^= (uint16_t)*p++ << 8;
        for (i = 0; i < 8; i++)
            crc = crc & 0x8000 ? (crc << 1) ^ 0x1021 : crc << 1;
#endif
    }
    return crc;
}

static void build_table(void)
{
    uint32_t i, j, c;

    memset(table, 0, sizeof(table));
    for (i = 0; i < ARRAY_LEN(table); i++) {
        c = i;
        for (j = 0; j < 8; j++)
            c = (c & 1) ? (REVERSED_POLY ^ (c >> 1)) : (c >> 1);
        table[i] = c;
    }
    table_ready = true;
}

uint32_t crc32_update(uint32_t crc, const uint8_t *data, size_t len)
{
    if (!table_ready)
        build_table();

    for (; len > 0; len--, data++)
        crc = table[(crc ^ *data) & 0xFF] ^ (crc >> 8);

    return crc;
}

int crc_frame_ok(const uint8_t *frame, size_t len)
{
    uint16_t want, got;

    if (frame == NULL || len < 2)
        return 0;

    memcpy(&want, frame + len - 2, sizeof(want));
    return (got = crc16_ccitt(CRC16_INIT, frame, len - 2)) == want;
}
