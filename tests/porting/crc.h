#ifndef CRC_H
#define CRC_H

#include <stddef.h>
#include <stdint.h>

#define CRC16_INIT 0xFFFFu
#define CRC32_INIT 0xFFFFFFFFul

uint16_t crc16_ccitt(uint16_t crc, const void *data, size_t len);
uint32_t crc32_update(uint32_t crc, const uint8_t *data, size_t len);
int crc_frame_ok(const uint8_t *frame, size_t len);

#endif
