/* The CRC of a message, by a table of the 16 remainders of half a byte: polynomial 0x1021, from 0xffff on (CRC-16/IBM-3740).
   That of the digits 1 to 9 is 0x29b1, which is 10673. */
#include <assert.h>
#include <p10.h>
#include <stdint.h>

static const uint16_t remainders[16] = {
    0x0000, 0x1021, 0x2042, 0x3063, 0x4084, 0x50a5, 0x60c6, 0x70e7,
    0x8108, 0x9129, 0xa14a, 0xb16b, 0xc18c, 0xd1ad, 0xe1ce, 0xf1ef,
};

static uint16_t add_half(uint16_t crc, int half)
{
    assert(half >= 0);
    assert(half < 16);
    int row = (crc >> 12) ^ half;
    return (uint16_t)((crc << 4) ^ remainders[row]);
}

static uint16_t crc_of(const char *message, int length)
{
    uint16_t crc = 0xffff;
    assert(message != 0);
    assert(length >= 0);
    for (int i = 0; i < length; i++) {
        int byte = (uint8_t)message[i];
        crc = add_half(crc, byte >> 4);
        crc = add_half(crc, byte & 15);
    }
    return crc;
}

int main(void)
{
    uint16_t crc = crc_of("123456789", 9);
    assert(crc == 0x29b1);
    return crc;
}
