/* Takes a reading in decimal, which has to be one of the sensor's. */
#include <assert.h>
#include <p10.h>
#include <stdio.h>

#define GREATEST 4095

int main(void)
{
    int reading = 0;
    int byte = getchar();
    assert(byte >= -1);
    for (int i = 0; i < 6 && byte >= '0' && byte <= '9'; i++) {
        reading = reading * 10 + (byte - '0');
        byte = getchar();
    }
    assert(reading <= GREATEST);
    return reading;
}
