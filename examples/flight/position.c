/* Reads a position report (NMEA 0183): tests its checksum, and finds the altitude in its ninth field, in tenths of a metre. */
#include <assert.h>
#include <p10.h>
#include <stdbool.h>

#define LONGEST 82
#define ALTITUDE 9

static int hexadecimal(char digit)
{
    assert(digit != 0);
    assert(digit < 127);
    if (digit >= '0' && digit <= '9') {
        return digit - '0';
    }
    if (digit >= 'A' && digit <= 'F') {
        return digit - 'A' + 10;
    }
    return -1;
}

/* Whether the two digits after `*` are the exclusive or of all bytes between `$` and `*`. */
static bool is_intact(const char *report)
{
    unsigned char sum = 0;
    int i = 1;
    assert(report != 0);
    assert(report[0] == '$');
    while (i < LONGEST && report[i] != '*' && report[i] != 0) {
        sum ^= report[i];
        i++;
    }
    if (report[i] != '*') {
        return false;
    }
    int high = hexadecimal(report[i + 1]);
    int low = hexadecimal(report[i + 2]);
    return high * 16 + low == sum;
}

/* Where a field begins; fields are counted from 0. */
static const char *field(const char *report, int number)
{
    const char *at = report;
    int commas = 0;
    assert(report != 0);
    assert(number >= 0);
    for (int i = 0; i < LONGEST && commas < number && *at != 0; i++) {
        if (*at == ',') {
            commas++;
        }
        at++;
    }
    return at;
}

/* A number with one decimal, in tenths. */
static int tenths(const char *text)
{
    int value = 0;
    assert(text != 0);
    int i = 0;
    while (i < 6 && text[i] >= '0' && text[i] <= '9') {
        value = value * 10 + (text[i] - '0');
        i++;
    }
    value = value * 10;
    if (text[i] == '.') {
        value = value + (text[i + 1] - '0');
    }
    assert(value >= 0);
    return value;
}

int main(void)
{
    const char *report = "$GPGGA,123519,4807.038,N,01131.000,E,1,08,0.9,545.4,M,46.9,M,,*47";
    if (!is_intact(report)) {
        return -1;
    }
    return tenths(field(report, ALTITUDE));
}
