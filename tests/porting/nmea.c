/*
 * NMEA 0183: checks a sentence and takes position and time from GGA.
 */
#include <ctype.h>
#include <stdbool.h>
#include <stdint.h>
#include <stdlib.h>
#include <string.h>

#define MAX_FIELDS 16

struct gps_fix {
    double latitude;
    double longitude;
    float altitude;
    uint8_t satellites;
    uint32_t time_of_day;
    bool valid;
};

static int hex_digit(char c)
{
    if (c >= '0' && c <= '9')
        return c - '0';
    c = toupper((unsigned char)c);
    return c >= 'A' && c <= 'F' ? c - 'A' + 10 : -1;
}

static bool checksum_ok(const char *s)
{
    uint8_t sum = 0;
    int hi, lo;

    if (*s++ != '$')
        return false;
    while (*s && *s != '*')
        sum ^= *s++;
    if (*s++ != '*' || (hi = hex_digit(s[0])) < 0 || (lo = hex_digit(s[1])) < 0)
        return false;
    return sum == (hi << 4 | lo);
}

static int split(char *line, char *fields[], int max)
{
    int n = 0;
    char *p = line;

    while (n < max) {
        fields[n++] = p;
        p = strchr(p, ',');
        if (p == NULL)
            break;
        *p++ = '\0';
    }
    return n;
}

static double degrees(const char *field, char hemisphere)
{
    double raw = atof(field);
    int whole = (int)(raw / 100);
    double result = whole + (raw - whole * 100) / 60.0;

    return hemisphere == 'S' || hemisphere == 'W' ? -result : result;
}

int nmea_parse(char *line, struct gps_fix *fix)
{
    char *fields[MAX_FIELDS];
    int n;

    if (!checksum_ok(line))
        return -1;
    n = split(line, fields, MAX_FIELDS);
    if (n < 10 || strcmp(fields[0] + 3, "GGA") != 0)
        goto ignored;

    fix->time_of_day = (uint32_t)strtoul(fields[1], NULL, 10);
    fix->latitude = degrees(fields[2], fields[3][0]);
    fix->longitude = degrees(fields[4], fields[5][0]);
    fix->valid = fields[6][0] != '0';
    fix->satellites = (uint8_t)atoi(fields[7]);
    fix->altitude = (float)atof(fields[9]);
    return 1;

ignored:
    fix->valid = false;
    return 0;
}
