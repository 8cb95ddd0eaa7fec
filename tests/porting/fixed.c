/*
 * Fixed-point numbers with 16 bits after the point.
 */
#include <stdio.h>
#include "fixed.h"

#define PI Q16(3.14159265)
#define SWAP(T, a, b) do { T tmp_ = a; a = b; b = tmp_; } while (0)

q16_t q16_sqrt(q16_t x)
{
    uint32_t rem = 0, root = 0, value = (uint32_t)x;
    int n;

    if (x <= 0)
        return 0;
    for (n = 0; n < 24; n++) {
        root <<= 1;
        rem = rem << 2 | value >> 30;
        value <<= 2;
        if (root < rem) {
            rem -= ++root;
            root++;
        }
    }
    return (q16_t)(root >> 1);
}

q16_t q16_sin(q16_t angle)
{
    q16_t sign = Q16_ONE, square, term;

    while (angle > PI)
        angle -= 2 * PI;
    while (angle < -PI)
        angle += 2 * PI;
    if (angle < 0)
        angle = -angle, sign = -sign;
    if (angle > PI / 2)
        angle = PI - angle;

    square = q16_mul(angle, angle);
    term = q16_mul(angle, Q16_ONE - q16_mul(square, Q16(0.16605)));
    term += q16_mul(q16_mul(q16_mul(square, square), angle), Q16(0.00761));
    return q16_mul(sign, term);
}

q16_t q16_from_string(const char *s)
{
    int negative = 0;
    int64_t value = 0, scale = 1;

    if (*s == '-')
        negative = 1, s++;
    while (*s >= '0' && *s <= '9')
        value = value * 10 + *s++ - '0';
    if (*s == '.')
        for (s++; *s >= '0' && *s <= '9'; s++) {
            value = value * 10 + (*s - '0');
            scale *= 10;
        }
    value = (value << 16) / scale;
    return (q16_t)(negative ? -value : value);
}

q16_t q16_largest(q16_t a, q16_t b, q16_t c)
{
    if (a < b)
        SWAP(q16_t, a, b);
    if (a < c)
        SWAP(q16_t, a, c);
    return a;
}

void q16_print(q16_t x)
{
    char text[16], *p = text + sizeof(text);
    uint32_t whole = (uint32_t)(x < 0 ? -x : x) >> 16;

    *--p = '\0';
    do
        *--p = '0' + whole % 10;
    while (whole /= 10);
    if (x < 0)
        *--p = '-';
    printf("%s.%04u", p, (unsigned)(((x & 0xFFFF) * 10000u) >> 16));
}
