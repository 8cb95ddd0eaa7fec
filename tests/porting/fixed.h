#ifndef FIXED_H
#define FIXED_H

#include <stdint.h>

typedef int32_t q16_t;

#define Q16_ONE (1 << 16)
#define Q16(x) ((q16_t)((x) * 65536.0 + ((x) >= 0 ? 0.5 : -0.5)))

static inline q16_t q16_mul(q16_t a, q16_t b)
{
    return (q16_t)(((int64_t)a * b) >> 16);
}

static inline q16_t q16_div(q16_t a, q16_t b)
{
    return b ? (q16_t)(((int64_t)a << 16) / b) : INT32_MAX;
}

q16_t q16_sqrt(q16_t x);
q16_t q16_sin(q16_t angle);
q16_t q16_from_string(const char *s);
void q16_print(q16_t x);

#endif
