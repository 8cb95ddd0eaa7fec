/*
 * LZSS: unpacks firmware images, and packs logs, with a window of 4096 bytes.
 */
#include <stddef.h>
#include <stdint.h>
#include <string.h>

#define WINDOW 4096
#define LOOKAHEAD 18
#define THRESHOLD 2

typedef int (*read_fn)(void *context);
typedef void (*write_fn)(void *context, uint8_t byte);

static uint8_t window[WINDOW + LOOKAHEAD - 1];

int lzss_unpack(read_fn get, void *in, write_fn put, void *out)
{
    unsigned flags = 0;
    int c, i, j, k, r = WINDOW - LOOKAHEAD;

    memset(window, ' ', WINDOW - LOOKAHEAD);
    for (;;) {
        if (((flags >>= 1) & 256) == 0) {
            if ((c = get(in)) < 0)
                break;
            flags = c | 0xFF00;
        }
        if (flags & 1) {
            if ((c = get(in)) < 0)
                break;
            put(out, c);
            window[r++] = c;
            r &= WINDOW - 1;
        } else {
            if ((i = get(in)) < 0 || (j = get(in)) < 0)
                break;
            i |= (j & 0xF0) << 4;
            j = (j & 0x0F) + THRESHOLD;
            for (k = 0; k <= j; k++) {
                c = window[(i + k) & (WINDOW - 1)];
                put(out, c);
                window[r++] = c;
                r &= WINDOW - 1;
            }
        }
    }
    return 0;
}

static int match_length(const uint8_t *restrict a, const uint8_t *restrict b, int max)
{
    const uint8_t *start = a;

    while (max-- && *a == *b)
        a++, b++;
    return a - start;
}

size_t lzss_pack(const uint8_t *in, size_t n, uint8_t *out, size_t room)
{
    size_t at = 0, used = 0;
    uint8_t *flags = out;
    int bit = 8;

    while (at < n) {
        int best = 0, best_at = 0;
        size_t from = at > WINDOW ? at - WINDOW : 0;

        for (size_t p = from; p < at; p++) {
            int max = n - at < LOOKAHEAD ? (int)(n - at) : LOOKAHEAD;
            int length = match_length(in + p, in + at, max);
            if (length > best)
                best = length, best_at = (int)p;
        }
        if (used + 3 > room)
            return 0;
        if (bit == 8) {
            flags = out + used++;
            *flags = bit = 0;
        }
        if (best <= THRESHOLD) {
            *flags |= 1 << bit;
            out[used++] = in[at++];
        } else {
            out[used++] = best_at & 0xFF;
            out[used++] = (uint8_t)((best_at >> 4 & 0xF0) | (best - THRESHOLD - 1));
            at += best;
        }
        bit++;
    }
    return used;
}
