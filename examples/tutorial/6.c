/* The current limit of a motor drive: a byte of current in, a byte of duty out. */
#include <stdint.h>
#include <stdio.h>
#include <p10.h>

#define SAMPLES 8
#define LIMIT 180
#define FULL 100
#define BROKEN_WIRE 255

enum state { RAMP, HOLD, TRIP };

static uint8_t window[SAMPLES];

static unsigned mean(void)
{
    unsigned sum = 0;

    for (int i = 0; i < SAMPLES; i++) {
        sum += window[i];
    }
    if (!c_assert(sum <= SAMPLES * 255)) {
        return LIMIT + 1;
    }
    return sum / SAMPLES;
}

static int control(uint8_t sample)
{
    static int head;
    static enum state state = RAMP;
    static int duty;
    int at = head;
    int now = duty;

    if (!c_assert(sample != BROKEN_WIRE)) {
        state = TRIP;
    }
    if (!c_assert(at >= 0) || !c_assert(at < SAMPLES)) {
        at = 0;
    }
    if (!c_assert(now >= 0) || !c_assert(now <= FULL)) {
        now = 0;
    }
    window[at] = sample;
    head = (at + 1) % SAMPLES;
    if (mean() > LIMIT) {
        state = TRIP;
    }
    switch (state) {
    case RAMP:
        now += 5;
        if (now >= FULL) {
            state = HOLD;
        }
        break;
    case HOLD:
        break;
    case TRIP:
        now = 0;
        break;
    default:
        now = 0;
        break;
    }
    duty = now;
    return now;
}

int main(void)
{
#pragma p10 task_loop
    for (;;) {
        int c = getchar();
        if (c >= 0) {
            int duty = control((uint8_t)c);
            if (!c_assert(duty >= 0) || !c_assert(duty <= FULL)) {
                duty = 0;
            }
            (void)putchar(duty);
        }
    }
}
