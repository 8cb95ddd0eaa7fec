/* The current limit of a motor drive: a byte of current in, a byte of duty out. */
#include <stdint.h>
#include <stdio.h>
#include <p10.h>

#define SAMPLES 8
#define LIMIT 180
#define FULL 100
#define BROKEN_WIRE 255

enum state { RAMP, HOLD, TRIP };

static uint8_t window[SAMPLES];

static int mean(void)
{
    int sum = 0;

    for (int i = 0; i < SAMPLES; i++) {
        sum += window[i];
    }
    if (!c_assert(sum >= 0) || !c_assert(sum <= SAMPLES * 255)) {
        return LIMIT + 1;
    }
    return sum / SAMPLES;
}

static int control(uint8_t sample)
{
    static int head;
    static enum state state = RAMP;
    static int duty;

    if (!c_assert(sample != BROKEN_WIRE) || !c_assert(duty <= FULL)) {
        state = TRIP;
    }
    window[head] = sample;
    head = (head + 1) % SAMPLES;
    if (mean() > LIMIT) {
        state = TRIP;
    }
    switch (state) {
    case RAMP:
        duty += 5;
        if (duty >= FULL) {
            state = HOLD;
        }
        break;
    case HOLD:
        break;
    case TRIP:
        duty = 0;
        break;
    default:
        duty = 0;
        break;
    }
    return duty;
}

int main(void)
{
#pragma p10 task_loop
    for (;;) {
        int c = getchar();
        if (c >= 0) {
            int duty = control((uint8_t)c);
            if (!c_assert(duty >= 0) || !c_assert(duty <= FULL)) {
                duty = 0;
            }
            (void)putchar(duty);
        }
    }
}
