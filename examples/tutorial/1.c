/* The current limit of a motor drive: a byte of current in, a byte of duty out. */
#include <stdint.h>
#include <stdio.h>

#define SAMPLES 8
#define LIMIT 180
#define FULL 100

enum state { RAMP, HOLD, TRIP };

static uint8_t window[SAMPLES];
static int head;
static enum state state = RAMP;
static int duty;

static float mean(void)
{
    float sum = 0;
    for (int i = 0; i < SAMPLES; i++) {
        sum += window[i];
    }
    return sum / SAMPLES;
}

static void control(uint8_t sample)
{
    window[head++ % SAMPLES] = sample;
    if (mean() > LIMIT) {
        state = TRIP;
    }
    switch (state) {
    case RAMP:
        duty += 5;
        if (duty >= FULL) {
            state = HOLD;
        }
        break;
    case HOLD:
        break;
    case TRIP:
        duty = 0;
        break;
    }
}

int main(void)
{
    int c;

    while ((c = getchar()) != EOF) {
        control(c);
        putchar(duty);
    }
    return 0;
}
