#include <assert.h>
#include <stdint.h>
#include <stdio.h>
#include <stdlib.h>
#include "watch.h"

/* A watch over three temperatures: a task loop that reads one of them a turn, and tells whether it is in range. It breaks a few
   rules of ten, which `p10 check` finds. */

static int8_t *history;
static uint8_t count;

static int8_t filtered(int8_t last, int raw)
{
    int mean = (last * 3 + raw) / 4;
    int8_t rounded = mean;
    return rounded;
}

static void note(uint8_t place, int8_t value)
{
    assert(place < PLACES);
    assert(history != NULL);
    history[place] = value;
}

static int level_of(int8_t value)
{
    switch (value / 16) {
    case 0:
        return 'l';
    case 1:
        return 'm';
    }
    return 'h';
}

int main(void)
{
    history = (int8_t *)malloc(PLACES * sizeof(int8_t));
    if (history == NULL) {
        return 1;
    }
    for (uint8_t i = 0; i < PLACES; i++) {
        note(i, 0);
    }
#pragma p10 init_done
#pragma p10 task_loop
    while (1) {
        int raw = getchar();
        if (raw == EOF) {
            break;
        }
        uint8_t place = count % PLACES;
        int8_t value = filtered(history[place], raw);
        note(place, value);
        putchar(level_of(history[place]));
        count++;
    }
    return 0;
}
