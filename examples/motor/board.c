/* The board as p10 sees it: a register that is read is a sensor, and what is written goes out as bytes. The build for the target has
   another file in the place of this one. */
#include <p10.h>
#include <stdio.h>
#include "board.h"

uint16_t board_current(void)
{
    static volatile uint16_t converted;
    uint16_t current = converted;
    if (!c_assert(current <= 4095)) {
        current = 4095;
    }
    return current;
}

uint16_t board_speed(void)
{
    static volatile uint16_t counted;
    return counted;
}

uint8_t board_switches(void)
{
    static volatile uint8_t port;
    return port;
}

void board_set_duty(int duty)
{
    if (!c_assert(duty >= 0) || !c_assert(duty <= MOST_DUTY)) {
        return;
    }
    (void)putchar(duty);
}

void board_send(int byte)
{
    if (!c_assert(byte >= 0) || !c_assert(byte <= 255)) {
        return;
    }
    (void)putchar(byte);
}
