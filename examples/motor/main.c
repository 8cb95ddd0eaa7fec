/* Reads the sensors, controls the motor and reports what it did, once in each turn of the task loop. */
#include <p10.h>
#include "board.h"
#include "control.h"

#define SYNC 0x7e

/* A frame of six bytes: the mark, mode, duty, speed with its high byte first, and the exclusive or of the four before it. */
static void report(int mode, int duty, uint16_t speed)
{
    if (!c_assert(mode >= STOPPED) || !c_assert(mode <= TRIPPED)) {
        mode = TRIPPED;
    }
    if (!c_assert(duty >= 0) || !c_assert(duty <= MOST_DUTY)) {
        duty = 0;
    }
    if (!c_assert(speed <= 9999)) {
        speed = 9999;
    }
    int high = speed >> 8;
    int low = speed & 255;
    board_send(SYNC);
    board_send(mode);
    board_send(duty);
    board_send(high);
    board_send(low);
    board_send(mode ^ duty ^ high ^ low);
}

int main(void)
{
#pragma p10 task_loop
    for (;;) {
        uint16_t current = board_current();
        uint16_t speed = board_speed();
        unsigned switches = board_switches();
        enum mode mode = control_mode(current, (bool)(switches & 1u), (bool)(switches & 2u));
        int duty = control_duty(mode, speed);
        board_set_duty(duty);
        report(mode, duty, speed);
    }
}
