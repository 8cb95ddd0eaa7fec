/* Modes, a ramp, and a PI controller in fixed point with 256 to the unit. */
#include <p10.h>
#include "board.h"
#include "control.h"

#define FULL_SPEED 3000
#define RAMP_STEP 50          /* turns a minute, in each turn of the loop */
#define KP 40                 /* 0.156 */
#define KI 3                  /* 0.012 */
#define MOST_SUM 20000        /* of errors: 234 of duty */
#define MOST_CURRENT 800
#define TURNS_TO_TRIP 3       /* so many turns in a row with too much current */

static int demand;            /* the ramped speed */

/* Whether the current has been too great for too long. */
static bool is_overloaded(uint16_t current)
{
    static int over;          /* turns in a row with too much current */
    int turns = over;
    if (!c_assert(turns >= 0) || !c_assert(turns <= TURNS_TO_TRIP)) {
        turns = TURNS_TO_TRIP;
    }
    if (current <= MOST_CURRENT) {
        turns = 0;
    } else if (turns < TURNS_TO_TRIP) {
        turns++;
    }
    over = turns;
    return (bool)(turns == TURNS_TO_TRIP);
}

/* A trip ends where the run switch is off. */
enum mode control_mode(uint16_t current, bool run, bool guarded)
{
    static enum mode mode = STOPPED;
    enum mode next = mode;
    if (!c_assert(current <= 4095)) {
        guarded = false;
    }
    bool overloaded = is_overloaded(current);
    switch (next) {
    case STOPPED:
        next = RAMPING;
        break;
    case RAMPING:
        next = demand >= FULL_SPEED ? HOLDING : RAMPING;
        break;
    case HOLDING:
        break;
    default:
        next = TRIPPED;
        break;
    }
    if (overloaded || !guarded) {
        next = TRIPPED;
    }
    if (!run) {
        next = STOPPED;
    }
    mode = next;
    return next;
}

/* The duty for an error of the speed. */
static int controlled(int error, bool reset)
{
    static int sum;           /* of errors */
    int total = sum;
    if (!c_assert(error >= -65535) || !c_assert(error <= FULL_SPEED)) {
        return 0;
    }
    if (!c_assert(total >= -MOST_SUM) || !c_assert(total <= MOST_SUM) || reset) {
        total = 0;
    }
    total += error;
    total = total > MOST_SUM ? MOST_SUM : total;
    total = total < -MOST_SUM ? -MOST_SUM : total;
    sum = total;
    int duty = (KP * error + KI * total) / 256;
    duty = duty > MOST_DUTY ? MOST_DUTY : duty;
    return duty < 0 ? 0 : duty;
}

int control_duty(enum mode now, uint16_t speed)
{
    int wanted = demand;
    if (!c_assert(now >= STOPPED) || !c_assert(now <= TRIPPED)) {
        return 0;
    }
    if (now == STOPPED || now == TRIPPED || !c_assert(wanted >= 0) || !c_assert(wanted <= FULL_SPEED)) {
        demand = 0;
        return 0;
    }
    bool reset = (bool)(wanted == 0);
    wanted += RAMP_STEP;
    wanted = wanted > FULL_SPEED ? FULL_SPEED : wanted;
    demand = wanted;
    if (!c_assert(speed <= 2 * FULL_SPEED)) {
        return 0;
    }
    return controlled(wanted - speed, reset);
}
