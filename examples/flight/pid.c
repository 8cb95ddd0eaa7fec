/* Holds an altitude: a PID controller in fixed point, with 256 to the unit, and a model of the climb that it commands. */
#include <assert.h>
#include <p10.h>
#include <stdio.h>

#define UNIT 256
#define TICKS 60
#define KP 96                 /* 0.375 */
#define KI 8                  /* 0.031 */
#define KD 128                /* 0.5 */
#define MOST_COMMAND (20 * UNIT)
#define MOST_SUM (400 * UNIT)

struct pid {
    int sum;                  /* of all errors, so far */
    int last;                 /* the last error */
};

static int clamp(int value, int most)
{
    assert(most > 0);
    assert(most <= MOST_SUM);
    if (value > most) {
        return most;
    }
    if (value < -most) {
        return -most;
    }
    return value;
}

static int command_for(struct pid *state, int error)
{
    assert(state != 0);
    assert(error < 1000 * UNIT);
    state->sum = clamp(state->sum + error, MOST_SUM);
    int slope = error - state->last;
    state->last = error;
    int command = (KP * error + KI * state->sum + KD * slope) / UNIT;
    return clamp(command, MOST_COMMAND);
}

static void print_number(int value)
{
    char digits[10] = { 0 };
    int count = 0;
    int rest = value;
    assert(value >= 0);
    do {
        digits[count] = (char)('0' + rest % 10);
        count++;
        rest /= 10;
    } while (rest > 0 && count < 10);
    assert(count > 0);
    for (int i = count - 1; i >= 0; i--) {
        (void)putchar(digits[i]);
    }
}

int main(void)
{
    struct pid state = { 0, 0 };
    int target = 120 * UNIT;
    int altitude = 100 * UNIT;
    int climb = 0;
    state.last = target - altitude;
    for (int tick = 1; tick <= TICKS; tick++) {
        int command = command_for(&state, target - altitude);
        climb = climb + (command - climb) / 4;
        altitude = altitude + climb / 2;
        if (tick % 10 == 0) {
            print_number(altitude / UNIT);
            (void)putchar(tick < TICKS ? ' ' : '\n');
        }
    }
    assert(altitude > 0);
    return altitude / UNIT;
}
