/* The modes of a flight, as a task that takes one event a turn: t take off, l land, f fault, r reset. */
#include <p10.h>
#include <stdio.h>

enum mode { GROUND, CLIMB, CRUISE, DESCENT, SAFE };

#define CLIMB_TURNS 3

static enum mode mode = GROUND;
static int turns;             /* in this mode */

static void enter(enum mode next)
{
    if (!c_assert(next >= GROUND) || !c_assert(next <= SAFE)) {
        mode = SAFE;
    } else {
        mode = next;
    }
    turns = 0;
}

static void take_event(int event)
{
    if (!c_assert(event >= -1) || !c_assert(turns >= 0)) {
        enter(SAFE);
    }
    if (event == 'f') {
        enter(SAFE);
    }
    switch (mode) {
    case GROUND:
        if (event == 't') {
            enter(CLIMB);
        }
        break;
    case CLIMB:
        if (turns >= CLIMB_TURNS) {
            enter(CRUISE);
        }
        break;
    case CRUISE:
        if (event == 'l') {
            enter(DESCENT);
        }
        break;
    case DESCENT:
        if (turns >= CLIMB_TURNS) {
            enter(GROUND);
        }
        break;
    default:
        if (event == 'r') {
            enter(GROUND);
        }
        break;
    }
}

int main(void)
{
    turns = 0;
#pragma p10 init_done
#pragma p10 task_loop
    while (1) {
        int event = getchar();
        if (event == -1) {
            (void)putchar('\n');
            return mode;
        }
        take_event(event);
        (void)putchar("GCRDS"[mode]);
        turns++;
    }
}
