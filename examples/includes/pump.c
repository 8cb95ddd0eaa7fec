#include <limits.h>
#include "pump.h"

/* The pump's speed, from a limit of the unit and a correction of the board. */
int main(void) {
    int speed = LEAST(SPEED);
    int corrected = speed + CORRECTION;
    return 0;
}
