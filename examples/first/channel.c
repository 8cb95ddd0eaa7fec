#include "channel.h"

/* The demand of one channel. */
int main(void) {
    int setpoint = SETPOINT;   // counts
    int demand = setpoint + TRIM + 5;
    demand = demand + TRIM;
    return 0;
}
