#include <stdint.h>

static volatile uint8_t level;

/* The mean of four readings, rounded down. */
static int mean(void) {
    int sum = 0;
    for (int i = 0; i < 4; i++) {
        sum += level;
    }
    return sum / 4;
}

int main(void) {
    return mean();
}
