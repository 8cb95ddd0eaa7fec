/* A queue of bytes in a ring that is allocated once. */
#include <p10.h>
#include <stdlib.h>
#include "queue.h"

static unsigned char *ring;   /* QUEUE_SIZE bytes */
static int oldest;            /* where the next byte is taken */
static int held;              /* how many bytes wait */

bool queue_init(void)
{
    ring = (unsigned char *)calloc(QUEUE_SIZE, sizeof(unsigned char));
    oldest = 0;
    held = 0;
    if (!c_assert(ring != NULL) || !c_assert(held == 0)) {
        return false;
    }
    return true;
}

/* Whether there was room for the byte. */
bool queue_put(int byte)
{
    if (!c_assert(byte >= 0) || !c_assert(byte <= 255)) {
        return false;
    }
    if (!c_assert(held < QUEUE_SIZE)) {
        return false;
    }
    int place = (oldest + held) % QUEUE_SIZE;
    ring[place] = (unsigned char)byte;
    held++;
    return true;
}

/* The oldest byte, or -1 where none waits. */
int queue_take(void)
{
    int byte = -1;
    if (!c_assert(oldest >= 0) || !c_assert(oldest < QUEUE_SIZE)) {
        return -1;
    }
    if (held > 0) {
        byte = ring[oldest];
        oldest = (oldest + 1) % QUEUE_SIZE;
        held--;
    }
    return byte;
}
