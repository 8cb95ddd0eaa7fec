/* A ring's head and tail: what is old goes out at the head, what came too late at the tail, until none is left. */
#include <assert.h>

static int drain(const int *ring, int head, int tail)
{
    assert(head >= 0);
    assert(tail <= 16);
    int sum = 0;
    while (head < tail) {
        if (ring[(tail - 1) % 8] > 6) {
            tail--;
        } else {
            sum = (sum + ring[head % 8]) % 1000;
            head++;
        }
    }
    return sum;
}

int main(void)
{
    int ring[8] = {5, 1, 4, 1, 5, 9, 2, 6};
    int sum = drain(ring, 4, 9);
    assert(sum >= 0);
    assert(sum == 27);
    return sum;
}
