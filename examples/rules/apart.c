#include "watch.h"

#ifdef TRACE
#define TRACED 1
#endif

typedef int *place_t;

int total(int *values, int n)
{
    int sum = 0;
    place_t last;
    for (int i = 0; i < n; i++) {
        sum += values[i];
    }
again:
    if (sum > 9999) {
        sum /= 2;
        goto again;
    }
    return sum;
}
