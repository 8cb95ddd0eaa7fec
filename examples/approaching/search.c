/* A search by halving: the middle lies in [lo, hi - 1], so each turn brings the two nearer to each other. */
#include <assert.h>

static int find(int lo, int hi)
{
    assert(lo >= 0);
    assert(hi <= 100);
    while (lo < hi) {
        int mid = lo + (hi - lo) / 2;
        if (mid > 40) {
            hi = mid;
        } else {
            lo = mid + 1;
        }
    }
    return lo;
}

int main(void)
{
    int at = find(0, 100);
    assert(at >= 0);
    assert(at == 41);
    return at;
}
