/* A partition by two pointers into an array: what is small goes to the left, and each turn moves one of the two by 1. */
#include <assert.h>

int main(void)
{
    int readings[8] = {41, 7, 93, 12, 66, 3, 58, 20};
    int left = 0;
    int right = 7;
    while (left < right) {
        if (readings[left] < 50) {
            left++;
        } else {
            int kept = readings[left];
            readings[left] = readings[right];
            readings[right] = kept;
            right--;
        }
    }
    assert(left >= 0);
    assert(left <= 7);
    return left;
}
