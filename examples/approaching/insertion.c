/* An insertion from both ends: odd readings fill an array from its end, even ones from its beginning, until the places meet. */
#include <assert.h>

int main(void)
{
    int sorted[12] = {0};
    int first = 0;
    int last = 11;
    int reading = 3;
    while (first <= last) {
        if (reading % 2 == 0) {
            sorted[first] = reading;
            first++;
        } else {
            sorted[last] = reading;
            last--;
        }
        reading = (reading * 5 + 1) % 64;
    }
    assert(first == last + 1);
    assert(sorted[11] == 3);
    return first;
}
