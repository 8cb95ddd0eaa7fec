#include <p10.h>
static int table[20];
static int total(int count) {
    int sum = 0;
    if (!c_assert(count >= 0) || !c_assert(count <= 20)) {
        return -1;
    }
    for (int i = 0; i < count; i++) {
        sum = (sum + table[i]) % 1000;
    }
    return sum;
}
int main(void) {
    return total(7);
}
