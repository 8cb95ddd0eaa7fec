#include <p10.h>
static int count(long n) {
    int counted = 0;
    for (long i = 0; i < n; i++) {
        counted = counted % 100 + 1;
    }
    return counted;
}
int main(void) {
    return count(20);
}
