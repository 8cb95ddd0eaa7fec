#include <stdint.h>
int main(void) {
    int s = 0;
    for (uint8_t i = 0; i < 10; i++) {
        s += 2;
    }
    return s;
}
