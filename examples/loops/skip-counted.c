#include <stdio.h>
int main(void) {
    int got = 0;
    for (int tries = 0; tries < 100 && got < 8; tries++) {
        int c = getchar();
        if (c >= 0) {
            got++;
        }
    }
    return got;
}
