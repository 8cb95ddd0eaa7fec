#include <stdio.h>
int main(void) {
    int got = 0;
    while (got < 8) {
        int c = getchar();
        if (c >= 0) {
            got++;
        }
    }
    return got;
}
