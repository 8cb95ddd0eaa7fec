#include <stdio.h>
int main(void) {
    int result = -1;
    do {
        int c = getchar();
        if (c < 0) {
            break;
        }
        result = c;
    } while (0);
    return result;
}
