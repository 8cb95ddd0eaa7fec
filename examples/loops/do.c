#include <stdio.h>
int main(void) {
    int tries = 0;
    int c;
    do {
        c = getchar();
        tries++;
    } while (tries < 5 && c < 0);
    return tries;
}
