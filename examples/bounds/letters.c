#include <stdio.h>
int main(void) {
    int n = 0;
#pragma p10 task_loop
    while (1) {
        (void)putchar('A' + n);
        n = (n + 1) % 26;
    }
}
