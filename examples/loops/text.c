#include <stdio.h>
static const char text[8] = "hold";
int main(void) {
    for (int i = 0; text[i] != '\0'; i++) {
        (void)putchar(text[i]);
    }
    return 0;
}
