/* ../flight/downlink.c after an edit: each line that is sent ends with a carriage return, too. */
#include <p10.h>
#include <stdio.h>
#include "queue.h"

static void send_line(void)
{
    for (int i = 0; i < QUEUE_SIZE; i++) {
        int byte = queue_take();
        if (!c_assert(byte <= 255)) {
            break;
        }
        if (byte < 0) {
            break;
        }
        (void)putchar(byte);
    }
    (void)putchar('\r');
    (void)putchar('\n');
}

int main(void)
{
    bool ready = queue_init();
    if (!c_assert(ready == true)) {
        return 1;
    }
#pragma p10 init_done
#pragma p10 task_loop
    for (;;) {
        int byte = getchar();
        if (!c_assert(byte >= -1)) {
            continue;
        }
        if (byte == '\n') {
            send_line();
        } else if (byte >= 0) {
            if (!queue_put(byte)) {
                (void)putchar('!');
            }
        }
    }
}
