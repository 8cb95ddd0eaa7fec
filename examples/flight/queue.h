#ifndef QUEUE_H
#define QUEUE_H

#include <stdbool.h>

#define QUEUE_SIZE 16

bool queue_init(void);
bool queue_put(int byte);
int queue_take(void);

#endif
