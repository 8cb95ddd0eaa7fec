#ifndef QUEUE_H
#define QUEUE_H

#include <stdbool.h>
#include <stddef.h>
#include <stdint.h>

typedef struct queue {
    uint8_t *storage;
    size_t item_size;
    size_t capacity;
    volatile size_t head;
    volatile size_t count;
} queue_t;

queue_t *queue_create(size_t item_size, size_t capacity);
void queue_destroy(queue_t **queue);
bool queue_push(queue_t *queue, const void *item);
bool queue_pop(queue_t *queue, void *item);
bool queue_peek(const queue_t *queue, size_t index, void *item);

#endif
