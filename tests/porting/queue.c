/*
 * Queue of items of any size in a ring.
 */
#include <assert.h>
#include <stdlib.h>
#include <string.h>
#include "queue.h"

#define IRQ_SAVE(flags) __asm volatile("mrs %0, primask" : "=r"(flags))
#define MIN(a, b) ((a) < (b) ? (a) : (b))

queue_t *queue_create(size_t item_size, size_t capacity)
{
    queue_t *queue;

    if (item_size == 0 || capacity == 0)
        return NULL;
    if (!(queue = malloc(sizeof *queue)))
        return NULL;
    queue->storage = malloc(item_size * capacity);
    if (queue->storage == NULL) {
        free(queue);
        return NULL;
    }
    queue->item_size = item_size;
    queue->capacity = capacity;
    queue->head = queue->count = 0;
    return queue;
}

void queue_destroy(queue_t **queue)
{
    if (queue && *queue) {
        free((*queue)->storage);
        free(*queue);
        *queue = NULL;
    }
}

static inline uint8_t *slot(const queue_t *queue, size_t index)
{
    assert(index < queue->capacity);
    return &queue->storage[index * queue->item_size];
}

bool queue_push(queue_t *queue, const void *item)
{
    size_t tail;

    if (queue->count == queue->capacity)
        return false;
    tail = (queue->head + queue->count) % queue->capacity;
    memcpy(slot(queue, tail), item, queue->item_size);
    queue->count++;
    return true;
}

bool queue_pop(queue_t *queue, void *item)
{
    if (!queue->count)
        return false;
    memcpy(item, slot(queue, queue->head), queue->item_size);
    queue->head = (queue->head + 1) % queue->capacity;
    queue->count--;
    return true;
}

bool queue_peek(const queue_t *queue, size_t index, void *item)
{
    if (index >= queue->count)
        return false;
    memcpy(item, slot(queue, (queue->head + index) % queue->capacity), queue->item_size);
    return true;
}
