#ifndef CAN_H
#define CAN_H

#include <stdbool.h>
#include <stdint.h>

#define CAN_MAX_FILTERS 8

typedef struct {
    uint32_t id : 29;
    uint32_t ext : 1;
    uint32_t rtr : 1;
    uint8_t dlc;
    union {
        uint8_t bytes[8];
        uint16_t half[4];
        uint32_t word[2];
    } data;
} can_frame_t;

typedef void (*can_rx_callback_t)(const can_frame_t *frame, void *context);

bool can_subscribe(uint32_t id, uint32_t mask, can_rx_callback_t callback, void *context);
void can_dispatch(const can_frame_t *frame);
int can_unpack_speed(const can_frame_t *frame, uint16_t *rpm);
bool can_send_status(uint16_t status, uint8_t node);

#endif
