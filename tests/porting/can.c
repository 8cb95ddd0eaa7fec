/*
 * CAN receive filters, dispatch to subscribers and status frames.
 */
#include <string.h>
#include "can.h"

#define CAN_ID_SPEED 0x18F00400u
#define CAN_ID_STATUS(node) (0x700u + (node))
#define bswap16(x) ((uint16_t)(((x) >> 8) | ((x) << 8)))

typedef struct {
    uint32_t id, mask;
    can_rx_callback_t callback;
    void *context;
} can_filter_t;

static can_filter_t filters[CAN_MAX_FILTERS];
static uint8_t filter_count;
static uint32_t dropped;

extern bool can_hw_send(const can_frame_t *frame);

bool can_subscribe(uint32_t id, uint32_t mask, can_rx_callback_t callback, void *context)
{
    can_filter_t *f;

    if (filter_count >= CAN_MAX_FILTERS)
        return false;
    f = &filters[filter_count++];
    f->id = id;
    f->mask = mask;
    f->callback = callback;
    f->context = context;
    return true;
}

void can_dispatch(const can_frame_t *frame)
{
    uint8_t i;
    bool taken = false;

    for (i = 0; i < filter_count; i++) {
        const can_filter_t *f = &filters[i];
        if (((frame->id ^ f->id) & f->mask) == 0) {
            f->callback(frame, f->context);
            taken = true;
        }
    }
    if (!taken)
        dropped++;
}

int can_unpack_speed(const can_frame_t *frame, uint16_t *rpm)
{
    uint16_t raw;

    if (frame->id != CAN_ID_SPEED || frame->dlc < 8)
        return -1;
    raw = frame->data.half[1];
    *rpm = bswap16(raw) >> 3;
    return 0;
}

bool can_send_status(uint16_t status, uint8_t node)
{
    can_frame_t frame;
    int tries = 3;

    memset(&frame, 0, sizeof frame);
    frame.id = CAN_ID_STATUS(node);
    frame.dlc = 2;
    frame.data.bytes[0] = status & 0xFF;
    frame.data.bytes[1] = status >> 8;
    do {
        if (can_hw_send(&frame))
            return true;
    } while (--tries);
    return false;
}
