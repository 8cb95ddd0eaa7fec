/*
 * Door controller: a table-driven state machine with entry actions.
 */
#include <stdbool.h>
#include <stdint.h>
#include <stdio.h>

#define LOG(fmt, ...) printf("[door] " fmt "\n", ##__VA_ARGS__)
#define COUNT(a) (sizeof(a) / sizeof(*(a)))

enum state { ST_CLOSED, ST_OPENING, ST_OPEN, ST_CLOSING, ST_FAULT, ST_MAX };
enum event { EV_NONE, EV_BUTTON, EV_LIMIT, EV_BLOCKED, EV_TIMEOUT, EV_RESET };

struct door;
typedef void (*action_t)(struct door *door);

struct transition {
    enum state from;
    enum event on;
    enum state to;
    action_t action;
};

struct door {
    enum state state;
    uint32_t since_ms;
    unsigned retries : 4;
    bool moving;
};

static void start_motor(struct door *door)
{
    door->moving = true;
}

static void stop_motor(struct door *door)
{
    door->moving = false;
}

static const struct transition table[] = {
    {ST_CLOSED, EV_BUTTON, ST_OPENING, start_motor},
    {ST_OPENING, EV_LIMIT, ST_OPEN, stop_motor},
    {ST_OPEN, EV_BUTTON, ST_CLOSING, start_motor},
    {ST_CLOSING, EV_LIMIT, ST_CLOSED, stop_motor},
    {ST_CLOSING, EV_BLOCKED, ST_OPENING, start_motor},
    {ST_OPENING, EV_TIMEOUT, ST_FAULT, stop_motor},
    {ST_CLOSING, EV_TIMEOUT, ST_FAULT, stop_motor},
    {ST_FAULT, EV_RESET, ST_CLOSED, NULL},
};

static const char *const state_names[ST_MAX] = {
    [ST_CLOSED] = "closed",   [ST_OPENING] = "opening", [ST_OPEN] = "open",
    [ST_CLOSING] = "closing", [ST_FAULT] = "fault",
};

int door_handle(struct door *door, enum event event, uint32_t now_ms)
{
    const struct transition *t;

    for (t = table; t < table + COUNT(table); t++) {
        if (t->from != door->state || t->on != event)
            continue;
        LOG("%s -> %s", state_names[door->state], state_names[t->to]);
        if (t->action)
            t->action(door);
        door->state = t->to;
        door->since_ms = now_ms;
        return 1;
    }
    return 0;
}

void door_tick(struct door *door, uint32_t now_ms)
{
    uint32_t elapsed = now_ms - door->since_ms;

    switch (door->state) {
    case ST_OPENING:
    case ST_CLOSING:
        if (elapsed > 8000 && door->retries++ < 3)
            door_handle(door, EV_TIMEOUT, now_ms);
        break;
    case ST_OPEN:
        if (elapsed > 30000)
            door_handle(door, EV_BUTTON, now_ms);
        break;
    default:
        break;
    }
}
