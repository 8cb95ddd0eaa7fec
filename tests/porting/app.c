/*
 * Application: messages arrive through a pipe of bytes and are handed on by kind.
 */
#include <stdbool.h>
#include <stdint.h>
#include <stdio.h>
#include <stdlib.h>
#include <string.h>

#define MSG_MAX 32
#define DEBUG_LEVEL 1
#if DEBUG_LEVEL > 0
#define TRACE(...) fprintf(stderr, __VA_ARGS__)
#else
#define TRACE(...) ((void)0)
#endif

typedef enum { MSG_PING = 1, MSG_SET, MSG_GET, MSG_RESET } msg_kind_t;

typedef struct message {
    uint8_t kind;
    uint8_t length;
    uint8_t payload[];
} message_t;

struct pipe {
    uint8_t bytes[256];
    unsigned rd, wr;
};

static struct pipe rx;
static int32_t settings[8];
static volatile bool running = true;

static int pipe_read(struct pipe *pipe, void *to, size_t n)
{
    uint8_t *out = to;
    size_t i;

    for (i = 0; i < n && pipe->rd != pipe->wr; i++)
        out[i] = pipe->bytes[pipe->rd++ % sizeof(pipe->bytes)];
    return (int)i;
}

static message_t *next_message(struct pipe *pipe)
{
    uint8_t header[2];
    message_t *message;

    if (pipe_read(pipe, header, sizeof(header)) != sizeof(header))
        return NULL;
    if (header[1] > MSG_MAX)
        return NULL;
    message = malloc(sizeof(message_t) + header[1]);
    if (!message)
        return NULL;
    message->kind = header[0];
    message->length = header[1];
    if (pipe_read(pipe, message->payload, message->length) != message->length) {
        free(message);
        return NULL;
    }
    return message;
}

static void set(const message_t *message)
{
    int32_t value;

    if (message->length < 5 || message->payload[0] >= 8)
        return;
    memcpy(&value, &message->payload[1], sizeof(value));
    settings[message->payload[0]] = value;
}

static void dispatch(const message_t *message)
{
    switch (message->kind) {
    case MSG_PING:
        putchar('.');
        break;
    case MSG_SET:
        set(message);
        /* fall through */
    case MSG_GET:
        if (message->length)
            printf("%ld\n", (long)settings[message->payload[0] & 7]);
        break;
    case MSG_RESET:
        memset(settings, 0, sizeof settings), running = false;
        break;
    default:
        TRACE("unknown kind %u\n", message->kind);
    }
}

int main(int argc, char *argv[])
{
    int c;
    message_t *message;

    (void)argc;
    (void)argv;
    while (running && (c = getchar()) != EOF) {
        rx.bytes[rx.wr++ % sizeof(rx.bytes)] = (uint8_t)c;
        while ((message = next_message(&rx)) != NULL) {
            dispatch(message);
            free(message);
        }
    }
    return EXIT_SUCCESS;
}
