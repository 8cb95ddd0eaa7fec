#pragma once

#include <stdbool.h>
#include <stddef.h>
#include <stdint.h>

#define UART_BUF_SIZE 64

bool uart_getc(char *out);
int uart_puts(const char *s);
size_t uart_write(const void *buf, size_t n);
size_t uart_available(void);
