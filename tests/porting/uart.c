/*
 * UART with interrupt-driven receive ring and blocking transmit.
 */
#include "board.h"
#include "uart.h"

#define UART_MASK (UART_BUF_SIZE - 1)

static volatile uint8_t rx_buf[UART_BUF_SIZE];
static volatile uint8_t rx_head, rx_tail;

static struct {
    unsigned overrun : 1;
    unsigned framing : 1;
    unsigned count : 14;
} uart_errors;

__attribute__((interrupt)) void USART1_IRQHandler(void)
{
    uint32_t sr = USART1->SR;

    if (sr & USART_SR_ORE) {
        uart_errors.overrun = 1;
        uart_errors.count++;
    }
    if (sr & USART_SR_RXNE) {
        uint8_t c = USART1->DR;
        uint8_t next = (rx_head + 1) & UART_MASK;
        if (next != rx_tail) {
            rx_buf[rx_head] = c;
            rx_head = next;
        }
    }
}

bool uart_getc(char *out)
{
    if (rx_head == rx_tail)
        return false;
    *out = rx_buf[rx_tail++ & UART_MASK];
    rx_tail &= UART_MASK;
    return true;
}

static void uart_putc(char c)
{
    while (!(USART1->SR & USART_SR_TXE))
        ;
    USART1->DR = c;
}

int uart_puts(const char *s)
{
    int n = 0;
    char c;

    while ((c = *s++) != '\0') {
        if (c == '\n')
            uart_putc('\r');
        uart_putc(c);
        n++;
    }
    return n;
}

size_t uart_write(const void *buf, size_t n)
{
    const char *p = buf;
    size_t i;

    for (i = 0; i < n; ++i)
        uart_putc(p[i]);
    return i;
}

size_t uart_available(void)
{
    size_t n;

    ATOMIC_BEGIN();
    n = (size_t)((rx_head - rx_tail) & UART_MASK);
    ATOMIC_END();
    return n;
}
