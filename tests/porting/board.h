/* Registers of the board, as its vendor's header has them. */
#ifndef BOARD_H
#define BOARD_H

#include <stdint.h>

#define __IO volatile

typedef struct {
    __IO uint32_t SR;
    __IO uint32_t DR;
    __IO uint32_t BRR;
    __IO uint32_t CR1;
} USART_TypeDef;

typedef struct {
    __IO uint32_t MODER;
    __IO uint32_t IDR;
    __IO uint32_t ODR;
    __IO uint32_t BSRR;
} GPIO_TypeDef;

#define USART1 ((USART_TypeDef *)0x40011000u)
#define GPIOA ((GPIO_TypeDef *)0x40020000u)

#define USART_SR_RXNE (1u << 5)
#define USART_SR_TXE (1u << 7)
#define USART_SR_ORE (1u << 3)

#define ATOMIC_BEGIN() __disable_irq()
#define ATOMIC_END() __enable_irq()

void __disable_irq(void);
void __enable_irq(void);

#endif
