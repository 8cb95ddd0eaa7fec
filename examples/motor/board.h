/* What the controller uses of its board. */
#ifndef BOARD_H
#define BOARD_H

#include <stdint.h>

#define MOST_DUTY 250

uint16_t board_current(void);     /* of the motor, in steps of 10 mA: 12 bits of a converter */
uint16_t board_speed(void);       /* of the shaft, in turns a minute */
uint8_t board_switches(void);     /* bit 0: run; bit 1: the guard is closed */

void board_set_duty(int duty);
void board_send(int byte);

#endif
