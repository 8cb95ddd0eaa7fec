/* A motor that is ramped up to its speed and held there, and stopped by too much current or an open guard. */
#ifndef CONTROL_H
#define CONTROL_H

#include <stdbool.h>
#include <stdint.h>

enum mode { STOPPED, RAMPING, HOLDING, TRIPPED };

/* The mode for this turn, from what the sensors gave. */
enum mode control_mode(uint16_t current, bool run, bool guarded);

/* The duty of the drive for this turn. */
int control_duty(enum mode now, uint16_t speed);

#endif
