#ifndef PUMP_H
#define PUMP_H

#include "board.h"

#define SPEED 900
#define LEAST(x) x

#endif
