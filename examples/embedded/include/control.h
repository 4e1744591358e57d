/* The control law: a curve of set points with interpolation between them. */
#ifndef CONTROL_H
#define CONTROL_H

#include "board.h"

#define POINTS 9u

uint16_t control_duty(uint32_t channel, uint16_t mean);

#endif
