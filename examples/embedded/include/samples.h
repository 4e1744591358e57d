/* Samples of the channels: a ring for each, filled by the timer's interrupt and read by the main loop. */
#ifndef SAMPLES_H
#define SAMPLES_H

#include "board.h"

#define DEPTH 16u

void samples_tick(void);
uint16_t samples_mean(uint32_t channel);

#endif
