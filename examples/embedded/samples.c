#include "samples.h"

static uint16_t ring[CHANNELS][DEPTH];
static uint32_t next;

/* The timer's interrupt: one sample of each channel. */
void samples_tick(void)
{
    uint32_t channel;

    for (channel = 0; channel < CHANNELS; channel++) {
        ring[channel][next] = board_read_adc(channel);
    }
    next = (next + 1u) % DEPTH;
}

uint16_t samples_mean(uint32_t channel)
{
    uint32_t sum = 0;
    uint32_t i;

    if (channel >= CHANNELS) {
        return 0;
    }
    for (i = 0; i < DEPTH; i++) {
        sum += ring[channel][i];
    }
    return (uint16_t)(sum / DEPTH);
}
