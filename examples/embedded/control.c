#include "control.h"
#include "commands.h"

/* Duty at each eighth of the range of a sample. */
static const uint16_t curve[POINTS] = {0, 40, 95, 160, 240, 330, 430, 540, 660};

static const int self_test = 0;
static uint16_t trace[4];

/* Between two points of the curve; a sample has twelve bits, so a step is 512 wide. */
static uint16_t between(uint16_t mean)
{
    uint32_t step = (uint32_t)mean / 512u;
    uint32_t rest = (uint32_t)mean % 512u;
    uint32_t low, high;

    if (step >= POINTS - 1u) {
        return curve[POINTS - 1u];
    }
    low = curve[step];
    high = curve[step + 1u];
    return (uint16_t)(low + (high - low) * rest / 512u);
}

uint16_t control_duty(uint32_t channel, uint16_t mean)
{
    uint16_t duty = between(mean);
    uint16_t limit = commands_limit(channel);

    if (self_test) {
        trace[0] = duty;
    }
    return duty < limit ? duty : limit;
}
