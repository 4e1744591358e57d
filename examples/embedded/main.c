#include "board.h"
#include "commands.h"
#include "control.h"
#include "samples.h"

static void step(void)
{
    uint32_t channel;

    for (channel = 0; channel < CHANNELS; channel++) {
        board_set_pwm(channel, control_duty(channel, samples_mean(channel)));
    }
    commands_poll();
    board_feed_watchdog();
}

int main(void)
{
    int i;

    for (i = 0; i < 1000; i++) {
        step();
    }
    return 0;
}
