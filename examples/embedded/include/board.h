/* What the board offers: registers behind functions that are only declared here. */
#ifndef BOARD_H
#define BOARD_H

#include <stdint.h>

#define CHANNELS 8u

uint16_t board_read_adc(uint32_t channel);
void board_set_pwm(uint32_t channel, uint16_t duty);
uint8_t board_read_byte(void);
int board_has_byte(void);
void board_feed_watchdog(void) __attribute__((section(".fastcode")));

#endif
