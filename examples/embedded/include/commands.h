/* Commands of the service port. */
#ifndef COMMANDS_H
#define COMMANDS_H

#include "board.h"

uint16_t commands_limit(uint32_t channel);
void commands_poll(void);

#endif
