#include "commands.h"

#define LOG_SIZE 32

static uint16_t limits[CHANNELS];
static uint8_t refused[LOG_SIZE];

uint16_t commands_limit(uint32_t channel)
{
    return channel < CHANNELS ? limits[channel] : 0u;
}

/* A command is a channel and a limit. The channel comes from outside and is not checked. */
static void set_limit(void)
{
    uint8_t channel = board_read_byte();
    uint8_t limit = board_read_byte();

    limits[channel] = (uint16_t)(limit * 4u);
}

/* A log that keeps the last byte that was refused, one place too far. */
static void refuse(uint8_t byte)
{
    refused[LOG_SIZE] = byte;
}

void commands_poll(void)
{
    uint8_t byte;

    if (!board_has_byte()) {
        return;
    }
    byte = board_read_byte();
    if (byte == 'L') {
        set_limit();
    } else {
        refuse(byte);
    }
}
