/* Raspberry Pi 2B and 3B: BCM2836 and BCM2837, whose devices are those of "BCM2835 ARM Peripherals", at 3Fnnnnnnh where that has
   7Ennnnnnh. */
#include "board.h"

enum {
    SERIAL = 0x3f201000, /* chapter 13: a PL011; the firmware has set its speed (init_uart_baud of config.txt) */
    SERIAL_DATA = 0x00,
    SERIAL_FLAGS = 0x18,
    IS_FULL = 1 << 5,
    CONTROLLER = 0x3f300000, /* chapter 5: the External Mass Media Controller, Arasan's */
    BUFFER_DATA_PORT = 0x20
};

void board_put(char character)
{
    while (WORD(SERIAL + SERIAL_FLAGS) & IS_FULL)
        ;
    WORD(SERIAL + SERIAL_DATA) = (uint8_t)character;
}

/* This controller loses a write to a register that comes within two of its clocks after another one: 5 microseconds at 400 kHz. */
static void write_slowly(void *context, unsigned offset, unsigned size, uint32_t value)
{
    mapped_write(context, offset, size, value);
    if (offset != BUFFER_DATA_PORT)
        board_pause(context, 5);
}

/* It takes words alone, tells no Capabilities, and has no card switch. The firmware gives it 250 MHz at most. */
static const struct kelifandro_registers registers = {
    .context = (void *)CONTROLLER,
    .read = mapped_read,
    .write = write_slowly,
    .pause = board_pause,
    .is_there = 1,
    .is_by_words = 1,
    .capabilities = 1u << 24 | 1u << 21 | 250u << 8,
};

const struct kelifandro_registers *board_begin(void)
{
    return &registers;
}
