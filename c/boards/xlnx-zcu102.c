/* Xilinx ZCU102: Zynq UltraScale+ MPSoC. Addresses are those of its Technical Reference Manual (UG1085), "System Addresses". */
#include "board.h"

enum {
    SERIAL = 0xff000000, /* UART0, Cadence's */
    SERIAL_CONTROL = 0x00,
    IS_ENABLED = 0x14, /* receiver and transmitter */
    SERIAL_STATUS = 0x2c,
    IS_FULL = 1 << 4,
    SERIAL_DATA = 0x30,
};
#define CONTROLLER 0xff170000u /* SD1, Arasan's: the board's slot. The boot firmware has set its clock and its pins */

void board_put(char character)
{
    while (WORD(SERIAL + SERIAL_STATUS) & IS_FULL)
        ;
    WORD(SERIAL + SERIAL_DATA) = (uint8_t)character;
}

/* The upper part of 4 GiB of memory. */
const uint64_t board_far = 0x800000000;

static const struct kelifandro_registers registers = {.context = (void *)CONTROLLER, MAPPED};

const struct kelifandro_registers *board_begin(void)
{
    WORD(SERIAL + SERIAL_CONTROL) = IS_ENABLED;
    return &registers;
}
