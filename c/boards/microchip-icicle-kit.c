/* Microchip PolarFire SoC Icicle Kit. Addresses are those of the "PolarFire SoC Register Map". */
#include "board.h"

enum {
    SERIAL = 0x20000000, /* MMUART0, a 16550, in words */
    SERIAL_STATUS = 0x14,
    IS_EMPTY = 1 << 5,
    CONTROLLER = 0x20008200, /* Cadence's: after 200h of registers of its own. The boot firmware has set clock and pins */
    TIME = 0x0200bff8,       /* mtime of the CLINT, 1 MHz */
};

void board_put(char character)
{
    while (!(WORD(SERIAL + SERIAL_STATUS) & IS_EMPTY))
        ;
    WORD(SERIAL) = (uint8_t)character;
}

/* One tick more, since the first one is begun already. */
void board_pause(void *context, uint32_t microseconds)
{
    uint32_t begin = WORD(TIME);
    (void)context;
    while (WORD(TIME) - begin <= microseconds)
        ;
}

uint64_t board_nanoseconds(void)
{
    return WORD(TIME) * 1000ull;
}

static const struct kelifandro_registers registers = {.context = (void *)CONTROLLER, MAPPED};

const struct kelifandro_registers *board_begin(void)
{
    return &registers;
}
