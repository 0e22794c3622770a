/* Freescale's i.MX 6UltraLite Evaluation Kit. Addresses are those of the "i.MX 6UltraLite Applications Processor Reference Manual",
   chapter 2. The boot firmware has set clocks and pins, and started the system counter. */
#include "usdhc.h"

enum {
    SERIAL = 0x02020000, /* UART1 */
    SERIAL_DATA = 0x40,
    SERIAL_CONTROL = 0x80,
    IS_ENABLED = 1,
    SERIAL_DIRECTIONS = 0x84,
    TRANSMITS = 5, /* out of reset, and the transmitter on */
    SERIAL_STATUS = 0x98,
    IS_SENT = 1 << 3,
    CONTROLLER = 0x02190000 /* uSDHC1: the base board's slot */
};

void board_put(char character)
{
    WORD(SERIAL + SERIAL_DATA) = (uint8_t)character;
    while (!(WORD(SERIAL + SERIAL_STATUS) & IS_SENT))
        ;
}

static struct usdhc usdhc = {.registers = CONTROLLER};

/* USDHC1_CLK_ROOT is 198 MHz; eight lines aren't wired. */
static const struct kelifandro_registers registers = {
    .context = &usdhc,
    .read = usdhc_read,
    .write = usdhc_write,
    .pause = board_pause,
    .is_there = 1,
    .is_by_words = 1,
    .capabilities = 1u << 24 | 1u << 21 | 198u << 8,
};

const struct kelifandro_registers *board_begin(void)
{
    WORD(SERIAL + SERIAL_CONTROL) |= IS_ENABLED;
    WORD(SERIAL + SERIAL_DIRECTIONS) |= TRANSMITS;
    return &registers;
}
