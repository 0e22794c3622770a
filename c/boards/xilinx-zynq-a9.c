/* Xilinx Zynq-7000. Addresses are those of its Technical Reference Manual (UG585), appendix B. */
#include "board.h"

#define SERIAL 0xe0001000u     /* UART1, Cadence's */
#define CONTROLLER 0xe0100000u /* SD0, Arasan's. The boot firmware has set its pins */
#define SETTINGS 0xf8000000u   /* the system level control registers */
#define TIME 0xf8f00200u       /* the processor's global timer, at half its clock: 333 MHz at most */
enum {
    SERIAL_CONTROL = 0x00,
    IS_ENABLED = 0x14, /* receiver and transmitter */
    SERIAL_STATUS = 0x2c,
    IS_FULL = 1 << 4,
    SERIAL_DATA = 0x30,
    SETTINGS_UNLOCK = 0x008,
    UNLOCK = 0xdf0d,
    SDIO_CLOCK = 0x150,
    BY_20_OF_IO_PLL = 20 << 8 | 3, /* both controllers' clocks on */
    TIME_CONTROL = 0x08,
    TICKS = 334 /* a microsecond */
};

void board_put(char character)
{
    while (WORD(SERIAL + SERIAL_STATUS) & IS_FULL)
        ;
    WORD(SERIAL + SERIAL_DATA) = (uint8_t)character;
}

void board_pause(void *context, uint32_t microseconds)
{
    uint32_t begin = WORD(TIME);
    (void)context;
    while (WORD(TIME) - begin < TICKS * microseconds)
        ;
}

/* QEMU's timer goes by 100 MHz. */
uint64_t board_nanoseconds(void)
{
    return WORD(TIME) * 10ull;
}

/* Its Capabilities tell no base clock: it's the SDIO reference clock, a twentieth of the IO PLL's 1,250 MHz at most. A controller of
   version 2.00, as this one, can't tell more than 63 MHz. It has ADMA2 and SDMA. */
static const struct kelifandro_registers registers = {
    .context = (void *)CONTROLLER, MAPPED, .capabilities = 1u << 24 | 1u << 22 | 1u << 21 | 1u << 19 | 63u << 8};

const struct kelifandro_registers *board_begin(void)
{
    WORD(SERIAL + SERIAL_CONTROL) = IS_ENABLED;
    WORD(TIME + TIME_CONTROL) = 1;
    WORD(SETTINGS + SETTINGS_UNLOCK) = UNLOCK;
    WORD(SETTINGS + SDIO_CLOCK) = BY_20_OF_IO_PLL;
    return &registers;
}
