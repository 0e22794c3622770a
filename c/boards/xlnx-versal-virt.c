/* Xilinx Versal, as QEMU's virtual board has it. Addresses are those of the Technical Reference Manual (AM011), "Memory". */
#include "board.h"

#define SERIAL 0xff000000u /* UART0, a PL011; the boot firmware has set its speed */
#define CONTROLLER 0xf1040000u /* SD0, Arasan's */
enum { SERIAL_DATA = 0x00, SERIAL_FLAGS = 0x18, IS_FULL = 1 << 5 };

void board_put(char character)
{
    while (WORD(SERIAL + SERIAL_FLAGS) & IS_FULL)
        ;
    WORD(SERIAL + SERIAL_DATA) = (uint8_t)character;
}

static const struct kelifandro_registers registers = {.context = (void *)CONTROLLER, MAPPED};

const struct kelifandro_registers *board_begin(void)
{
    return &registers;
}
