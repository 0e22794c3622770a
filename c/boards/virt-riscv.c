/* QEMU's virtual board for RISC-V of 64 or 32 bits, with a controller on PCI Express. Addresses are those of its hw/riscv/virt.c. */
#include "board.h"

enum {
    SERIAL = 0x10000000, /* a 16550, in bytes */
    SERIAL_STATUS = 5,
    IS_EMPTY = 1 << 5,
    TIME = 0x0200bff8, /* mtime of the CLINT, 10 MHz */
    TICKS = 10,        /* a microsecond */
    CONFIGURATION = 0x30000000, /* of PCI Express */
    DEVICES = 0x40000000        /* what its devices are seen in */
};

void board_put(char character)
{
    while (!(BYTE(SERIAL + SERIAL_STATUS) & IS_EMPTY))
        ;
    BYTE(SERIAL) = (uint8_t)character;
}

void board_pause(void *context, uint32_t microseconds)
{
    uint32_t begin = WORD(TIME);
    (void)context;
    while (WORD(TIME) - begin < TICKS * microseconds)
        ;
}

static struct kelifandro_registers registers = {MAPPED};

const struct kelifandro_registers *board_begin(void)
{
    registers.context = pci_controller(CONFIGURATION, DEVICES);
    return registers.context ? &registers : 0;
}
