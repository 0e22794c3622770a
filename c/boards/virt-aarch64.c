/* QEMU's virtual board for aarch64, with a controller on PCI Express. Addresses are those of its hw/arm/virt.c. */
#include "board.h"

enum { SERIAL = 0x09000000, SERIAL_DATA = 0x00, SERIAL_FLAGS = 0x18, IS_FULL = 1 << 5 }; /* a PL011 */
#define CONFIGURATION 0x4010000000u /* of PCI Express */
#define DEVICES 0x10000000u         /* what its devices are seen in */

void board_put(char character)
{
    while (WORD(SERIAL + SERIAL_FLAGS) & IS_FULL)
        ;
    WORD(SERIAL + SERIAL_DATA) = (uint8_t)character;
}

static struct kelifandro_registers registers = {MAPPED};

const struct kelifandro_registers *board_begin(void)
{
    registers.context = pci_controller(CONFIGURATION, DEVICES);
    return registers.context ? &registers : 0;
}
