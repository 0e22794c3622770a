/* A PC, as QEMU's q35: a controller on PCI, the first serial line. */
#include "board.h"

enum { SERIAL = 0x3f8, SERIAL_STATUS = 0x3fd, IS_EMPTY = 0x20, PCI_ADDRESS = 0xcf8, PCI_DATA = 0xcfc, DELAY = 0x80 };
#define FREE_PLACE 0xfeb00000u /* for a controller that has no place in memory yet */

static uint8_t in8(uint16_t port)
{
    uint8_t value;
    __asm__ volatile("inb %1, %0" : "=a"(value) : "Nd"(port));
    return value;
}

static void out8(uint16_t port, uint8_t value)
{
    __asm__ volatile("outb %0, %1" : : "a"(value), "Nd"(port));
}

static uint32_t in32(uint16_t port)
{
    uint32_t value;
    __asm__ volatile("inl %1, %0" : "=a"(value) : "Nd"(port));
    return value;
}

static void out32(uint16_t port, uint32_t value)
{
    __asm__ volatile("outl %0, %1" : : "a"(value), "Nd"(port));
}

void board_put(char character)
{
    while (!(in8(SERIAL_STATUS) & IS_EMPTY))
        ;
    out8(SERIAL, (uint8_t)character);
}

/* A read of port 80h takes about a microsecond. */
void board_pause(void *context, uint32_t microseconds)
{
    (void)context;
    while (microseconds--)
        in8(DELAY);
}

static uint32_t pci_read(uint32_t device, uint32_t offset)
{
    out32(PCI_ADDRESS, 0x80000000u | device << 11 | offset);
    return in32(PCI_DATA);
}

static void pci_write(uint32_t device, uint32_t offset, uint32_t value)
{
    out32(PCI_ADDRESS, 0x80000000u | device << 11 | offset);
    out32(PCI_DATA, value);
}

static struct kelifandro_registers registers = {MAPPED};

/* The first SD host controller (class 08h, subclass 05h). */
const struct kelifandro_registers *board_begin(void)
{
    for (uint32_t device = 0; device < 32; device++) {
        if (pci_read(device, 0x08) >> 16 != 0x0805)
            continue;
        if ((pci_read(device, 0x10) & ~15u) == 0)
            pci_write(device, 0x10, FREE_PLACE);
        /* it is seen as memory, and reaches memory by itself */
        pci_write(device, 0x04, pci_read(device, 0x04) | 2 | 4);
        registers.context = (void *)(uintptr_t)(pci_read(device, 0x10) & ~15u);
        return &registers;
    }
    return 0;
}
