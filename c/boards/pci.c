/* PCI Express (PCI Express Base Specification, section 7.2.2): each device of bus 0 has 32 KiB of configuration space, one after the
   other. */
#include "board.h"

enum { COMMAND = 0x04, IS_SEEN_AS_MEMORY = 2, IS_MASTER = 4, CLASS = 0x08, SD_HOST_CONTROLLER = 0x0805, PLACE = 0x10 };

void *pci_controller(uintptr_t space, uint32_t place)
{
    for (uintptr_t device = space; device < space + (32 << 15); device += 1 << 15) {
        if (WORD(device + CLASS) >> 16 != SD_HOST_CONTROLLER)
            continue;
        WORD(device + PLACE) = place;
        WORD(device + COMMAND) |= IS_SEEN_AS_MEMORY | IS_MASTER;
        return (void *)(uintptr_t)place;
    }
    return 0;
}
