/* The hosts and registers of c/examples as they are, without a clock, for tests/conform/run: WHICH 0 to 2 of card.c, and 3 to 6 of
   controller.c. IS_EMMC is 1 for an eMMC device. */
#include "conform.h"
#include "controller.h"

static struct card card;
static struct controller controller;
static struct kelifandro_host host;
static struct kelifandro_registers registers;

struct conform conform_begin(void)
{
    static const struct kelifandro_host *const hosts[] = {&card_host, &whole_host, &transfer_host, &card_host, &card_host, &card_host, &card_host};
    static const struct kelifandro_registers *const all[] = {&controller_registers, &port_registers, &dma_registers, &board_registers};
    struct conform own = {.first = 0, .count = USER_SECTORS};
    int which = WHICH;
    card_begin(&card, IS_EMMC);
    host = *hosts[which];
    host.context = &card;
    if (which < 3) {
        own.host = &host;
        return own;
    }
    controller_begin(&controller, &host, which == 4);
    controller.is_bare = controller.has_no_switches = which == 6;
    controller.capabilities |= which == 5 ? 1u << 19 : 0;
    registers = *all[which - 3];
    registers.context = &controller;
    own.registers = &registers;
    return own;
}
