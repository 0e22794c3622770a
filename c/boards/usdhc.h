/* Freescale's uSDHC (i.MX 6 and later; not the older eSDHC), seen as an SD host controller by words. */
#ifndef USDHC_H
#define USDHC_H
#include "board.h"

struct usdhc {
    uintptr_t registers;
    uint32_t control, clock; /* 28h and 2Ch as they were written */
};

/* Their context is a struct usdhc. They take words alone: with them go is_by_words, is_there, unless the slot's switch is wired to the
   controller, and capabilities, in which the base clock is that of its root (USDHCn_CLK_ROOT). */
uint32_t usdhc_read(void *context, unsigned offset, unsigned size);
void usdhc_write(void *context, unsigned offset, unsigned size, uint32_t value);

#endif
