/* The registers of a uSDHC where they differ from those of an SD host controller ("i.MX 6UltraLite Applications Processor Reference
   Manual", chapter "Ultra Secured Digital Host Controller"; the standard's names are those of section 2.2). */
#include "usdhc.h"

enum {
    BLOCKS = 0x04,
    COMMAND = 0x0c,
    PRESENT_STATE = 0x24,
    IS_STABLE = 1 << 3,
    CONTROL = 0x28,
    CLOCK = 0x2c,
    STATUS = 0x30,
    STATUS_ENABLE = 0x34,
    WATERMARK = 0x44,
    MIXED_CONTROL = 0x48,
    VENDOR = 0xc0,
    IS_CLOCK_ON = 1 << 8,
    VERSION = 0xfc
};

/* DAT0 to DAT3 have their levels in bits 24 to 27, and in the standard's register in 20 to 23. */
static uint32_t present_state(uint32_t value)
{
    return (value & 0x000f0f07) | (value >> 24 & 15) << 20;
}

/* Bit 15 says in the standard's register that one of the errors is there. */
static uint32_t status(uint32_t value)
{
    return (value & 0x117f01ff) | (value & 0x117f0000 ? 1u << 15 : 0);
}

/* The clock is stable by a bit of Present State; what resets is still at work is in the same place. */
static uint32_t clock(const struct usdhc *usdhc)
{
    uint32_t is_stable = WORD(usdhc->registers + PRESENT_STATE) & IS_STABLE ? 2 : 0;
    return (usdhc->clock & 0xfffd) | (usdhc->clock & 1 ? is_stable : 0) | (WORD(usdhc->registers + CLOCK) & 0x07000000);
}

uint32_t usdhc_read(void *context, unsigned offset, unsigned size)
{
    const struct usdhc *usdhc = context;
    (void)size;
    switch (offset) {
    case PRESENT_STATE:
        return present_state(WORD(usdhc->registers + offset));
    case CONTROL:
        return usdhc->control;
    case CLOCK:
        return clock(usdhc);
    case STATUS:
        return status(WORD(usdhc->registers + offset));
    case VERSION: /* 3.00: the clock's divisor has ten bits */
        return 2 << 16;
    default:
        return WORD(usdhc->registers + offset);
    }
}

/* Lines are told in bits 2 and 1, words have their lowest byte first (bits 5 and 4); high speed and power have no bits. */
static void write_control(struct usdhc *usdhc, uint32_t value)
{
    uint32_t lines = value & 0x20 ? 2 : value & 2 ? 1 : 0;
    usdhc->control = value & 0xffff;
    WORD(usdhc->registers + CONTROL) = 2 << 4 | lines << 1;
}

/* The standard's divisor is twice a number of ten bits, or 1; here it is a power of two up to 256, and a number up to 16: their product is
   that or the next above it. Timeout and resets are in the same place; the lowest four bits are always set. */
static void write_clock(struct usdhc *usdhc, uint32_t value)
{
    uint32_t half = (value >> 8 & 0xff) | (value << 2 & 0x300), divisor = half ? 2 * half : 1, power = 1;
    uint32_t vendor = WORD(usdhc->registers + VENDOR) & ~(uint32_t)IS_CLOCK_ON;
    usdhc->clock = value & 0xffff;
    while ((divisor + power - 1) / power > 16)
        power *= 2;
    WORD(usdhc->registers + VENDOR) = vendor;
    WORD(usdhc->registers + CLOCK) = (value & 0x070f0000) | 1u << 23 | (power / 2) << 8 | ((divisor + power - 1) / power - 1) << 4 | 15;
    if (value & 4)
        WORD(usdhc->registers + VENDOR) = vendor | IS_CLOCK_ON;
}

/* The buffer is ready for a whole block. */
static void write_blocks(const struct usdhc *usdhc, uint32_t value)
{
    uint32_t words = (value & 0xfff) / 4;
    WORD(usdhc->registers + WATERMARK) = 0x10001000 | words << 16 | words;
    WORD(usdhc->registers + BLOCKS) = value;
}

/* The transfer mode has a register of its own. The command's word starts it. */
static void write_command(const struct usdhc *usdhc, uint32_t value)
{
    uint32_t others = WORD(usdhc->registers + MIXED_CONTROL) & ~0x37u;
    WORD(usdhc->registers + MIXED_CONTROL) = others | (value & 0x37);
    WORD(usdhc->registers + COMMAND) = value & 0xffff0000;
}

void usdhc_write(void *context, unsigned offset, unsigned size, uint32_t value)
{
    struct usdhc *usdhc = context;
    (void)size;
    switch (offset) {
    case BLOCKS:
        write_blocks(usdhc, value);
        break;
    case COMMAND:
        write_command(usdhc, value);
        break;
    case CONTROL:
        write_control(usdhc, value);
        break;
    case CLOCK:
        write_clock(usdhc, value);
        break;
    case STATUS:
    case STATUS_ENABLE:
        WORD(usdhc->registers + offset) = value & 0x117f01ff;
        break;
    default:
        WORD(usdhc->registers + offset) = value;
    }
}
