/* Registers that keep all rules, for tests/conform/run, over the controller and the card in memory. Time passes by accesses and pauses. What
   is lent goes through memory that the controller reaches; the processor's own is brought there and back. IS_EMMC is 1 for an eMMC device;
   WAYS is Capabilities' bits 19 (ADMA2), 22 (SDMA) and 28 (64-bit addresses); WAITS is 1 where it waits for interrupts. Each file of wrong/ that says so has an edit that breaks a rule. */
#include <string.h>
#include "conform.h"
#include "controller.h"

#ifndef IS_EMMC
#define IS_EMMC 0
#endif
#ifndef WAYS
#define WAYS (1u << 19 | 1u << 22)
#endif

#ifndef WAITS
#define WAITS 0
#endif

static struct card card;
static struct kelifandro_host host;
static struct controller controller;
static uint8_t reached[64 * 512];
static uint64_t microseconds;
static const uint32_t ways = WAYS;

static uint64_t now(void)
{
    return microseconds;
}

static uint32_t read_register(void *context, unsigned offset, unsigned size)
{
    microseconds++;
    if (offset == 0x28 && size == 4)
        return controller.control | (uint32_t)controller.power << 8;
    return controller_registers.read(context, offset, size);
}

static void write_register(void *context, unsigned offset, unsigned size, uint32_t value)
{
    microseconds++;
    controller_registers.write(context, offset, size, value);
}

static void wait_for(void *context, uint32_t asked)
{
    (void)context;
    microseconds += asked;
}

static void wait_for_interrupt(void *context, uint32_t interrupts, uint32_t asked)
{
    uint64_t end = microseconds + asked;
    while (!(controller_registers.read(context, 0x30, 4) & interrupts) && microseconds < end)
        microseconds++;
}

static void read_words(void *context, void *bytes, size_t words)
{
    port_registers.read_port(context, bytes, words);
}

static void write_words(void *context, const void *bytes, size_t words)
{
    port_registers.write_port(context, bytes, words);
}

static int is_table(const void *bytes)
{
    return bytes == dma_registers.table;
}

static uint64_t lend(void *context, void *bytes, size_t n, int is_written)
{
    uint64_t at;
    if (!is_table(bytes) && n > sizeof reached)
        return 0;
    if (!is_table(bytes))
        memcpy(reached, bytes, n);
    at = dma_registers.lend(context, is_table(bytes) ? bytes : reached, n, is_written);
    return at;
}

static void take_back(void *context, void *bytes, size_t n, int is_written)
{
    dma_registers.take_back(context, is_table(bytes) ? bytes : reached, n, is_written);
    if (!is_table(bytes) && is_written)
        memcpy(bytes, reached, n);
}

struct conform conform_begin(void)
{
    static struct kelifandro_registers registers;
    struct conform own = {.registers = &registers, .first = 100, .count = 160, .now = now};
    registers = dma_registers;
    registers.context = &controller;
    registers.read = read_register;
    registers.write = write_register;
    registers.pause = wait_for;
    registers.wait = WAITS ? wait_for_interrupt : 0;
    registers.read_port = read_words;
    registers.write_port = write_words;
    registers.lend = lend;
    registers.take_back = take_back;
    card_begin(&card, IS_EMMC);
    host = card_host;
    host.context = &card;
    controller_begin(&controller, &host, 1);
    controller.capabilities |= ways;
    if (ways & 1u << 28)
        controller.lent_at = 0x1010000000, controller.table_at = 0x2020000000;
    return own;
}
