/* Time by the Generic Timer of Arm's processors, ARMv7-A with it (Cortex-A7, A15) and ARMv8-A: whoever starts the board has set its
   frequency. */
#include "board.h"

#ifdef __aarch64__
static uint32_t frequency(void)
{
    uint64_t hertz;
    __asm__ volatile("mrs %0, cntfrq_el0" : "=r"(hertz));
    return (uint32_t)hertz;
}

static uint32_t counter(void)
{
    uint64_t count;
    __asm__ volatile("isb\n\tmrs %0, cntpct_el0" : "=r"(count) : : "memory");
    return (uint32_t)count;
}
#else
static uint32_t frequency(void)
{
    uint32_t hertz;
    __asm__ volatile("mrc p15, 0, %0, c14, c0, 0" : "=r"(hertz));
    return hertz;
}

static uint32_t counter(void)
{
    uint32_t low, high;
    __asm__ volatile("isb\n\tmrrc p15, 0, %0, %1, c14" : "=r"(low), "=r"(high) : : "memory");
    return low;
}
#endif

void board_pause(void *context, uint32_t microseconds)
{
    uint32_t ticks = microseconds * (frequency() / 1000000 + 1), begin = counter();
    (void)context;
    while (counter() - begin < ticks)
        ;
}
