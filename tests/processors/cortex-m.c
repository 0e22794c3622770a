/* Where a program for a Cortex-M begins, on QEMU's MPS2 boards: with the C library's own input and output, by semihosting. */
#include <stdint.h>
#include <stdlib.h>
#include <string.h>

extern char bss_start[], bss_end[], stack_top[];
int main(int words, char **word);
void initialise_monitor_handles(void);

/* In the System Control Block. */
#define COPROCESSOR_ACCESS 0xe000ed88u
enum { FLOATING_POINT = 15 << 20 };

void reset(void)
{
    static char *none[] = {0};
#ifdef __ARM_FP
    *(volatile uint32_t *)COPROCESSOR_ACCESS |= FLOATING_POINT;
#endif
    memset(bss_start, 0, (size_t)(bss_end - bss_start));
    initialise_monitor_handles();
    exit(main(0, none));
}

/* The timer's interrupt, where the program has one. */
__attribute__((weak)) void tick(void)
{
}

__attribute__((section(".vectors"), used)) static void *const vectors[16] = {stack_top, (void *)reset, [15] = (void *)tick};

/* What the C library calls before and after main. */
void _init(void)
{
}

void _fini(void)
{
}
