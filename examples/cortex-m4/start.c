/* Where the program begins on a Cortex-M4, in QEMU's MPS2 board (AN386), and how it tells something and ends there: by semihosting. */
#include "start.h"

extern uint32_t data_from[], data_start[], data_end[], bss_start[], bss_end[], stack_top[];
int main(void);

enum { WRITE0 = 0x04, EXIT = 0x18, STOPPED = 0x20026, ERROR = 0x20023 };

static void semihost(uint32_t operation, uintptr_t argument)
{
    register uint32_t r0 __asm__("r0") = operation;
    register uintptr_t r1 __asm__("r1") = argument;
    __asm__ volatile("bkpt 0xab" : "+r"(r0) : "r"(r1) : "memory");
}

void print(const char *text)
{
    semihost(WRITE0, (uintptr_t)text);
}

void print_number(uint32_t value)
{
    char digits[11];
    int i = 10;
    digits[i] = 0;
    do
        digits[--i] = (char)('0' + value % 10), value /= 10;
    while (value);
    print(digits + i);
}

static void end(int status)
{
    semihost(EXIT, status ? ERROR : STOPPED);
    for (;;)
        ;
}

static void fault(void)
{
    print("a fault of the processor\n");
    end(1);
}

void reset(void);
void reset(void)
{
    for (uint32_t *to = data_start, *from = data_from; to < data_end;)
        *to++ = *from++;
    for (uint32_t *to = bss_start; to < bss_end;)
        *to++ = 0;
    end(main());
}

/* Stack, reset, NMI, and the faults. */
__attribute__((section(".vectors"), used)) static const struct {
    uint32_t *stack;
    void (*at[15])(void);
} vectors = {stack_top, {reset, fault, fault, fault, fault, fault}};
