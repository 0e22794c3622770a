/* Reads 256 sectors in runs of 64, by DMA where the controller has it and through its port, and tells the nanoseconds of each on the
   board's own clock; and, by DMA, 16 MiB, and tells how many commands that took. Started by bench/boards, whose QEMU lets each
   instruction take one. */
#include "board.h"

enum { RUN = 64, RUNS = 4, MANY = 32768 };
static uint8_t blocks[MANY][512];
static unsigned long commands;

#ifdef __x86_64__
static uint64_t of_processor(void)
{
    uint32_t low, high;
    __asm__ volatile("rdtsc" : "=a"(low), "=d"(high));
    return (uint64_t)high << 32 | low;
}
#elif defined __riscv
enum { MEGAHERTZ = 10 }; /* of QEMU's virtual board */
static uint64_t of_processor(void)
{
    unsigned long count;
    __asm__ volatile("rdtime %0" : "=r"(count));
    return (uint64_t)count * (1000 / MEGAHERTZ);
}
#else
static uint64_t of_processor(void)
{
    uint64_t count, hertz;
#ifdef __aarch64__
    __asm__ volatile("mrs %0, cntfrq_el0" : "=r"(hertz));
    __asm__ volatile("isb\n\tmrs %0, cntpct_el0" : "=r"(count) : : "memory");
#else
    uint32_t low, high, frequency;
    __asm__ volatile("mrc p15, 0, %0, c14, c0, 0" : "=r"(frequency));
    __asm__ volatile("isb\n\tmrrc p15, 0, %0, %1, c14" : "=r"(low), "=r"(high) : : "memory");
    count = (uint64_t)high << 32 | low, hertz = frequency;
#endif
    return count * (1000000000 / hertz);
}
#endif

static uint64_t nanoseconds(void)
{
    return board_nanoseconds ? board_nanoseconds() : of_processor();
}

static void measure(const char *way, struct kelifandro *sd)
{
    uint64_t begin = nanoseconds();
    for (uint32_t run = 0; run < RUNS; run++)
        expect_done("read", kelifandro_read(sd, KELIFANDRO_USER, RUN * run, RUN, blocks));
    print(way);
    print_number((nanoseconds() - begin) / (RUN * RUNS));
    print("\n");
}

/* As the board does, whose commands it counts. */
static void write(void *context, unsigned offset, unsigned size, uint32_t value)
{
    commands += offset == 0x0c;
    mapped_write(context, offset, size, value);
}

static void count_commands(struct kelifandro *sd)
{
    static struct kelifandro_registers counted;
    const struct kelifandro_registers *registers = sd->registers;
    counted = *registers;
    counted.write = write;
    sd->registers = &counted;
    expect_done("long read", kelifandro_read_long(sd, KELIFANDRO_USER, 0, MANY, blocks, 0));
    sd->registers = registers;
    print("commands ");
    print_number(commands);
    print("\n");
}

void program(struct kelifandro *sd)
{
    static struct kelifandro_registers by_port;
    by_port = *sd->registers;
    by_port.lend = 0;
    measure("first ", sd);
    if (board_lendings > 0) {
        measure("dma ", sd);
        count_commands(sd);
    }
    sd->registers = &by_port;
    measure("port ", sd);
}
