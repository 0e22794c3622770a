/* Rules of registers (conform.c): each access is passed on and looked at, and the requests go by all ways that there are: by ADMA2, by SDMA,
   through the Buffer Data Port by a call a block, and through it by words, which comes first. What goes one way comes back by another. */
#include <stdio.h>
#include <string.h>
#include "conform.h"

/* Of the registers, of Capabilities and of Interrupt Status (SD Host Controller Simplified Specification 3.00, section 2.2). */
enum { PORT = 0x20, COMMAND = 0x0c, HOST_CONTROL = 0x28, POWER_CONTROL = 0x29, INTERRUPT_STATUS = 0x30, CAPABILITIES = 0x40 };
enum { HAS_ADMA2 = 1 << 19, HAS_SDMA = 1 << 22, COMMAND_COMPLETE = 1, ERROR_INTERRUPT = 1 << 15, ALL_SHOWN = 0x007f0033, MARK = 0x5c };

static const char GIVEN[] = "read, write and pause are given, and lend and take_back both or neither";
static const char BESIDE[] = "A write of one byte leaves the bytes beside it as they are";
static const char ANEW[] = "A register is read anew each time, from memory that isn't cached";
static const char ADDRESS[] = "lend answers a bus address that is a multiple of 4, or 0";
static const char TABLE[] = "The table of ADMA2 is at a bus address that is a multiple of 8, and within 32 bits where the memory is";
static const char KEPT[] = "lend and take_back change nothing in memory that a controller reads";
static const char CLEARED[] = "wait leaves the bits of Interrupt Status (30h) that are set";
static const char LENGTH[] = "read_port takes so many words as it is asked for, and no more";

enum way { BY_TABLE, BY_ADDRESS, BY_PORT, BY_WORDS, WAYS };
static const char *const ways[] = {"by ADMA2", "by SDMA", "through the Buffer Data Port, a call a block", "through the Buffer Data Port, by words"};

static const struct conform *own;
static const struct kelifandro_registers *registers;
static struct kelifandro_registers wrapped;
static unsigned long commands, looks, ends, asked_for, gave;
static uint32_t check_of_lent;
static uint64_t lent_at;

static uint32_t read(void *context, unsigned offset, unsigned size)
{
    uint32_t value = registers->read(context, offset, size);
    looks += offset == INTERRUPT_STATUS;
    ends += offset == INTERRUPT_STATUS && value & (COMMAND_COMPLETE | ERROR_INTERRUPT);
    return value;
}

/* Host Control 1 and Power Control are written by bytes, stay as they are, and lie in one word. */
static void write(void *context, unsigned offset, unsigned size, uint32_t value)
{
    int is_looked_at = size == 1 && (offset == HOST_CONTROL || offset == POWER_CONTROL);
    uint32_t beside = ~((uint32_t)0xff << 8 * (offset % 4)), before, after;
    before = is_looked_at ? registers->read(context, HOST_CONTROL, 4) & beside : 0;
    registers->write(context, offset, size, value);
    after = is_looked_at ? registers->read(context, HOST_CONTROL, 4) & beside : 0;
    conform_expect(before == after, BESIDE, "%02lx was written to %02xh, and the other bytes of the word at 28h are %08lx and not %08lx", (unsigned long)value,
                   offset, (unsigned long)after, (unsigned long)before);
    commands += offset == COMMAND;
}

static void pause_for(void *context, uint32_t microseconds)
{
    uint64_t from = conform_now();
    registers->pause(context, microseconds);
    conform_took("pause", microseconds, from, microseconds, 16 * (uint64_t)microseconds + 100000);
}

/* Once one of its bits is set a wait is over soon, and otherwise it lasts as long as it was told. */
static void wait_for(void *context, uint32_t interrupts, uint32_t microseconds)
{
    enum { SOON = 1000000 };
    uint32_t before = registers->read(context, INTERRUPT_STATUS, 4), after;
    uint64_t from = conform_now(), longest = 16 * (uint64_t)microseconds + 100000;
    registers->wait(context, interrupts, microseconds);
    after = registers->read(context, INTERRUPT_STATUS, 4);
    conform_expect(!(before & ~after), CLEARED, "%08lx before, and %08lx after it", (unsigned long)before, (unsigned long)after);
    conform_took("wait", microseconds, from, (before | after) & interrupts ? 0 : microseconds,
                 before & interrupts && longest > SOON ? SOON : longest);
}

/* A register goes through a block of its own, where it is seen how much of it is written to. */
static void read_port(void *context, void *bytes, size_t words)
{
    static uint8_t alone[512];
    size_t length = 4 * words, end = length;
    if (length >= sizeof alone) {
        registers->read_port(context, bytes, words);
        return;
    }
    memset(alone, MARK, sizeof alone);
    registers->read_port(context, alone, words);
    while (end < sizeof alone && alone[end] == MARK)
        end++;
    conform_expect(end == sizeof alone, LENGTH, "read_port of %lu words", (unsigned long)words);
    memcpy(bytes, alone, length);
}

/* A check over bytes (Fowler, Noll and Vo). */
static uint32_t check_of(const uint8_t *bytes, size_t n)
{
    uint32_t check = 2166136261u;
    for (size_t i = 0; i < n; i++)
        check = (check ^ bytes[i]) * 16777619u;
    return check;
}

static uint64_t lend(void *context, void *bytes, size_t n, int is_written)
{
    int is_table = bytes == registers->table;
    uint32_t before = check_of(bytes, n);
    uint64_t at = registers->lend(context, bytes, n, is_written);
    conform_expect(at % 4 == 0, ADDRESS, "%lu bytes at %08lx", (unsigned long)n, (unsigned long)at);
    conform_expect(!is_table || (at % 8 == 0 && (at >> 32 == 0 || lent_at >> 32)), TABLE, "%08lx%08lx, and the memory is at %08lx%08lx",
                   (unsigned long)(at >> 32), (unsigned long)(at & 0xffffffff), (unsigned long)(lent_at >> 32), (unsigned long)(lent_at & 0xffffffff));
    conform_expect(is_written || check_of(bytes, n) == before, KEPT, "lend of %lu bytes", (unsigned long)n);
    if (is_table)
        return at;
    lent_at = at;
    check_of_lent = before;
    asked_for++;
    gave += at != 0;
    return at;
}

static void take_back(void *context, void *bytes, size_t n, int is_written)
{
    registers->take_back(context, bytes, n, is_written);
    if (bytes != registers->table && !is_written)
        conform_expect(check_of(bytes, n) == check_of_lent, KEPT, "take_back of %lu bytes", (unsigned long)n);
}

int conform_wrap_registers(const struct conform *given, struct kelifandro *opened)
{
    int is_given;
    own = given;
    registers = own->registers;
    is_given = registers->read && registers->write && registers->pause && !registers->lend == !registers->take_back;
    conform_expect(is_given, GIVEN, "one of them is 0");
    wrapped = *registers;
    wrapped.read = read;
    wrapped.write = write;
    wrapped.pause = pause_for;
    wrapped.wait = registers->wait ? wait_for : 0;
    wrapped.take_back = registers->take_back ? take_back : 0;
    conform_take_registers_way(BY_WORDS);
    opened->registers = &wrapped;
    return is_given;
}

static uint32_t capabilities(void)
{
    return registers->capabilities ? registers->capabilities : registers->read(registers->context, CAPABILITIES, 4);
}

static int has_way(enum way way)
{
    switch (way) {
    case BY_TABLE:
        return registers->lend && registers->table_size && capabilities() & HAS_ADMA2;
    case BY_ADDRESS:
        return registers->lend && capabilities() & HAS_SDMA;
    case BY_PORT:
        return registers->read_port && registers->write_port;
    default:
        return 1;
    }
}

const char *conform_take_registers_way(unsigned number)
{
    enum way way = (enum way)(number % WAYS);
    while (!has_way(way))
        way = (enum way)((way + 1) % WAYS);
    wrapped.lend = way == BY_TABLE || way == BY_ADDRESS ? lend : 0;
    wrapped.read_port = way != BY_WORDS && registers->read_port ? read_port : 0;
    wrapped.write_port = way != BY_WORDS ? registers->write_port : 0;
    wrapped.capabilities = way == BY_ADDRESS ? capabilities() & ~(uint32_t)HAS_ADMA2 : registers->capabilities;
    return ways[way];
}

void conform_ask_registers(void)
{
    static const uint32_t waits[] = {1, 50, 1000, 20000, 64000};
    uint32_t set;
    for (size_t i = 0; i < sizeof waits / sizeof *waits; i++)
        wrapped.pause(wrapped.context, waits[i]);
    if (!registers->wait)
        return;
    /* for nothing that comes, and for what has come */
    set = registers->read(registers->context, INTERRUPT_STATUS, 4) & ALL_SHOWN;
    for (size_t i = 0; i < sizeof waits / sizeof *waits; i++)
        wrapped.wait(wrapped.context, ALL_SHOWN & ~set, waits[i]);
    if (set)
        wrapped.wait(wrapped.context, set, 3000000);
}

/* What goes through the Buffer Data Port in place of DMA is right too. */
void conform_tell_registers(void)
{
    printf("lend was asked for memory %lu times, and gave it %lu times\n", asked_for, gave);
}

/* What only all accesses together say. */
void conform_judge_registers(void)
{
    conform_expect(commands == 0 || ends > 0, ANEW, "%lu commands were sent, and Interrupt Status (30h), read %lu times, never showed that one has ended",
                   commands, looks);
}
