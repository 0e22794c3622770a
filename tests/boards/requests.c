/* Makes random requests of a card: reads, writes and erases of 1 to 64 sectors, each from sector 2 on. Where the controller has DMA one of
   four goes without, one by SDMA, and one, where the board has such memory, beyond 32 bits. How many, and by which seed, stands in sector
   0, where tests/boards/run has written it. The same numbers come to that script, which knows from them what the card has to hold, and
   what was read. */
#include "board.h"

enum { LONGEST = 64 };
/* So aligned that SDMA needn't stop in it. */
static uint8_t near[LONGEST][512] __attribute__((aligned(0x8000)));
static uint8_t (*blocks)[512] = near;
static uint32_t state, check = 0xffffffff;

/* A random number: xorshift (Marsaglia). */
static uint32_t next(void)
{
    state ^= state << 13;
    state ^= state >> 17;
    state ^= state << 5;
    return state;
}

static uint32_t word(const uint8_t *bytes)
{
    return bytes[0] | (uint32_t)bytes[1] << 8 | (uint32_t)bytes[2] << 16 | (uint32_t)bytes[3] << 24;
}

/* Each word of a sector is the one before it and 9E3779B9h. */
static void fill(uint8_t *block, uint32_t first)
{
    for (int i = 0; i < 512; i++)
        block[i] = (uint8_t)((first + (uint32_t)(i / 4) * 0x9e3779b9u) >> (8 * (i % 4)));
}

/* A CRC-32 over all that was read, as zlib has it. */
static void take(const uint8_t *bytes, uint32_t n)
{
    for (uint32_t i = 0; i < n; i++) {
        check ^= bytes[i];
        for (int bit = 0; bit < 8; bit++)
            check = check >> 1 ^ (0xedb88320u & (0u - (check & 1)));
    }
}

static void read_sectors(struct kelifandro *sd, uint32_t start, uint32_t count)
{
    expect_done("read", kelifandro_read(sd, KELIFANDRO_USER, start, count, blocks));
    take(blocks[0], 512 * count);
}

static void write_sectors(struct kelifandro *sd, uint32_t start, uint32_t count)
{
    for (uint32_t i = 0; i < count; i++)
        fill(blocks[i], next());
    expect_done("write", kelifandro_write(sd, KELIFANDRO_USER, start, count, blocks));
}

/* Whole units: those that begin in these sectors, where there is one and it ends in the card. */
static void erase_units(struct kelifandro *sd, uint32_t start, uint32_t count, uint32_t size)
{
    uint32_t unit = (uint32_t)sd->card.erase_unit, first = (start + unit - 1) / unit, last = (start + count + unit - 1) / unit;
    if (first < last && last * unit <= size)
        expect_done("erase", kelifandro_erase(sd, KELIFANDRO_USER, first * unit, (last - first) * unit));
}

static void request(struct kelifandro *sd, uint32_t size)
{
    uint32_t kind = next() % 8, count = 1 + next() % LONGEST, start = 2 + next() % (size - count - 1);
    if (kind < 3)
        read_sectors(sd, start, count);
    else if (kind < 7)
        write_sectors(sd, start, count);
    else
        erase_units(sd, start, count, size);
}

enum way { BY_TABLE, BY_PORT, BY_ADDRESS, BEYOND_32_BITS, WAYS };

/* The registers by which this request goes, and where its memory is. */
static const struct kelifandro_registers *go_by(enum way way, const struct kelifandro_registers *registers)
{
    static struct kelifandro_registers others;
    uint32_t capabilities = registers->capabilities ? registers->capabilities : registers->read(registers->context, 0x40, 4);
    others = *registers;
    blocks = way == BEYOND_32_BITS && board_far ? (uint8_t (*)[512])(uintptr_t)board_far : near;
    if (way == BY_PORT)
        others.lend = 0;
    if (way == BY_ADDRESS)
        others.capabilities = capabilities & ~(1u << 19);
    return &others;
}

void program(struct kelifandro *sd)
{
    const struct kelifandro_registers *registers = sd->registers;
    unsigned long lent[WAYS] = {0};
    uint32_t count;
    expect_done("read", kelifandro_read(sd, KELIFANDRO_USER, 0, 1, blocks));
    count = word(blocks[0]);
    state = word(blocks[0] + 4);
    for (uint32_t i = 0; i < count; i++) {
        unsigned long before = board_lendings;
        sd->registers = go_by((enum way)(i % WAYS), registers);
        request(sd, (uint32_t)kelifandro_sectors(sd, KELIFANDRO_USER));
        lent[i % WAYS] += board_lendings > before;
    }
    print("unit ");
    print_number(sd->card.erase_unit);
    print(" erased ");
    print_number(sd->card.erased_byte);
    print(" lines ");
    print_number(sd->card.lines);
    print(" lent ");
    print_number(lent[BY_TABLE] + (board_far ? 0 : lent[BEYOND_32_BITS]));
    print(" single ");
    print_number(lent[BY_ADDRESS]);
    print(" far ");
    print_number(board_far ? lent[BEYOND_32_BITS] : 0);
    print(" check ");
    print_number(~check);
    print("\n");
}
