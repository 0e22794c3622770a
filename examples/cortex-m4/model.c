/* The controller's registers over the card in memory (c/examples/card.c), in place of a board's, and the time: it passes by accesses, and as the
   card's clock has it. Every 300th answer of the card is lost. */
#include "card.h"
#include "model.h"
#include "sdio.h"

enum { EVERY = 300, WORKS = 300 /* microseconds, after a block */ };
static struct card card;
static uint32_t registers[0x40], status, response[4], response_index;
static uint64_t nanoseconds, busy_until;
static uint32_t hertz = 400000;
static unsigned lines = 1, block_length, left, held, taken, losses;
static uint8_t block[512];
static int is_reading, is_writing;

void model_begin(int loses)
{
    card_begin(&card, 0);
    losses = (unsigned)loses;
}

uint32_t timer_read(void)
{
    nanoseconds += 100;
    return (uint32_t)(nanoseconds / 1000);
}

static void pass(uint64_t clocks)
{
    nanoseconds += clocks * 1000000000 / hertz;
}

uint32_t port_read(void)
{
    nanoseconds += 100;
    if (nanoseconds < busy_until)
        return 0;
    while (card_host.is_busy(&card, 900000000))
        ;
    return DAT0;
}

static void lose_some(void)
{
    if (losses && card.answers % EVERY == EVERY - 1)
        card.lost = card.answers;
}

static void end_data(uint32_t flag)
{
    status |= flag;
    is_reading = is_writing = 0;
}

static void work(void)
{
    if (card.is_busy)
        busy_until = nanoseconds + WORKS * 1000u;
}

/* The next block comes into the FIFO, once what was in it is taken. */
static void receive(void)
{
    int what;
    if (!is_reading || taken < held || left == 0)
        return;
    lose_some();
    what = card_host.read_block(&card, block, block_length);
    if (what) {
        pass(what == 1 ? 8 * block_length / lines : registers[DTIMER / 4]);
        end_data(what == 1 ? DCRCFAIL : DTIMEOUT);
        return;
    }
    pass(8 * block_length / lines + 18);
    held = block_length;
    taken = 0;
}

/* A whole block is in the FIFO: it goes to the card, as soon as that isn't busy. */
static void transmit(void)
{
    int what;
    if (nanoseconds < busy_until)
        nanoseconds = busy_until;
    held = 0;
    lose_some();
    what = card_host.write_block(&card, block);
    pass(4096 / lines + 30);
    work();
    if (what)
        end_data(what == 1 ? DCRCFAIL : DTIMEOUT);
    else if ((left -= block_length) == 0)
        end_data(DATAEND);
}

static void send(uint32_t word)
{
    struct kelifandro_command command = {.index = word & 63, .argument = registers[ARG / 4]};
    int fault;
    lose_some();
    card.late = command.index == 13 && nanoseconds < busy_until;
    fault = card_host.send(&card, &command, response);
    response_index = command.index;
    pass(48 + ((word & LONG_RESPONSE) == 0 ? 0 : fault ? 64 : (word & LONG_RESPONSE) == LONG_RESPONSE ? 138 : 50));
    work();
    if ((word & LONG_RESPONSE) == 0) {
        status |= CMDSENT;
    } else if (fault) {
        status |= CTIMEOUT;
    } else if (command.index == 41) { /* an R3's bits where the index and the check of others are */
        status |= CCRCFAIL;
        response_index = 63;
    } else {
        status |= CMDREND;
    }
    if (fault)
        is_reading = 0;
}

static uint32_t pop(void)
{
    uint32_t word = 0;
    for (int i = 0; i < 4 && taken < held; i++, left--)
        word |= (uint32_t)block[taken++] << (8 * i);
    if (is_reading && left == 0)
        end_data(DATAEND);
    return word;
}

static void push(uint32_t word)
{
    if (!is_writing)
        return;
    for (int i = 0; i < 4; i++)
        block[held++] = (uint8_t)(word >> (8 * i));
    if (held == block_length)
        transmit();
}

uint32_t sdio_read(unsigned offset)
{
    nanoseconds += 100;
    switch (offset) {
    case STA:
        receive();
        return status | (taken < held && !is_writing ? RXDAVL : 0u);
    case FIFO:
        return pop();
    case DCOUNT:
        return left;
    case RESPCMD:
        return response_index;
    case RESP1:
    case RESP1 + 4:
    case RESP1 + 8:
    case RESP1 + 12:
        return response[(offset - RESP1) / 4];
    default:
        return registers[offset / 4];
    }
}

static void set_data(uint32_t value)
{
    block_length = 1u << (value >> 4 & 15);
    left = value & DTEN ? registers[DLEN / 4] : left;
    is_reading = (value & DTEN) && value & FROM_CARD;
    is_writing = (value & DTEN) && !(value & FROM_CARD);
    held = value & DTEN ? 0 : held;
    taken = value & DTEN ? 0 : taken;
}

static void set_clock(uint32_t value)
{
    lines = value & EIGHT_LINES ? 8 : value & FOUR_LINES ? 4 : 1;
    hertz = value & BYPASS ? KERNEL_HERTZ : KERNEL_HERTZ / ((value & 0xff) + 2);
    card_host.set_ios(&card, (int)lines, card.high_speed, hertz);
}

void sdio_write(unsigned offset, uint32_t value)
{
    nanoseconds += 100;
    if (offset < sizeof registers)
        registers[offset / 4] = value;
    if (offset == POWER && value != POWER_ON)
        card_host.send(&card, &(const struct kelifandro_command){.index = 0}, response);
    else if (offset == CLKCR)
        set_clock(value);
    else if (offset == CMD)
        send(value);
    else if (offset == DCTRL)
        set_data(value);
    else if (offset == ICR)
        status &= ~value;
    else if (offset == FIFO)
        push(value);
}
