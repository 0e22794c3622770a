/* The driver of a controller like STM32F4's SDIO, begun from c/examples/port.c: `transfer` has all commands and all blocks, by PIO. It holds one
   controller, so what it keeps is in variables. */
#include "sdio.h"

enum { DONE = 0, BAD = 1, NONE = 2 };
/* Errors that a card status tells of its own command, with which no block comes or is taken. Bits 23 and 22 are of a command before (SD
   Physical Layer 6.00, section 4.10.1). */
static const uint32_t ERRORS = 0xfd39a000;
static uint32_t hertz_now = 400000;

static int is_over(uint32_t from, uint32_t microseconds)
{
    return timer_read() - from >= microseconds;
}

static void wait_for(void *context, uint32_t microseconds)
{
    uint32_t from = timer_read();
    (void)context;
    while (!is_over(from, microseconds))
        ;
}

/* Ends what is under way: the data path is off, the FIFO empty, and no flag is left. Each command begins so, since data of an earlier one may
   have been given up. */
static void drop_data(void)
{
    sdio_write(DCTRL, 0);
    for (int i = 0; i < FIFO_WORDS && sdio_read(STA) & RXDAVL; i++)
        sdio_read(FIFO);
    sdio_write(ICR, ALL_STATIC);
}

/* The data timer counts the card's clocks: so many milliseconds of them. */
static void begin_data(const struct kelifandro_command *command, size_t blocks, uint32_t milliseconds)
{
    uint32_t length_as_power = command->block_length == 512 ? 9 : command->block_length == 64 ? 6 : 3;
    sdio_write(DTIMER, hertz_now / 1000 * milliseconds);
    sdio_write(DLEN, (uint32_t)blocks * command->block_length);
    sdio_write(DCTRL, DTEN | (command->data == KELIFANDRO_READ ? FROM_CARD : 0) | length_as_power << 4);
}

/* The controller waits for 64 clocks; 10 ms are more than a command takes at 400 kHz. An R3 has neither check nor index: the controller calls
   its check wrong, and it was heard. */
static int command_and_response(const struct kelifandro_command *command, uint32_t response[4])
{
    const uint32_t ends = CCRCFAIL | CTIMEOUT | CMDREND | CMDSENT;
    uint32_t from = timer_read(), status, kind = command->response;
    sdio_write(ARG, command->argument);
    sdio_write(CMD, command->index | CPSMEN
                        | (kind == KELIFANDRO_R2 ? LONG_RESPONSE : kind == KELIFANDRO_NO_RESPONSE ? 0u : (uint32_t)SHORT_RESPONSE));
    do
        status = sdio_read(STA) & ends;
    while (!status && !is_over(from, 10000));
    sdio_write(ICR, ends);
    if (kind == KELIFANDRO_NO_RESPONSE)
        return 0;
    if (!(status & (CMDREND | CCRCFAIL)))
        return KELIFANDRO_TIMEOUT;
    if (status & CCRCFAIL && kind != KELIFANDRO_R3)
        return KELIFANDRO_BAD_CHECK;
    if (kind != KELIFANDRO_R2 && kind != KELIFANDRO_R3 && sdio_read(RESPCMD) != command->index)
        return KELIFANDRO_OTHER_INDEX;
    for (unsigned i = 0; i < 4; i++)
        response[i] = sdio_read(RESP1 + 4 * i);
    return 0;
}

static uint8_t failure_in(uint32_t status)
{
    return status & (DCRCFAIL | STBITERR | RXOVERR | TXUNDERR) ? BAD : status & DTIMEOUT ? NONE : DONE;
}

/* The last block is good once the controller has said that the data has ended. Where a word neither comes nor goes for a second, though the
   data timer is shorter, the controller has stopped. */
static uint8_t receive(uint8_t *to, size_t n)
{
    size_t at = 0;
    uint32_t moved_at = timer_read();
    while (!is_over(moved_at, 1000000)) {
        uint32_t status = sdio_read(STA);
        if (failure_in(status))
            return failure_in(status);
        if (at == n && status & DATAEND)
            return DONE;
        if (at < n && status & RXDAVL) {
            uint32_t word = sdio_read(FIFO);
            for (int i = 0; i < 4; i++)
                to[at++] = (uint8_t)(word >> (8 * i));
            moved_at = timer_read();
        }
    }
    return NONE;
}

static uint8_t transmit(const uint8_t *from, size_t n)
{
    size_t at = 0;
    uint32_t moved_at = timer_read();
    while (!is_over(moved_at, 1000000)) {
        uint32_t status = sdio_read(STA);
        if (failure_in(status))
            return failure_in(status);
        if (at == n && status & DATAEND)
            return DONE;
        if (at < n && !(status & TXFIFOF)) {
            sdio_write(FIFO, from[at] | (uint32_t)from[at + 1] << 8 | (uint32_t)from[at + 2] << 16 | (uint32_t)from[at + 3] << 24);
            at += 4;
            moved_at = timer_read();
        }
    }
    return NONE;
}

/* There is no flag for it: the level of the pin says it. */
static int is_low(void)
{
    return !(port_read() & DAT0);
}

/* What it moves by one call ends all together: where a block failed nobody asks how many were good before it. A card that is busy between
   two blocks for longer than the data timer runs hasn't failed one: it is asked again (is_busy). */
static void move(const struct kelifandro_command *command, void *memory, size_t blocks, struct kelifandro_moved *moved)
{
    size_t n = blocks * command->block_length;
    moved->failed = command->data == KELIFANDRO_READ ? receive(memory, n) : transmit(memory, n);
    moved->good = (uint16_t)(moved->failed ? (n - sdio_read(DCOUNT)) / command->block_length : blocks);
    if (moved->failed == NONE && command->data == KELIFANDRO_WRITE && is_low())
        moved->failed = DONE;
}

/* The data path is ready for a read before the command, since the first block may follow at once, and for a write after the response. After
   one that shows an error no block comes: without a look at it the library would hear of that after the data timer's time. */
static int sdio_transfer(void *context, const struct kelifandro_command *command, uint32_t response[4], void *memory, size_t blocks,
                         struct kelifandro_moved *moved)
{
    int is_read = command->data == KELIFANDRO_READ, fault;
    (void)context;
    drop_data();
    if (blocks && is_read)
        begin_data(command, blocks, 100);
    fault = command_and_response(command, response);
    if (fault == 0 && blocks && !(response[0] & ERRORS)) {
        if (!is_read)
            begin_data(command, blocks, 512);
        move(command, memory, blocks, moved);
    }
    drop_data();
    return fault;
}

/* Fifteen minutes are less than the timer's 2^32 microseconds. */
static int sdio_is_busy(void *context, uint32_t microseconds)
{
    uint32_t from = timer_read();
    (void)context;
    while (is_low())
        if (is_over(from, microseconds))
            return 1;
    return 0;
}

/* The divisor is the least by which the clock isn't faster than it may be. The clock's timing is the same at high speed. */
static void sdio_set_ios(void *context, int lines, int high_speed, uint32_t hertz)
{
    uint32_t divisor = (KERNEL_HERTZ + hertz - 1) / hertz;
    (void)context, (void)high_speed;
    hertz_now = hertz;
    sdio_write(CLKCR, CLKEN | (lines == 8 ? EIGHT_LINES : lines == 4 ? FOUR_LINES : 0u) | (divisor < 2 ? (uint32_t)BYPASS : divisor - 2));
}

/* 74 clocks at 400 kHz take 185 microseconds, and a millisecond is to pass (SD Physical Layer 6.00, section 6.4.1). */
static void sdio_set_power(void *context, int is_on)
{
    sdio_write(POWER, is_on ? POWER_ON : 0);
    if (is_on)
        sdio_set_ios(context, 1, 0, 400000);
    wait_for(context, 2000);
}

const struct kelifandro_host sdio_host = {
    .lines = 4,
    .high_speed = 1,
    .transfer = sdio_transfer,
    .is_busy = sdio_is_busy,
    .set_ios = sdio_set_ios,
    .pause = wait_for,
    .set_power = sdio_set_power,
};
