/* A host that keeps all rules, for tests/conform/run, over the card in memory: a controller that reads a block ahead, and time that passes as
   the card's clock and the card have it. IS_EMMC is 1 for an eMMC device; FORM 0 moves block by block, 1 by transfer alone, 2 both ways; LATE statuses
   lag; from the BAD-th operation on, where it isn't 0, every 101st loses its answer or damages it. Each file of wrong/ has an edit that breaks a rule. */
#include <string.h>
#include "card.h"
#include "conform.h"

#ifndef IS_EMMC
#define IS_EMMC 0
#endif
#ifndef FORM
#define FORM 0
#endif
#ifndef LATE
#define LATE 0
#endif
#ifndef BAD
#define BAD 0
#endif

enum { EMPTY = -1, NONE = 2, PRG = 7 };
static struct card card;
static uint64_t nanoseconds, busy_until;
static uint32_t hertz = 400000, last[4];
static int lines = 1, has_power = 1, in_buffer = EMPTY;
static uint8_t buffer[512];
static unsigned left, length;
static unsigned long operations, writes;
static const unsigned long bad_from = BAD;

static uint64_t now(void)
{
    nanoseconds += 100;
    return nanoseconds / 1000;
}

static void pass(uint64_t clocks)
{
    nanoseconds += clocks * 1000000000 / hertz;
}

static void wait_for(void *context, uint32_t microseconds)
{
    (void)context;
    nanoseconds += (uint64_t)microseconds * 1000;
}

static int is_low(void)
{
    return nanoseconds < busy_until;
}

/* The card may have begun to work. */
static void hold_low(uint32_t microseconds)
{
    if (card.is_busy)
        busy_until = nanoseconds + (uint64_t)microseconds * 1000;
}

static void fail_sometimes(void)
{
    if (bad_from > 0 && ++operations >= bad_from && operations % 101 == 0) {
        card.lost = card.answers;
        card.is_damaged = operations / 101 % 2;
    }
}

/* The next block comes into the buffer. */
static void read_ahead(void)
{
    if (left == 0 || in_buffer != EMPTY)
        return;
    fail_sometimes();
    in_buffer = card_host.read_block(&card, buffer, length);
    pass(8 * length / (unsigned)lines + 18);
    left--;
}

/* A card at work shows prg in its status. */
static int ask_card(const struct kelifandro_command *command, uint32_t words[4])
{
    int is_at_work = command->index == 13 && is_low();
    card.late = LATE + (unsigned)is_at_work;
    card.lagging += is_at_work && !card.lagging;
    card.before = is_at_work ? PRG : card.before;
    fail_sometimes();
    return has_power ? card_host.send(&card, command, words) : KELIFANDRO_TIMEOUT;
}

static int host_send(void *context, const struct kelifandro_command *command, uint32_t response[4])
{
    uint32_t words[4] = {0, 0, 0, 0};
    int fault;
    (void)context;
    in_buffer = EMPTY;
    left = 0;
    fault = ask_card(command, words);
    pass(48);
    if (command->response == KELIFANDRO_NO_RESPONSE)
        return 0;
    if (fault && command->response == KELIFANDRO_R3)
        fault = KELIFANDRO_TIMEOUT; /* it has no check that could be bad */
    pass(fault ? 64 : command->response == KELIFANDRO_R2 ? 138 : 50);
    if (fault)
        return fault;
    for (int i = 0; i < 4; i++)
        response[i] = words[i];
    memcpy(last, words, sizeof last);
    if (command->response == KELIFANDRO_R1B)
        hold_low(command->index == 38 ? 20000 : 200);
    length = command->block_length;
    left = command->data == KELIFANDRO_READ ? command->blocks : 0;
    read_ahead();
    return 0;
}

static int host_read_block(void *context, void *block, size_t n)
{
    int what = in_buffer;
    (void)context;
    in_buffer = EMPTY;
    if (what == EMPTY || what == NONE) {
        wait_for(0, 100000);
        return NONE;
    }
    memcpy(block, buffer, n);
    read_ahead();
    return what;
}

static int host_write_block(void *context, const void *block)
{
    int what;
    (void)context;
    if (is_low())
        return 2;
    fail_sometimes();
    what = card_host.write_block(&card, block);
    pass(4096 / (unsigned)lines + 30);
    hold_low(++writes % 3 ? 300 : 45000);
    return what;
}

static int host_is_busy(void *context, uint32_t microseconds)
{
    uint64_t end = nanoseconds + (uint64_t)microseconds * 1000;
    (void)context;
    if (busy_until > end) {
        nanoseconds = end;
        return 1;
    }
    nanoseconds = is_low() ? busy_until : nanoseconds;
    while (card_host.is_busy(&card, 900000000))
        ;
    return 0;
}

static int host_transfer(void *context, const struct kelifandro_command *command, uint32_t response[4], void *memory, size_t blocks,
                         struct kelifandro_moved *moved)
{
    uint8_t *at = memory;
    int fault = host_send(context, command, response), is_read = command->data == KELIFANDRO_READ;
    for (size_t i = 0; fault == 0 && i < blocks && !moved->failed; i++, at += command->block_length) {
        if (!is_read && i && host_is_busy(context, 512000))
            break;
        moved->failed = (uint8_t)(is_read ? host_read_block(context, at, command->block_length) : host_write_block(context, at));
        moved->good = (uint16_t)(moved->good + !moved->failed);
    }
    return fault;
}

static void host_set_ios(void *context, int now_lines, int high_speed, uint32_t now_hertz)
{
    (void)context;
    card_host.set_ios(&card, now_lines, high_speed, now_hertz);
    lines = now_lines;
    hertz = now_hertz;
}

static void host_set_power(void *context, int is_on)
{
    static const struct kelifandro_command reset = {.index = 0};
    uint32_t none[4];
    has_power = is_on;
    card_host.send(&card, &reset, none);
    host_set_ios(context, 1, 0, 400000);
    busy_until = 0;
    wait_for(context, 1500);
}

static int host_is_inserted(void *context)
{
    (void)context;
    return 1;
}

static int host_is_write_protected(void *context)
{
    (void)context;
    return 0;
}

static const struct kelifandro_host host = {
    .lines = 8,
    .high_speed = 1,
    .send = FORM == 1 ? 0 : host_send,
    .read_block = FORM == 1 ? 0 : host_read_block,
    .write_block = FORM == 1 ? 0 : host_write_block,
    .is_busy = host_is_busy,
    .set_ios = host_set_ios,
    .pause = wait_for,
    .transfer = FORM == 0 ? 0 : host_transfer,
    .set_power = host_set_power,
    .is_inserted = host_is_inserted,
    .is_write_protected = host_is_write_protected,
};

struct conform conform_begin(void)
{
    struct conform own = {.host = &host, .first = 100, .count = 160, .now = now};
    card_begin(&card, IS_EMMC);
    return own;
}
