/* Faults that go on and on: each command, with the data and the busy time after it, meets a fault of a kind by chance. An SD card and an
   eMMC device in memory (c/examples/card.c) are opened, written, read back, erased or trimmed, and closed, by a host and by registers, and
   each call is judged by what the card holds. tests/faults/run makes a table of what is printed: a line for each kind and chance, with
   the kind, the chance in thousands, how many runs there were, how many opened the card, how many calls these made, how many were right,
   how many said good and weren't, and how many ended with each result, `open` before that of an opening.

       faults SEEDS [ATTEMPTS]    so many runs for each kind, chance, card and way, with so many attempts at a request; as the library
                                  has them where nothing is said

   The faults are those of the card relation (docs/STANDARD.md, "Faults"), by the kinds of tests/u-boot/faults.c. */
#include <stdio.h>
#include <stdlib.h>
#include <string.h>
#include "controller.h"

enum fault {
    COMMAND_LOST,        /* the card doesn't see it */
    RESPONSE_LOST,       /* the card carries it out, and no data moves */
    RESPONSE_BAD,        /* the same, told as a wrong check */
    DONE_BUT_TIMEOUT,    /* all is done, data too, as far as the way has it by then; a timeout is told */
    DONE_BUT_BAD,        /* all is done, data too; the last block is told as bad */
    BLOCK_BAD,           /* a block is damaged, or rejected */
    BLOCK_MISSING,       /* a block doesn't come; of one that is written the card sees it or not */
    NOT_PROGRAMMED,      /* from a block of a write on none is stored: an error in the next status */
    NOT_PROGRAMMED_LOST, /* the same, and the response with that status is lost */
    RESET,               /* the card loses its state before the command, as by CMD0 */
    RESET_WITHIN_DATA,   /* the same at a block */
    BUSY,                /* DAT0 is low to the end of each look, until the next command */
    LEFT_OVER,           /* COM_CRC_ERROR and ILLEGAL_COMMAND of an earlier command in the response */
    FAULTS,
    ANY = FAULTS /* any of these */
};
static const char *const names[] = {"command lost",
                                    "response lost",
                                    "response with a wrong check",
                                    "all done, a timeout told",
                                    "all done, a wrong check of the data told",
                                    "block damaged or rejected",
                                    "no block comes",
                                    "write not programmed, an error in the next status",
                                    "the same, and that status is lost",
                                    "card reset",
                                    "card reset in the middle of data",
                                    "busy to the end of the wait",
                                    "error bits left over",
                                    "any of these"};
enum way { BY_BLOCKS, BY_TRANSFERS, BY_PORT, BY_DMA, WAYS };
static const unsigned per_thousand[] = {10, 30, 100, 200};
enum { CHANCES = sizeof per_thousand / sizeof *per_thousand };

/* As c/examples/card.c has them. */
enum { TRAN = 4, DATA = 5 };
static const uint32_t UNTIL_STOPPED = 0xffffffffu;
/* SD Physical Layer 6.00, sections 4.10.1 and 4.9.5 */
enum { ERROR = 1 << 19, LEFT_OVER_ERRORS = 3 << 22, LEFT_OVER_IN_R6 = 3 << 14 };

static struct card card;
static struct controller controller;
static struct kelifandro_host host, faulty;
static struct kelifandro_registers registers;
static struct kelifandro sd;
static uint16_t attempts;

/* Which faults fall, and what has fallen at the command that is carried out. */
static struct {
    int is_on;
    enum fault kind;
    unsigned chance;
    enum way way;
    uint64_t random;
    int has_fallen;   /* at this command, in its data or its busy time */
    enum fault fault; /* and which */
    size_t at, block; /* at this block of its data; how many have come */
    int is_status_lost; /* the next response with a status is lost */
    uint8_t *memory;    /* of the data, where the way has it at the command */
} plan;

static uint32_t draw(void)
{
    plan.random = plan.random * 6364136223846793005u + 1442695040888963407u;
    return (uint32_t)(plan.random >> 33);
}

static int is_write(const struct kelifandro_command *command)
{
    return command->index == 24 || command->index == 25;
}

static int has_status(const struct kelifandro_command *command)
{
    return command->response == KELIFANDRO_R1 || command->response == KELIFANDRO_R1B || command->response == KELIFANDRO_R6;
}

/* Whether this fault can fall at this command. */
static int can_fall(enum fault fault, const struct kelifandro_command *command)
{
    switch (fault) {
    case RESPONSE_LOST:
    case RESPONSE_BAD:
    case DONE_BUT_TIMEOUT:
        return command->response != KELIFANDRO_NO_RESPONSE;
    case DONE_BUT_BAD:
    case BLOCK_BAD:
    case BLOCK_MISSING:
    case RESET_WITHIN_DATA:
        return command->data != KELIFANDRO_NO_DATA;
    case NOT_PROGRAMMED:
    case NOT_PROGRAMMED_LOST:
        return is_write(command);
    case BUSY:
        return is_write(command) || command->response == KELIFANDRO_R1B;
    case LEFT_OVER:
        return has_status(command);
    default:
        return 1;
    }
}

static int falls(const struct kelifandro_command *command)
{
    plan.fault = plan.kind == ANY ? (enum fault)(draw() % FAULTS) : plan.kind;
    return plan.is_on && can_fall(plan.fault, command) && draw() % 1000 < plan.chance;
}

/* The card loses its state, and doesn't ask how fast its clock is. */
static void reset(void)
{
    const struct kelifandro_command go_idle = {0};
    uint32_t hertz = card.hertz, response[4];
    card.hertz = 400000;
    card_host.send(&card, &go_idle, response);
    card.hertz = hertz;
}

/* A card doesn't wait for its host: it may have sent all blocks that are counted, though nobody took them. */
static void pass_time(void)
{
    if (card.state != DATA || card.left == UNTIL_STOPPED || draw() % 2)
        return;
    card.state = TRAN;
    card.high_speed = card.register_length ? card.speed_after : card.high_speed;
}

/* The data after a command that the card has carried out, as far as memory for it is there. */
static void move_all(const struct kelifandro_command *command)
{
    static uint8_t unused[512];
    uint8_t *at = plan.memory;
    for (size_t i = 0; i < command->blocks && command->data != KELIFANDRO_NO_DATA; i++, at += at ? 512 : 0) {
        if (command->data == KELIFANDRO_READ)
            card_host.read_block(&card, unused, command->block_length);
        else if (at)
            card_host.write_block(&card, at);
    }
}

static void leave_errors(const struct kelifandro_command *command, uint32_t response[4])
{
    response[0] |= command->response == KELIFANDRO_R6 ? LEFT_OVER_IN_R6 : LEFT_OVER_ERRORS;
}

static int send_with_fault(const struct kelifandro_command *command, uint32_t response[4])
{
    uint32_t unheard[4];
    int fault;
    switch (plan.fault) {
    case COMMAND_LOST:
        return command->response == KELIFANDRO_NO_RESPONSE ? 0 : KELIFANDRO_TIMEOUT;
    case RESPONSE_LOST:
        card_host.send(&card, command, unheard);
        return KELIFANDRO_TIMEOUT;
    case RESPONSE_BAD:
        return card_host.send(&card, command, unheard) ? KELIFANDRO_TIMEOUT : KELIFANDRO_BAD_CHECK;
    case DONE_BUT_TIMEOUT:
        if (card_host.send(&card, command, unheard) == 0)
            move_all(command);
        return KELIFANDRO_TIMEOUT;
    case RESET:
        reset();
        return card_host.send(&card, command, response);
    case LEFT_OVER:
        fault = card_host.send(&card, command, response);
        if (fault == 0)
            leave_errors(command, response);
        return fault;
    default: /* in its data, or in its busy time */
        plan.has_fallen = 1;
        plan.at = command->blocks ? plan.fault == DONE_BUT_BAD ? command->blocks - 1u : draw() % command->blocks : 0;
        return card_host.send(&card, command, response);
    }
}

static int send(void *context, const struct kelifandro_command *command, uint32_t response[4])
{
    uint32_t unheard[4];
    (void)context;
    plan.has_fallen = 0;
    plan.block = 0;
    plan.memory = plan.way == BY_DMA && command->data != KELIFANDRO_NO_DATA ? controller.lent : plan.memory;
    pass_time();
    if (plan.is_status_lost && has_status(command)) {
        plan.is_status_lost = 0;
        card_host.send(&card, command, unheard);
        return KELIFANDRO_TIMEOUT;
    }
    return falls(command) ? send_with_fault(command, response) : card_host.send(&card, command, response);
}

/* Whether the fault is to fall at this block. */
static int falls_now(void)
{
    size_t n = plan.block++;
    return plan.has_fallen && (plan.fault == NOT_PROGRAMMED || plan.fault == NOT_PROGRAMMED_LOST ? n >= plan.at : n == plan.at);
}

static int read_block(void *context, void *block, size_t length)
{
    static uint8_t unused[512];
    int what;
    (void)context;
    if (!falls_now())
        return card_host.read_block(&card, block, length);
    switch (plan.fault) {
    case BLOCK_MISSING:
        if (draw() % 2)
            card_host.read_block(&card, unused, length);
        return 2;
    case RESET_WITHIN_DATA:
        reset();
        return 2;
    case BLOCK_BAD:
    case DONE_BUT_BAD:
        what = card_host.read_block(&card, block, length);
        ((uint8_t *)block)[5] ^= plan.fault == BLOCK_BAD ? 0x10 : 0;
        return what ? what : 1;
    default:
        return card_host.read_block(&card, block, length);
    }
}

static uint8_t *sector_at(unsigned part, uint32_t sector)
{
    return part ? card.boot[part - 1][sector] : card.user[sector % USER_SECTORS];
}

/* The block is accepted, and isn't stored. */
static int accept_alone(const void *block)
{
    uint8_t was[512], *sector = sector_at(card.part, card.next);
    memcpy(was, sector, sizeof was);
    int what = card_host.write_block(&card, block);
    if (what)
        return what;
    memcpy(sector, was, sizeof was);
    card.errors |= ERROR;
    plan.is_status_lost = plan.fault == NOT_PROGRAMMED_LOST;
    return 0;
}

static int write_block(void *context, const void *block)
{
    int what;
    (void)context;
    if (!falls_now())
        return card_host.write_block(&card, block);
    switch (plan.fault) {
    case BLOCK_BAD:
        card_reject(&card);
        return 1;
    case BLOCK_MISSING:
        if (draw() % 2)
            card_host.write_block(&card, block);
        return 2;
    case DONE_BUT_BAD: /* a status with a wrong check: registers tell of data that was bad, a host of a status that didn't come */
        what = card_host.write_block(&card, block);
        return what ? what : plan.way == BY_PORT || plan.way == BY_DMA ? 1 : 2;
    case NOT_PROGRAMMED:
    case NOT_PROGRAMMED_LOST:
        return accept_alone(block);
    case RESET_WITHIN_DATA:
        reset();
        return 2;
    default:
        return card_host.write_block(&card, block);
    }
}

/* Whether DAT0 is held low since this command, or since a block of it. */
static int is_held(void)
{
    return plan.has_fallen && plan.fault == BUSY && (plan.block == 0 || plan.block > plan.at);
}

static int is_busy(void *context, uint32_t microseconds)
{
    (void)context;
    return is_held() ? 1 : card_host.is_busy(&card, microseconds);
}

/* All blocks by one call; between two that are written the card may be busy for too long. */
static int transfer(void *context, const struct kelifandro_command *command, uint32_t response[4], void *memory, size_t blocks,
                    struct kelifandro_moved *moved)
{
    uint8_t *at = memory;
    plan.memory = blocks ? memory : 0;
    int fault = send(context, command, response);
    plan.memory = 0;
    for (size_t i = 0; fault == 0 && i < blocks; i++, at += 512) {
        int is_read = command->data == KELIFANDRO_READ;
        int what = is_read ? read_block(context, at, command->block_length) : write_block(context, at);
        if (what) {
            moved->failed = (uint8_t)what;
            break;
        }
        moved->good++;
        if (!is_read && is_held())
            break;
    }
    return fault;
}

static void set_ios(void *context, int lines, int high_speed, uint32_t hertz)
{
    (void)context;
    card_host.set_ios(&card, lines, high_speed, hertz);
}

static void pause_for(void *context, uint32_t microseconds)
{
    (void)context, (void)microseconds;
}

static void begin(int is_emmc, enum way way)
{
    card_begin(&card, is_emmc);
    faulty = (struct kelifandro_host){.lines = 8, .high_speed = 1, .send = send, .read_block = read_block, .write_block = write_block,
                                      .is_busy = is_busy, .set_ios = set_ios, .pause = pause_for};
    host = faulty;
    host.transfer = way == BY_TRANSFERS ? transfer : 0;
    controller_begin(&controller, &faulty, 0);
    registers = way == BY_DMA ? dma_registers : controller_registers;
    registers.context = &controller;
    controller.capabilities |= way == BY_DMA ? 1u << 19 : 0;
    memset(&sd, 0, sizeof sd);
    sd.attempts = attempts;
    if (way == BY_PORT || way == BY_DMA)
        sd.registers = &registers;
    else
        sd.host = &host;
}

/* What the card has to hold. */
static uint8_t held[3][USER_SECTORS][512];
static uint8_t data[16 * 512], back[16 * 512];

enum call { WRITE, READ, ERASE };
struct request {
    enum call call;
    unsigned part; /* 0 user, 2 the second boot partition */
    uint32_t start, count;
};
static const struct request requests[] = {
    {WRITE, 0, 7, 1}, {READ, 0, 7, 1},   {WRITE, 0, 20, 8}, {READ, 0, 20, 8}, {WRITE, 0, 40, 16},
    {READ, 0, 40, 16}, {ERASE, 0, 44, 4}, {READ, 0, 40, 16}, {WRITE, 2, 3, 2}, {READ, 2, 3, 2},
};
enum { REQUESTS = sizeof requests / sizeof *requests };

/* What came of the runs of a kind and a chance. */
enum { RESULTS = 40 };
static struct {
    unsigned long runs, opened, calls, right, wrong, failed[RESULTS], unopened[RESULTS];
} told, *const now = &told;


static int32_t make(const struct request *request)
{
    enum kelifandro_part part = request->part ? KELIFANDRO_BOOT2 : KELIFANDRO_USER;
    switch (request->call) {
    case WRITE:
        return kelifandro_write(&sd, part, request->start, request->count, data);
    case READ:
        return kelifandro_read(&sd, part, request->start, request->count, back);
    default:
        return card.is_emmc ? kelifandro_trim(&sd, part, request->start, request->count)
                            : kelifandro_erase(&sd, part, request->start, request->count);
    }
}

/* Whether the card holds what it may: what it held, and of the sectors that were named what is new, where it was done that alone. */
static int is_held_right(const struct request *request, int is_done)
{
    static const uint8_t erased[512];
    for (uint32_t i = 0; i < request->count && request->call != READ; i++) {
        uint8_t *was = held[request->part][request->start + i], *is = sector_at(request->part, request->start + i);
        const uint8_t *new = request->call == WRITE ? data + 512 * i : erased;
        if (memcmp(is, new, 512) == 0)
            memcpy(was, new, 512);
        else if (is_done)
            return 0;
    }
    return memcmp(held[0], card.user, sizeof card.user) == 0 && memcmp(held[1], card.boot[0], sizeof card.boot[0]) == 0
           && memcmp(held[2], card.boot[1], sizeof card.boot[1]) == 0;
}

static void ask(const struct request *request)
{
    for (size_t i = 0; i < sizeof data; i++)
        data[i] = (uint8_t)draw(), back[i] = 0x77;
    int32_t result = make(request);
    int is_done = result == KELIFANDRO_DONE, is_right = is_held_right(request, is_done);
    if (is_done && request->call == READ)
        is_right = is_right && memcmp(back, held[request->part][request->start], 512 * request->count) == 0;
    now->calls++;
    if (!is_right)
        now->wrong++;
    else if (is_done)
        now->right++;
    else
        now->failed[-result]++;
}

static void begin_faults(int is_emmc, enum way way, enum fault kind, unsigned chance, uint64_t seed)
{
    memset(&plan, 0, sizeof plan);
    plan.kind = kind, plan.chance = chance, plan.way = way, plan.is_on = 1;
    plan.random = ((seed * 64 + kind) * 1024 + chance) * 16 + (unsigned)way * 2 + (unsigned)is_emmc;
    for (int i = 0; i < 4; i++)
        plan.random = (plan.random ^ plan.random >> 29) * 0x9e3779b97f4a7c15u;
}

/* Once no fault falls any more the card is opened at once, and holds what it held. */
static void end_faults(void)
{
    static const struct request none = {READ, 0, 0, 0};
    plan.is_on = plan.has_fallen = plan.is_status_lost = 0;
    if (kelifandro_open(&sd) != KELIFANDRO_DONE || !is_held_right(&none, 0) || controller.misuses)
        now->wrong++;
    kelifandro_close(&sd);
}

static void run(int is_emmc, enum way way, enum fault kind, unsigned chance, uint64_t seed)
{
    begin(is_emmc, way);
    memset(held, 0, sizeof held);
    begin_faults(is_emmc, way, kind, chance, seed);
    now->runs++;
    int32_t result = kelifandro_open(&sd);
    if (result == KELIFANDRO_DONE)
        now->opened++;
    else
        now->unopened[-result]++;
    for (size_t i = 0; result == KELIFANDRO_DONE && i < REQUESTS; i++)
        if (is_emmc || requests[i].part == 0)
            ask(&requests[i]);
    end_faults();
}

static void print(enum fault kind, unsigned chance)
{
    printf("%s: %u %lu %lu %lu %lu %lu", names[kind], chance, now->runs, now->opened, now->calls, now->right, now->wrong);
    for (int i = 0; i < RESULTS; i++) {
        if (now->unopened[i])
            printf(" open:%d:%lu", -i, now->unopened[i]);
        if (now->failed[i])
            printf(" %d:%lu", -i, now->failed[i]);
    }
    printf("\n");
    fflush(stdout);
}

static void run_all(enum fault kind, unsigned chance, uint64_t seeds)
{
    memset(now, 0, sizeof *now);
    for (uint64_t seed = 0; seed < seeds; seed++)
        for (int way = 0; way < WAYS; way++)
            for (int is_emmc = 0; is_emmc < 2; is_emmc++)
                run(is_emmc, (enum way)way, kind, chance, seed);
    print(kind, chance);
}

int main(int argc, char **argv)
{
    uint64_t seeds = argc > 1 ? strtoul(argv[1], 0, 10) : 5;
    attempts = argc > 2 ? (uint16_t)strtoul(argv[2], 0, 10) : 0;
    for (int kind = 0; kind <= ANY; kind++)
        for (int chance = 0; chance < CHANCES; chance++)
            run_all((enum fault)kind, per_thousand[chance], seeds);
    return 0;
}
