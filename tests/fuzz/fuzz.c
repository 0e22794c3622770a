/* Calls of the library as a fuzzer's bytes say, over a card in memory whose answers are lost or garbled as other bytes say.

   Its first bytes say the card, the way to it, the host's limits, whether host or controller answer anything at all, and how many
   calls there are, twelve at most; the next ones say the calls. The last bytes, from the end on, are a plan of faults: how many
   exchanges pass before the next one, and of what kind it is.

   It stops where a call answers no result that has a name; a refused one was told to the host or changed anything; one that is right is
   refused; one that is done hasn't exactly its effect; one that failed did so by fewer than four faults, or left a sector neither old
   nor new, or changed another one; or memory was touched that isn't the request's. */
#define _DEFAULT_SOURCE
#include <stdio.h>
#include <stdlib.h>
#include <string.h>
#include <sys/mman.h>
#include "../../c/examples/controller.h"

enum { CALLS = 12, PAGE = 4096, ROOM = 1024 * 1024, FAULTS_OF_A_FAILURE = 4, ROUNDS_OF_AN_OPENING = 24 };
enum way { BY_HOST, BY_TRANSFERS, BY_TRANSFERS_ALONE, BY_REGISTERS, BY_ONE_BLOCK, BY_PORT, BY_WORDS, BY_DMA };

static const uint8_t *input;
static size_t input_left;
static struct card card, before;
static struct controller controller;
static struct kelifandro_host host;
static struct kelifandro_registers registers;
static struct kelifandro *sd;
static uint8_t *guarded, *copy;
static int is_hostile, is_open, is_wild, most_moved, is_blind;
static unsigned long faults, exchanges_to_fault, register_writes;
static uint32_t random_state;

static void check(int is_so, const char *what, int32_t result)
{
    if (is_so)
        return;
    fprintf(stderr, "wrong: %s (%s)\n", what, kelifandro_text(result));
    abort();
}

static uint8_t next_byte(void)
{
    if (!input_left)
        return 0;
    input_left--;
    return *input++;
}

static uint32_t any(void)
{
    random_state = random_state * 1664525u + 1013904223u;
    return random_state >> 8 ^ random_state << 16;
}

/* Room that ends where no access is allowed. */
static uint8_t *with_guard(size_t room)
{
    uint8_t *at = mmap(0, room + 2 * PAGE, PROT_READ | PROT_WRITE, MAP_PRIVATE | MAP_ANONYMOUS, -1, 0);
    if (at == MAP_FAILED || mprotect(at, PAGE, PROT_NONE) || mprotect(at + PAGE + room, PAGE, PROT_NONE))
        exit(2);
    return at + PAGE;
}

static uint8_t last_byte(void)
{
    return input_left ? input[--input_left] : 255;
}

/* The plan of faults. A gap of 255 is the last. */
static void plan_next(void)
{
    uint8_t gap = last_byte();
    exchanges_to_fault = gap == 255 ? ~0ul : gap % 48;
}

/* The kind of the fault that falls on this exchange, 0 for none. */
static int fault_now(void)
{
    if (exchanges_to_fault == ~0ul || exchanges_to_fault-- > 0)
        return 0;
    int kind = 1 + last_byte();
    plan_next();
    faults++;
    return kind;
}

static int send(void *context, const struct kelifandro_command *command, uint32_t response[4])
{
    static const int why[] = {KELIFANDRO_TIMEOUT, KELIFANDRO_BAD_CHECK, KELIFANDRO_BAD_END_BIT, KELIFANDRO_OTHER_INDEX, 5, 256, 512, -1};
    if (is_hostile) {
        for (int i = 0; i < 4; i++)
            response[i] = any();
        return any() % 4 ? 0 : why[any() % 8];
    }
    int kind = fault_now();
    if (kind % 2) {
        response[0] = 0x900; /* as a card in tran would show */
        return why[kind / 2 % 8];
    }
    int fault = card_host.send(context, command, response);
    return kind ? why[kind / 2 % 8] : fault;
}

static void garble(uint8_t *bytes, size_t n)
{
    for (size_t i = 0; i < n; i++)
        bytes[i] = (uint8_t)any();
}

static int read_block(void *context, void *block, size_t length)
{
    if (is_hostile) {
        garble(block, length);
        return (int)(any() % 4);
    }
    int kind = fault_now();
    int got = card_host.read_block(context, block, length);
    if (!kind)
        return got;
    garble(block, length);
    return got ? got : 1 + kind % 2;
}

static int write_block(void *context, const void *block)
{
    if (is_hostile)
        return (int)(any() % 4);
    int kind = fault_now();
    if (kind % 2) {
        card_reject(context);
        return 1 + kind / 2 % 2;
    }
    int got = card_host.write_block(context, block);
    return kind ? 2 : got;
}

static int is_busy(void *context, uint32_t microseconds)
{
    if (is_hostile)
        return any() % 8 == 0;
    return fault_now() || card_host.is_busy(context, microseconds);
}

static void set_ios(void *context, int lines, int high_speed, uint32_t hertz)
{
    card_host.set_ios(context, lines, high_speed, hertz);
}

static void pause(void *context, uint32_t microseconds)
{
    (void)context, (void)microseconds;
}

/* Moves some blocks, and where one failed tells what it likes of those before it, or leaves anything in memory. */
static int transfer(void *context, const struct kelifandro_command *command, uint32_t response[4], void *memory, size_t blocks,
                    struct kelifandro_moved *moved)
{
    uint8_t *at = memory;
    size_t most = most_moved && (size_t)most_moved < blocks ? (size_t)most_moved : blocks;
    int fault = send(context, command, response);
    if (fault)
        return fault;
    for (size_t i = 0; i < most && !moved->failed; i++, at += 512) {
        int got = command->data == KELIFANDRO_READ ? read_block(context, at, command->block_length) : write_block(context, at);
        moved->failed = (uint8_t)got;
        moved->good += !got;
    }
    if (moved->failed && is_blind) {
        moved->good = (uint16_t)any();
        if (command->data == KELIFANDRO_READ)
            garble(memory, most * command->block_length);
    }
    return 0;
}

static uint32_t read_register(void *context, unsigned offset, unsigned size)
{
    if (is_hostile)
        return any();
    return controller_registers.read(context, offset, size);
}

static void write_register(void *context, unsigned offset, unsigned size, uint32_t value)
{
    register_writes++;
    controller_registers.write(context, offset, size, value);
}

static uint64_t lend_anywhere(void *context, void *bytes, size_t n, int is_written)
{
    (void)context, (void)bytes, (void)n, (void)is_written;
    return any() | (uint64_t)(any() % 4) << 32;
}

/* ADMA2 within 32 bits, SDMA, ADMA2 beyond 32 bits, or SDMA with memory that it would stop in. */
static void begin_dma(unsigned kind)
{
    static const uint32_t ways[] = {1u << 19, 1u << 22, 1u << 19 | 1u << 28, 1u << 22};
    static const uint64_t places[] = {0x10000000, 0x10000000, 0x1010000000, 0x1007fe00};
    controller.capabilities |= ways[kind];
    controller.lent_at = places[kind];
}

static void begin(void)
{
    int is_emmc = next_byte() % 2;
    uint8_t by = next_byte();
    /* seven ways by the bytes that were found before there was DMA, and that by the highest eleven */
    enum way way = by >= 35 * BY_DMA ? BY_DMA : by % BY_DMA;
    uint8_t limits = next_byte();
    uint8_t manners = next_byte();
    static const uint8_t lines[] = {8, 4, 1};
    is_hostile = manners % 8 == 7;
    is_blind = manners / 8 % 2;
    most_moved = way == BY_TRANSFERS ? manners / 16 : 0;
    random_state = limits * 256u + manners;
    card_begin(&card, is_emmc);
    host = (struct kelifandro_host){.context = &card, .lines = lines[limits % 3], .high_speed = limits / 4 % 2, .is_busy = is_busy,
                                    .set_ios = set_ios, .pause = pause};
    if (way != BY_TRANSFERS_ALONE)
        host.send = send, host.read_block = read_block, host.write_block = write_block;
    if (way == BY_TRANSFERS || way == BY_TRANSFERS_ALONE)
        host.transfer = transfer;
    controller_begin(&controller, &host, way == BY_ONE_BLOCK || way == BY_PORT);
    controller.is_bare = controller.has_no_switches = way == BY_WORDS;
    registers = way == BY_PORT ? port_registers : way == BY_WORDS ? board_registers : way == BY_DMA ? dma_registers : controller_registers;
    if (way == BY_DMA)
        begin_dma(limits / 8 % 4);
    if (way == BY_DMA && is_hostile)
        registers.lend = lend_anywhere;
    registers.read = read_register, registers.write = write_register, registers.context = &controller;
    memset(sd, 0, sizeof *sd);
    if (way >= BY_REGISTERS)
        sd->registers = &registers;
    else
        sd->host = &host;
    is_open = is_wild = 0;
    before = card;
    faults = 0;
}

struct call {
    enum { OPEN, READ, WRITE, ERASE, TRIM, READ_LONG, WRITE_LONG, JUNK, KINDS } kind;
    unsigned part;
    uint64_t start;
    size_t count;
};

static struct call next_call(void)
{
    static const unsigned parts[] = {0, 0, 0, 0, 1, 2, 3, 7, 256, 258, 65536};
    struct call call = {.kind = next_byte() % KINDS};
    uint8_t shape = next_byte();
    call.part = parts[next_byte() % 11];
    call.start = next_byte() * 4u + next_byte() % 8;
    call.count = next_byte();
    call.count = call.count < 64 ? 1 : call.count % 32 + 1;
    if (shape % 8 == 1)
        call.start += (uint64_t)next_byte() << (shape / 8);
    else if (shape % 8 == 2)
        call.count = (size_t)next_byte() << (shape / 8);
    else if (shape % 8 == 3)
        call.count = shape / 8;
    else if (shape % 4 == 0 && (call.kind == READ_LONG || call.kind == WRITE_LONG))
        call.count += 630; /* around the most of one request by DMA */
    return call;
}

static int is_moving(struct call call)
{
    return call.kind == READ || call.kind == WRITE || call.kind == READ_LONG || call.kind == WRITE_LONG;
}

static int is_writing(struct call call)
{
    return call.kind == WRITE || call.kind == WRITE_LONG;
}

static uint64_t size_of(unsigned part)
{
    return part == 0 ? USER_SECTORS : card.is_emmc && part <= 2 ? BOOT_SECTORS : 0;
}

/* Whether the card has to be asked; -1 where that isn't judged here. */
static int is_right(struct call call)
{
    uint64_t size = size_of(call.part);
    uint64_t most = call.kind == READ || call.kind == WRITE ? 65535 : size;
    if (!is_open || call.count == 0 || call.count > most || call.start > size || call.count > size - call.start)
        return 0;
    if (call.kind == TRIM)
        return !card.is_emmc ? 0 : call.part == 0 ? 1 : -1;
    return call.kind == ERASE && card.is_emmc ? -1 : 1;
}

static uint8_t *sector(struct card *of, unsigned part, uint64_t n)
{
    return part == 0 ? of->user[n] : of->boot[part - 1][n];
}

static int are_same(unsigned part, uint64_t from, uint64_t to)
{
    return from >= to || memcmp(sector(&card, part, from), sector(&before, part, from), 512 * (to - from)) == 0;
}

/* Whether a sector of this request is as it was, or as it is to be, where it may be so. What it is now is what it was then. */
static int is_old_or_new(struct call call, uint64_t n, int may_be_old, int may_be_new)
{
    static const uint8_t zeros[512];
    uint8_t *now = sector(&card, call.part, n), *old = sector(&before, call.part, n);
    const uint8_t *wanted = is_writing(call) ? copy + 512 * (n - call.start) : zeros;
    int is_so = (may_be_old && memcmp(now, old, 512) == 0) || (may_be_new && memcmp(now, wanted, 512) == 0);
    memcpy(old, now, 512);
    return is_so;
}

/* The same of all sectors of this request, which lie in their partition; and whether all others are as they were. */
static int are_old_or_new(struct call call, int may_be_old, int may_be_new)
{
    uint64_t end = call.start + call.count;
    for (unsigned part = 0; part < 3; part++) {
        uint64_t size = part ? BOOT_SECTORS : USER_SECTORS;
        if (part == call.part ? !are_same(part, 0, call.start) || !are_same(part, end, size) : !are_same(part, 0, size))
            return 0;
    }
    for (uint64_t n = call.start; n < end; n++)
        if (!is_old_or_new(call, n, may_be_old, may_be_new))
            return 0;
    return 1;
}

static int is_unchanged(void)
{
    return are_same(0, 0, USER_SECTORS) && are_same(1, 0, BOOT_SECTORS) && are_same(2, 0, BOOT_SECTORS);
}

static int32_t make(struct call call, uint8_t *bytes)
{
    enum kelifandro_part part = (enum kelifandro_part)call.part;
    switch (call.kind) {
    case OPEN:
        return kelifandro_open(sd);
    case READ:
        return kelifandro_read(sd, part, call.start, call.count, bytes);
    case WRITE:
        return kelifandro_write(sd, part, call.start, call.count, bytes);
    case ERASE:
        return kelifandro_erase(sd, part, call.start, call.count);
    case TRIM:
        return kelifandro_trim(sd, part, call.start, call.count);
    case READ_LONG:
        return kelifandro_read_long(sd, part, call.start, call.count, bytes, 0);
    default:
        return kelifandro_write_long(sd, part, call.start, call.count, bytes, 0);
    }
}

static int is_refusal(int32_t result)
{
    return result < KELIFANDRO_DONE && result >= KELIFANDRO_NO_HOST;
}

static int has_failed(int32_t result)
{
    return result <= KELIFANDRO_FAILED_ANSWER && result >= KELIFANDRO_FAILED_RECOVERY;
}

static uint64_t failures_in(const struct kelifandro_healed *healed)
{
    return healed->by_answer + healed->by_data + healed->by_status + healed->by_busy + healed->by_recovery;
}

/* What a call adds to the counts: an attempt by which it is done, or four that failed; each failure but the last is settled. A long
   one makes a request for each 640 sectors by DMA, for which there are lines of a table. */
static void judge_counts(struct call call, int32_t result, const struct kelifandro_healed *then)
{
    uint64_t failures = failures_in(&sd->healed) - failures_in(then), attempts = sd->healed.attempts - then->attempts;
    uint64_t settlings = sd->healed.settlings - then->settlings;
    int is_done = result == KELIFANDRO_DONE;
    if (is_refusal(result)) {
        check(memcmp(&sd->healed, then, sizeof *then) == 0, "what is refused isn't counted", result);
        return;
    }
    check(call.count > 640 || attempts - failures == (uint64_t)is_done, "attempts that were counted", result);
    check(is_done || failures >= 4, "failures that were counted", result);
    check(settlings + !is_done >= failures && settlings <= failures + 1, "settlings that were counted", result);
    check(sd->healed.resets - then->resets <= settlings, "resets that were counted", result);
}

static void judge_effect(struct call call, int32_t result, const uint8_t *bytes)
{
    int is_changing = !(call.kind == READ || call.kind == READ_LONG);
    if (result == KELIFANDRO_DONE) {
        check(are_old_or_new(call, !is_changing, is_changing), "what is done has its effect", result);
        for (size_t i = 0; !is_changing && i < call.count; i++)
            check(memcmp(bytes + 512 * i, sector(&before, call.part, call.start + i), 512) == 0, "what is read", result);
    } else {
        check(are_old_or_new(call, 1, is_changing), "what failed is old or new", result);
    }
    check(result == KELIFANDRO_DONE || has_failed(result), "what is right isn't refused", result);
}

static void request(struct call call)
{
    /* what is refused gets room for a single sector: the library mustn't touch more */
    size_t room = is_moving(call) && call.count * 512 <= ROOM && call.count < ROOM ? call.count * 512 : 512;
    uint8_t *bytes = call.count == 0 ? 0 : guarded + ROOM - room;
    unsigned long faults_then = faults, answers = card.answers, told = card.told, writes = register_writes;
    struct kelifandro_healed healed_then = sd->healed;
    int right = is_right(call);
    /* what a record of any kind, or a hostile card, says of its size may be more than there is room for */
    if ((is_hostile || is_wild) && is_moving(call) && call.count > ROOM / 512)
        return;
    if (bytes && is_writing(call))
        garble(bytes, room);
    if (bytes && is_writing(call))
        memcpy(copy, bytes, room);
    int32_t result = make(call, bytes);
    check(strcmp(kelifandro_text(result), "no such result") != 0, "it has a name", result);
    if (is_hostile || is_wild)
        return;
    check(controller.misuses == 0, "what the registers allow", result);
    judge_counts(call, result, &healed_then);
    if (is_refusal(result)) {
        check(right != 1, "what is right isn't refused", result);
        check(card.answers == answers && card.told == told && register_writes == writes, "what is refused isn't told", result);
        check(is_unchanged(), "what is refused changes nothing", result);
        return;
    }
    check(right != 0, "what is wrong is refused", result);
    check(!has_failed(result) || faults - faults_then >= FAULTS_OF_A_FAILURE, "it takes four faults to fail", result);
    judge_effect(call, result, bytes);
}

static void open_card(void)
{
    unsigned long faults_then = faults;
    int32_t result = kelifandro_open(sd);
    check(strcmp(kelifandro_text(result), "no such result") != 0, "it has a name", result);
    is_open = result == KELIFANDRO_DONE;
    check(is_open || kelifandro_sectors(sd, KELIFANDRO_USER) == 0, "a card that isn't open has no sectors", result);
    if (is_hostile)
        return;
    if (is_wild)
        before = card, controller.misuses = 0;
    is_wild = 0;
    check(is_unchanged(), "opening changes nothing", result);
    check(is_open || faults - faults_then >= ROUNDS_OF_AN_OPENING, "it takes a fault in each round not to be opened", result);
    check(!is_open || kelifandro_sectors(sd, KELIFANDRO_USER) == USER_SECTORS, "its size", result);
}

static void junk(void)
{
    uint8_t *bytes = (uint8_t *)&sd->card;
    for (int i = 0; i < 3; i++)
        bytes[any() % sizeof sd->card] = (uint8_t)any();
    is_wild = 1;
}

int LLVMFuzzerTestOneInput(const uint8_t *data, size_t size)
{
    if (!guarded) {
        guarded = with_guard(ROOM);
        copy = malloc(ROOM);
        size_t room = (sizeof *sd + PAGE - 1) / PAGE * PAGE;
        sd = (struct kelifandro *)(with_guard(room) + room - sizeof *sd);
    }
    input = data;
    input_left = size;
    begin();
    int calls = 1 + next_byte() % CALLS;
    plan_next();
    open_card();
    while (calls-- > 0) {
        struct call call = next_call();
        if (call.kind == OPEN)
            open_card();
        else if (call.kind == JUNK)
            junk();
        else
            request(call);
    }
    return 0;
}
