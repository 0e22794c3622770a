/* Drives the example card through the recorder as the library does, without the library: opens it, writes, reads, erases, and gives it
   commands that it can't carry out. Prints the trace, and ends with status 0 where each request was done, with its effect.

       sessions sd|emmc [LOST [damaged]] [late] [whole] [linux]

   The card's answer number LOST is lost, or damaged; after CMD7, CMD12 and a write two statuses are late; command and blocks pass in one
   call of the host; the card is opened as Linux opens one, by mmc_sd_init_card and mmc_init_card of its drivers/mmc/core, which isn't
   tried again. The last line is `# N answers`. What is wrong is told on standard error. */
#include <stdio.h>
#include <stdlib.h>
#include <string.h>
#include "../../c/examples/card.h"
#include "recorder.h"

enum { ROUNDS = 3, ATTEMPTS = 4, LOOKS = 16, TRAN = 4, DATA = 5, RCV = 6, PRG = 7, MOST = 4 };
static const uint32_t ERRORS_OF_SD = 0xfdf9a000, ERRORS_OF_EMMC = 0xfdf9a080, OF_ANOTHER_COMMAND = 0x00c00000;
enum { READY_FOR_DATA = 1 << 8 };

static struct card card;
static struct recorder recorder;
static struct kelifandro_host port, host;
static uint32_t response[4];
static uint16_t rca;
static int lines, high_speed, is_high_speed_there, wrong;
static uint8_t sector[MOST * 512], reg[512];

static void print_text(void *context, const char *text)
{
    (void)context;
    fputs(text, stdout);
}

static void expect(int is_so, const char *what)
{
    if (!is_so && !wrong++)
        fprintf(stderr, "wrong: %s\n", what);
}

/* Exchanges. Each answers 0 where it went well. */

static void set(int new_lines, int new_speed, uint32_t hertz)
{
    lines = new_lines;
    high_speed = new_speed;
    host.set_ios(host.context, lines, high_speed, hertz);
}

static int tell(const struct kelifandro_command *command)
{
    struct kelifandro_moved none = {0, 0};
    if (host.send)
        return host.send(host.context, command, response);
    return host.transfer(host.context, command, response, 0, 0, &none);
}

static int ask(uint8_t index, uint32_t argument, uint8_t kind)
{
    return tell(&(struct kelifandro_command){.index = index, .response = kind, .argument = argument});
}

static int look_until_ready(void)
{
    for (int i = 0; i < LOOKS; i++)
        if (!host.is_busy(host.context, 32000))
            return 0;
    return 1;
}

static int has_errors(uint32_t status)
{
    return (status & (card.is_emmc ? ERRORS_OF_EMMC : ERRORS_OF_SD) & ~OF_ANOTHER_COMMAND) != 0;
}

static unsigned state(uint32_t status)
{
    return status >> 9 & 15;
}

/* An R1 without an error of its own. */
static int ask_r1(uint8_t index, uint32_t argument, uint8_t kind)
{
    return ask(index, argument, kind) || has_errors(response[0]);
}

static int ask_status(void)
{
    return ask(13, (uint32_t)rca << 16, KELIFANDRO_R1);
}

/* A clean status; one that shows the card at work is asked for again. */
static int confirm(void)
{
    for (int i = 0; i < LOOKS; i++) {
        if (ask_status() || has_errors(response[0]))
            return 1;
        if (state(response[0]) == TRAN && response[0] & READY_FOR_DATA)
            return 0;
        if (state(response[0]) != PRG && state(response[0]) != TRAN)
            return 1;
    }
    return 1;
}

/* After CMD7 and CMD12 a status may show where the card comes from, too. */
static int confirm_at_last(void)
{
    for (int i = 0; i < LOOKS; i++) {
        if (ask_status() || has_errors(response[0]))
            return 1;
        if (state(response[0]) == TRAN && response[0] & READY_FOR_DATA)
            return 0;
    }
    return 1;
}

/* Blocks after a command, or with it. */
static int move_blocks(const struct kelifandro_command *command, uint8_t *memory)
{
    for (size_t i = 0; i < command->blocks; i++, memory += 512) {
        if (command->data == KELIFANDRO_READ) {
            if (host.read_block(host.context, memory, command->block_length))
                return 1;
            continue;
        }
        if (host.write_block(host.context, memory))
            return 1;
        if (i + 1 < command->blocks && look_until_ready())
            return 1;
    }
    return 0;
}

static int move(uint8_t index, uint32_t argument, uint8_t data, uint16_t length, uint16_t blocks, uint8_t *memory)
{
    struct kelifandro_command command = {index, KELIFANDRO_R1, data, argument, length, blocks};
    struct kelifandro_moved moved = {0, 0};
    if (host.send)
        return tell(&command) || has_errors(response[0]) || move_blocks(&command, memory);
    return host.transfer(host.context, &command, response, memory, blocks, &moved) || has_errors(response[0]) || moved.failed
           || moved.good != blocks;
}

static int announce(void)
{
    return ask(55, (uint32_t)rca << 16, KELIFANDRO_R1);
}

/* Opening. */

static int ask_sd_ready(uint32_t argument)
{
    for (int i = 0; i < LOOKS; i++) {
        if (announce() || ask(41, argument, KELIFANDRO_R3))
            return 1;
        if (response[0] >> 31)
            return 0;
    }
    return 1;
}

static int ask_emmc_ready(uint32_t argument)
{
    for (int i = 0; i < LOOKS; i++) {
        if (ask(1, argument, KELIFANDRO_R3))
            return 1;
        if (response[0] >> 31)
            return 0;
    }
    return 1;
}

static int name(void)
{
    if (ask(2, 0, KELIFANDRO_R2) || ask(3, card.is_emmc ? 1 << 16 : 0, card.is_emmc ? KELIFANDRO_R1 : KELIFANDRO_R6))
        return 1;
    rca = card.is_emmc ? 1 : (uint16_t)(response[0] >> 16);
    if (!rca)
        return 1;
    return ask(9, (uint32_t)rca << 16, KELIFANDRO_R2) || ask(7, (uint32_t)rca << 16, KELIFANDRO_R1B);
}

static void reset(void)
{
    set(1, 0, 400000);
    ask(0, 0, KELIFANDRO_NO_RESPONSE);
    rca = 0;
}

static int identify(void)
{
    reset();
    int knows_cmd8 = ask(8, 0x1aa, KELIFANDRO_R7) == 0;
    if (announce() == 0) {
        uint32_t argument = knows_cmd8 ? 0x40300000 : 0x00300000;
        if (ask(41, argument, KELIFANDRO_R3) || (!(response[0] >> 31) && ask_sd_ready(argument)))
            return 1;
    } else {
        ask(0, 0, KELIFANDRO_NO_RESPONSE);
        if (ask_emmc_ready(0x40300000))
            return 1;
    }
    if (name() || look_until_ready() || confirm_at_last())
        return 1;
    set(1, 0, 25000000);
    return 0;
}

static int read_app_register(uint8_t index, uint16_t length)
{
    return announce() || move(index, 0, KELIFANDRO_READ, length, 1, reg);
}

static int widen_sd(void)
{
    if (read_app_register(51, 8) || announce() || ask_r1(6, 2, KELIFANDRO_R1))
        return 1;
    set(4, 0, 25000000);
    if (move(6, 0x00fffff1, KELIFANDRO_READ, 64, 1, reg))
        return 1;
    is_high_speed_there = reg[13] >> 1 & 1;
    if (is_high_speed_there && move(6, 0x80fffff1, KELIFANDRO_READ, 64, 1, reg))
        return 1;
    if (is_high_speed_there && (reg[16] & 15) == 1)
        set(4, 1, 50000000);
    return confirm();
}

static int switch_byte(uint8_t index, uint8_t value)
{
    return ask_r1(6, 3u << 24 | (uint32_t)index << 16 | (uint32_t)value << 8, KELIFANDRO_R1B) || look_until_ready() || confirm();
}

static int widen_emmc(void)
{
    if (move(8, 0, KELIFANDRO_READ, 512, 1, reg) || switch_byte(175, 1) || switch_byte(183, 2))
        return 1;
    set(8, 0, 25000000);
    is_high_speed_there = reg[196] >> 1 & 1;
    if (!is_high_speed_there)
        return 0;
    if (switch_byte(185, 1))
        return 1;
    set(8, 1, 50000000);
    return 0;
}

static int open_card(void)
{
    for (int round = 0; round < ROUNDS; round++)
        if (!identify() && !(card.is_emmc ? widen_emmc() : widen_sd()))
            return 0;
    return 1;
}

/* Brings the card in order after a failure, where it stands. */
static int restore(void)
{
    if (ask_status())
        return 1;
    switch (state(response[0])) {
    case TRAN:
        break;
    case DATA:
    case RCV:
        if (ask(12, 0, KELIFANDRO_R1B))
            return 1;
        /* falls through */
    case PRG:
        if (look_until_ready())
            return 1;
        break;
    default:
        return 1;
    }
    return ask(16, 512, KELIFANDRO_R1) || ask_status() || confirm();
}

/* Requests: each fails or is done, and is tried again. */

enum kind { WRITE_ONE, WRITE_OPEN, WRITE_COUNTED, READ_ONE, READ_OPEN, READ_COUNTED, ERASE, TRIM, SWITCH };
struct request {
    enum kind kind;
    uint32_t start;
    uint16_t sectors;
};

static int end_transfer(void)
{
    return ask_r1(12, 0, KELIFANDRO_R1B) || look_until_ready() || confirm_at_last();
}

static int erase(const struct request *request)
{
    uint8_t first = card.is_emmc ? 35 : 32;
    return ask_r1(first, request->start, KELIFANDRO_R1) || ask_r1(first + 1, request->start + request->sectors - 1u, KELIFANDRO_R1)
           || ask_r1(38, request->kind == TRIM, KELIFANDRO_R1B) || look_until_ready() || confirm();
}

static int attempt(const struct request *request)
{
    uint16_t n = request->sectors;
    switch (request->kind) {
    case WRITE_ONE:
        return move(24, request->start, KELIFANDRO_WRITE, 512, 1, sector) || look_until_ready() || confirm();
    case WRITE_OPEN:
        return move(25, request->start, KELIFANDRO_WRITE, 512, n, sector) || look_until_ready() || end_transfer();
    case WRITE_COUNTED:
        return ask_r1(23, n, KELIFANDRO_R1) || move(25, request->start, KELIFANDRO_WRITE, 512, n, sector) || look_until_ready()
               || confirm();
    case READ_ONE:
        return move(17, request->start, KELIFANDRO_READ, 512, 1, sector) || confirm();
    case READ_OPEN:
        return move(18, request->start, KELIFANDRO_READ, 512, n, sector) || end_transfer();
    case READ_COUNTED:
        return ask_r1(23, n, KELIFANDRO_R1) || move(18, request->start, KELIFANDRO_READ, 512, n, sector) || confirm();
    case SWITCH:
        return switch_byte(179, (uint8_t)request->start);
    default:
        return erase(request);
    }
}

static int part;

static int settle(void)
{
    return restore() && (open_card() || (part && switch_byte(179, (uint8_t)part)));
}

static int done(const struct request *request)
{
    int has_failed = 0;
    for (int i = 0; i < ATTEMPTS; i++) {
        if (has_failed && settle())
            continue;
        if (!attempt(request))
            return 1;
        has_failed = 1;
    }
    return 0;
}

static void fill(uint8_t first)
{
    for (size_t i = 0; i < sizeof sector; i++)
        sector[i] = (uint8_t)(i * 5 + i / 512 + first);
}

static void serve(enum kind kind, uint32_t start, uint16_t sectors)
{
    struct request request = {kind, start, sectors};
    uint8_t (*stored)[512] = part ? card.boot[part - 1] : card.user;
    size_t size = 512u * sectors;
    static const uint8_t zeros[512];
    if (kind <= WRITE_COUNTED)
        fill((uint8_t)(start + (unsigned)kind));
    expect(done(&request), "a request that failed");
    if (kind <= READ_COUNTED)
        expect(memcmp(stored[start], sector, size) == 0, "what was written or read");
    for (size_t i = 0; (kind == ERASE || kind == TRIM) && i < sectors; i++)
        expect(memcmp(stored[start + i], zeros, 512) == 0, "what was erased");
}

static void select_part(int access)
{
    struct request request = {SWITCH, (uint32_t)access, 0};
    expect(done(&request) && card.part == access, "a partition that wasn't selected");
    part = access;
}

static void serve_all(void)
{
    serve(WRITE_ONE, 40, 1);
    serve(READ_ONE, 40, 1);
    serve(WRITE_OPEN, 50, 3);
    serve(READ_OPEN, 50, 3);
    serve(WRITE_COUNTED, 60, 3);
    serve(READ_COUNTED, 60, 3);
    serve(card.is_emmc ? TRIM : ERASE, 51, 2);
    serve(ERASE, card.is_emmc ? 1024 : 61, card.is_emmc ? 1024 : 1);
    serve(READ_OPEN, 50, 3);
    if (!card.is_emmc)
        return;
    select_part(2);
    serve(WRITE_OPEN, 3, 2);
    serve(READ_ONE, 4, 1);
    if (!move(8, 0, KELIFANDRO_READ, 512, 1, reg))
        expect(reg[175] == 1 && (reg[179] & 7) == 2 && reg[183] == 2 && reg[185] == 1, "what was switched, in the EXT_CSD");
    else
        expect(!settle(), "a card that can't be settled");
    select_part(0);
    serve(READ_ONE, 40, 1);
}

/* Commands that can't be carried out, or not wholly. */
enum { SD = 1, EMMC = 2, BOTH = SD | EMMC };
static const struct {
    uint8_t of, index, kind;
    uint32_t argument;
} MISUSES[] = {
    {BOTH, 2, KELIFANDRO_R2, 0},              /* not in tran */
    {BOTH, 3, KELIFANDRO_R6, 0},
    {BOTH, 9, KELIFANDRO_R2, 1 << 16},
    {BOTH, 7, KELIFANDRO_R1B, 1 << 16},
    {BOTH, 12, KELIFANDRO_R1B, 0},
    {BOTH, 63, KELIFANDRO_R1, 0},             /* no such command */
    {SD, 1, KELIFANDRO_R3, 0x40300000},
    {EMMC, 55, KELIFANDRO_R1, 1 << 16},
    {BOTH, 13, KELIFANDRO_R1, 5 << 16},       /* another card */
    {BOTH, 7, KELIFANDRO_R1B, 5 << 16},
    {BOTH, 55, KELIFANDRO_R1, 5 << 16},
    {SD, 55, KELIFANDRO_R1, 1 << 16},         /* in tran there is nothing to initialize */
    {SD, 41, KELIFANDRO_R3, 0x40300000},
    {SD, 8, KELIFANDRO_R7, 0x1aa},
    {SD, 41, KELIFANDRO_R3, 0x40300000},      /* and the next one is no application command */
    {SD, 51, KELIFANDRO_R1, 0},
    {BOTH, 16, KELIFANDRO_R1, 1024},          /* block lengths and addresses that aren't there */
    {BOTH, 16, KELIFANDRO_R1, 512},
    {BOTH, 17, KELIFANDRO_R1, USER_SECTORS},
    {BOTH, 24, KELIFANDRO_R1, 0xffffffff},
    {SD, 33, KELIFANDRO_R1, 8},               /* erases out of their order */
    {SD, 32, KELIFANDRO_R1, 8},
    {SD, 32, KELIFANDRO_R1, 8},
    {SD, 32, KELIFANDRO_R1, 8},
    {SD, 38, KELIFANDRO_R1B, 0},
    {SD, 32, KELIFANDRO_R1, 8},
    {SD, 33, KELIFANDRO_R1, 7},
    {SD, 38, KELIFANDRO_R1B, 0},
    {SD, 32, KELIFANDRO_R1, 8},
    {SD, 33, KELIFANDRO_R1, USER_SECTORS},
    {SD, 38, KELIFANDRO_R1B, 0},
    {SD, 32, KELIFANDRO_R1, 8},
    {EMMC, 36, KELIFANDRO_R1, 8},
    {EMMC, 35, KELIFANDRO_R1, 8},
    {EMMC, 35, KELIFANDRO_R1, 8},
    {EMMC, 35, KELIFANDRO_R1, 8},
    {EMMC, 36, KELIFANDRO_R1, 7},
    {EMMC, 38, KELIFANDRO_R1B, 0},
    {EMMC, 35, KELIFANDRO_R1, 8},
    {BOTH, 16, KELIFANDRO_R1, 512},           /* addresses that are dropped */
    {SD, 32, KELIFANDRO_R1, 8},
    {EMMC, 35, KELIFANDRO_R1, 8},
    {BOTH, 60, KELIFANDRO_R1, 0},
    {EMMC, 6, KELIFANDRO_R1B, 0x03220100},    /* bytes that can't be written so */
    {EMMC, 6, KELIFANDRO_R1B, 0x03b90200},
    {EMMC, 6, KELIFANDRO_R1B, 0x03b70500},
    {EMMC, 6, KELIFANDRO_R1B, 0x03b30300},
    {BOTH, 24, KELIFANDRO_R1, 9},             /* a write without its block, and commands within it */
    {BOTH, 17, KELIFANDRO_R1, 9},
    {BOTH, 12, KELIFANDRO_R1B, 0},
    {BOTH, 13, KELIFANDRO_R1, 1 << 16},
    {BOTH, 18, KELIFANDRO_R1, 9},             /* a read without its blocks */
    {BOTH, 12, KELIFANDRO_R1B, 0},
};

/* A status after each shows what the card made of it. Nothing is judged here but that the card is in order at the end: the trace is. */
static void misuse(void)
{
    for (size_t i = 0; i < sizeof MISUSES / sizeof *MISUSES; i++) {
        if (!(MISUSES[i].of & (card.is_emmc ? EMMC : SD)))
            continue;
        int is_heard = !ask(MISUSES[i].index, MISUSES[i].argument, MISUSES[i].kind);
        if (is_heard && MISUSES[i].kind == KELIFANDRO_R1B)
            look_until_ready();
        if (MISUSES[i].index != 55 || MISUSES[i].of != SD)
            ask_status(); /* which would be an application command */
    }
    expect(!settle(), "a card that can't be settled");
}

/* Three blocks where two were preset, and a command came between: one that is carried out, one that isn't, and one to another card, which
   alone leaves the count. */
static void preset_and_forget(void)
{
    static const struct {
        uint8_t index;
        uint32_t argument;
    } between[] = {{13, 1 << 16}, {2, 0}, {13, 5 << 16}};
    for (int i = 0; host.send && i < 6; i++) {
        uint8_t is_write = i >= 3;
        ask(23, 2, KELIFANDRO_R1);
        ask(between[i % 3].index, between[i % 3].argument, KELIFANDRO_R1);
        move(is_write ? 25 : 18, 70, is_write ? KELIFANDRO_WRITE : KELIFANDRO_READ, 512, 3, sector);
        ask(12, 0, KELIFANDRO_R1B);
        look_until_ready();
        ask_status();
    }
}

/* The last blocks of a partition, and one more than there is. */
static void run_past_the_end(void)
{
    if (host.send && !move(18, USER_SECTORS - 2, KELIFANDRO_READ, 512, 3, sector))
        expect(0, "a sector past the end");
    ask(12, 0, KELIFANDRO_R1B);
    ask_status();
    if (host.send && !move(25, USER_SECTORS - 2, KELIFANDRO_WRITE, 512, 3, sector))
        expect(0, "a sector past the end was written");
    ask(12, 0, KELIFANDRO_R1B);
    look_until_ready();
    expect(!settle(), "a card that can't be settled");
}

/* Identification with commands that have their place elsewhere, and inquiries that don't make the card ready. */
static void misidentify(void)
{
    uint8_t naming = card.is_emmc ? KELIFANDRO_R1 : KELIFANDRO_R6;
    reset();
    ask(2, 0, KELIFANDRO_R2);
    ask(17, 0, KELIFANDRO_R1);
    ask(41, 0x40300000, KELIFANDRO_R3);
    ask(8, 0x2aa, KELIFANDRO_R7); /* another voltage */
    static const uint32_t arguments[] = {0x40300000, 0, 0x00300000, 0x40300000};
    for (size_t i = 0; i < 4; i++) {
        if (card.is_emmc && i == 2)
            break;
        announce();
        ask(card.is_emmc ? 1 : 41, arguments[card.is_emmc ? 1 - i : i], KELIFANDRO_R3);
        if (i == 0)
            ask(8, 0x1aa, KELIFANDRO_R7);
    }
    announce();
    ask(3, 1 << 16, naming);
    for (int i = 0; i < 2; i++)
        ask(2, 0, KELIFANDRO_R2);
    ask_status();
    for (int i = 0; i < 2; i++)
        if (!ask(3, card.is_emmc ? 1 << 16 : 0, naming))
            rca = card.is_emmc ? 1 : (uint16_t)(response[0] >> 16);
    ask_status();
    ask(9, 9 << 16, KELIFANDRO_R2);
    ask(12, 0, KELIFANDRO_R1B);
    ask_status();
    ask(16, 512, KELIFANDRO_R1);
    ask(9, (uint32_t)rca << 16, KELIFANDRO_R2);
    ask_status();
    ask(7, 9 << 16, KELIFANDRO_R1B);
    ask_status();
    expect(!open_card(), "a card that isn't opened again");
}

/* As Linux opens a card: what isn't there is asked for too, and the first inquiry asks for the OCR alone. */

static void linux_probe(void)
{
    reset();
    ask(52, 0x80000c08, KELIFANDRO_R1);
    ask(0, 0, KELIFANDRO_NO_RESPONSE);
    ask(8, 0x1aa, KELIFANDRO_R7);
    ask(5, 0, KELIFANDRO_R1);
    if (!announce())
        expect(!ask(41, 0, KELIFANDRO_R3) && !(response[0] >> 31), "an inquiry for the OCR");
}

static void linux_switch(uint8_t index, uint8_t value)
{
    ask(6, 3u << 24 | (uint32_t)index << 16 | (uint32_t)value << 8 | 1, KELIFANDRO_R1B);
    look_until_ready();
    ask_status();
}

static void linux_emmc(void)
{
    linux_probe();
    expect(!ask(1, 0, KELIFANDRO_R3) && !(response[0] >> 31), "an inquiry for the OCR");
    ask(0, 0, KELIFANDRO_NO_RESPONSE);
    expect(!ask_emmc_ready(0x40ff8080) && !name(), "identification");
    set(1, 0, 26000000);
    expect(!move(8, 0, KELIFANDRO_READ, 512, 1, reg), "the EXT_CSD");
    linux_switch(175, 1);
    linux_switch(34, 1);
    expect((response[0] & 0x80) != 0, "SWITCH_ERROR of a byte that isn't there");
    linux_switch(185, 1);
    set(1, 1, 52000000);
    linux_switch(183, 2);
    set(8, 1, 52000000);
    expect(!has_errors(response[0]) && !move(8, 0, KELIFANDRO_READ, 512, 1, reg), "the EXT_CSD once more");
    expect(reg[175] == 1 && reg[183] == 2 && reg[185] == 1, "what was switched");
}

static void linux_sd(void)
{
    linux_probe();
    ask(0, 0, KELIFANDRO_NO_RESPONSE);
    ask(8, 0x1aa, KELIFANDRO_R7);
    expect(!ask_sd_ready(0x40ff8000) && !name(), "identification");
    set(1, 0, 25000000);
    expect(!read_app_register(51, 8) && !read_app_register(13, 64), "the SCR and the SD status");
    expect(!move(6, 0x00fffff0, KELIFANDRO_READ, 64, 1, reg) && reg[13] == 3 && (reg[16] & 15) == 0, "a check of default speed");
    expect(!move(6, 0x80fffff1, KELIFANDRO_READ, 64, 1, reg) && (reg[16] & 15) == 1, "high speed");
    set(1, 1, 50000000);
    expect(!announce() && !ask_r1(6, 2, KELIFANDRO_R1), "four lines");
    set(4, 1, 50000000);
}

int main(int words, char **word)
{
    int is_linux = 0;
    if (words < 2 || (strcmp(word[1], "sd") && strcmp(word[1], "emmc")))
        return 2;
    card_begin(&card, word[1][0] == 'e');
    port = card_host;
    for (int i = 2; i < words; i++) {
        if (word[i][0] >= '0' && word[i][0] <= '9')
            card.lost = strtoul(word[i], 0, 10);
        else if (!strcmp(word[i], "damaged"))
            card.is_damaged = 1;
        else if (!strcmp(word[i], "late"))
            card.late = 2;
        else if (!strcmp(word[i], "whole"))
            port = whole_host;
        else if (!strcmp(word[i], "linux"))
            is_linux = 1;
        else
            return 2;
    }
    port.context = &card;
    host = record(&recorder, &port, print_text, 0);
    if (is_linux)
        card.is_emmc ? linux_emmc() : linux_sd();
    else
        expect(!open_card(), "a card that isn't opened");
    serve_all();
    misuse();
    preset_and_forget();
    run_past_the_end();
    misidentify();
    printf("# %lu answers\n", card.answers);
    return wrong != 0;
}
