/* Calls of the library over cards of many kinds, by seeds: their registers are drawn, mostly as a card has them and some of any bytes;
   answers are lost, garbled and wrong; and the record of the card is garbled between calls. What comes of it isn't judged here: trace.c
   tells the same of any two builds of the library, or they aren't the same.

       calls FIRST LAST    the sessions with these seeds */
#include <stdio.h>
#include <stdlib.h>
#include <string.h>
#include "../../c/examples/controller.h"
#include "trace.h"

enum { CALLS = 10, LONGEST = 1030 };
/* 6 and 2 to 0, and of an SD card 7, where an eMMC device has SWITCH_ERROR (SD Physical Layer 6.00, section 4.10.1) */
enum { IDLE_BITS = 0x47, IDLE_BITS_OF_SD = 0xc7 };
enum way { BY_HOST, BY_TRANSFERS, BY_TRANSFERS_ALONE, BY_REGISTERS, BY_ONE_BLOCK, BY_PORT, BY_WORDS, BY_DMA, WAYS };

static struct card card;
static struct controller controller;
static struct kelifandro_host host;
static struct kelifandro_registers registers;
static struct kelifandro sd;
static uint8_t memory[LONGEST * 512];
static uint64_t random_state;

/* What this session's card says of itself, and how often something goes wrong, of 65,536 times. */
static uint32_t cid[4], csd[4], ocr, own_rca;
static uint8_t scr[8], ext_csd[512], switch_status[64];
static unsigned faults, garbled_registers, busy_rounds, busy_left;
static int is_byte_addressed, is_old, is_locked, is_strict;
/* Bits of a status that nobody judges are any. */
static int has_idle_bits;
/* How many looks at it find the card busy still, how many readings of registers find the same dead controller, how many looks find
   neither a block in its buffer nor room for one, and how many find all its data moved, and aren't told. */
static unsigned long stuck, dead, without_buffers, untold;
/* How many statuses show it at work still. */
static unsigned at_work;
static uint32_t dead_value;
/* What follows as data: the index of its command, or 0. */
static unsigned asked;

static uint32_t any(void)
{
    random_state ^= random_state << 13;
    random_state ^= random_state >> 7;
    random_state ^= random_state << 17;
    return (uint32_t)(random_state >> 16);
}

static int one_in(unsigned n)
{
    return any() % n == 0;
}

static int goes_wrong(void)
{
    return (any() & 0xffff) < faults;
}

static void garble(void *bytes, size_t n)
{
    uint8_t *at = bytes;
    for (size_t i = 0; i < n; i++)
        at[i] = (uint8_t)any();
}

/* Bits `high` to `low` of a register of 128 bits. */
static void set_bits(uint32_t words[4], int high, int low, uint32_t value)
{
    for (int bit = low; bit <= high; bit++, value >>= 1) {
        uint32_t mask = 1u << bit % 32, *word = &words[3 - bit / 32];
        *word = value & 1 ? *word | mask : *word & ~mask;
    }
}

static void draw_csd(int is_emmc)
{
    int structure = is_emmc ? (int)(any() % 4) : is_byte_addressed ? 0 : 1;
    garble(csd, sizeof csd);
    if (one_in(16))
        return;
    set_bits(csd, 127, 126, (uint32_t)structure);
    set_bits(csd, 125, 122, is_emmc ? (one_in(8) ? any() % 5 : 4) : 0);
    set_bits(csd, 83, 80, is_byte_addressed ? 9 + any() % 3 : 9);
    if (is_emmc && !is_byte_addressed)
        set_bits(csd, 73, 62, 0xfff);
    else if (structure == 1)
        set_bits(csd, 75, 48, one_in(4) ? any() : 1 + any() % 8);
    if (!one_in(4))
        set_bits(csd, 25, 22, 9 + any() % 3);
    if (one_in(2))
        set_bits(csd, 13, 12, 0);
    set_bits(csd, 95, 84, one_in(16) ? 0 : 0x5b5 | any());
}

static void draw_scr(void)
{
    garble(scr, sizeof scr);
    if (one_in(8))
        return;
    scr[0] = (uint8_t)(any() % 4);
    scr[1] = (uint8_t)(0x05 | (any() & 0x80));
    scr[3] = (uint8_t)(any() % 4);
}

static void draw_sizes(void)
{
    static const uint8_t revisions[] = {6, 6, 7, 8, 5, 3, 2, 0};
    uint32_t sectors = one_in(4) ? any() : one_in(8) ? 0 : USER_SECTORS;
    ext_csd[192] = revisions[any() % 8];
    ext_csd[194] = (uint8_t)(2 + !one_in(4));
    for (int i = 0; i < 4; i++)
        ext_csd[212 + i] = (uint8_t)(sectors >> (8 * i));
    ext_csd[226] = (uint8_t)(one_in(4) ? any() : BOOT_SECTORS / 256);
    ext_csd[221] = (uint8_t)(one_in(4) ? any() : 1);
    ext_csd[224] = (uint8_t)(one_in(4) ? any() : 1 + any() % 4);
    for (int i = 143; i < 155; i++)
        ext_csd[i] = one_in(3) ? 0 : (uint8_t)(one_in(8) ? any() : any() % 3);
}

static void draw_ext_csd(void)
{
    garble(ext_csd, sizeof ext_csd);
    if (one_in(16))
        return;
    draw_sizes();
    ext_csd[155] = (uint8_t)(any() % 2);
    ext_csd[160] = (uint8_t)(any() % 8);
    ext_csd[175] = (uint8_t)(any() % 3);
    ext_csd[179] = one_in(4) ? (uint8_t)any() : 0;
    ext_csd[196] = (uint8_t)(any() % 8);
    ext_csd[231] = (uint8_t)any();
    ext_csd[181] = (uint8_t)(any() % 3);
}

static void draw_card(int is_emmc)
{
    is_byte_addressed = one_in(3);
    is_old = one_in(8);
    is_locked = one_in(24);
    is_strict = one_in(6);
    stuck = dead = without_buffers = untold = at_work = 0;
    busy_rounds = one_in(3) ? any() % 20 : 0;
    garble(cid, sizeof cid);
    draw_csd(is_emmc);
    draw_scr();
    draw_ext_csd();
    garble(switch_status, sizeof switch_status);
    if (!one_in(4)) {
        switch_status[13] = (uint8_t)(any() % 4);
        switch_status[16] = (uint8_t)(any() % 2);
    }
    ocr = (one_in(12) ? any() : 0x00ff8000u) & 0x00ffffffu;
    ocr |= is_byte_addressed ? 0 : 0x40000000u;
    ocr |= is_emmc && one_in(2) ? 0x80 : 0;
    ocr = one_in(24) ? ocr & 0x7f000000u : ocr;
    own_rca = one_in(16) ? 0 : any();
}

/* Another card in its place: one that differs in little, so that what it may do and who it is has to be looked at as a whole. */
static void other_card(void)
{
    static const uint16_t bytes[] = {179, 181, 192, 196, 221, 224, 226, 231, 155};
    switch (any() % 6) {
    case 0:
        cid[any() % 4] ^= 1u << any() % 32;
        break;
    case 1:
        csd[any() % 4] ^= 1u << any() % 32;
        break;
    case 2:
        draw_scr();
        break;
    case 3:
        ext_csd[bytes[any() % 9]] ^= (uint8_t)(1u << any() % 8);
        break;
    case 4:
        ext_csd[one_in(2) ? 212 + any() % 4 : 143 + any() % 12] ^= (uint8_t)(1u << any() % 8);
        break;
    default:
        switch_status[13] ^= 2;
        own_rca = any();
    }
}

/* The response of the card in memory, as this session's card gives it. */
static void as_drawn(const struct kelifandro_command *command, uint32_t response[4])
{
    switch (command->index) {
    case 1:
    case 41:
        response[0] = ocr | (busy_left || one_in(200) ? 0 : 0x80000000u);
        busy_left -= busy_left != 0;
        /* the card in memory waits for a host that names sectors */
        if (card.state <= 1)
            card.state = response[0] >> 31;
        break;
    case 2:
        memcpy(response, cid, sizeof cid);
        break;
    case 3:
        if (!card.is_emmc) {
            response[0] = own_rca << 16 | (response[0] & 0xffff);
            card.rca = (uint16_t)own_rca;
        }
        break;
    case 9:
        memcpy(response, csd, sizeof csd);
        break;
    case 7:
        response[0] |= is_locked ? 1u << 25 : 0;
        break;
    case 6:
    case 38:
        if (faults && one_in(40))
            at_work = any() % 20, stuck = any() % 4;
        break;
    case 12:
    case 13:
        if (at_work || (faults && one_in(24))) {
            at_work -= at_work != 0;
            response[0] = (response[0] & ~0x1f00u) | 7 << 9;
        }
        /* as after a read without a count up to the last sector */
        response[0] |= is_strict && one_in(3) ? 1u << 31 : 0;
        break;
    }
    if (has_idle_bits && (command->response == KELIFANDRO_R1 || command->response == KELIFANDRO_R1B))
        response[0] ^= any() & (card.is_emmc ? IDLE_BITS : IDLE_BITS_OF_SD);
}

/* A response with one wrong thing: a bit, an error in the status, or all of it. */
static void wrong_response(uint32_t response[4])
{
    switch (any() % 4) {
    case 0:
        response[any() % 4] ^= 1u << any() % 32;
        break;
    case 1:
        response[0] |= 1u << (any() % 19 + 13);
        break;
    case 2:
        response[0] ^= (any() & 15) << 9;
        break;
    default:
        garble(response, 16);
    }
}

static struct kelifandro_command as_sectors(struct kelifandro_command command)
{
    int index = command.index;
    int is_address = index == 17 || index == 18 || index == 24 || index == 25 || index == 32 || index == 33 || index == 35 || index == 36;
    if (is_byte_addressed && is_address)
        command.argument /= 512;
    if (card.is_emmc && index == 6 && (command.argument >> 16 & 0xff) == 179 && (command.argument >> 8 & 7) > 2)
        command.argument = (command.argument & ~0x700u) | (1 + (command.argument >> 8) % 2) << 8;
    return command;
}

static int send(void *context, const struct kelifandro_command *command, uint32_t response[4])
{
    struct kelifandro_command told = as_sectors(*command);
    int fault;
    if (command->index == 0)
        busy_left = busy_rounds;
    if (is_old && !card.is_emmc && command->index == 8)
        return KELIFANDRO_TIMEOUT;
    fault = card_host.send(context, &told, response);
    asked = command->index;
    as_drawn(command, response);
    if (!goes_wrong())
        return fault;
    if (one_in(2))
        return (int)(any() % 7);
    wrong_response(response);
    return fault;
}

/* What this session's card sends in place of the block that came. */
static void drawn_block(uint8_t *block, size_t length)
{
    if (asked == 51 && length >= 8)
        memcpy(block, scr, 8);
    else if (asked == 8 && length == 512) {
        uint8_t part = block[179] & 7;
        memcpy(block, ext_csd, 512);
        block[179] = (uint8_t)((block[179] & ~7u) | part);
    } else if (asked == 6 && length == 64)
        memcpy(block, switch_status, one_in(8) ? 64 : 12);
}

static int read_block(void *context, void *block, size_t length)
{
    int got = card_host.read_block(context, block, length);
    if (!got)
        drawn_block(block, length);
    if (!goes_wrong())
        return got;
    if (one_in(2))
        garble(block, length);
    return (int)(any() % 4);
}

static int write_block(void *context, const void *block)
{
    if (goes_wrong()) {
        card_reject(context);
        return (int)(any() % 4);
    }
    int got = card_host.write_block(context, block);
    return goes_wrong() ? (int)(any() % 4) : got;
}

static int is_busy(void *context, uint32_t microseconds)
{
    if (stuck) {
        stuck--;
        return 1;
    }
    if (faults && one_in(100))
        stuck = one_in(8) ? any() % 40000 : any() % 20;
    return goes_wrong() || (faults > 8000 && one_in(3)) || card_host.is_busy(context, microseconds);
}

static void set_ios(void *context, int lines, int high_speed, uint32_t hertz)
{
    card_host.set_ios(context, lines, high_speed, hertz);
}

static void pause(void *context, uint32_t microseconds)
{
    (void)context, (void)microseconds;
}

static int transfer(void *context, const struct kelifandro_command *command, uint32_t response[4], void *at, size_t blocks,
                    struct kelifandro_moved *moved)
{
    uint8_t *block = at;
    size_t most = one_in(4) ? any() % (blocks + 1) : blocks;
    int fault = send(context, command, response);
    if (fault) {
        moved->good = (uint16_t)(one_in(4) ? any() % (blocks + 2) : 0);
        return fault;
    }
    for (size_t i = 0; i < most && !moved->failed; i++, block += 512) {
        int got = command->data == KELIFANDRO_READ ? read_block(context, block, command->block_length) : write_block(context, block);
        moved->failed = (uint8_t)got;
        moved->good += !got;
    }
    if (goes_wrong())
        moved->good = (uint16_t)any();
    return 0;
}

/* A controller that shows the same at each reading, for so many of them. */
static void die(uint32_t value)
{
    dead = one_in(2) ? any() % 100 : one_in(2) ? any() % 20000 : 24000;
    dead_value = one_in(2) ? 0 : one_in(2) ? value : any();
}

static uint32_t read_register(void *context, unsigned offset, unsigned size)
{
    uint32_t value = controller_registers.read(context, offset, size);
    if (dead) {
        dead--;
        return dead_value;
    }
    if (offset == 0x25 && without_buffers) {
        without_buffers--;
        return 0;
    }
    if (offset == 0x30 && value & 2 && untold) {
        untold--;
        return value & ~2u;
    }
    /* at any time, and mostly where data is to come or to go */
    if (garbled_registers && one_in(offset == 0x25 && controller.direction != KELIFANDRO_NO_DATA ? 40 : 3000))
        die(value);
    if ((any() & 0xffff) >= garbled_registers)
        return value;
    return one_in(2) ? any() : value ^ 1u << any() % 32;
}

static void write_register(void *context, unsigned offset, unsigned size, uint32_t value)
{
    controller_registers.write(context, offset, size, value);
}

/* Memory is had, or not, or anywhere. */
static uint64_t lend(void *context, void *bytes, size_t n, int is_written)
{
    uint64_t at = one_in(8) ? 0 : dma_registers.lend(context, bytes, n, is_written);
    return at && one_in(24) ? any() | (uint64_t)(one_in(2) ? any() : 0) << 32 : at;
}

/* How a controller moves blocks by itself, where memory for it stands, and how much room there is for a table. */
static void draw_dma(void)
{
    static const uint32_t ways[] = {1u << 22, 1u << 19, 1u << 19 | 1u << 28, 0};
    static const uint64_t places[] = {0x10000000, 0x1010000000, 0x1007e000, 0xffff8000, 0x1010000004, 0xfffffffffff80000};
    controller.capabilities &= ~(1u << 19 | 1u << 22 | 1u << 28);
    controller.capabilities |= ways[any() % 3 + (one_in(8) ? 1 : 0)];
    if (one_in(2))
        controller.lent_at = places[any() % 6], controller.table_at = one_in(2) ? 0x2020000000 : 0x20000000;
    registers.lend = lend, registers.take_back = dma_registers.take_back;
    registers.table = dma_registers.table;
    registers.table_size = one_in(4) ? any() % 40 : dma_registers.table_size;
}

/* How a controller is late, and its interrupts, for which it is waited. */
static void draw_waits(void)
{
    registers.wait = waiting_registers.wait;
    controller.line = (enum controller_line)(any() % 4);
    controller.command_takes = any() % (one_in(8) ? 20000 : 200);
    controller.data_takes = any() % (one_in(8) ? 600000 : 2000);
}

/* What host or controller can: a record may have been written over one that could more. */
static void draw_limits(void)
{
    static const uint8_t lines[] = {8, 4, 1, 8, 4, 0, 3, 255};
    host.lines = lines[any() % 5 + (one_in(16) ? 3 : 0)];
    host.high_speed = (uint8_t)(one_in(8) ? any() : any() % 2);
    if (one_in(3))
        controller.capabilities = one_in(2) ? any() : 1u << 24 | (any() & 0xff00) | (any() & 5u << 18);
}

/* Where what is drawn as the card's registers has to fit the card in memory, its own are taken. */
static void begin_way(enum way way)
{
    host = (struct kelifandro_host){.context = &card, .is_busy = is_busy, .set_ios = set_ios, .pause = pause};
    if (way != BY_TRANSFERS_ALONE)
        host.send = send, host.read_block = read_block, host.write_block = write_block;
    if (way == BY_TRANSFERS || way == BY_TRANSFERS_ALONE)
        host.transfer = transfer;
    controller_begin(&controller, &host, way == BY_ONE_BLOCK || way == BY_PORT);
    controller.is_bare = controller.has_no_switches = way == BY_WORDS;
    controller.version = (uint8_t)(one_in(4) ? any() % 2 : one_in(8) ? any() : 2);
    draw_limits();
    registers = way == BY_PORT ? port_registers : way == BY_WORDS ? board_registers : controller_registers;
    if (way == BY_DMA)
        draw_dma();
    if (way != BY_PORT && way != BY_WORDS)
        registers.read = read_register, registers.write = write_register;
    if (one_in(3))
        draw_waits();
    if (one_in(8))
        registers.kept_interrupts = any();
    registers.context = &controller;
}

static void begin(uint64_t seed)
{
    static const unsigned rates[] = {0, 0, 0, 60, 300, 1500, 6000, 20000};
    random_state = seed * 0x9e3779b97f4a7c15u + 1;
    for (int i = 0; i < 8; i++)
        any();
    enum way way = (enum way)(any() % WAYS);
    int is_emmc = (int)(any() % 2);
    card_begin(&card, is_emmc);
    faults = rates[any() % 8];
    garbled_registers = one_in(4) ? rates[any() % 8] / 4 : 0;
    draw_card(is_emmc);
    has_idle_bits = seed % 6 == 5;
    begin_way(way);
    memset(&sd, 0, sizeof sd);
    if (way >= BY_REGISTERS)
        sd.registers = &registers;
    else
        sd.host = &host;
    if (one_in(8))
        garble(&sd.healed, sizeof sd.healed);
    trace_pieces = one_in(6);
    if (one_in(24))
        die(~0u);
}

static uint64_t drawn_start(uint64_t sectors)
{
    switch (any() % 8) {
    case 0:
        return (uint64_t)any() << any() % 40;
    case 1:
    case 2:
        return sectors - 1 - any() % 8;
    default:
        return any() % 200;
    }
}

/* The last byte of a register of sixteen: its CRC7, and the bit at its end. */
static uint8_t check_of(const uint8_t *bytes)
{
    unsigned crc = 0;
    for (int i = 0; i < 120; i++) {
        unsigned bit = (bytes[i / 8] >> (7 - i % 8) & 1u) ^ crc >> 6;
        crc = (crc << 1 & 0x7f) ^ (bit ? 9 : 0);
    }
    return (uint8_t)(crc << 1 | 1);
}

/* Another register in the record, with the check that it has to have. */
static void junk_register(uint8_t *bytes, const uint32_t words[4])
{
    for (int i = 0; i < 15; i++)
        bytes[i] = (uint8_t)(words[i / 4] >> (24 - 8 * (i % 4)));
    bytes[15] = check_of(bytes);
}

static uint64_t edge(void)
{
    static const uint64_t edges[] = {0, 1, 512, 1 << 23, 1ull << 32, 1ull << 55, 1ull << 63};
    return edges[any() % 7] + any() % 3 - 1;
}

static void junk_numbers(void)
{
    static uint64_t *const sizes[] = {&sd.card.user, &sd.card.boot, &sd.card.gp1,       &sd.card.gp2,
                                      &sd.card.gp3,  &sd.card.gp4,  &sd.card.erase_unit};
    static uint64_t *const counts[] = {&sd.healed.attempts, &sd.healed.by_answer,   &sd.healed.by_data,   &sd.healed.by_status,
                                       &sd.healed.by_busy,  &sd.healed.by_recovery, &sd.healed.settlings, &sd.healed.resets};
    for (int i = 0; i < 8; i++)
        if (one_in(3))
            *counts[i] = ~0ull - any() % 4;
    if (one_in(2))
        *sizes[any() % 7] = edge();
}

/* Bytes of the record; or what its check lets pass: numbers at their edges, other registers, and its first bytes, which stand for names. */
static void junk(void)
{
    uint8_t *bytes = (uint8_t *)&sd.card;
    int n = one_in(4) ? (int)sizeof sd.card : 1 + (int)(any() % 3);
    switch (any() % 6) {
    case 0:
        junk_numbers();
        return;
    case 1:
        draw_csd(one_in(2));
        junk_register(sd.card.csd, csd);
        return;
    case 2:
        sd.card.cid[any() % 15] = (uint8_t)any();
        sd.card.cid[15] = check_of(sd.card.cid);
        return;
    case 3:
        bytes[any() % 12] = (uint8_t)(any() % 9);
        if (one_in(2))
            sd.card.state = (uint8_t)(1 + any() % 3), sd.card.cause = (uint8_t)(any() % 9);
        return;
    }
    for (int i = 0; i < n; i++)
        bytes[any() % sizeof sd.card] = (uint8_t)any();
}

/* Sectors to give up: mostly whole erase units, of which the last may end with the partition. */
static void give_up(enum kelifandro_part part, uint64_t start, uint64_t count)
{
    uint64_t sectors = kelifandro_sectors(&sd, part), unit = sd.card.erase_unit;
    if (one_in(3))
        count = (uint64_t)any() << any() % 36;
    if (unit && one_in(2)) {
        start -= start % unit;
        count = one_in(2) ? sectors - start : unit * (1 + any() % 3);
    }
    if (one_in(3))
        kelifandro_trim(&sd, part, start, count);
    else
        kelifandro_erase(&sd, part, start, count);
}

static void one_call(void)
{
    enum kelifandro_part part = (enum kelifandro_part)(one_in(3) ? any() % 9 : one_in(20) ? any() : 0); /* from 7 on there is none */
    uint64_t start = drawn_start(kelifandro_sectors(&sd, part));
    size_t done, count = one_in(12) ? any() % LONGEST : one_in(40) ? 1023 + any() % 3 : one_in(40) ? 65536 + any() % 3 : 1 + any() % 9;
    if (one_in(4))
        start = kelifandro_sectors(&sd, part) - count;
    if (one_in(12))
        draw_limits();
    if (one_in(200))
        without_buffers = 12000;
    if (one_in(100))
        untold = one_in(4) ? 210000 : 1200;
    switch (any() % 12) {
    case 0:
        junk();
        break;
    case 1:
        kelifandro_open(&sd);
        break;
    case 2:
    case 3:
    case 4:
    case 5:
        give_up(part, start, count);
        break;
    case 6:
        /* a card that has lost its power, or another one in its place */
        card.state = 0, card.lines = 1, card.high_speed = 0, card.part = 0;
        if (one_in(2))
            other_card();
        break;
    case 7:
    case 8:
        kelifandro_write(&sd, part, start, count, memory);
        break;
    case 9:
        count %= LONGEST; /* there is no more memory */
        if (one_in(2))
            kelifandro_write_long(&sd, part, start, count, memory, &done);
        else
            kelifandro_read_long(&sd, part, start, count, memory, &done);
        break;
    default:
        kelifandro_read(&sd, part, start, count, memory);
    }
}

int main(int words, char **word)
{
    if (words != 3)
        return 2;
    for (uint64_t seed = strtoull(word[1], 0, 10); seed < strtoull(word[2], 0, 10); seed++) {
        begin(seed);
        kelifandro_open(&sd);
        for (int i = 0; i < CALLS; i++)
            one_call();
    }
    return 0;
}
