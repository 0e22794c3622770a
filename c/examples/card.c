#include "card.h"

enum { IDLE, READY, IDENT, STBY, TRAN, DATA, RCV, PRG };
enum { IN_IDLE = 1 << IDLE, IN_READY = 1 << READY, IN_IDENT = 1 << IDENT, IN_STBY = 1 << STBY };
enum { IN_TRAN = 1 << TRAN, IN_DATA = 1 << DATA, IN_RCV = 1 << RCV };
enum { IDENTIFIED = IN_STBY | IN_TRAN | IN_DATA | IN_RCV, IN_ALL = IN_IDLE | IN_READY | IN_IDENT | IDENTIFIED };

/* The card status (SD Physical Layer 6.00, section 4.10.1; JESD84-B51, section 6.13). */
static const uint32_t OUT_OF_RANGE = 1u << 31;
enum { BLOCK_LEN_ERROR = 1 << 29, ERASE_SEQ_ERROR = 1 << 28, ERASE_PARAM = 1 << 27, ILLEGAL_COMMAND = 1 << 22, ERASE_RESET = 1 << 13 };
enum { READY_FOR_DATA = 1 << 8, SWITCH_ERROR = 1 << 7, APP_CMD = 1 << 5 };
static const uint32_t UNTIL_STOPPED = 0xffffffffu;

/* Registers, without their checks, bits 127 to 8. Both cards name sectors. Of an SD card the CSD has version 2.0, 25 MHz, the command
   classes that each card has and class 10 for CMD6, blocks of 512 bytes, and erases single ones (SD Physical Layer 6.00, section 5.3.3). Of
   an eMMC device it has 26 MHz, classes 0, 2 and 4 to 7, and leaves the size to the EXT_CSD (JESD84-B51, section 7.3). */
static const uint32_t SD_CID[4] = {0x014b464b, 0x454c4946, 0x10000000, 0x01018100};
static const uint32_t EMMC_CID[4] = {0x0101004b, 0x454c4946, 0x41100000, 0x00011b00};
static const uint32_t SD_CSD[4] = {0x400e0032, 0x5b590000, (USER_SECTORS / 1024u - 1) << 16 | 0x7f80, 0x0a400000};
static const uint32_t EMMC_CSD[4] = {0xd0270132, 0x0f5903ff, 0xf6dbffef, 0x0e400000};
static const uint32_t SD_OCR = 0x40ff8000, EMMC_OCR = 0x40ff8080, IS_READY = 1u << 31, WINDOW = 0x00ff8000, HCS = 1u << 30;
/* Version 3.0, one line and four, CMD23; erased bytes are 00h. */
static const uint8_t SCR[8] = {0x02, 0x05, 0x80, 0x02};

/* The EXT_CSD but for what can be switched, by byte (JESD84-B51, section 7.4): version 4.5 (192, 194), high speed at 52 MHz (196), the size
   (212), erase units of 512 KiB, as by the CSD too (224), and write protect groups of one (221), boot partitions (226) and trim (231),
   times of one unit each (199, 223, 232, 248), and the standard's own commands (504). Erased bytes are 00h (181). */
enum { ERASE_UNIT = 1024 };
static const struct {
    uint16_t index;
    uint8_t value;
} EXT_CSD[] = {
    {192, 6}, {194, 2}, {196, 3}, {199, 1}, {212, USER_SECTORS & 0xff}, {213, USER_SECTORS >> 8 & 0xff}, {214, USER_SECTORS >> 16},
    {221, 1}, {223, 1}, {224, ERASE_UNIT / 1024}, {226, BOOT_SECTORS / 256}, {231, 0x10}, {232, 1}, {248, 1}, {504, 1},
};

/* As after CMD0. */
static void reset(struct card *card)
{
    card->state = IDLE;
    card->rca = card->is_emmc ? 1 : 0;
    card->lines = 1;
    card->high_speed = card->is_busy = card->has_voltage = card->is_app = 0;
    card->part = card->erase_group_def = 0;
    card->count = card->errors = 0;
    card->held = card->lagging = 0;
}

void card_begin(struct card *card, int is_emmc)
{
    uint8_t *bytes = (uint8_t *)card;
    for (size_t i = 0; i < sizeof *card; i++)
        bytes[i] = 0;
    card->is_emmc = is_emmc;
    reset(card);
    card->host_lines = 1;
    card->hertz = 400000;
    card->lost = ~0ul;
}

static uint8_t *sector_of(struct card *card, uint32_t sector)
{
    return card->part ? card->boot[card->part - 1][sector] : card->user[sector % USER_SECTORS];
}

static uint32_t size(const struct card *card)
{
    return card->part ? BOOT_SECTORS : USER_SECTORS + card->more;
}

/* The card has come to tran from this state, and its next statuses lag behind: they show that state, and not ready for data. */
static void lag(struct card *card, unsigned before)
{
    card->before = before;
    card->lagging = card->late;
}

/* The busy time has ended, which a card doesn't wait for its host to see (SD Physical Layer 6.00, section 4.3). */
static void rest(struct card *card)
{
    card->is_busy = 0;
    if (card->state == PRG) {
        card->state = TRAN;
        lag(card, PRG);
    }
}

static void program(struct card *card)
{
    card->state = PRG;
    card->is_busy = 1;
}

/* What a command does where it is carried out. Its response is the status already, in which error bits of its own show. */

/* CMD1 and ACMD41. Without a voltage it asks for the OCR alone. An SD card that names sectors waits for a host that knows CMD8 and says
   that it names them too (SD Physical Layer 6.00, section 4.2.3). */
static void ask_ready(struct card *card)
{
    uint32_t ocr = card->is_emmc ? EMMC_OCR : SD_OCR;
    int is_served = card->is_emmc || (card->argument & HCS && card->has_voltage);
    if (is_served && card->argument & WINDOW)
        card->state = READY;
    card->response[0] = card->state == READY ? ocr | IS_READY : ocr & 0x00ffffff;
}

static void send_words(struct card *card, const uint32_t words[4])
{
    for (int i = 0; i < 4; i++)
        card->response[i] = words[i];
}

static void send_cid(struct card *card)
{
    send_words(card, card->is_emmc ? EMMC_CID : SD_CID);
    card->state = IDENT;
}

static void send_csd(struct card *card)
{
    send_words(card, card->is_emmc ? EMMC_CSD : SD_CSD);
    card->response[1] += card->is_emmc ? 0 : card->more / 1024 >> 16;
    card->response[2] += card->is_emmc ? 0 : card->more / 1024 << 16;
}

/* A new RCA at each CMD3, with some bits of the status (SD Physical Layer 6.00, section 4.9.5). */
static void publish_rca(struct card *card)
{
    uint32_t status = card->response[0];
    card->rca = (uint16_t)(card->rca % 0xffff + 1);
    card->response[0] = (uint32_t)card->rca << 16 | (status >> 8 & 0xc000) | (status >> 6 & 0x2000) | (status & 0x1fff);
    card->state = STBY;
}

static void take_rca(struct card *card)
{
    card->rca = (uint16_t)(card->argument >> 16);
    card->state = STBY;
}

static void select_card(struct card *card)
{
    card->state = TRAN;
    card->is_busy = 1;
    lag(card, STBY);
}

/* CMD8 of SD. Voltage 1, 2.7 to 3.6 V, is the only one: 0 stands for no answer to another. */
static void check_voltage(struct card *card)
{
    int is_known = (card->argument >> 8 & 15) == 1;
    card->has_voltage |= is_known;
    card->response[0] = is_known ? card->argument & 0xfff : 0;
}

/* A register that is a block: so many bytes, zeros at first. */
static uint8_t *begin_register(struct card *card, unsigned length)
{
    for (unsigned i = 0; i < length; i++)
        card->register_block[i] = 0;
    card->register_length = length;
    card->speed_after = card->high_speed;
    card->left = 1;
    card->state = DATA;
    return card->register_block;
}

static void send_ext_csd(struct card *card)
{
    uint8_t *block = begin_register(card, 512);
    for (size_t i = 0; i < sizeof EXT_CSD / sizeof *EXT_CSD; i++)
        block[EXT_CSD[i].index] = EXT_CSD[i].value;
    block[175] = card->erase_group_def;
    block[179] = card->boot_config | card->part;
    block[183] = (uint8_t)(card->lines / 4);
    block[185] = (uint8_t)card->high_speed;
}

static void send_scr(struct card *card)
{
    uint8_t *block = begin_register(card, 8);
    for (int i = 0; i < 8; i++)
        block[i] = SCR[i];
}

/* The SD status, which tells nothing but the lines (SD Physical Layer 6.00, section 4.10.2). Linux asks for it, the library doesn't. */
static void send_sd_status(struct card *card)
{
    begin_register(card, 64)[0] = card->lines == 4 ? 0x80 : 0;
}

/* CMD6 of SD: of each group its functions, and the one that is selected. 15 asks for the one that is, and in the status says that there
   is none such, and then nothing is switched (SD Physical Layer 6.00, section 4.3.10). Group 1 has default and high speed, others their
   default. */
static void switch_function(struct card *card)
{
    uint8_t *block = begin_register(card, 64);
    int has_all = 1;
    for (unsigned group = 1; group <= 6; group++) {
        unsigned asked = card->argument >> (4 * group - 4) & 15, last = group == 1;
        unsigned now = group == 1 ? (unsigned)card->high_speed : 0;
        unsigned selected = asked == 15 ? now : asked <= last ? asked : 15;
        block[14 - 2 * group] = 0x80; /* function 15 */
        block[15 - 2 * group] = last ? 3 : 1;
        block[16 - (group - 1) / 2] |= (uint8_t)(group % 2 ? selected : selected << 4);
        has_all = has_all && selected != 15;
    }
    block[1] = has_all ? 100 : 0; /* mA */
    if (has_all && card->argument >> 31)
        card->speed_after = block[16] & 15;
}

static void set_lines(struct card *card)
{
    if ((card->argument & 1) == 0)
        card->lines = card->argument & 2 ? 4 : 1;
}

/* CMD6 of eMMC writes ERASE_GROUP_DEF, PARTITION_CONFIG, BUS_WIDTH or HS_TIMING. That it couldn't the status after it says (JESD84-B51,
   section 6.6.1). */
static void switch_byte(struct card *card)
{
    enum { WRITE_BYTE = 3 << 8 };
    uint32_t byte = card->argument >> 16;
    uint8_t value = card->argument >> 8 & 0xff;
    if (byte == (WRITE_BYTE | 175) && value <= 1)
        card->erase_group_def = value;
    else if (byte == (WRITE_BYTE | 179) && (value & 7) <= 2)
        card->part = value & 7, card->boot_config = value & 0xf8;
    else if (byte == (WRITE_BYTE | 183) && value <= 2)
        card->lines = value ? 4 * value : 1;
    else if (byte == (WRITE_BYTE | 185) && value <= 1)
        card->high_speed = value;
    else
        card->errors |= SWITCH_ERROR;
    program(card);
}

static void stop(struct card *card)
{
    if (card->state == RCV) {
        program(card);
    } else {
        card->state = TRAN;
        card->is_busy = 1;
        lag(card, DATA);
    }
}

static void set_block_length(struct card *card)
{
    card->response[0] |= card->argument == 512 ? 0 : BLOCK_LEN_ERROR;
}

/* CMD17, CMD18, CMD24 and CMD25 */
static void begin_transfer(struct card *card)
{
    if (card->argument >= size(card)) {
        card->response[0] |= OUT_OF_RANGE;
        return;
    }
    card->is_single = card->index == 17 || card->index == 24;
    card->register_length = 0;
    card->next = card->argument;
    card->left = card->is_single ? 1 : card->count ? card->count : UNTIL_STOPPED;
    card->state = card->index <= 18 ? DATA : RCV;
}

/* First address, last address, CMD38: whether this is the next of them (SD Physical Layer 6.00, section 4.3.5; JESD84-B51, section
   6.6.9). */
static int is_in_order(struct card *card, unsigned held)
{
    int is_so = card->held == held;
    card->held = is_so ? held + 1 : 0;
    card->response[0] |= is_so ? 0 : ERASE_SEQ_ERROR;
    return is_so;
}

static void hold_address(struct card *card)
{
    unsigned is_last = card->index == 33 || card->index == 36;
    if (is_in_order(card, is_last))
        card->erased[is_last] = card->argument;
}

/* Sectors, or of eMMC but for a trim, argument 1, the units that have any of them. */
static void erase(struct card *card)
{
    uint32_t unit = card->is_emmc && card->argument != 1 ? ERASE_UNIT : 1, first = card->erased[0], last = card->erased[1];
    if (!is_in_order(card, 2))
        return;
    card->held = 0;
    if (card->part || last < first || last >= size(card)) {
        card->response[0] |= ERASE_PARAM;
        return;
    }
    for (uint32_t s = first / unit * unit; s < (last / unit + 1) * unit && s < size(card); s++)
        for (int i = 0; i < 512; i++)
            sector_of(card, s)[i] = 0;
    program(card);
}

/* The commands: for which card, in which states they are carried out (SD Physical Layer 6.00, table 4-35; JESD84-B51, table 60), and what
   is done besides answering. Of one index the application command stands first. STATUS: the response is the status, or some of it;
   ADDRESSED: the argument names a card; ERASING: it leaves the addresses of an erase. */
enum { SD = 1, EMMC = 2, BOTH = SD | EMMC, APP = 4, STATUS = 8, ADDRESSED = 16, ERASING = 32 };
struct row {
    uint8_t index, is, states;
    void (*act)(struct card *card);
};
static const struct row ROWS[] = {
    {0, BOTH, IN_ALL, reset},
    {1, EMMC, IN_IDLE, ask_ready},
    {2, BOTH, IN_READY, send_cid},
    {3, SD | STATUS, IN_IDENT | IN_STBY, publish_rca},
    {3, EMMC | STATUS, IN_IDENT, take_rca},
    {6, SD | APP | STATUS, IN_TRAN, set_lines},
    {6, SD | STATUS, IN_TRAN, switch_function},
    {6, EMMC | STATUS, IN_TRAN, switch_byte},
    {7, BOTH | STATUS | ADDRESSED, IN_STBY, select_card},
    {8, SD, IN_IDLE, check_voltage},
    {8, EMMC | STATUS, IN_TRAN, send_ext_csd},
    {9, BOTH | ADDRESSED, IN_STBY, send_csd},
    {12, BOTH | STATUS, IN_DATA | IN_RCV, stop},
    {13, SD | APP | STATUS | ERASING, IN_TRAN, send_sd_status},
    {13, BOTH | STATUS | ADDRESSED | ERASING, IDENTIFIED, 0},
    {16, BOTH | STATUS, IN_TRAN, set_block_length},
    {17, BOTH | STATUS, IN_TRAN, begin_transfer},
    {18, BOTH | STATUS, IN_TRAN, begin_transfer},
    {23, BOTH | STATUS, IN_TRAN, 0},
    {24, BOTH | STATUS, IN_TRAN, begin_transfer},
    {25, BOTH | STATUS, IN_TRAN, begin_transfer},
    {32, SD | STATUS | ERASING, IN_TRAN, hold_address},
    {33, SD | STATUS | ERASING, IN_TRAN, hold_address},
    {35, EMMC | STATUS | ERASING, IN_TRAN, hold_address},
    {36, EMMC | STATUS | ERASING, IN_TRAN, hold_address},
    {38, BOTH | STATUS | ERASING, IN_TRAN, erase},
    {41, SD | APP, IN_IDLE, ask_ready},
    {51, SD | APP | STATUS, IN_TRAN, send_scr},
    {55, SD | STATUS | ADDRESSED, IN_IDLE | IDENTIFIED, 0},
    {55, EMMC | ADDRESSED, 0, 0}, /* it has no application commands, and this one may name another card */
};

static const struct row *row_of(const struct card *card)
{
    for (size_t i = 0; i < sizeof ROWS / sizeof *ROWS; i++)
        if (ROWS[i].index == card->index && ROWS[i].is & (card->is_emmc ? EMMC : SD) && (card->is_app || !(ROWS[i].is & APP)))
            return &ROWS[i];
    return 0;
}

/* The state in which the command came; but CMD13, and nothing else, may find the status lagging still. */
static uint32_t status(struct card *card)
{
    int lags = card->index == 13 && card->lagging;
    card->lagging = lags ? card->lagging - 1 : 0;
    return card->errors | (lags ? card->before << 9 : card->state << 9 | READY_FOR_DATA);
}

/* Error bits are shown once, but that ILLEGAL_COMMAND tells of the command before (SD Physical Layer 6.00, section 4.10.1). Answers whether
   there is an answer. */
static int carry_out(struct card *card, const struct row *row)
{
    int is_next_app = card->index == 55;
    card->response[0] = status(card) | (row->is & APP || is_next_app ? APP_CMD : 0);
    card->errors = row->is & STATUS ? 0 : card->errors & ~(uint32_t)ILLEGAL_COMMAND;
    if (row->act)
        row->act(card);
    card->is_app = is_next_app;
    card->count = card->index != 23 ? 0 : card->is_emmc ? card->argument & 0xffff : card->argument;
    return row->act != check_voltage || card->response[0];
}

/* A command to another card changes nothing; one that isn't carried out drops what was for the next one alone. */
static int respond(struct card *card)
{
    const struct row *row = row_of(card);
    rest(card);
    if (row && row->is & ADDRESSED && card->argument >> 16 != card->rca)
        return 0;
    if (card->held && !(row && row->is & ERASING)) {
        card->held = 0;
        card->errors |= ERASE_RESET;
    }
    if (row && row->states >> card->state & 1)
        return carry_out(card, row);
    card->errors |= ILLEGAL_COMMAND;
    card->is_app = 0;
    card->count = 0;
    return 0;
}

/* No block passes on other lines, at another timing, or faster than the card can; nor a command of identification faster than 400 kHz. */
static int is_seen(const struct card *card)
{
    uint32_t most = card->is_emmc ? 26000000 : 25000000;
    return card->lines == card->host_lines && card->high_speed == card->host_high_speed
           && card->hertz <= (card->high_speed ? 2 * most : most);
}

static int is_heard_of(const struct card *card)
{
    return card->hertz != 0 && (card->state >= STBY || card->hertz <= 400000);
}

/* Whether the answer to this operation is lost. */
static int is_lost(struct card *card)
{
    return card->answers++ == card->lost;
}

static int send(void *context, const struct kelifandro_command *command, uint32_t response[4])
{
    struct card *card = context;
    card->index = command->index;
    card->argument = command->argument;
    int is_heard = is_heard_of(card) && respond(card);
    for (int i = 0; i < 4 && is_heard; i++)
        response[i] = card->response[i];
    if (is_lost(card) || !is_heard)
        return card->is_damaged && is_heard ? KELIFANDRO_BAD_CHECK : KELIFANDRO_TIMEOUT;
    return 0;
}

/* The last block that is awaited leads to this state. */
static void block_passed(struct card *card, unsigned behind)
{
    if (card->left != UNTIL_STOPPED && --card->left == 0)
        card->state = behind;
}

static int read_block(void *context, void *block, size_t length)
{
    struct card *card = context;
    uint8_t *to = block;
    const uint8_t *from = card->register_block;
    if (!is_seen(card) || card->state != DATA || length != (card->register_length ? card->register_length : 512))
        return 2;
    if (card->register_length) {
        card->high_speed = card->speed_after;
    } else {
        if (card->next >= size(card))
            return 2;
        from = sector_of(card, card->next++);
    }
    for (size_t i = 0; i < length; i++)
        to[i] = from[i];
    block_passed(card, TRAN);
    if (!is_lost(card))
        return 0;
    for (size_t i = 0; card->is_damaged && i < length; i++)
        to[i] ^= 0xa5;
    return 1;
}

static int write_block(void *context, const void *block)
{
    struct card *card = context;
    const uint8_t *from = block;
    if (!is_seen(card) || card->state != RCV || card->left == 0 || card->next >= size(card))
        return 2;
    rest(card);
    if (card->is_damaged && card->answers == card->lost) {
        card->answers++;
        card_reject(card);
        return 1;
    }
    for (int i = 0; i < 512; i++)
        sector_of(card, card->next)[i] = from[i];
    card->next++;
    card->is_busy = 1;
    block_passed(card, PRG);
    return is_lost(card) ? 2 : 0;
}

void card_reject(struct card *card)
{
    if (card->state != RCV)
        return;
    card->left = 0;
    if (card->is_single)
        card->state = TRAN;
}

/* A busy time ends by the first look whose answer isn't lost, or by the next command. */
static int is_busy(void *context, uint32_t microseconds)
{
    struct card *card = context;
    int is_answer_lost = is_lost(card);
    card->is_look_lost |= is_answer_lost;
    if (card->is_busy && microseconds < card->slow) {
        card->slow -= microseconds;
        return 1;
    }
    if (is_answer_lost && card->is_busy)
        return 1;
    rest(card);
    return 0;
}

/* A command and its blocks, as a controller with DMA moves them. */
static int transfer(void *context, const struct kelifandro_command *command, uint32_t response[4], void *memory, size_t blocks,
                    struct kelifandro_moved *moved)
{
    uint8_t *at = memory;
    int fault = send(context, command, response);
    if (fault)
        return fault;
    for (size_t i = 0; i < blocks; i++, at += 512) {
        int got = command->data == KELIFANDRO_READ ? read_block(context, at, command->block_length) : write_block(context, at);
        if (got) {
            moved->failed = (uint8_t)got;
            break;
        }
        moved->good++;
    }
    return 0;
}

/* The same by a controller that doesn't tell how far it came, and leaves anything in memory where a block failed. */
static int blind_transfer(void *context, const struct kelifandro_command *command, uint32_t response[4], void *memory,
                          size_t blocks, struct kelifandro_moved *moved)
{
    uint8_t *at = memory;
    int fault = transfer(context, command, response, memory, blocks, moved);
    if (!moved->failed)
        return fault;
    moved->good = 0;
    for (size_t i = 0; command->data == KELIFANDRO_READ && i < blocks * command->block_length; i++)
        at[i] ^= 0x5a;
    return fault;
}

static void set_ios(void *context, int lines, int high_speed, uint32_t hertz)
{
    struct card *card = context;
    card->host_lines = lines;
    card->host_high_speed = high_speed;
    card->hertz = hertz;
    card->told++;
}

static void pause(void *context, uint32_t microseconds)
{
    (void)context, (void)microseconds;
}

const struct kelifandro_host card_host = {
    .lines = 8,
    .high_speed = 1,
    .send = send,
    .read_block = read_block,
    .write_block = write_block,
    .is_busy = is_busy,
    .set_ios = set_ios,
    .pause = pause,
};

const struct kelifandro_host whole_host = {
    .lines = 8, .high_speed = 1, .is_busy = is_busy, .set_ios = set_ios, .pause = pause, .transfer = blind_transfer};

const struct kelifandro_host transfer_host = {
    .lines = 8,
    .high_speed = 1,
    .send = send,
    .read_block = read_block,
    .write_block = write_block,
    .is_busy = is_busy,
    .set_ios = set_ios,
    .pause = pause,
    .transfer = transfer,
};
