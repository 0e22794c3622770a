/* Rules of a host (conform.c): each call is passed on, and what came of it is looked at; and a card that is open is told by itself what the
   library says where something has failed. */
#include <string.h>
#include "conform.h"

/* States and bits of the card status (SD Physical Layer 6.00, section 4.10.1; JESD84-B51, section 6.13). */
enum { STBY = 3, TRAN = 4, DATA = 5, PRG = 7, APP_CMD = 1 << 5, MARK = 0x5c, WRITES = 8 };
static const uint32_t ERRORS = 0xfdf9a000, UNHEARD = 0xffffffff;

static const char GIVEN[] = "is_busy, set_ios and pause are given, and transfer or send, read_block and write_block; lines are 1, 4 or 8";
static const char NOTHING[] = "A command that has no response is answered with 0";
static const char UNCHECKED[] = "R3 has no check and no index (SD Physical Layer, section 4.9.4), and isn't refused for them";
static const char WORDS_OF_R2[] = "R2: bits 127 to 96 are response[0], and so on; its first byte, 3Fh, is left out and its check is in the lowest byte";
static const char ECHO[] = "R7: bits 39 to 8 of the response are response[0], whose bits 11 to 0 are the argument's";
static const char STATUS[] = "R1: bits 39 to 8 of the response are response[0], and they are those of this command's response";
static const char NONE_CAME[] = "Where no response comes none is heard";
static const char WAITED_FOR[] = "A response is waited for as long as 64 clocks take";
static const char CLOCK[] = "set_ios sets the clock, to so many hertz at most";
static const char LINES[] = "set_ios sets the data lines that are in use, the timing and the clock, and blocks pass then";
static const char BLOCKS[] = "read_block and write_block answer 0, 1 or 2";
static const char NO_BLOCK[] = "That no block comes is told once 100 ms are over, since a card may take so long";
static const char COUNTED[] = "The controller's block count is how many blocks a command moves, as is told with it";
static const char MOVED[] = "transfer tells of no more blocks than it was to move, and of the one that failed 1 or 2";
static const char ALONE[] = "A transfer that is alone moves all blocks, or tells which failed";
static const char LENGTH[] = "Of a block so many bytes are written to memory as its length says";
static const char LOOKS[] = "is_busy answers 0 or 1";
static const char LET_GO[] = "is_busy answers 0 once the card has let DAT0 go, and no sooner";
static const char LOW[] = "is_busy answers 1 where DAT0 is low, and 0 at once where it isn't";
static const char NOT_WAITED[] = "A command is sent though DAT0 is low, and the end of that isn't waited for";
static const char DROPPED[] = "What is left of data that was given up is dropped before the next command";
static const char NOT_AUTOMATIC[] = "CMD12 and CMD23 come as commands of their own: those that a controller sends by itself are off";
static const char SWITCHES[] = "is_inserted and is_write_protected answer 0 or 1, and that a card is in the slot";

static const struct conform *own;
static const struct kelifandro_host *host;
static struct kelifandro_host wrapped;
static struct kelifandro *sd;
/* As set_ios was told; what came of blocks by lines and timing; how often an SD card was asked whether it is ready; and what is kept back. */
static int lines = 1, high_speed, is_app;
static uint32_t hertz = 400000;
static unsigned long good[9][2], bad[9][2], inquiries, inquiries_heard, kept;
static int is_disturbed; /* by an answer that is kept back: the card may be set otherwise than the library knows */
/* By direction, commands of which a second block was asked for, and those of which it was good; and what is under way. */
static unsigned long several[3], several_moved[3], nth;
static int direction, last_block;
/* What a register goes through; and blocks of what the host is asked for by itself, the last for one that writes beside the others. */
static uint8_t alone[512], blocks[9][512];

static int is_kept_back(void)
{
    return kept && --kept == 0;
}

unsigned long conform_keep_back(unsigned long n)
{
    unsigned long before = kept;
    kept = n;
    is_disturbed = n > 0;
    return before;
}

/* So many clocks take so long at least, as far as a clock that counts microseconds shows it. */
static void expect_clocks(const char *rule, const char *what, uint64_t from, uint64_t clocks)
{
    uint64_t took = conform_now() - from, least = clocks * 1000000 / hertz;
    if (own->now)
        conform_expect(took + 2 >= least, rule, "%s at %lu hertz took %lu microseconds, and takes %lu at least", what, (unsigned long)hertz,
                       (unsigned long)took, (unsigned long)least);
}

/* Whether this is a CSD by its first word: structure and, of SD, zeros or, of eMMC, the version 4; and the highest clock by default, of SD 25
   MHz, or what it becomes by a switch, of eMMC 20 or 26 (SD Physical Layer 6.00, section 5.3; JESD84-B51, section 7.3). */
static int begins_csd(uint32_t word)
{
    uint32_t speed = word & 0xff, is_sd = (word >> 24 & 0xbf) == 0, is_emmc = (word >> 24 & 0x3f) == 0x10;
    return (is_sd && (speed == 0x32 || speed == 0x5a || speed == 0x0b || speed == 0x2b)) || (is_emmc && (speed == 0x2a || speed == 0x32));
}

static uint32_t turned(uint32_t word)
{
    return word >> 24 | (word >> 8 & 0xff00) | (word << 8 & 0xff0000) | word << 24;
}

static void look_at_csd(const uint32_t r[4])
{
    const char *how = begins_csd(r[3]) ? "its words in reverse" : begins_csd(turned(r[0])) ? "the bytes of each word in reverse"
                      : begins_csd(turned(r[3])) ? "all bytes in reverse"
                      : !begins_csd(r[0] << 8 | r[1] >> 24) ? "no such register"
                      : r[0] >> 24 == 0x3f ? "the first byte, 3Fh, and all others a byte too low"
                                           : "all bytes a byte too low, as an SD host controller's registers have them";
    conform_expect(begins_csd(r[0]), WORDS_OF_R2, "%s: the CSD came as %08lx %08lx %08lx %08lx", how, (unsigned long)r[0], (unsigned long)r[1],
                   (unsigned long)r[2], (unsigned long)r[3]);
}

/* CMD55 has APP_CMD in its response, and CMD7 selects a card that is in stby. */
static void look_at_response(const struct kelifandro_command *command, int fault, const uint32_t response[4])
{
    int index = command->index, is_inquiry = index == 41 && is_app;
    unsigned long word = response[0];
    if (command->response == KELIFANDRO_NO_RESPONSE)
        conform_expect(fault == 0, NOTHING, "CMD%d was answered with %d", index, fault);
    if (command->response == KELIFANDRO_R3)
        conform_expect(fault != KELIFANDRO_BAD_CHECK && fault != KELIFANDRO_OTHER_INDEX, UNCHECKED, "CMD%d was answered with %d", index, fault);
    inquiries += (unsigned long)is_inquiry;
    inquiries_heard += is_inquiry && fault == 0;
    is_app = index == 55 && fault == 0;
    if (fault || command->response == KELIFANDRO_NO_RESPONSE)
        return;
    if (index == 9)
        look_at_csd(response);
    if (command->response == KELIFANDRO_R7)
        conform_expect((word & 0xfff) == (command->argument & 0xfff), ECHO, "%08lx to %08lx", word, (unsigned long)command->argument);
    if (index == 55)
        conform_expect(word & APP_CMD, STATUS, "CMD55: %08lx, without its bit 5", word);
    if (index == 7)
        conform_expect((word >> 9 & 15) == STBY, STATUS, "CMD7: %08lx, whose bits 12 to 9 aren't stby, 3", word);
}

static void count_command(const struct kelifandro_command *command)
{
    direction = command->data;
    nth = 0;
}

static void count_block(int what)
{
    unsigned long *counts = what == 0 ? good[lines] : bad[lines];
    last_block = what;
    if (is_disturbed)
        return;
    counts[high_speed != 0]++;
    if (++nth != 2)
        return;
    several[direction]++;
    several_moved[direction] += what == 0;
}

/* A command alone takes 48 clocks. */
static int send(void *context, const struct kelifandro_command *command, uint32_t response[4])
{
    uint64_t from = conform_now();
    int fault = host->send(context, command, response);
    count_command(command);
    expect_clocks(CLOCK, "a command", from, 48);
    look_at_response(command, fault, response);
    return command->response != KELIFANDRO_NO_RESPONSE && is_kept_back() ? KELIFANDRO_TIMEOUT : fault;
}

/* A register goes through a block of its own, where it is seen how much of it is written to. */
static int is_beside_marked(const uint8_t *block, size_t length)
{
    while (length < 512 && block[length] == MARK)
        length++;
    return length == 512;
}

static int read_block(void *context, void *block, size_t length)
{
    int what;
    memset(alone, MARK, sizeof alone);
    what = host->read_block(context, length < 512 ? alone : block, length);
    conform_expect(length == 512 || is_beside_marked(alone, length), LENGTH, "read_block of %lu bytes", (unsigned long)length);
    if (length < 512)
        memcpy(block, alone, length);
    conform_expect(what >= 0 && what <= 2, BLOCKS, "read_block answered %d", what);
    count_block(what);
    return is_kept_back() ? 1 : what;
}

static int write_block(void *context, const void *block)
{
    int what = host->write_block(context, block);
    conform_expect(what >= 0 && what <= 2, BLOCKS, "write_block answered %d", what);
    count_block(what);
    return is_kept_back() ? 2 : what;
}

/* Of a write blocks are left only where the card is busy for 512 ms between two. */
static void look_at_moved(const struct kelifandro_command *command, uint32_t status, size_t n, const struct kelifandro_moved *moved, uint64_t from)
{
    int may_leave = host->read_block || status & ERRORS
                    || (command->data == KELIFANDRO_WRITE && (!own->now || conform_now() - from >= 512000));
    conform_expect(moved->failed <= 2 && (moved->failed || moved->good <= n), MOVED, "%u of %lu good, and %u", (unsigned)moved->good,
                   (unsigned long)n, (unsigned)moved->failed);
    conform_expect(may_leave || moved->failed || moved->good >= n, ALONE, "%u of %lu are good after CMD%d, and none failed",
                   (unsigned)moved->good, (unsigned long)n, command->index);
    for (unsigned i = 0; i < moved->good && !moved->failed; i++)
        count_block(0);
    if (moved->failed)
        count_block(moved->failed);
}

/* Where an answer is kept back the last block is said to have failed. */
static int transfer(void *context, const struct kelifandro_command *command, uint32_t response[4], void *memory, size_t n,
                    struct kelifandro_moved *moved)
{
    uint64_t from = conform_now();
    int is_alone = n && command->block_length < 512, fault;
    memset(alone, MARK, sizeof alone);
    fault = host->transfer(context, command, response, is_alone ? alone : memory, n, moved);
    count_command(command);
    expect_clocks(CLOCK, "a command", from, 48);
    look_at_response(command, fault, response);
    conform_expect(!is_alone || is_beside_marked(alone, command->block_length), LENGTH, "transfer of %u bytes", (unsigned)command->block_length);
    if (is_alone)
        memcpy(memory, alone, command->block_length);
    if (fault == 0 && n)
        look_at_moved(command, response[0], n, moved, from);
    if (!is_kept_back())
        return fault;
    if (n && fault == 0)
        moved->failed = 2;
    return n || command->response == KELIFANDRO_NO_RESPONSE ? fault : KELIFANDRO_TIMEOUT;
}

static int is_busy(void *context, uint32_t microseconds)
{
    uint64_t from = conform_now();
    int answer = host->is_busy(context, microseconds);
    conform_took("is_busy", microseconds, from, answer ? microseconds : 0, 16 * (uint64_t)microseconds + 100000);
    conform_expect(answer == 0 || answer == 1, LOOKS, "is_busy answered %d", answer);
    return answer;
}

static void set_ios(void *context, int now_lines, int now_high_speed, uint32_t now_hertz)
{
    host->set_ios(context, now_lines, now_high_speed, now_hertz);
    lines = now_lines;
    high_speed = now_high_speed;
    hertz = now_hertz;
}

static void pause_for(void *context, uint32_t microseconds)
{
    uint64_t from = conform_now();
    host->pause(context, microseconds);
    conform_took("pause", microseconds, from, microseconds, 16 * (uint64_t)microseconds + 100000);
}

/* On or off it takes a millisecond (SD Physical Layer 6.00, sections 6.4.1 and 6.4.2), and some seconds are enough. */
static void set_power(void *context, int is_on)
{
    uint64_t from = conform_now();
    host->set_power(context, is_on);
    conform_took("set_power", (uint32_t)is_on, from, 1000, 5000000);
}

int conform_wrap_host(const struct conform *given, struct kelifandro *opened)
{
    int is_given;
    own = given;
    host = own->host;
    sd = opened;
    is_given = host->is_busy && host->set_ios && host->pause && (host->transfer || (host->send && host->read_block && host->write_block))
               && (host->lines == 1 || host->lines == 4 || host->lines == 8);
    conform_expect(is_given, GIVEN, "something else: lines are %d", host->lines);
    wrapped = *host;
    wrapped.is_busy = is_busy;
    wrapped.set_ios = set_ios;
    wrapped.pause = pause_for;
    wrapped.send = host->send ? send : 0;
    wrapped.read_block = host->read_block ? read_block : 0;
    wrapped.write_block = host->write_block ? write_block : 0;
    wrapped.transfer = host->transfer ? transfer : 0;
    wrapped.set_power = host->set_power ? set_power : 0;
    sd->host = &wrapped;
    return is_given;
}

const char *conform_take_host_way(unsigned number)
{
    wrapped.transfer = host->transfer && (!host->send || number % 2 == 0) ? transfer : 0;
    return wrapped.transfer ? "by transfer" : "block by block";
}

/* A command by itself; below one with blocks, of which the first n are moved. Answers the status, or what else the response says. */
static uint32_t ask(int index, int response, uint32_t argument)
{
    struct kelifandro_command command = {.index = (uint8_t)index, .response = (uint8_t)response, .argument = argument};
    struct kelifandro_moved moved = {0, 0};
    uint32_t answer[4] = {0, 0, 0, 0}, none = 0;
    int fault = wrapped.send ? wrapped.send(wrapped.context, &command, answer)
                             : wrapped.transfer(wrapped.context, &command, answer, &none, 0, &moved);
    return fault ? UNHEARD : answer[0];
}

static size_t move(int index, uint64_t sector, uint16_t count, size_t n)
{
    uint32_t argument = (uint32_t)((own->first + sector) * (sd->card.addressing ? 1 : 512)), answer[4] = {0, 0, 0, 0};
    struct kelifandro_command command = {(uint8_t)index, KELIFANDRO_R1, index < 20 ? KELIFANDRO_READ : KELIFANDRO_WRITE, argument, 512, count};
    struct kelifandro_moved moved = {0, 0};
    size_t done = 0;
    if (!wrapped.send)
        return wrapped.transfer(wrapped.context, &command, answer, blocks, n, &moved) || moved.failed ? 0 : moved.good;
    if (wrapped.send(wrapped.context, &command, answer))
        return 0;
    while (done < n && (index < 20 ? wrapped.read_block(wrapped.context, blocks[done], 512) : wrapped.write_block(wrapped.context, blocks[done])) == 0)
        done++;
    return done;
}

static uint32_t ask_status(void)
{
    return ask(13, KELIFANDRO_R1, (uint32_t)sd->card.rca << 16);
}

static int is_in(uint32_t status, uint32_t state)
{
    return status != UNHEARD && (status >> 9 & 15) == state;
}

/* As long as the library looks for a write, sixteen times. */
static void wait_while_busy(void)
{
    for (int i = 0; i < 16 && wrapped.is_busy(wrapped.context, 32000); i++)
        ;
}

/* Nobody answers to another address, and no card in tran to CMD2, which is illegal there. 400 kHz show how long a
   response is waited for, after the 48 bits of the command. */
static void ask_for_nothing(void)
{
    uint32_t status, before = hertz;
    uint64_t from;
    wrapped.set_ios(wrapped.context, lines, high_speed, 400000);
    from = conform_now();
    status = ask(13, KELIFANDRO_R1, (uint32_t)(sd->card.rca ^ 0x5555u) << 16);
    conform_expect(status == UNHEARD, NONE_CAME, "CMD13 to an address that no card has, and a response, %08lx", (unsigned long)status);
    if (status == UNHEARD)
        expect_clocks(WAITED_FOR, "a response that doesn't come", from, 48 + 64);
    conform_expect(ask(2, KELIFANDRO_R2, 0) == UNHEARD, NONE_CAME, "CMD2, which a card in tran doesn't answer, and a response");
    ask_status(); /* which shows that CMD2 was illegal, on a card that says so */
    status = ask_status();
    conform_expect(is_in(status, TRAN) && !(status & ERRORS), STATUS, "CMD13: %08lx, whose bits 12 to 9 aren't tran, 4, or which has errors", (unsigned long)status);
    wrapped.set_ios(wrapped.context, lines, high_speed, before);
}

/* Waits until the status shows no work, whatever is_busy says. */
static void wait_by_status(uint32_t status)
{
    for (int i = 0; i < 50 && !is_in(status, TRAN); i++) {
        host->pause(host->context, 20000);
        status = ask_status();
    }
}

/* A read whose blocks are all taken goes on until CMD12. */
static void read_without_end(void)
{
    uint32_t status;
    if (move(18, 16, 4, 4) == 4) {
        status = ask_status();
        conform_expect(is_in(status, DATA), NOT_AUTOMATIC, "after the blocks of CMD18 the card's status is %08lx, whose bits 12 to 9 aren't data, 5",
                       (unsigned long)status);
    }
    ask(12, KELIFANDRO_R1B, 0);
    wait_while_busy();
    ask_status();
}

/* After the card's last sector none comes; where a card sends one all the same nothing is said. */
static void read_beyond(void)
{
    uint64_t from = conform_now(), took;
    move(18, sd->card.user - 1 - own->first, 2, 2);
    took = conform_now() - from;
    conform_expect(!own->now || last_block != 2 || took + 2 >= 100000, NO_BLOCK, "after %lu microseconds of CMD18, of the last sector and one more",
                   (unsigned long)took);
    ask(12, KELIFANDRO_R1B, 0);
    wait_while_busy();
    wait_by_status(ask_status());
}

/* Three of eight blocks are taken, and what is read next is another sector, which begins with its number. */
static void give_data_up(void)
{
    uint32_t status;
    if (move(18, 8, 8, 3) != 3)
        return;
    status = ask(12, KELIFANDRO_R1B, 0);
    wait_while_busy();
    conform_expect(status != UNHEARD, DROPPED, "CMD12 isn't heard after three of eight blocks of CMD18");
    conform_expect(move(17, 40, 1, 1) == 1, DROPPED, "CMD17 fails after three of eight blocks of CMD18 and CMD12");
    conform_expect(blocks[0][0] == 40, DROPPED, "sector %lu was asked for, and what belongs to sector %lu came", (unsigned long)own->first + 40,
                   (unsigned long)own->first + blocks[0][0]);
}

/* Writes a sector, and asks for the status after is_busy. There are cards whose statuses lag, which show themselves at work each time: is_busy
   has taken its time then, and one that doesn't look, or forgets what it saw when its time is over, takes none. */
static void look_while_busy(void)
{
    uint64_t waited = 0;
    unsigned at_work = 0, tried = 0;
    conform_expect(wrapped.is_busy(wrapped.context, 1000) == 0, LOW, "1 where the card is in tran, and ready");
    for (int i = 0; i < WRITES; i++) {
        uint32_t status;
        uint64_t from;
        conform_fill(blocks[0], 0);
        if (move(24, 0, 1, 1) != 1)
            continue;
        from = conform_now();
        for (int look = 0; look < 50000 && conform_now() - from < 2000000 && wrapped.is_busy(wrapped.context, 20); look++)
            ;
        waited += conform_now() - from;
        status = ask_status();
        tried++;
        at_work += is_in(status, PRG);
        wait_by_status(status);
    }
    conform_expect(!own->now || at_work == 0 || at_work < tried || waited >= tried * 50, LET_GO,
                   "0 at once after each of %u writes, and the status after it shows the card at work still (prg)", tried);
}

/* Asks for the status at once after a block. That it comes late once may have other causes. */
static void ask_while_busy(void)
{
    uint64_t usual = 0, longest = 0;
    int late = 0;
    for (int i = 0; i < WRITES; i++) {
        uint64_t from = conform_now(), took;
        ask_status();
        usual = conform_now() - from;
        conform_fill(blocks[0], 0);
        if (move(24, 0, 1, 1) != 1)
            continue;
        from = conform_now();
        ask_status();
        took = conform_now() - from;
        late += took > usual + 2000;
        longest = took > longest ? took : longest;
        wait_while_busy();
        wait_by_status(ask_status());
    }
    conform_expect(late < 2, NOT_WAITED, "CMD13 took up to %lu microseconds after a write, and %lu otherwise", (unsigned long)longest, (unsigned long)usual);
}

/* Eight blocks take as many clocks as their bits have on the lines in use, at 400 kHz and at the card's own clock. */
static void time_blocks(uint32_t at)
{
    uint32_t before = hertz;
    uint64_t from;
    wrapped.set_ios(wrapped.context, lines, high_speed, at);
    from = conform_now();
    if (move(18, 0, 8, 8) == 8)
        expect_clocks(CLOCK, "eight blocks", from, 8 * 4096 / (uint64_t)lines);
    ask(12, KELIFANDRO_R1B, 0);
    wait_while_busy();
    ask_status();
    wrapped.set_ios(wrapped.context, lines, high_speed, before);
}

void conform_ask_host(void)
{
    static const uint32_t waits[] = {1, 100, 1000, 20000, 64000};
    for (size_t i = 0; i < sizeof waits / sizeof *waits; i++)
        wrapped.pause(wrapped.context, waits[i]);
    ask_for_nothing();
    look_while_busy();
    ask_while_busy();
    read_without_end();
    read_beyond();
    if (host->is_inserted)
        conform_expect(host->is_inserted(host->context) == 1, SWITCHES, "is_inserted answers %d", host->is_inserted(host->context));
    if (host->is_write_protected)
        conform_expect((host->is_write_protected(host->context) & ~1) == 0, SWITCHES, "is_write_protected answers %d", host->is_write_protected(host->context));
}

void conform_ask_host_for_data(void)
{
    give_data_up();
    time_blocks(400000);
    time_blocks(hertz);
}

/* What only all calls together say. */
void conform_judge_host(void)
{
    for (int d = KELIFANDRO_READ; d <= KELIFANDRO_WRITE; d++)
        conform_expect(several[d] == 0 || several_moved[d] > 0, COUNTED, "of %lu second blocks of a command that were %s none was good", several[d],
                       d == KELIFANDRO_READ ? "read" : "written");
    conform_expect(inquiries == 0 || inquiries_heard > 0, UNCHECKED, "%lu of ACMD41, each after a CMD55 that was heard, and no response", inquiries);
    for (int l = 1; l <= 8; l++)
        for (int fast = 0; fast < 2; fast++)
            conform_expect(good[l][fast] || bad[l][fast] < 2, LINES, "lines %d, %s speed, and none of %lu blocks is good", l, fast ? "high" : "default", bad[l][fast]);
}
