/* Tests a driver of your host controller, `struct kelifandro_host`, or your way to the registers of an SD host controller,
   `struct kelifandro_registers`, with a card in it: whether the rules of kelifandro.h and docs/PORTING.md are kept, as far as that is seen
   from outside, and whether what is written is what is read. conform.h says what a file of yours has to give; with it, in this folder:

       cc -std=c99 -I.. conform*.c yours.c ../out/libkelifandro.a -o conform
       ./conform [SEED [REQUESTS]]

   Each call of the library is passed on and looked at (conform_host.c, conform_registers.c). A rule that isn't kept is told by a sentence,
   with what was seen. The status is 0 where all are kept, 1 where one isn't, and 2 where there is nothing to test. */
#include <stdarg.h>
#include <stdio.h>
#include <stdlib.h>
#include <string.h>
#include "conform.h"

enum { LEAST = 64, MOST = 1024, LONGEST = 64, BESIDE = 64, UNTOUCHED = 0xc9, RULES = 64 };

static const char PLACE[] = "A sector is read and written at its own place: a command's argument is passed on as it is";
static const char WRITTEN[] = "What is answered as accepted is on the card: a block that was rejected, or that never came, isn't accepted";
static const char ARRIVED[] = "What was read is in memory once the call is over, all of it";
static const char BYTES[] = "A block that is good has all its bytes as they were written: a bad one isn't good";
static const char BESIDE_IT[] = "Beside the memory of a read nothing is written";
static const char DONE[] = "A request is done, by any host that keeps the rules, with a card that works";
static const char ON_CARD[] = "The sectors that may be written are on the card";
static const char OPENED[] = "A card that works is opened";
static const char LAST[] = "The last sector of the card can be read";

static struct conform own;
static struct kelifandro sd;
static uint8_t room[BESIDE + LONGEST * 512 + BESIDE];
/* What is known of a sector: by which write it was written, 0 where it is erased; and what an erased byte is. */
static uint32_t stamps[MOST], stamp;
static uint8_t erased_byte;
static uint32_t state;
static unsigned long reads, writes, erases, kept_back, broken;

void conform_expect(int is_so, const char *rule, const char *seen, ...)
{
    static const char *told[RULES];
    va_list values;
    if (is_so)
        return;
    for (unsigned long i = 0; i < broken; i++)
        if (strcmp(told[i], rule) == 0)
            return;
    if (broken == RULES)
        return;
    told[broken++] = rule;
    printf("wrong: %s. Seen: ", rule);
    va_start(values, seen);
    vprintf(seen, values);
    va_end(values);
    printf("\n");
    fflush(stdout); /* the next call may be one that never returns */
}

uint64_t conform_now(void)
{
    return own.now ? own.now() : 0;
}

void conform_took(const char *call, uint32_t told, uint64_t from, uint64_t least, uint64_t most)
{
    static const char waits[] = "A call waits as long as it is asked to, and not much longer";
    unsigned long took = (unsigned long)(conform_now() - from);
    /* a clock that counts microseconds may show one less */
    if (own.now)
        conform_expect(took + 2 >= least && took <= most, waits, "%s(%lu) took %lu microseconds, and takes %lu to %lu", call, (unsigned long)told,
                       took, (unsigned long)least, (unsigned long)most);
}

/* A random number: xorshift (Marsaglia). */
static uint32_t next(void)
{
    state ^= state << 13;
    state ^= state >> 17;
    state ^= state << 5;
    return state;
}

static uint32_t word_of(const uint8_t *bytes)
{
    return bytes[0] | (uint32_t)bytes[1] << 8 | (uint32_t)bytes[2] << 16 | (uint32_t)bytes[3] << 24;
}

/* A sector tells its number and by which write it was written; each further word follows from those. */
static void fill(uint8_t block[512], uint32_t sector, uint32_t by)
{
    for (uint32_t i = 0; i < 128; i++) {
        uint32_t word = i == 0 ? sector : i == 1 ? by : (sector * 2654435761u + by) * (2 * i + 1) ^ i * 0x9e3779b9u;
        for (int k = 0; k < 4; k++)
            block[4 * i + k] = by ? (uint8_t)(word >> (8 * k)) : erased_byte;
    }
}

void conform_fill(uint8_t block[512], uint64_t sector)
{
    fill(block, (uint32_t)sector, stamps[sector]);
}

void conform_compare(const uint8_t block[512], uint64_t sector, const char *way)
{
    uint8_t due[512], other[512];
    uint32_t number = word_of(block), by = word_of(block + 4);
    unsigned long at = (unsigned long)(own.first + sector);
    int first = 0, last = 511, is_untouched = 1;
    conform_fill(due, sector);
    if (memcmp(due, block, 512) == 0)
        return;
    fill(other, number, by);
    if (by && number < MOST && memcmp(other, block, 512) == 0) {
        conform_expect(number == sector, PLACE, "sector %lu holds what was written to sector %lu (%s)", at, (unsigned long)(own.first + number), way);
        conform_expect(number != sector, WRITTEN, "sector %lu holds what was written to it before (%s)", at, way);
        return;
    }
    while (due[first] == block[first])
        first++;
    while (due[last] == block[last])
        last--;
    for (int i = first; i <= last; i++)
        is_untouched = is_untouched && block[i] == UNTOUCHED;
    conform_expect(!is_untouched, ARRIVED, "bytes %d to %d of sector %lu are what was in memory before (%s)", first, last, at, way);
    conform_expect(is_untouched, BYTES, "bytes %d to %d of sector %lu differ, the first is %02x and not %02x (%s)", first, last, at, block[first], due[first], way);
}

/* What all calls together say comes first, where it says why something fails. */
static void judge(void)
{
    if (own.host)
        conform_judge_host();
    else
        conform_judge_registers();
}

static int expect_done(const char *what, int32_t result, uint64_t at, uint64_t count, const char *way)
{
    if (result != KELIFANDRO_DONE)
        judge();
    conform_expect(result == KELIFANDRO_DONE, DONE, "%s of %lu sectors at %lu: %s (%s)", what, (unsigned long)count,
                   (unsigned long)(own.first + at), kelifandro_text(result), way);
    return result == KELIFANDRO_DONE;
}

static int is_untouched(const uint8_t *from, const uint8_t *to)
{
    while (from < to && *from == UNTOUCHED)
        from++;
    return from == to;
}

/* Memory may have any alignment; for DMA every other time that of a line of a cache. */
static uint8_t *place(void)
{
    uint8_t *line = room + BESIDE - (uintptr_t)room % BESIDE;
    return next() % 2 ? line : line + next() % (BESIDE / 2);
}

static int read_sectors(uint32_t at, uint32_t count, const char *way)
{
    uint8_t *to = place();
    memset(room, UNTOUCHED, sizeof room);
    reads++;
    if (!expect_done("a read", kelifandro_read(&sd, KELIFANDRO_USER, own.first + at, count, to), at, count, way))
        return 0;
    for (uint32_t i = 0; i < count; i++)
        conform_compare(to + 512 * i, at + i, way);
    conform_expect(is_untouched(room, to) && is_untouched(to + 512 * count, room + sizeof room), BESIDE_IT, "a read of %lu sectors (%s)",
                   (unsigned long)count, way);
    return 1;
}

static int write_sectors(uint32_t at, uint32_t count, const char *way)
{
    uint8_t *from = place(), due[512];
    stamp++;
    writes++;
    for (uint32_t i = 0; i < count; i++)
        stamps[at + i] = stamp, conform_fill(from + 512 * i, at + i);
    if (!expect_done("a write", kelifandro_write(&sd, KELIFANDRO_USER, own.first + at, count, from), at, count, way))
        return 0;
    for (uint32_t i = 0; i < count; i++) {
        conform_fill(due, at + i);
        conform_expect(memcmp(due, from + 512 * i, 512) == 0, "The memory of a write isn't changed", "sector %lu of it (%s)", (unsigned long)i, way);
    }
    return 1;
}

/* Whole erase units among these sectors, or on a card that trims just these; where the card erases to another byte than it says that is
   the card's, and not its host's. */
static int erase_sectors(uint32_t at, uint32_t count, const char *way)
{
    uint64_t unit = sd.card.trims ? 1 : sd.card.erase_unit, from = own.first + at;
    uint64_t first = unit ? (from + unit - 1) / unit * unit : 0, end = unit ? (from + count) / unit * unit : 0;
    int32_t result;
    if (first >= end)
        return 1;
    result = sd.card.trims ? kelifandro_trim(&sd, KELIFANDRO_USER, first, end - first) : kelifandro_erase(&sd, KELIFANDRO_USER, first, end - first);
    if (!expect_done("an erase", result, first - own.first, end - first, way))
        return 0;
    for (uint64_t s = first; s < end; s++)
        stamps[s - own.first] = 0;
    if (erases++ == 0 && kelifandro_read(&sd, KELIFANDRO_USER, first, 1, room) == KELIFANDRO_DONE && (room[0] == 0 || room[0] == 0xff))
        erased_byte = room[0];
    return read_sectors((uint32_t)(first - own.first), (uint32_t)(end - first), way);
}

/* One of four has an answer kept back, which the library has to heal and the host to bear: data is given up then. */
static int request(unsigned number)
{
    const char *way = own.host ? conform_take_host_way(number) : conform_take_registers_way(number);
    uint32_t kind = next() % 8, count = next() % 4 ? 1 + next() % LONGEST : 1, at = next() % ((uint32_t)own.count - count + 1);
    uint32_t kept = own.host && next() % 4 == 0 ? 1 + next() % (2 * count + 2) : 0;
    int is_done;
    conform_keep_back(kept);
    is_done = kind < 3 ? read_sectors(at, count, way) : kind < 7 ? write_sectors(at, count, way) : erase_sectors(at, count, way);
    kept_back += conform_keep_back(0) == 0 && kept;
    return is_done;
}

/* All sectors, in runs: written, or read. */
static int all(int (*act)(uint32_t at, uint32_t count, const char *way), const char *way)
{
    int is_done = 1;
    for (uint32_t at = 0; at < own.count && is_done; at += LONGEST)
        is_done = act(at, own.count - at < LONGEST ? (uint32_t)own.count - at : LONGEST, way);
    return is_done;
}

static int opens(const char *when)
{
    int32_t result = kelifandro_open(&sd);
    if (result != KELIFANDRO_DONE)
        judge();
    conform_expect(result == KELIFANDRO_DONE, OPENED, "%s: %s", when, kelifandro_text(result));
    return result == KELIFANDRO_DONE;
}

static void try_all(unsigned long requests)
{
    uint64_t failed;
    if (!opens("at first"))
        return;
    if (own.first > sd.card.user || own.count > sd.card.user - own.first) {
        conform_expect(0, ON_CARD, "%lu from %lu on, and it has %lu", (unsigned long)own.count, (unsigned long)own.first, (unsigned long)sd.card.user);
        return;
    }
    erased_byte = sd.card.erased_byte;
    /* a request, before which the host is told what the opened card is set to */
    expect_done("a read", kelifandro_read(&sd, KELIFANDRO_USER, own.first, 1, room), 0, 1, "at first");
    if (own.host)
        conform_ask_host();
    else
        conform_ask_registers();
    if (!all(write_sectors, "at first") || !all(read_sectors, "at first"))
        return;
    conform_expect(kelifandro_read(&sd, KELIFANDRO_USER, sd.card.user - 1, 1, room) == KELIFANDRO_DONE, LAST, "a read of sector %lu failed",
                   (unsigned long)(sd.card.user - 1));
    if (own.host)
        conform_ask_host_for_data();
    for (unsigned i = 0; i < requests; i++)
        if (!request(i))
            return;
    if (!all(read_sectors, "at the end"))
        return;
    failed = sd.healed.by_answer + sd.healed.by_data + sd.healed.by_status + sd.healed.by_busy + sd.healed.by_recovery;
    printf("%lu reads, %lu writes, %lu erases; %lu answers were kept back, and %lu attempts failed and were healed\n", reads, writes, erases,
           kept_back, (unsigned long)failed);
    kelifandro_close(&sd);
    if (!own.host) {
        conform_tell_registers();
        conform_take_registers_way(2); /* a call a block, by which the card's registers come then */
    }
    if (opens("once more, after kelifandro_close"))
        all(read_sectors, "after it was opened once more");
}

/* A number, or of another word the end of the program. */
static unsigned long number(const char *word)
{
    char *end;
    unsigned long number = strtoul(word, &end, 10);
    if (*word >= '0' && *word <= '9' && !*end)
        return number;
    printf("%s is no number: conform [SEED [REQUESTS]]\n", word);
    exit(2);
}

int main(int words, char **word)
{
    unsigned long requests = words > 2 ? number(word[2]) : 2000;
    state = words > 1 ? (uint32_t)number(word[1]) : 1;
    state += state == 0; /* of 0 come zeros alone */
    own = conform_begin();
    if (!own.host == !own.registers || own.count < LEAST) {
        printf("conform_begin gives a host or registers, and %d sectors at least\n", LEAST);
        return 2;
    }
    own.count = own.count < MOST ? own.count : MOST;
    if (own.host ? conform_wrap_host(&own, &sd) : conform_wrap_registers(&own, &sd))
        try_all(requests);
    judge();
    if (broken)
        printf("rules that aren't kept: %lu\n", broken);
    else
        printf("all is right\n");
    return broken != 0;
}
