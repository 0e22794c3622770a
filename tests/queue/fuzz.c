/* The four calls of the library over slots of any bytes, as the queue makes them, under the address sanitizer: each returns, none reads or
   writes past the slots, and each answers what it may. Half of the slots' bytes are small numbers, so that requests meet; and half of the
   cards are known, with registers that are all 0 but for their checks.

       fuzz N    so many rounds */
#include <stdio.h>
#include <stdlib.h>
#include <string.h>
#include "model.h"
#include "kelifandro_core.h"

enum { FREE, WAITS, IN_SERVICE, ALONE };

static unsigned seed = 1;
static struct kelifandro_slot *slots, *before;
static size_t count;
static unsigned long started, concluded, waiting, given_back;

static uint64_t any_number(void)
{
    uint64_t number = (uint64_t)any_of(&seed, 1 << 22) << 44 ^ (uint64_t)any_of(&seed, 1 << 22) << 22 ^ any_of(&seed, 1 << 22);
    return any_of(&seed, 2) ? number : number % 8;
}

static void fill(void *room, size_t length)
{
    uint8_t *bytes = room;
    for (size_t i = 0; i < length; i++)
        bytes[i] = (uint8_t)any_number();
}

/* Slots of any bytes, and nothing after them. */
static void begin(void)
{
    int is_small = any_of(&seed, 2);
    count = any_of(&seed, 4) ? any_of(&seed, 20) + 1 : any_of(&seed, 257);
    slots = malloc(count * sizeof *slots + !count);
    before = malloc(count * sizeof *slots + !count);
    fill(slots, count * sizeof *slots);
    for (size_t i = 0; is_small && i < count; i++) {
        slots[i].start = any_of(&seed, 32);
        slots[i].count = any_of(&seed, 4);
        slots[i].state = any_of(&seed, 5);
        slots[i].kind = any_of(&seed, 3);
        slots[i].part = any_of(&seed, 2);
    }
    memcpy(before, slots, count * sizeof *slots);
}

static size_t count_in(const struct kelifandro_slot *all, unsigned state)
{
    size_t found = 0;
    for (size_t i = 0; i < count; i++)
        found += all[i].state == state;
    return found;
}

static int is_unchanged(void)
{
    return memcmp(before, slots, count * sizeof *slots) == 0;
}

/* The sectors of those that have begun. */
static uint64_t sectors_begun(void)
{
    uint64_t sum = 0;
    for (size_t i = 0; i < count; i++)
        if (slots[i].state == IN_SERVICE && before[i].state != IN_SERVICE)
            sum += slots[i].count;
    return sum;
}

static void start(void)
{
    struct kelifandro_asked *asked = malloc(sizeof *asked);
    size_t waits = count_in(before, WAITS), alone = count_in(before, ALONE), served = count_in(before, IN_SERVICE);
    uint64_t most = any_number();
    uint8_t result = kelifandro_start_by(slots, count, most, asked);
    size_t joined = count_in(slots, IN_SERVICE) - served;
    expect(result == (waits + alone != 0), "whether something has begun", result);
    expect(result || is_unchanged(), "nothing begins, and something changes", count);
    expect(!result || (joined >= 1 && joined <= 16), "how many have begun", joined);
    expect(!result || joined == 1 || asked->count <= (most < 1024 ? most : 1024), "how many sectors are joined", joined);
    expect(!result || asked->count == sectors_begun(), "how many sectors are asked for", joined);
    expect(!result || !alone || (joined == 1 && count_in(slots, ALONE) == alone - 1), "one that is to be served alone", joined);
    free(asked);
    started += result;
}

static void conclude(void)
{
    size_t served = count_in(before, IN_SERVICE), alone = count_in(before, ALONE), taken = count - count_in(before, FREE);
    uint8_t is_done = (uint8_t)any_number(), result = kelifandro_conclude_by(slots, count, is_done);
    expect(result == (is_done || served < 2), "whether there are answers", result);
    expect(count_in(slots, IN_SERVICE) == 0, "something is in service still", 0);
    expect(count_in(slots, ALONE) == alone + (result ? 0 : served), "what is to be served alone", served);
    expect(count - count_in(slots, FREE) == taken - (result ? served : 0), "what leaves", served);
    concluded += result;
}

static void submit(void)
{
    struct kelifandro_card *card = malloc(sizeof *card);
    struct kelifandro_asked *asked = malloc(sizeof *asked);
    uint64_t *next = malloc(sizeof *next), ticket = *next = any_number();
    size_t taken = count - count_in(before, FREE);
    int32_t result;
    fill(card, sizeof *card);
    if (any_of(&seed, 2))
        *card = (struct kelifandro_card){.state = 1 + any_of(&seed, 3), .kind = 1, .lines = 4, .addressing = 1, .cid = {[15] = 1},
                                         .csd = {[15] = 1}, .user = 1024, .erase_unit = 1 + any_of(&seed, 8)};
    *asked = (struct kelifandro_asked){any_number() & 0xffffffff, any_number() & 0xffffffff, any_number() & 0xff, (uint16_t)any_of(&seed, 4), 0};
    if (any_of(&seed, 2))
        *asked = (struct kelifandro_asked){any_of(&seed, 1100), any_of(&seed, 20), 0, (uint16_t)any_of(&seed, 4), 0};
    result = kelifandro_submit_by(card, slots, count, next, asked, (uint32_t)any_number(), any_number());
    expect(result == KELIFANDRO_WAITING || (result <= KELIFANDRO_NOT_OPEN && result >= KELIFANDRO_FULL), "an answer to a submission",
           (unsigned long)-result);
    expect(*next == ticket + (result == KELIFANDRO_WAITING), "the next ticket", 0);
    expect(count - count_in(slots, FREE) == taken + (result == KELIFANDRO_WAITING), "how many are taken", taken);
    expect(result != KELIFANDRO_FULL || taken == count || ticket == UINT64_MAX, "full", taken);
    free(card);
    free(asked);
    free(next);
    waiting += result == KELIFANDRO_WAITING;
}

static void cancel(void)
{
    uint64_t ticket = count && any_of(&seed, 4) ? slots[any_of(&seed, (unsigned)count)].ticket : any_number();
    int32_t result = kelifandro_cancel_by(slots, count, ticket);
    expect(result == KELIFANDRO_DONE || result == KELIFANDRO_UNKNOWN || result == KELIFANDRO_IN_SERVICE, "what giving back answers",
           (unsigned long)-result);
    expect(result == KELIFANDRO_DONE || is_unchanged(), "nothing is given back, and something changes", 0);
    expect(count_in(slots, WAITS) == count_in(before, WAITS) - (result == KELIFANDRO_DONE), "how many are given back", 0);
    given_back += result == KELIFANDRO_DONE;
}

int main(int words, char **word)
{
    static void (*const calls[])(void) = {start, conclude, submit, cancel};
    unsigned long rounds = words > 1 ? strtoul(word[1], 0, 10) : 20000;
    for (unsigned long i = 0; i < rounds; i++) {
        begin();
        calls[i % 4]();
        free(slots);
        free(before);
    }
    printf("fuzz: %lu calls over slots of any bytes: %lu groups began, %lu ended, %lu requests accepted, %lu given back\n", rounds, started,
           concluded, waiting, given_back);
    return 0;
}
