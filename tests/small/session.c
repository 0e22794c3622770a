/* A small library does what the whole one does: an SD card and an eMMC device, by a host and by registers, are opened and read, written
   and erased as far as the library has that, and each answer is lost in turn. Prints a line for each: what was answered, what was counted,
   and a sum over what was read and what the card holds. tests/small/run compares the lines with those of the whole library. A card of a kind
   that isn't served isn't found. */
#include <stdio.h>
#include <string.h>
#include "controller.h"

enum { RUN = 4 };
static struct card card;
static struct controller controller;
static struct kelifandro_host host;
static struct kelifandro_registers registers;
static struct kelifandro sd;
static uint8_t data[RUN * 512];

static uint32_t sum(const uint8_t *bytes, size_t n)
{
    uint32_t sum = 1;
    for (size_t i = 0; i < n; i++)
        sum = sum * 31 + bytes[i];
    return sum;
}

/* CMD1 to an SD card, which has no such command, isn't counted: a library without eMMC devices doesn't ask. */
static unsigned long in_vain;

static int send(void *context, const struct kelifandro_command *command, uint32_t response[4])
{
    in_vain += command->index == 1 && !card.is_emmc;
    return card_host.send(context, command, response);
}

static void begin(int is_emmc, int by_registers)
{
    in_vain = 0;
    card_begin(&card, is_emmc);
    for (size_t i = 0; i < sizeof card.user; i++)
        card.user[i / 512][i % 512] = (uint8_t)(i * 7 + i / 512);
    host = card_host;
    host.context = &card;
    host.send = send;
    controller_begin(&controller, &host, 0);
    controller.capabilities = 1u << 24 | 1u << 21 | 1u << 18 | 50 << 8;
    registers = controller_registers;
    registers.context = &controller;
    memset(&sd, 0, sizeof sd);
    if (by_registers)
        sd.registers = &registers;
    else
        sd.host = &host;
}

static void tell(const char *what, int is_emmc, int by_registers, unsigned long lost, int32_t result)
{
    printf("%s by %s, %ld lost: %s: %d, %lu answers, %d attempts, %d resets, %08x %08x\n", is_emmc ? "eMMC" : "SD",
           by_registers ? "registers" : "a host", (long)lost, what, (int)result, card.answers - in_vain, (int)sd.healed.attempts,
           (int)sd.healed.resets, (unsigned)sum(data, sizeof data), (unsigned)sum(card.user[0], 64 * 512));
}

static unsigned long session(int is_emmc, int by_registers, unsigned long lost)
{
    begin(is_emmc, by_registers);
    card.lost = lost;
    memset(data, 0, sizeof data);
    tell("open", is_emmc, by_registers, lost, kelifandro_open(&sd));
    tell("read", is_emmc, by_registers, lost, kelifandro_read(&sd, KELIFANDRO_USER, 7, RUN, data));
    if (is_emmc)
        tell("boot", is_emmc, by_registers, lost, kelifandro_read(&sd, KELIFANDRO_BOOT2, 3, 2, data));
#ifndef KELIFANDRO_WITHOUT_WRITE
    tell("write", is_emmc, by_registers, lost, kelifandro_write(&sd, KELIFANDRO_USER, 9, RUN, data));
#ifndef KELIFANDRO_WITHOUT_ERASE
    tell("erase", is_emmc, by_registers, lost, (is_emmc ? kelifandro_trim : kelifandro_erase)(&sd, KELIFANDRO_USER, 8, 2));
#endif
#endif
    return card.answers;
}

/* Whether a card of this kind, that works, isn't found, and what was kept of one isn't believed. */
static int is_left_alone(int is_emmc, int by_registers)
{
    begin(is_emmc, by_registers);
    int is_lost = kelifandro_open(&sd) == KELIFANDRO_NO_CARD;
    sd.card.state = 1;
    sd.card.kind = (uint8_t)is_emmc;
    return is_lost && kelifandro_read(&sd, KELIFANDRO_USER, 0, 1, data) == KELIFANDRO_NOT_OPEN && !kelifandro_sectors(&sd, KELIFANDRO_USER);
}

static void requests(unsigned n)
{
    kelifandro_read(&sd, (enum kelifandro_part)(n % 9), n % 3, 1, data);
#ifndef KELIFANDRO_WITHOUT_WRITE
    kelifandro_write(&sd, KELIFANDRO_USER, n % 2048, 1, data);
#ifndef KELIFANDRO_WITHOUT_ERASE
    kelifandro_erase(&sd, KELIFANDRO_USER, 0, 1024);
#endif
#endif
}

/* A record of any bytes does no harm: in turn each bit of one that was noted is another one, and then all are of any kind. */
static void any_records(int is_emmc, int by_registers)
{
    uint8_t noted[sizeof sd.card], *record = (uint8_t *)&sd.card;
    uint32_t any = 1;
    begin(is_emmc, by_registers);
    kelifandro_open(&sd);
    memcpy(noted, record, sizeof noted);
    for (unsigned bit = 0; bit < 8 * sizeof noted; bit++) {
        memcpy(record, noted, sizeof noted);
        record[bit / 8] ^= (uint8_t)(1 << bit % 8);
        requests(bit);
    }
    for (unsigned n = 0; n < 4000; n++) {
        for (size_t i = 0; i < sizeof noted; i++)
            record[i] = (uint8_t)((any = any * 1664525u + 1013904223u) >> 24);
        record[0] %= 4;
        requests(n);
    }
}

int main(void)
{
#ifdef KELIFANDRO_WITHOUT_HOST
    int first = 1, last = 1;
#elif defined KELIFANDRO_WITHOUT_REGISTERS
    int first = 0, last = 0;
#else
    int first = 0, last = 1;
#endif
#ifdef KELIFANDRO_WITHOUT_SD
    int unserved = 0;
#elif defined KELIFANDRO_WITHOUT_MMC
    int unserved = 1;
#else
    int unserved = 2;
#endif
    for (int by_registers = first; by_registers <= last; by_registers++)
        for (int is_emmc = 0; is_emmc < 2; is_emmc++) {
            any_records(is_emmc, by_registers);
            if (is_emmc == unserved) {
                if (!is_left_alone(is_emmc, by_registers))
                    return 1;
                continue;
            }
            unsigned long answers = session(is_emmc, by_registers, ~0ul);
            for (unsigned long lost = 0; lost < answers; lost++)
                session(is_emmc, by_registers, lost);
        }
    return 0;
}
