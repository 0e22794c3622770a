#include <stdio.h>
#include <stdlib.h>
#include <string.h>
#include "power.h"

static const unsigned long WITHOUT_END = ~0ul;

void expect(int is_so, const char *what, unsigned long n)
{
    if (!is_so) {
        printf("wrong: %s (%lu)\n", what, n);
        exit(1);
    }
}

/* Whether the card hears a call, and whether it's answered. */
static int hears(const struct powered *powered)
{
    return powered->left > 0;
}

static int answers(struct powered *powered)
{
    if (powered->left != WITHOUT_END)
        powered->left--;
    return powered->left > 0;
}

static int send(void *context, const struct kelifandro_command *command, uint32_t response[4])
{
    struct powered *powered = context;
    int fault = hears(powered) ? card_host.send(&powered->card, command, response) : KELIFANDRO_TIMEOUT;
    return !hears(powered) || !answers(powered) ? KELIFANDRO_TIMEOUT : fault;
}

static int read_block(void *context, void *block, size_t length)
{
    struct powered *powered = context;
    return !hears(powered) || !answers(powered) ? 2 : card_host.read_block(&powered->card, block, length);
}

/* The block that power is lost at is on the card, or it isn't. */
static int write_block(void *context, const void *block)
{
    struct powered *powered = context;
    int is_last = powered->left == 1, got = 2;
    if (hears(powered) && !(is_last && powered->card.answers % 2))
        got = card_host.write_block(&powered->card, block);
    return !hears(powered) || !answers(powered) ? 2 : got;
}

static int is_busy(void *context, uint32_t microseconds)
{
    struct powered *powered = context;
    return !hears(powered) || !answers(powered) ? 0 : card_host.is_busy(&powered->card, microseconds);
}

static void set_ios(void *context, int lines, int high_speed, uint32_t hertz)
{
    struct powered *powered = context;
    card_host.set_ios(&powered->card, lines, high_speed, hertz);
}

static void wait_for(void *context, uint32_t microseconds)
{
    (void)context, (void)microseconds;
}

void power_begin(struct powered *powered, int is_emmc)
{
    card_begin(&powered->card, is_emmc);
    powered->host = (struct kelifandro_host){
        .context = powered, .lines = 4, .high_speed = 1, .send = send, .read_block = read_block, .write_block = write_block,
        .is_busy = is_busy, .set_ios = set_ios, .pause = wait_for,
    };
    powered->left = WITHOUT_END;
}

void power_again(struct powered *powered)
{
    static uint8_t user[USER_SECTORS][512];
    memcpy(user, powered->card.user, sizeof user);
    power_begin(powered, powered->card.is_emmc);
    memcpy(powered->card.user, user, sizeof user);
}
