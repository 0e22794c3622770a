/* A card over a host controller of one's own: six functions. Here each hands on to a card in memory (c/examples/card.c), and one response
   is lost; in their place a driver tells its controller. What each has to do is said in c/kelifandro.h. */
#include <stdio.h>
#include <string.h>
#include "card.h"

static struct card card;
static int lose_next;

static int send(void *context, const struct kelifandro_command *command, uint32_t response[4])
{
    int fault = card_host.send(context, command, response);
    if (lose_next) {
        lose_next = 0;
        return KELIFANDRO_TIMEOUT;
    }
    return fault;
}

static int read_block(void *context, void *block, size_t length)
{
    return card_host.read_block(context, block, length);
}

static int write_block(void *context, const void *block)
{
    return card_host.write_block(context, block);
}

static int is_busy(void *context, uint32_t microseconds)
{
    return card_host.is_busy(context, microseconds);
}

static void set_ios(void *context, int lines, int high_speed, uint32_t hertz)
{
    card_host.set_ios(context, lines, high_speed, hertz);
}

static void wait_for(void *context, uint32_t microseconds)
{
    card_host.pause(context, microseconds);
}

static const struct kelifandro_host host = {
    .context = &card,
    .lines = 4,
    .high_speed = 1,
    .send = send,
    .read_block = read_block,
    .write_block = write_block,
    .is_busy = is_busy,
    .set_ios = set_ios,
    .pause = wait_for,
};

int main(void)
{
    static struct kelifandro sd = {.host = &host};
    static uint8_t sector[512] = "kept, whatever is lost", back[512];

    card_begin(&card, 0);
    if (kelifandro_open(&sd) != KELIFANDRO_DONE)
        return 1;
    printf("%lu sectors, %d lines\n", (unsigned long)kelifandro_sectors(&sd, KELIFANDRO_USER), sd.card.lines);
    lose_next = 1; /* the card writes, and nobody hears that it does */
    if (kelifandro_write(&sd, KELIFANDRO_USER, 7, 1, sector) != KELIFANDRO_DONE)
        return 1;
    printf("written, after %lu attempts\n", (unsigned long)sd.healed.attempts);
    if (kelifandro_read(&sd, KELIFANDRO_USER, 7, 1, back) != KELIFANDRO_DONE)
        return 1;
    printf("read: %s\n", (const char *)back);
    return memcmp(sector, back, sizeof back) != 0;
}
