/* A queue of so many slots, which is filled by neighbouring writes and emptied by turns, for bench/c: prints how many requests were
   submitted and how many turns were taken.

       queue SLOTS */
#include <stdio.h>
#include <stdlib.h>
#include "card.h"
#include "kelifandro_queue.h"

enum { EACH = 4, ROUNDS = 4 };

static struct card card;
static struct kelifandro_host host;
static struct kelifandro sd;
static struct kelifandro_slot slots[KELIFANDRO_MOST_WAITING];
static struct kelifandro_request requests[KELIFANDRO_MOST_WAITING];
static uint8_t gathered[KELIFANDRO_MOST_TOGETHER * EACH * 512], memory[EACH * 512];
static struct kelifandro_queue queue;

static int fill(void)
{
    int is_right = 1;
    for (uint32_t i = 0; i < queue.count; i++) {
        requests[i] = (struct kelifandro_request){.kind = KELIFANDRO_WRITES, .start = i * EACH, .count = EACH, .memory = memory};
        is_right &= kelifandro_submit(&queue, &requests[i]) == KELIFANDRO_WAITING;
    }
    return is_right;
}

int main(int count, char **words)
{
    unsigned turns = 0;
    int is_right;
    card_begin(&card, 0);
    host = card_host;
    host.context = &card;
    sd.host = &host;
    queue = (struct kelifandro_queue){.card = &sd, .slots = slots, .count = count > 1 ? (size_t)atoi(words[1]) : 1,
                                      .gather = gathered, .gather_sectors = sizeof gathered / 512};
    is_right = kelifandro_open(&sd) == KELIFANDRO_DONE && kelifandro_queue_open(&queue) == KELIFANDRO_DONE;
    for (int i = 0; i < ROUNDS && is_right; i++) {
        is_right = fill();
        for (turns++; kelifandro_turn(&queue); turns++)
            ;
    }
    printf("%u %u\n", ROUNDS * (unsigned)queue.count, turns);
    return !is_right;
}
