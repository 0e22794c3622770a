/* Four clients wait, and each answer of the card is lost in turn, or damaged: by each kind of host, of an SD card and an eMMC device, also
   where statuses lag. All four are done, and each sector is right. Then a sector is bad: only who names it fails. */
#include <stdio.h>
#include <string.h>
#include "model.h"

enum { CLIENTS = 4, EACH = 4, FIRST = 8, SLOTS = 5 };

static struct model model;
static struct kelifandro_slot slots[SLOTS];
static uint8_t gathered[CLIENTS * EACH * 512], memory[CLIENTS][EACH * 512];
static struct kelifandro_request requests[CLIENTS];
static struct kelifandro_queue queue;
static unsigned long lost_answers, healed;

static void ask(unsigned client, unsigned kind, unsigned part, uint32_t start)
{
    requests[client] = (struct kelifandro_request){
        .kind = (uint8_t)kind, .part = (uint8_t)part, .client = client, .start = start, .count = EACH, .memory = memory[client]};
    memset(memory[client], 0x10 + (int)client, sizeof memory[client]);
    expect(kelifandro_submit(&queue, &requests[client]) == KELIFANDRO_WAITING, "a request is refused", client);
}

static void begin(const struct kelifandro_host *host, int is_emmc)
{
    expect(model_begin(&model, host, is_emmc), "the card isn't opened", 0);
    queue = (struct kelifandro_queue){
        .card = &model.sd, .slots = slots, .count = SLOTS, .gather = gathered, .gather_sectors = sizeof gathered / 512};
    expect(kelifandro_queue_open(&queue) == KELIFANDRO_DONE, "the queue isn't opened", 0);
}

static unsigned take_turns(void)
{
    unsigned turns = 1;
    for (; kelifandro_turn(&queue); turns++)
        expect(turns < 100, "turns never end", turns);
    return turns;
}

static int holds(const uint8_t sectors[][512], uint32_t start, uint8_t byte)
{
    for (uint32_t i = 0; i < EACH * 512; i++)
        if (sectors[start + i / 512][i % 512] != byte)
            return 0;
    return 1;
}

/* Two neighbouring writes, a read of what the first of them writes, and an erase of other sectors, or a write of a boot partition. One
   answer is lost: whether there was one so late. */
static int lose(const struct kelifandro_host *host, int is_emmc, unsigned long lost, int is_damaged, unsigned late)
{
    begin(host, is_emmc);
    memset(model.card.user[64], 0xff, EACH * 512);
    model.card.lost = lost;
    model.card.is_damaged = is_damaged;
    model.card.late = late;
    ask(0, KELIFANDRO_WRITES, KELIFANDRO_USER, FIRST);
    ask(1, KELIFANDRO_WRITES, KELIFANDRO_USER, FIRST + EACH);
    ask(2, KELIFANDRO_READS, KELIFANDRO_USER, FIRST);
    if (is_emmc)
        ask(3, KELIFANDRO_WRITES, KELIFANDRO_BOOT1, 0);
    else
        ask(3, KELIFANDRO_ERASES, KELIFANDRO_USER, 64);
    memset(memory[2], 0xee, sizeof memory[2]);
    take_turns();
    for (unsigned i = 0; i < CLIENTS; i++)
        expect(requests[i].result == KELIFANDRO_DONE, "a request fails by one answer that was lost", lost);
    expect(holds(model.card.user, FIRST, 0x10) && holds(model.card.user, FIRST + EACH, 0x11), "what was written", lost);
    expect(memcmp(memory[2], memory[0], sizeof memory[2]) == 0, "what was read", lost);
    expect(is_emmc ? holds(model.card.boot[0], 0, 0x13) : holds(model.card.user, 64, 0), "what the fourth did", lost);
    healed += model.sd.healed.settlings != 0;
    return model.card.answers > lost;
}

static void lose_each(const struct kelifandro_host *host)
{
    for (unsigned way = 0; way < 8; way++) {
        unsigned long lost = 0;
        while (lose(host, way & 1, lost, way >> 1 & 1, way & 4 ? 2 : 0))
            lost++;
        lost_answers += lost;
    }
}

/* Four neighbours, one of which names a sector that can't be written. */
static void meet_a_bad_sector(unsigned whose)
{
    unsigned turns;
    begin(&card_host, 0);
    model.bad = FIRST + whose * EACH + 1;
    for (unsigned i = 0; i < CLIENTS; i++)
        ask(i, KELIFANDRO_WRITES, KELIFANDRO_USER, FIRST + i * EACH);
    expect(kelifandro_turn(&queue) == CLIENTS, "a group fails, and is answered", whose);
    expect(model.sd.healed.attempts == 2, "attempts of a group", (unsigned)model.sd.healed.attempts);
    expect(kelifandro_cancel(&requests[whose]) == KELIFANDRO_IN_SERVICE, "one that is to be served alone is given back", whose);
    turns = take_turns();
    expect(turns == CLIENTS, "a turn for each that is served alone", turns);
    expect(model.sd.healed.attempts == 2 + 4 + CLIENTS - 1, "attempts of each alone", (unsigned)model.sd.healed.attempts);
    for (unsigned i = 0; i < CLIENTS; i++) {
        expect(requests[i].result == (i == whose ? KELIFANDRO_FAILED_DATA : KELIFANDRO_DONE), "who fails", i);
        expect(i == whose || holds(model.card.user, FIRST + i * EACH, (uint8_t)(0x10 + i)), "what was written beside a bad sector", i);
    }
}

int main(void)
{
    lose_each(&card_host);
    lose_each(&whole_host);
    lose_each(&transfer_host);
    for (unsigned i = 0; i < CLIENTS; i++)
        meet_a_bad_sector(i);
    printf("lost: %lu answers lost or damaged in turn, %lu times the card was settled, all requests done and each sector right\n",
           lost_answers, healed);
    printf("lost: of four neighbours only who names a bad sector fails\n");
    return 0;
}
