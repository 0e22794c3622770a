/* A queue without an operating system: an interrupt submits reads and writes, and gives some back, while the main loop takes turns; the
   lock is the switch of the processor's interrupts. For a Cortex-M, by its SysTick timer. Each request has one answer, though some of the
   card's are lost; a read gives what the writes before it have left, and in the end the card holds what all of them have. */
#include <stdint.h>
#include <stdio.h>
#include <string.h>
#include "card.h"
#include "kelifandro_queue.h"

/* Armv7-M Architecture Reference Manual, section B3.3. */
#define SYSTICK_CONTROL (*(volatile uint32_t *)0xe000e010u)
#define SYSTICK_RELOAD (*(volatile uint32_t *)0xe000e014u)
enum { ENABLED_WITH_INTERRUPT = 7, CYCLES = 4000 };

enum { REQUESTS = 24, SLOTS = 16, SECTORS = 64, LONGEST = 4, AT_A_TIME = 4, TICKS = 4000, LOST_EVERY = 200 };

/* A request of the interrupt's, and what a read has to give. */
struct piece {
    struct kelifandro_request request;
    uint8_t memory[LONGEST * 512], wanted[LONGEST];
    volatile int is_waiting;
};

static struct card card;
static struct kelifandro_host host;
static struct kelifandro sd;
static struct kelifandro_slot slots[SLOTS];
static uint8_t gathered[SECTORS * 512];
static struct kelifandro_queue queue;
static struct piece pieces[REQUESTS];
static uint8_t wanted[SECTORS]; /* what each sector holds once all is served */
static uint8_t next_byte;
static uint32_t masked;
static unsigned seed = 1;
static volatile unsigned ticks, within, accepted, full, given_back;
static unsigned answers, wrong;

static unsigned any_of(unsigned n)
{
    seed = seed * 1664525u + 1013904223u;
    return (seed >> 8) % n;
}

/* Interrupts are off, and were so before where the interrupt itself takes it. */
static void lock(void *context)
{
    uint32_t before;
    (void)context;
    __asm__ volatile("mrs %0, primask\n\tcpsid i" : "=r"(before)::"memory");
    masked = before;
}

static void unlock(void *context)
{
    (void)context;
    __asm__ volatile("msr primask, %0" ::"r"(masked) : "memory");
}

static int is_all(const uint8_t *sector, uint8_t byte)
{
    for (unsigned i = 0; i < 512; i++)
        if (sector[i] != byte)
            return 0;
    return 1;
}

/* In the main loop, where the interrupt may come. */
static void answered(struct kelifandro_request *request)
{
    struct piece *piece = request->context;
    answers++;
    wrong += !piece->is_waiting || request->result != KELIFANDRO_DONE;
    for (unsigned i = 0; request->kind == KELIFANDRO_READS && i < request->count; i++)
        wrong += !is_all(piece->memory + 512 * i, piece->wanted[i]);
    piece->is_waiting = 0;
}

static void begin_piece(struct piece *piece)
{
    uint32_t start = any_of(SECTORS - LONGEST + 1), count = 1 + any_of(LONGEST);
    uint8_t kind = any_of(3) ? KELIFANDRO_WRITES : KELIFANDRO_READS;
    next_byte++;
    memset(piece->memory, next_byte, sizeof piece->memory);
    memcpy(piece->wanted, wanted + start, sizeof piece->wanted);
    piece->request = (struct kelifandro_request){.kind = kind, .start = start, .count = count, .memory = piece->memory,
                                                 .answered = answered, .context = piece};
}

static void submit(struct piece *piece)
{
    int32_t result;
    begin_piece(piece);
    result = kelifandro_submit(&queue, &piece->request);
    wrong += result != KELIFANDRO_WAITING && result != KELIFANDRO_FULL;
    full += result == KELIFANDRO_FULL;
    if (result != KELIFANDRO_WAITING)
        return;
    accepted++;
    piece->is_waiting = 1;
    if (piece->request.kind == KELIFANDRO_WRITES)
        memset(wanted + piece->request.start, next_byte, piece->request.count);
}

/* Gives a read back, where it isn't in service, nor has an answer that `answered` is about to tell of. */
static void give_back(struct piece *piece)
{
    int32_t result = kelifandro_cancel(&piece->request);
    wrong += result != KELIFANDRO_DONE && result != KELIFANDRO_IN_SERVICE && result != KELIFANDRO_UNKNOWN;
    if (result != KELIFANDRO_DONE)
        return;
    given_back++;
    piece->is_waiting = 0;
}

void tick(void)
{
    unsigned submitted = 0;
    if (ticks == TICKS)
        return;
    ticks++;
    within += queue.is_turning;
    for (unsigned i = 0; i < REQUESTS; i++) {
        struct piece *piece = &pieces[i];
        if (!piece->is_waiting && submitted++ < AT_A_TIME)
            submit(piece);
        else if (piece->is_waiting && piece->request.kind == KELIFANDRO_READS && any_of(16) == 0)
            give_back(piece);
    }
}

static void begin(void)
{
    card_begin(&card, 0);
    host = card_host;
    host.context = &card;
    sd.host = &host;
    wrong += kelifandro_open(&sd) != KELIFANDRO_DONE;
    queue = (struct kelifandro_queue){.card = &sd, .slots = slots, .count = SLOTS, .gather = gathered, .gather_sectors = SECTORS,
                                      .lock = lock, .unlock = unlock};
    wrong += kelifandro_queue_open(&queue) != KELIFANDRO_DONE;
    card.lost = card.answers + LOST_EVERY;
    SYSTICK_RELOAD = CYCLES;
    SYSTICK_CONTROL = ENABLED_WITH_INTERRUPT;
}

int main(void)
{
    begin();
    while (ticks < TICKS || kelifandro_unanswered(&queue)) {
        if (card.answers > card.lost)
            card.lost += LOST_EVERY;
        if (!kelifandro_turn(&queue))
            __asm__ volatile("wfi");
    }
    SYSTICK_CONTROL = 0;
    for (unsigned s = 0; s < SECTORS; s++)
        wrong += !is_all(card.user[s], wanted[s]);
    wrong += answers + given_back != accepted || kelifandro_queue_close(&queue) != KELIFANDRO_DONE;
    printf("%u requests of an interrupt, %s of them within a turn, %u given back, %u times full, %u answers lost\n", accepted,
           within > TICKS / 2 ? "most" : "few", given_back, full, (unsigned)(sd.healed.by_answer + sd.healed.by_data));
    printf("%u wrong\n", wrong);
    return 0;
}
