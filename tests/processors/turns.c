/* Two cards in turns: while a program makes calls for one, an interrupt makes calls for the other. For a Cortex-M, by its SysTick timer. */
#include <stdint.h>
#include <stdio.h>
#include <string.h>
#include "card.h"

/* Armv7-M Architecture Reference Manual, section B3.3. */
#define SYSTICK_CONTROL (*(volatile uint32_t *)0xe000e010u)
#define SYSTICK_RELOAD (*(volatile uint32_t *)0xe000e014u)
enum { ENABLED_WITH_INTERRUPT = 7, CYCLES = 100000 };

enum { RUN = 4, ROUNDS = 200 };

struct side {
    struct card card;
    struct kelifandro_host host;
    struct kelifandro sd;
    uint8_t data[RUN * 512], back[RUN * 512];
    unsigned rounds, wrong;
};
static struct side program, interrupt;
static volatile int is_calling;
static unsigned within;

static void begin(struct side *side, int is_emmc)
{
    card_begin(&side->card, is_emmc);
    side->host = card_host;
    side->host.context = &side->card;
    side->sd.host = &side->host;
    side->wrong += kelifandro_open(&side->sd) != KELIFANDRO_DONE;
}

static void write_and_read(struct side *side, unsigned own)
{
    unsigned start = side->rounds++ % 1024;
    memset(side->data, (int)(own + side->rounds % 100), sizeof side->data);
    side->wrong += kelifandro_write(&side->sd, KELIFANDRO_USER, start, RUN, side->data) != KELIFANDRO_DONE;
    side->wrong += kelifandro_read(&side->sd, KELIFANDRO_USER, start, RUN, side->back) != KELIFANDRO_DONE;
    side->wrong += memcmp(side->data, side->back, sizeof side->back) != 0;
}

void tick(void)
{
    within += is_calling;
    write_and_read(&interrupt, 100);
}

int main(void)
{
    begin(&program, 0);
    begin(&interrupt, 1);
    SYSTICK_RELOAD = CYCLES;
    SYSTICK_CONTROL = ENABLED_WITH_INTERRUPT;
    while (*(volatile unsigned *)&interrupt.rounds < ROUNDS) {
        is_calling = 1;
        write_and_read(&program, 0);
        is_calling = 0;
    }
    SYSTICK_CONTROL = 0;
    printf("%u calls of an interrupt, %s of them within a call\n", 2 * interrupt.rounds, within > ROUNDS / 2 ? "most" : "few");
    printf("%u wrong\n", program.wrong + interrupt.wrong);
    return 0;
}
