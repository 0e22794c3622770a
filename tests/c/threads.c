/* Threads, each with a card of its own, whose calls overlap. Prints how many sectors were written and read, and ends with status 0 where
   none was wrong. */
#include <pthread.h>
#include <stdio.h>
#include <string.h>
#include "card.h"

enum { THREADS = 4, ROUNDS = 2000, RUN = 8 };
static struct card cards[THREADS];
static pthread_barrier_t barrier;

/* Answers how many of its calls did something else than they should. */
static void *work(void *argument)
{
    struct card *card = argument;
    uint8_t own = (uint8_t)(card - cards + 1), data[RUN * 512], back[RUN * 512];
    struct kelifandro_host host = card_host;
    struct kelifandro sd = {.host = &host};
    unsigned long wrong = 0;
    host.context = card;
    card_begin(card, own % 2);
    pthread_barrier_wait(&barrier);
    wrong += kelifandro_open(&sd) != KELIFANDRO_DONE;
    for (unsigned i = 0; i < ROUNDS; i++) {
        memset(data, own * 16 + (int)i % 16, sizeof data);
        wrong += kelifandro_write(&sd, KELIFANDRO_USER, i % 1024, RUN, data) != KELIFANDRO_DONE;
        wrong += kelifandro_read(&sd, KELIFANDRO_USER, i % 1024, RUN, back) != KELIFANDRO_DONE;
        wrong += memcmp(data, back, sizeof data) != 0;
    }
    return (void *)wrong;
}

int main(void)
{
    pthread_t threads[THREADS];
    unsigned long wrong = 0;
    pthread_barrier_init(&barrier, 0, THREADS);
    for (int i = 0; i < THREADS; i++)
        pthread_create(&threads[i], 0, work, &cards[i]);
    for (int i = 0; i < THREADS; i++) {
        void *came;
        pthread_join(threads[i], &came);
        wrong += (unsigned long)came;
    }
    printf("%d threads: %d sectors each written and read, %lu wrong\n", THREADS, ROUNDS * RUN, wrong);
    return wrong != 0;
}
