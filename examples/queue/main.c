/* Two clients write to one card at the same time, each a thread, and a worker serves them. What one has is between what the other has, so
   the queue joins neighbours: sixteen requests become one write. The card is one in memory (c/examples/card.c); with a card of yours
   nothing else changes here. c/kelifandro_queue.h says what each call does. */
#include <pthread.h>
#include <semaphore.h>
#include <stdatomic.h>
#include <stdio.h>
#include <stdlib.h>
#include <string.h>
#include "card.h"
#include "kelifandro_queue.h"

enum { CLIENTS = 2, PIECES = 8, SECTORS = 8, SIZE = SECTORS * 512 };

static struct card card;
static struct kelifandro sd;
static struct kelifandro_slot slots[32];
static uint8_t gathered[CLIENTS * PIECES * SIZE];
static pthread_mutex_t mutex = PTHREAD_MUTEX_INITIALIZER;
static sem_t work;
static atomic_int is_over;
static pthread_barrier_t all_wait;

static void lock(void *context)
{
    (void)context;
    pthread_mutex_lock(&mutex);
}

static void unlock(void *context)
{
    (void)context;
    pthread_mutex_unlock(&mutex);
}

static void wake(void *context)
{
    (void)context;
    sem_post(&work);
}

static struct kelifandro_queue queue = {
    .card = &sd,
    .slots = slots,
    .count = sizeof slots / sizeof *slots,
    .gather = gathered,
    .gather_sectors = sizeof gathered / 512,
    .lock = lock,
    .unlock = unlock,
    .wake = wake,
};

/* The worker calls this once a request has its answer. */
static void answered(struct kelifandro_request *request)
{
    sem_post(request->context);
}

/* A client submits all that it has, and waits for the answers. */
static void *client(void *argument)
{
    static uint8_t memory[CLIENTS][PIECES][SIZE];
    unsigned own = (unsigned)(size_t)argument, done = 0;
    struct kelifandro_request requests[PIECES];
    sem_t answers;
    sem_init(&answers, 0, 0);
    for (unsigned i = 0; i < PIECES; i++) {
        memset(memory[own][i], 'a' + (int)own, SIZE);
        requests[i] = (struct kelifandro_request){
            .kind = KELIFANDRO_WRITES,
            .part = KELIFANDRO_USER,
            .start = (CLIENTS * i + own) * SECTORS,
            .count = SECTORS,
            .memory = memory[own][i],
            .answered = answered,
            .context = &answers,
        };
        if (kelifandro_submit(&queue, &requests[i]) != KELIFANDRO_WAITING)
            exit(1); /* it was refused; KELIFANDRO_FULL says that it may be submitted again later */
    }
    pthread_barrier_wait(&all_wait);
    for (unsigned i = 0; i < PIECES; i++)
        sem_wait(&answers);
    for (unsigned i = 0; i < PIECES; i++)
        done += requests[i].result == KELIFANDRO_DONE;
    return (void *)(size_t)done;
}

/* The worker takes turns until nothing waits, and sleeps until somebody submits something, or all is over. */
static void *worker(void *argument)
{
    pthread_barrier_wait(&all_wait); /* for this example alone: both clients have submitted all, so it tells the same each time */
    while (!atomic_load(&is_over)) {
        sem_wait(&work);
        while (kelifandro_turn(&queue))
            ;
    }
    return argument;
}

int main(void)
{
    static struct kelifandro_host host;
    pthread_t threads[CLIENTS], served;
    uint8_t sector[512];

    card_begin(&card, 0);
    host = card_host;
    host.context = &card;
    sd.host = &host;
    if (kelifandro_open(&sd) != KELIFANDRO_DONE || kelifandro_queue_open(&queue) != KELIFANDRO_DONE)
        return 1;
    sem_init(&work, 0, 0);
    pthread_barrier_init(&all_wait, 0, CLIENTS + 1);
    pthread_create(&served, 0, worker, 0);
    for (size_t i = 0; i < CLIENTS; i++)
        pthread_create(&threads[i], 0, client, (void *)i);
    for (size_t i = 0; i < CLIENTS; i++) {
        void *done;
        pthread_join(threads[i], &done);
        printf("client %u: %u of %d requests done\n", (unsigned)i, (unsigned)(size_t)done, PIECES);
    }
    atomic_store(&is_over, 1);
    wake(0);
    pthread_join(served, 0);
    kelifandro_queue_close(&queue);
    printf("%lu request of the card for all of them\n", (unsigned long)sd.healed.attempts);
    for (unsigned s = 0; s < 4 * SECTORS; s += SECTORS) {
        if (kelifandro_read(&sd, KELIFANDRO_USER, s, 1, sector) != KELIFANDRO_DONE)
            return 1;
        printf("sector %2u: %.4s..\n", s, (const char *)sector);
    }
    return 0;
}
