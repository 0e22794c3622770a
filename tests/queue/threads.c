/* Four clients and a worker, each a thread: 256 neighbouring writes of 4 KiB, whose answers come by a call or are asked for. First a turn
   is taken whenever sixteen wait, and then whenever one does; the commands are counted. Then all goes at random: few slots, requests that
   are given back, responses that are lost. Each sector has to be right at the end. */
#include <pthread.h>
#include <sched.h>
#include <semaphore.h>
#include <stdio.h>
#include <string.h>
#include <unistd.h>
#include "model.h"

enum { CLIENTS = 4, PIECES = 64, DEEP = 4, EACH = 8, ALL = CLIENTS * PIECES, MOST_JOINED = 48, MOST_ALONE = 768 };

struct piece {
    struct kelifandro_request request;
    uint8_t memory[EACH * 512];
    sem_t answer;
    int is_asked;
};

static struct model model;
static struct kelifandro_slot slots[32];
static uint8_t gathered[DEEP * CLIENTS * EACH * 512];
static struct kelifandro_queue queue;
static pthread_mutex_t mutex = PTHREAD_MUTEX_INITIALIZER;
static sem_t work;
static size_t at_once;  /* how many have to wait before a turn is taken */
static int is_wild, is_over;
static unsigned long given_back[CLIENTS], in_service[CLIENTS], full[CLIENTS];

static void lock(void *context)
{
    pthread_mutex_lock(context);
}

static void unlock(void *context)
{
    pthread_mutex_unlock(context);
}

static void wake(void *context)
{
    (void)context;
    sem_post(&work);
}

/* The card takes its time, in which clients go on. */
static void take_time(void)
{
    usleep(50);
}

static void answered(struct kelifandro_request *request)
{
    sem_post(request->context);
}

/* The byte that all of a sector hold at the end. */
static uint8_t byte_of(unsigned piece, unsigned sector)
{
    return (uint8_t)(1 + (piece * 31 + sector * 7) % 251);
}

static void submit(struct piece *piece, unsigned client)
{
    int32_t result = kelifandro_submit(&queue, &piece->request);
    for (; result == KELIFANDRO_FULL; result = kelifandro_submit(&queue, &piece->request)) {
        full[client]++;
        sched_yield();
    }
    expect(result == KELIFANDRO_WAITING, "a write is refused", (unsigned long)-result);
}

/* Gives it back, and submits it again. */
static void change_mind(struct piece *piece, unsigned client)
{
    int32_t result = kelifandro_cancel(&piece->request);
    if (result == KELIFANDRO_DONE) {
        expect(kelifandro_answer(&piece->request) == KELIFANDRO_GIVEN_BACK, "what is given back has another answer", client);
        given_back[client]++;
        submit(piece, client);
    } else {
        expect(result == KELIFANDRO_IN_SERVICE || result == KELIFANDRO_UNKNOWN, "what giving back answers", client);
        in_service[client]++;
    }
}

static void await(struct piece *piece)
{
    while (piece->is_asked && kelifandro_answer(&piece->request) == KELIFANDRO_WAITING)
        sched_yield();
    if (!piece->is_asked)
        sem_wait(&piece->answer);
    expect(kelifandro_answer(&piece->request) == KELIFANDRO_DONE, "a write isn't done", piece->request.start);
}

static void begin_piece(struct piece *piece, unsigned client, unsigned n, unsigned *seed)
{
    /* one file in turn, or one each */
    unsigned number = is_wild ? client * PIECES + n : n * CLIENTS + client;
    piece->is_asked = n % 2 == 0;
    for (unsigned s = 0; s < EACH; s++)
        memset(piece->memory + 512 * s, byte_of(number, s), 512);
    piece->request = (struct kelifandro_request){
        .kind = KELIFANDRO_WRITES,
        .client = client,
        .start = number * EACH,
        .count = EACH,
        .memory = piece->memory,
        .answered = piece->is_asked ? 0 : answered,
        .context = &piece->answer,
    };
    submit(piece, client);
    if (is_wild && any_of(seed, 3) == 0)
        change_mind(piece, client);
}

static void *client(void *argument)
{
    unsigned own = (unsigned)(size_t)argument, seed = own + 1;
    static struct piece all[CLIENTS][DEEP];
    struct piece *pieces = all[own];
    for (unsigned k = 0; k < DEEP; k++)
        sem_init(&pieces[k].answer, 0, 0);
    for (unsigned n = 0; n < PIECES + DEEP; n++) {
        if (n >= DEEP)
            await(&pieces[n % DEEP]);
        if (n < PIECES)
            begin_piece(&pieces[n % DEEP], own, n, &seed);
    }
    return 0;
}

static void *worker(void *argument)
{
    (void)argument;
    for (;;) {
        sem_wait(&work);
        lock(&mutex);
        int ends = is_over;
        unlock(&mutex);
        if (ends)
            return 0;
        if (kelifandro_unanswered(&queue) >= at_once)
            while (kelifandro_turn(&queue) && at_once == 1)
                ;
    }
}

/* All of it once, over a new card: how many commands it took. */
static unsigned long go(size_t waits, size_t count, size_t gather_sectors)
{
    pthread_t threads[CLIENTS + 1];
    expect(model_begin(&model, &card_host, 0), "the card isn't opened", 0);
    model.seed = is_wild ? 1 : 0;
    model.meanwhile = is_wild ? take_time : 0;
    queue = (struct kelifandro_queue){.card = &model.sd, .slots = slots, .count = count, .gather = gather_sectors ? gathered : 0,
                                      .gather_sectors = gather_sectors, .lock = lock, .unlock = unlock, .wake = wake, .context = &mutex};
    at_once = waits;
    is_over = 0;
    sem_init(&work, 0, 0);
    expect(kelifandro_queue_open(&queue) == KELIFANDRO_DONE, "the queue isn't opened", 0);
    pthread_create(&threads[CLIENTS], 0, worker, 0);
    for (size_t i = 0; i < CLIENTS; i++)
        pthread_create(&threads[i], 0, client, (void *)i);
    for (size_t i = 0; i < CLIENTS; i++)
        pthread_join(threads[i], 0);
    lock(&mutex);
    is_over = 1;
    unlock(&mutex);
    wake(0);
    pthread_join(threads[CLIENTS], 0);
    expect(kelifandro_unanswered(&queue) == 0, "requests without an answer", kelifandro_unanswered(&queue));
    expect(kelifandro_queue_close(&queue) == KELIFANDRO_DONE, "the queue isn't closed", 0);
    for (unsigned s = 0; s < ALL * EACH; s++)
        for (unsigned i = 0; i < 512; i++)
            expect(model.card.user[s][i] == byte_of(s / EACH, s % EACH), "a sector holds something else", s);
    return model.commands;
}

static unsigned long sum(const unsigned long counts[CLIENTS])
{
    unsigned long all = 0;
    for (unsigned i = 0; i < CLIENTS; i++)
        all += counts[i];
    return all;
}

int main(void)
{
    unsigned long joined = go(CLIENTS * DEEP, 32, CLIENTS * DEEP * EACH), alone = go(1, 32, 0), wild;
    printf("threads: %d writes by %d clients: %lu commands where 16 wait, %lu one by one\n", ALL, CLIENTS, joined, alone);
    expect(joined <= MOST_JOINED, "commands where sixteen wait", joined);
    expect(alone == MOST_ALONE, "commands one by one", alone);
    is_wild = 1;
    wild = go(1, 8, 64);
    printf("threads: at random, %lu given back, %lu too late, %lu times full, %lu of %lu attempts failed and healed, %lu commands\n",
           sum(given_back), sum(in_service), sum(full), (unsigned long)(model.sd.healed.by_answer + model.sd.healed.by_data),
           (unsigned long)model.sd.healed.attempts, wild);
    return 0;
}
