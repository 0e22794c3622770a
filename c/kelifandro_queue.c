/* What stands between C and the proved queue: pointers, the lock, and the copies of requests that are served together. */
#include "kelifandro_queue.h"
#include "kelifandro_core.h"

/* A board may have them without a C library's headers. */
void *memcpy(void *to, const void *from, size_t n);
void *memset(void *to, int byte, size_t n);

enum { BLOCK = 512, FREE = 0, IN_SERVICE = 2 };

/* A small library is built without some kinds (c/build --without). */
#if defined KELIFANDRO_WITHOUT_WRITE
enum { LAST_KIND = KELIFANDRO_READS };
#elif defined KELIFANDRO_WITHOUT_ERASE
enum { LAST_KIND = KELIFANDRO_WRITES };
#else
enum { LAST_KIND = KELIFANDRO_TRIMS };
#endif

/* Called without the lock, once the answer stands: after that nothing of a request is looked at. */
typedef void called_back(struct kelifandro_request *request);

static void lock(const struct kelifandro_queue *queue)
{
    if (queue->lock)
        queue->lock(queue->context);
}

static void unlock(const struct kelifandro_queue *queue)
{
    if (queue->unlock)
        queue->unlock(queue->context);
}

static struct kelifandro_request *request_in(const struct kelifandro_slot *slot)
{
    return (struct kelifandro_request *)(uintptr_t)slot->whose;
}

/* What is given wrongly for a queue. */
static int32_t fault_of(const struct kelifandro_queue *queue)
{
    if (!queue || !queue->card || !queue->slots)
        return KELIFANDRO_NO_POINTER;
    if (!queue->count || queue->count > KELIFANDRO_MOST_WAITING)
        return KELIFANDRO_SLOTS;
    if (queue->gather && !queue->gather_sectors)
        return KELIFANDRO_GATHER;
    return KELIFANDRO_DONE;
}

int32_t kelifandro_queue_open(struct kelifandro_queue *queue)
{
    int32_t result = fault_of(queue);
    if (result != KELIFANDRO_DONE)
        return result;
    lock(queue);
    if (queue->is_open || queue->is_turning) {
        result = KELIFANDRO_IN_SERVICE;
    } else if (!kelifandro_sectors(queue->card, KELIFANDRO_USER)) {
        result = KELIFANDRO_NOT_OPEN;
    } else {
        memset(queue->slots, 0, queue->count * sizeof *queue->slots);
        queue->opened = queue->card->card;
        queue->next = 0;
        queue->is_open = 1;
    }
    unlock(queue);
    return result;
}

/* Whether the request has a slot: then it isn't its client's to submit. */
static int is_unanswered(const struct kelifandro_queue *queue, const struct kelifandro_request *request)
{
    for (size_t i = 0; queue->is_open && i < queue->count; i++)
        if (queue->slots[i].state != FREE && request_in(&queue->slots[i]) == request)
            return 1;
    return 0;
}

/* Lets the request wait by this ticket, or says why not. */
static int32_t accept(struct kelifandro_queue *queue, const struct kelifandro_request *request)
{
    struct kelifandro_asked asked = {request->start, request->count, request->part, request->kind, 0};
    if (!queue->is_open)
        return KELIFANDRO_NOT_OPEN;
    if (request->kind > LAST_KIND)
        return KELIFANDRO_KIND;
    if (request->kind <= KELIFANDRO_WRITES && !request->memory)
        return KELIFANDRO_NO_POINTER;
    return kelifandro_submit_by(&queue->opened, queue->slots, queue->count, &queue->next, &asked, request->client,
                                (uint64_t)(uintptr_t)request);
}

int32_t kelifandro_submit(struct kelifandro_queue *queue, struct kelifandro_request *request)
{
    int32_t result = KELIFANDRO_IN_SERVICE;
    if (!queue || !request)
        return KELIFANDRO_NO_POINTER;
    lock(queue);
    if (!is_unanswered(queue, request)) {
        request->queue = queue;
        request->ticket = queue->next;
        request->result = result = accept(queue, request);
    }
    unlock(queue);
    if (result == KELIFANDRO_WAITING && queue->wake)
        queue->wake(queue->context);
    return result;
}

int32_t kelifandro_cancel(struct kelifandro_request *request)
{
    struct kelifandro_queue *queue;
    int32_t result = KELIFANDRO_UNKNOWN;
    if (!request)
        return KELIFANDRO_NO_POINTER;
    queue = request->queue;
    if (!queue)
        return result;
    lock(queue);
    if (request->result == KELIFANDRO_WAITING)
        result = kelifandro_cancel_by(queue->slots, queue->count, request->ticket);
    if (result == KELIFANDRO_DONE)
        request->result = KELIFANDRO_GIVEN_BACK;
    unlock(queue);
    return result;
}

/* Those in service, by ticket, and their sectors as they were submitted. Slots may be others once the lock is given up, requests stay. */
static size_t find_members(struct kelifandro_queue *queue)
{
    size_t found = 0;
    for (size_t i = 0; i < queue->count && found < KELIFANDRO_MOST_TOGETHER; i++) {
        const struct kelifandro_slot *slot = &queue->slots[i];
        if (slot->state != IN_SERVICE)
            continue;
        queue->members[found].request = request_in(slot);
        queue->members[found].start = slot->start;
        queue->members[found].count = slot->count;
        found++;
    }
    return found;
}

/* Copies the blocks of so many members to their places in the gathered ones, or from there. */
static void gather(const struct kelifandro_queue *queue, uint64_t start, size_t members, int is_written)
{
    for (size_t i = 0; i < members; i++) {
        uint8_t *place = (uint8_t *)queue->gather + (size_t)(queue->members[i].start - start) * BLOCK;
        void *own = queue->members[i].request->memory;
        size_t length = (size_t)queue->members[i].count * BLOCK;
        memcpy(is_written ? place : own, is_written ? own : place, length);
    }
}

/* Makes one request for all in service: by the memory of the one that there is, or through that of all. */
static int32_t serve(const struct kelifandro_queue *queue, const struct kelifandro_asked *asked, size_t members)
{
    size_t gathered = members > 1 ? members : 0;
    void *memory = gathered ? queue->gather : queue->members[0].request->memory;
    int32_t result;
    if (asked->kind > LAST_KIND)
        return KELIFANDRO_KIND;
    if (asked->kind == KELIFANDRO_WRITES)
        gather(queue, asked->start, gathered, 1);
    result = kelifandro_serve(queue->card, asked, memory);
    if (asked->kind == KELIFANDRO_READS && result == KELIFANDRO_DONE)
        gather(queue, asked->start, gathered, 0);
    return result;
}

static size_t unanswered(const struct kelifandro_queue *queue)
{
    size_t found = 0;
    for (size_t i = 0; queue->is_open && i < queue->count; i++)
        found += queue->slots[i].state != FREE;
    return found;
}

/* A turn begins, unless another one is under way or nothing waits: how many are in service. */
static size_t begin_turn(struct kelifandro_queue *queue, struct kelifandro_asked *asked)
{
    size_t most = !queue->gather ? 1 : queue->gather_sectors < KELIFANDRO_MOST_SECTORS ? queue->gather_sectors : KELIFANDRO_MOST_SECTORS;
    size_t members = 0;
    if (queue->is_open && !queue->is_turning && kelifandro_start_by(queue->slots, queue->count, most, asked))
        members = find_members(queue);
    queue->is_turning |= members != 0;
    return members;
}

/* The answer, which whoever asks for it may see as soon as the lock is given up, and free the request; and what is to be called then. */
static called_back *give(struct kelifandro_request *request, int32_t result)
{
    called_back *answered = request->answered;
    request->result = result;
    return answered;
}

/* Answers those in service, or leaves them to be served alone. */
static void end_turn(struct kelifandro_queue *queue, size_t members, int32_t result)
{
    called_back *answered[KELIFANDRO_MOST_TOGETHER] = {0};
    lock(queue);
    if (kelifandro_conclude_by(queue->slots, queue->count, result == KELIFANDRO_DONE))
        for (size_t i = 0; i < members; i++)
            answered[i] = give(queue->members[i].request, result);
    unlock(queue);
    for (size_t i = 0; i < members; i++)
        if (answered[i])
            answered[i](queue->members[i].request);
}

size_t kelifandro_turn(struct kelifandro_queue *queue)
{
    struct kelifandro_asked asked;
    size_t members, left;
    if (!queue)
        return 0;
    lock(queue);
    members = begin_turn(queue, &asked);
    left = unanswered(queue);
    unlock(queue);
    if (!members)
        return left;
    end_turn(queue, members, serve(queue, &asked, members));
    lock(queue);
    queue->is_turning = 0;
    left = unanswered(queue);
    unlock(queue);
    return left;
}

int32_t kelifandro_answer(struct kelifandro_request *request)
{
    int32_t result;
    if (!request)
        return KELIFANDRO_NO_POINTER;
    if (!request->queue)
        return KELIFANDRO_UNKNOWN;
    lock(request->queue);
    result = request->result;
    unlock(request->queue);
    return result;
}

size_t kelifandro_unanswered(struct kelifandro_queue *queue)
{
    size_t found;
    if (!queue)
        return 0;
    lock(queue);
    found = unanswered(queue);
    unlock(queue);
    return found;
}

/* Answers the request in a slot, of a queue that is being closed. */
static void give_up(struct kelifandro_queue *queue, struct kelifandro_slot *slot)
{
    struct kelifandro_request *request = NULL;
    called_back *answered = NULL;
    lock(queue);
    if (slot->state != FREE) {
        request = request_in(slot);
        answered = give(request, KELIFANDRO_CLOSED);
        slot->state = FREE;
    }
    unlock(queue);
    if (answered)
        answered(request);
}

int32_t kelifandro_queue_close(struct kelifandro_queue *queue)
{
    int32_t result = KELIFANDRO_DONE;
    if (!queue)
        return KELIFANDRO_NO_POINTER;
    lock(queue);
    if (queue->is_turning)
        result = KELIFANDRO_IN_SERVICE;
    else if (!queue->is_open)
        result = KELIFANDRO_NOT_OPEN;
    else
        queue->is_open = 0, queue->is_turning = 1; /* nothing comes, starts or moves from now on */
    unlock(queue);
    if (result != KELIFANDRO_DONE)
        return result;
    for (size_t i = 0; i < queue->count; i++)
        give_up(queue, &queue->slots[i]);
    lock(queue);
    queue->is_turning = 0;
    unlock(queue);
    return KELIFANDRO_DONE;
}

const char *kelifandro_queue_text(int32_t result)
{
    switch (result) {
    case KELIFANDRO_WAITING: return "not answered yet";
    case KELIFANDRO_FULL: return "too many requests wait";
    case KELIFANDRO_KIND: return "no such kind of request";
    case KELIFANDRO_NO_POINTER: return "a pointer is null";
    case KELIFANDRO_SLOTS: return "no slot, or more than 256";
    case KELIFANDRO_GATHER: return "no sector to gather in";
    case KELIFANDRO_UNKNOWN: return "no such request waits";
    case KELIFANDRO_IN_SERVICE: return "in service";
    case KELIFANDRO_GIVEN_BACK: return "given back";
    case KELIFANDRO_CLOSED: return "the queue was closed";
    default: return kelifandro_text(result);
    }
}
