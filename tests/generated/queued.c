/* Stands between the calls of a queue and the library, by the linker's --wrap, and adds to the hash of trace.c what each of them answers
   and leaves: tests/queue/fuzz.c makes them, over slots of any bytes. */
#include "../../c/kelifandro_queue.h"
#include "../../c/kelifandro_core.h"
#include "trace.h"

#define WRAPPED(result, name, arguments) \
    result __real_##name arguments; \
    result __wrap_##name arguments; \
    result __wrap_##name arguments

static void left(int32_t result, const void *slots, uint64_t count)
{
    trace_passed(result);
    trace_bytes(slots, count * sizeof(struct kelifandro_slot));
}

WRAPPED(int32_t, kelifandro_submit_by,
        (const void *card, void *slots, uint64_t count, void *next, const void *asked, uint32_t client, uint64_t whose))
{
    int32_t result = __real_kelifandro_submit_by(card, slots, count, next, asked, client, whose);
    left(result, slots, count);
    trace_bytes(next, 8);
    return result;
}

WRAPPED(int32_t, kelifandro_cancel_by, (void *slots, uint64_t count, uint64_t ticket))
{
    int32_t result = __real_kelifandro_cancel_by(slots, count, ticket);
    left(result, slots, count);
    return result;
}

WRAPPED(uint8_t, kelifandro_start_by, (void *slots, uint64_t count, uint64_t most, void *asked))
{
    uint8_t result = __real_kelifandro_start_by(slots, count, most, asked);
    left(result, slots, count);
    if (result)
        trace_bytes(asked, sizeof(struct kelifandro_asked));
    return result;
}

WRAPPED(uint8_t, kelifandro_conclude_by, (void *slots, uint64_t count, uint8_t is_done))
{
    uint8_t result = __real_kelifandro_conclude_by(slots, count, is_done);
    left(result, slots, count);
    return result;
}
