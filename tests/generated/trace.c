/* Stands between kelifandro.c and the library, by the linker's --wrap, and keeps a hash over all that passes: each record that is put,
   each answer that is got, and of each call its result, the bytes of the card, but for its padding, and of what is healed, and the blocks
   that it read. Tells at the end how many passed and the hash. */
#include <stdio.h>
#include <string.h>
#include "../../c/kelifandro.h"
#include "../../c/kelifandro_core.h"
#include "trace.h"

#define WRAPPED(result, name, arguments) \
    result __real_##name arguments; \
    result __wrap_##name arguments; \
    result __wrap_##name arguments

/* Bytes of struct kelifandro_card that mean nothing. */
enum { PADDING = 46, PADDING_END = 48 };

static uint64_t hash = 1469598103934665603u;
static unsigned long passed;

static void number(uint64_t value)
{
    hash = (hash ^ value) * 1099511628211u;
    hash ^= hash >> 29;
}

void trace_bytes(const void *memory, uint64_t n)
{
    const uint8_t *at = memory;
    for (uint64_t i = 0; i < n; i++)
        hash = (hash ^ at[i]) * 1099511628211u;
    number(n);
}

void trace_passed(int64_t answer)
{
    passed++;
    number((uint64_t)answer);
}

static int32_t ended(int32_t result, const void *card, const void *healed)
{
    trace_passed(result);
    trace_bytes(card, PADDING);
    trace_bytes((const uint8_t *)card + PADDING_END, sizeof(struct kelifandro_card) - PADDING_END);
    trace_bytes(healed, sizeof(struct kelifandro_healed));
    return result;
}

/* Of a record that was answered as taken in part, the bytes that are to be put again; and of one that came in part, those to come: all
   blocks of a command at most. */
static uint64_t put_again;
static uint8_t kept[512 * 65535];
static uint64_t kept_from, kept_to;
int trace_pieces;

static uint32_t any(void)
{
    static uint32_t state = 1;
    state = state * 1664525u + 1013904223u;
    return state >> 8;
}

/* What is answered in place of n bytes, which have passed: mostly all of them, or fewer, or what is no number of bytes. */
static int64_t in_pieces(uint64_t n)
{
    if (!trace_pieces || any() % 8)
        return (int64_t)n;
    switch (any() % 8) {
    case 0:
        return -1 - (int64_t)(any() % 3);
    case 1:
        return any() % 2 ? INT64_MIN : INT64_MAX;
    case 2:
        return (int64_t)(n + any() % 3);
    default:
        return (int64_t)(any() % (n + 1));
    }
}

/* So many of n bytes are passed by this answer. */
static uint64_t bytes_of(int64_t answer, uint64_t n)
{
    return answer <= 0 ? 0 : (uint64_t)answer < n ? (uint64_t)answer : n;
}

WRAPPED(int64_t, kelifandro_put, (int32_t stream, const uint8_t *record, uint64_t n))
{
    passed++;
    trace_bytes(record, n);
    if (!put_again)
        __real_kelifandro_put(stream, record, n);
    int64_t put = in_pieces(n);
    put_again = bytes_of(put, n) ? n - bytes_of(put, n) : 0;
    kept_from = kept_to = 0;
    number((uint64_t)put);
    return put;
}

WRAPPED(int64_t, kelifandro_get, (int32_t stream, uint8_t *record, uint64_t n))
{
    passed++;
    number(n);
    if (kept_from == kept_to) {
        int64_t all = __real_kelifandro_get(stream, record, n);
        kept_from = 0;
        kept_to = (uint64_t)all;
        memcpy(kept, record, kept_to);
    }
    uint64_t room = kept_to - kept_from < n ? kept_to - kept_from : n;
    int64_t got = in_pieces(room);
    memcpy(record, kept + kept_from, bytes_of(got, room));
    kept_from += bytes_of(got, room);
    number((uint64_t)got);
    trace_bytes(record, bytes_of(got, n));
    return got;
}

WRAPPED(int32_t, kelifandro_open_by, (const void *way, void *card, void *healed))
{
    return ended(__real_kelifandro_open_by(way, card, healed), card, healed);
}

/* What is read is told where it is done; what a write has is the caller's. */
WRAPPED(int32_t, kelifandro_serve_by, (const void *way, void *card, void *healed, const void *asked, void *blocks, uint64_t count))
{
    int32_t result = ended(__real_kelifandro_serve_by(way, card, healed, asked, blocks, count), card, healed);
    if (result == KELIFANDRO_DONE && ((const struct kelifandro_asked *)asked)->kind == KELIFANDRO_READS)
        trace_bytes(blocks, 512 * count);
    return result;
}

WRAPPED(int32_t, kelifandro_serve_long_by,
        (const void *way, void *card, void *healed, const void *asked, void *blocks, uint64_t count, void *done))
{
    int32_t result = ended(__real_kelifandro_serve_long_by(way, card, healed, asked, blocks, count, done), card, healed);
    trace_bytes(done, 8);
    if (((const struct kelifandro_asked *)asked)->kind == KELIFANDRO_READS)
        trace_bytes(blocks, 512 * *(uint64_t *)done);
    return result;
}

static void tell(void) __attribute__((destructor));
static void tell(void)
{
    printf("%lu passed, hash %016llx\n", passed, (unsigned long long)hash);
}
