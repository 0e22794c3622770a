/* A stand-in in C for the four calls of the proved library that the queue makes, over slots of numbers (c/kelifandro_core.h): for wrong
   copies of it, which the tests have to refuse. */
#include "kelifandro_queue.h"
#include "kelifandro_core.h"

enum { FREE, WAITS, TOGETHER, ALONE, MOST_TOGETHER = 16, MOST_SECTORS = 1024, NOWHERE = -1 };

typedef struct kelifandro_slot slot_t;

/* Requests that are served as one: the last of their sectors lies before `end`. */
typedef struct {
    uint64_t start, end;
    uint32_t members, kind, part;
} extent_t;

static uint64_t end_of(const slot_t *slot)
{
    return (uint64_t)slot->start + slot->count;
}

static int moves_blocks(unsigned kind)
{
    return kind <= KELIFANDRO_WRITES;
}

/* A sector lies in both, and not both are reads. */
static int conflict(const slot_t *a, const slot_t *b)
{
    int share = a->part == b->part && a->count && b->count && a->start < end_of(b) && b->start < end_of(a);
    return share && (a->kind != KELIFANDRO_READS || b->kind != KELIFANDRO_READS);
}

/* The first slot in this state. */
static int64_t first_in(const slot_t *slots, uint64_t count, unsigned state)
{
    for (uint64_t i = 0; i < count; i++)
        if (slots[i].state == state)
            return (int64_t)i;
    return NOWHERE;
}

/* Whether no earlier request waits that this one conflicts with. */
static int passes_none(const slot_t *slots, uint64_t count, const slot_t *slot)
{
    for (uint64_t i = 0; i < count; i++)
        if (slots[i].state == WAITS && slots[i].ticket < slot->ticket && conflict(&slots[i], slot))
            return 0;
    return 1;
}

/* Whether it stands at an end of the extent, is alike, and there is room for it. */
static int fits(const extent_t *extent, const slot_t *slot, uint64_t most)
{
    int is_alike = slot->part == extent->part && slot->kind == extent->kind && moves_blocks(slot->kind);
    int is_beside = slot->start == extent->end || end_of(slot) == extent->start;
    return is_alike && is_beside && extent->members < MOST_TOGETHER && extent->end + slot->count <= extent->start + most;
}

/* The next request that joins. */
static int64_t next_to_join(const slot_t *slots, uint64_t count, const extent_t *extent, uint64_t most)
{
    for (uint64_t i = 0; i < count; i++)
        if (slots[i].state == WAITS && fits(extent, &slots[i], most) && passes_none(slots, count, &slots[i]))
            return (int64_t)i;
    return NOWHERE;
}

static void join(extent_t *extent, slot_t *slot)
{
    if (slot->start == extent->end)
        extent->end = end_of(slot);
    else
        extent->start = slot->start;
    extent->members++;
    slot->state = TOGETHER;
}

uint8_t kelifandro_start_by(void *slots, uint64_t count, uint64_t most, void *asked)
{
    slot_t *all = slots, *first;
    extent_t extent;
    int64_t alone = first_in(slots, count, ALONE), k = alone != NOWHERE ? alone : first_in(slots, count, WAITS);
    if (k == NOWHERE)
        return 0;
    first = &all[k];
    extent = (extent_t){first->start, end_of(first), 1, first->kind, first->part};
    first->state = TOGETHER;
    if (most > MOST_SECTORS)
        most = MOST_SECTORS;
    for (k = alone != NOWHERE ? NOWHERE : next_to_join(slots, count, &extent, most); k != NOWHERE;
         k = next_to_join(slots, count, &extent, most))
        join(&extent, &all[k]);
    *(struct kelifandro_asked *)asked = (struct kelifandro_asked){
        extent.start, extent.end - extent.start, extent.part, (uint16_t)extent.kind, extent.members > 1 ? 2 : 0};
    return 1;
}

static uint64_t count_in(const slot_t *slots, uint64_t count, unsigned state)
{
    uint64_t found = 0;
    for (uint64_t i = 0; i < count; i++)
        found += slots[i].state == state;
    return found;
}

uint8_t kelifandro_conclude_by(void *slots, uint64_t count, uint8_t is_done)
{
    slot_t *all = slots;
    int is_answered = is_done || count_in(slots, count, TOGETHER) < 2;
    for (uint64_t i = 0; i < count; i++)
        if (all[i].state == TOGETHER)
            all[i].state = is_answered ? FREE : ALONE;
    return (uint8_t)is_answered;
}

int32_t kelifandro_cancel_by(void *slots, uint64_t count, uint64_t ticket)
{
    slot_t *all = slots;
    for (uint64_t i = 0; i < count; i++) {
        if (all[i].state == FREE || all[i].ticket != ticket)
            continue;
        if (all[i].state != WAITS)
            return KELIFANDRO_IN_SERVICE;
        all[i].state = FREE;
        return KELIFANDRO_DONE;
    }
    return KELIFANDRO_UNKNOWN;
}

/* The refusal of a change to sectors that are there. */
static int32_t change_refusal(const struct kelifandro_card *card, const struct kelifandro_asked *asked, uint64_t sectors)
{
    uint64_t unit = card->erase_unit ? card->erase_unit : 1, end = asked->start + asked->count;
    int is_boot = asked->part == KELIFANDRO_BOOT1 || asked->part == KELIFANDRO_BOOT2;
    if (asked->kind == KELIFANDRO_READS)
        return KELIFANDRO_WAITING;
    if (card->read_only)
        return KELIFANDRO_READ_ONLY;
    if (moves_blocks(asked->kind))
        return KELIFANDRO_WAITING;
    if (is_boot || (asked->kind == KELIFANDRO_TRIMS && !card->trims))
        return KELIFANDRO_NOT_ERASABLE;
    if (asked->kind == KELIFANDRO_ERASES && (asked->start % unit || (end % unit && end != sectors)))
        return KELIFANDRO_NOT_ERASABLE;
    return KELIFANDRO_WAITING;
}

/* The first reason to refuse it. */
static int32_t refusal(const struct kelifandro_card *card, const struct kelifandro_asked *asked)
{
    const uint64_t sizes[] = {card->user, card->boot, card->boot, card->gp1, card->gp2, card->gp3, card->gp4};
    uint64_t sectors = asked->part <= KELIFANDRO_GP4 ? sizes[asked->part] : 0;
    if (!sectors)
        return KELIFANDRO_NO_PARTITION;
    if (!asked->count || (moves_blocks(asked->kind) && asked->count > MOST_SECTORS))
        return KELIFANDRO_COUNT;
    if (asked->count > sectors || asked->start > sectors - asked->count)
        return KELIFANDRO_OUT_OF_RANGE;
    return change_refusal(card, asked, sectors);
}

/* Brings what is taken to the first slots, in its order: how many are taken. */
static uint64_t close_gaps(slot_t *slots, uint64_t count)
{
    uint64_t taken = 0;
    for (uint64_t i = 0; i < count; i++) {
        slot_t slot = slots[i];
        if (slot.state == FREE)
            continue;
        slots[i].state = FREE;
        slots[taken++] = slot;
    }
    return taken;
}

int32_t kelifandro_submit_by(const void *card, void *slots, uint64_t count, void *next, const void *asked, uint32_t client, uint64_t whose)
{
    const struct kelifandro_asked *what = asked;
    int32_t result = refusal(card, what);
    uint64_t *ticket = next, place;
    if (result != KELIFANDRO_WAITING)
        return result;
    place = close_gaps(slots, count);
    if (place == count || *ticket == UINT64_MAX)
        return KELIFANDRO_FULL;
    ((slot_t *)slots)[place] = (slot_t){
        .ticket = (*ticket)++,
        .whose = whose,
        .start = (uint32_t)what->start,
        .count = (uint32_t)what->count,
        .client = client,
        .state = WAITS,
        .kind = (uint8_t)what->kind,
        .part = (uint8_t)what->part,
    };
    return KELIFANDRO_WAITING;
}
