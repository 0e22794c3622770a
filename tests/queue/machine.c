/* Random submissions, requests given back and turns, over one slot to forty, and cards that fail requests, against the sector machine: each
   request is answered once, in order of ticket within a turn, none before an earlier one that it conflicts with; a read gives what its
   sectors may hold; a write that failed leaves each sector old or new; only one that was served alone fails. The card is a byte a sector.

       machine N    so many runs, 400 requests each */
#include <stdio.h>
#include <stdlib.h>
#include <string.h>
#include "kelifandro_queue.h"

#include "kelifandro_core.h"

enum { SECTORS = 24, MANY = 400, LONGEST = 4, MOST_SLOTS = 40, TO_BE_SERVED_ALONE = 3, PATIENCE = 1000 };
enum state { NOT_SUBMITTED, WAITS, ANSWERED, TAKEN_BACK };

static struct try {
    struct kelifandro_request request;
    uint8_t memory[LONGEST * 512];
    enum state state;
    int has_failed_with_others;
} all[MANY];

static uint8_t disk[SECTORS], may_hold[SECTORS][256], next_byte;
static unsigned run, seed, fails_one_of;
static int made;
static struct kelifandro_slot *slots;
static uint8_t gathered[SECTORS * 512];
static struct kelifandro card;
static struct kelifandro_queue queue;
static uint64_t last_ticket;
static unsigned call_attempts;
static unsigned long calls, call_sectors, answers_in_turn, sectors_in_turn, failed_in_turn;
static unsigned long answers, failed, together, splits, given_back, closed;

static unsigned any_of(unsigned n)
{
    seed = seed * 1664525u + 1013904223u;
    return (seed >> 8) % n;
}

static void expect(int is_so, const char *what)
{
    if (is_so)
        return;
    printf("wrong: %s (run %u, request %d)\n", what, run, made);
    exit(1);
}

/* The card's side. */

int64_t kelifandro_put(int32_t stream, const uint8_t *bytes, uint64_t n)
{
    (void)stream, (void)bytes;
    return (int64_t)n;
}

int64_t kelifandro_get(int32_t stream, uint8_t *bytes, uint64_t n)
{
    memset(bytes, 0, (size_t)n);
    return (int64_t)stream;
}

uint64_t kelifandro_sectors(const struct kelifandro *kelifandro, enum kelifandro_part part)
{
    return part == KELIFANDRO_USER ? kelifandro->card.user : 0;
}

const char *kelifandro_text(int32_t result)
{
    (void)result;
    return "";
}

static int fails(uint64_t start, uint64_t count)
{
    calls++;
    call_sectors = (unsigned long)count;
    expect(start + count <= SECTORS && count > 0, "sectors that the card hasn't");
    return fails_one_of && any_of(fails_one_of) == 0;
}

static int32_t read(uint64_t start, uint64_t count, uint8_t *bytes)
{
    int is_failed = fails(start, count);
    for (size_t i = 0; i < count; i++)
        memset(bytes + 512 * i, is_failed ? 0xee : disk[start + i], 512);
    return is_failed ? KELIFANDRO_FAILED_DATA : KELIFANDRO_DONE;
}

/* Where it fails some sectors are new all the same. */
static int32_t change(uint64_t start, uint64_t count, const uint8_t *bytes)
{
    int is_failed = fails(start, count);
    for (size_t i = 0; i < count; i++)
        if (!is_failed || any_of(2))
            disk[start + i] = bytes ? bytes[512 * i] : 0;
    return is_failed ? KELIFANDRO_FAILED_STATUS : KELIFANDRO_DONE;
}

int32_t kelifandro_serve(struct kelifandro *kelifandro, const struct kelifandro_asked *asked, const void *bytes)
{
    (void)kelifandro;
    call_attempts = asked->attempts;
    if (asked->kind == KELIFANDRO_READS)
        return read(asked->start, asked->count, (uint8_t *)(uintptr_t)bytes);
    return change(asked->start, asked->count, asked->kind == KELIFANDRO_WRITES ? bytes : 0);
}

/* The sector machine. */

static int conflict(const struct kelifandro_request *a, const struct kelifandro_request *b)
{
    int share = a->start < b->start + b->count && b->start < a->start + a->count;
    return share && (a->kind != KELIFANDRO_READS || b->kind != KELIFANDRO_READS);
}

static void expect_passes_none(const struct try *try)
{
    for (int i = 0; i < made; i++)
        expect(all[i].state != WAITS || all[i].request.ticket >= try->request.ticket || !conflict(&all[i].request, &try->request),
               "a request passes an earlier one that it conflicts with");
}

/* What becomes of a sector by an answer. A read that is done tells it; of one that failed the new value may be there or not. */
static void take_effect(const struct try *try, unsigned i)
{
    uint8_t *may = may_hold[try->request.start + i];
    uint8_t byte = try->request.kind >= KELIFANDRO_ERASES ? 0 : try->memory[512 * i];
    int is_read = try->request.kind == KELIFANDRO_READS, is_done = try->request.result == KELIFANDRO_DONE;
    if (is_read && !is_done)
        return;
    expect(!is_read || may[byte], "a read gives what the sector can't hold");
    if (is_done)
        memset(may, 0, 256);
    may[byte] = 1;
}

static void note_answer(struct try *try)
{
    int32_t result = try->request.result;
    expect(try->state == WAITS, "an answer to a request that waits for none");
    expect(result != KELIFANDRO_WAITING, "an answer that is none");
    if (result != KELIFANDRO_CLOSED)
        expect_passes_none(try);
    try->state = ANSWERED;
    answers++;
    answers_in_turn++;
    sectors_in_turn += try->request.count;
    failed += result != KELIFANDRO_DONE;
    failed_in_turn += result != KELIFANDRO_DONE;
    closed += result == KELIFANDRO_CLOSED;
    if (result == KELIFANDRO_CLOSED && !try->has_failed_with_others)
        return;
    for (unsigned i = 0; i < try->request.count; i++)
        take_effect(try, i);
}

/* The clients' side. */

static size_t count_waiting(void)
{
    size_t found = 0;
    for (int i = 0; i < made; i++)
        found += all[i].state == WAITS;
    return found;
}

static void submit(void);

static void answered(struct kelifandro_request *request)
{
    unsigned long before = calls;
    expect(answers_in_turn == 0 || request->ticket > last_ticket, "answers of a turn that aren't in order of ticket");
    last_ticket = request->ticket;
    note_answer((struct try *)request);
    if (any_of(8) == 0)
        expect(kelifandro_turn(&queue) == kelifandro_unanswered(&queue) && calls == before, "a turn within an answer does something");
    if (any_of(8) == 0 && queue.is_open && made < MANY)
        submit();
}

static void begin_request(struct try *try)
{
    uint32_t start = any_of(SECTORS), count = 1 + any_of(queue.count > 16 ? 1 : LONGEST);
    unsigned kind = any_of(9) ? any_of(2) : 2 + any_of(2);
    try->has_failed_with_others = 0;
    try->request = (struct kelifandro_request){
        .kind = (uint8_t)kind,
        .client = any_of(4),
        .start = start,
        .count = start + count > SECTORS ? SECTORS - start : count,
        .memory = kind < KELIFANDRO_ERASES ? try->memory : 0,
        .answered = any_of(3) ? answered : 0,
    };
    memset(try->memory, next_byte, sizeof try->memory);
    next_byte = next_byte == 255 ? 1 : next_byte + 1;
}

static void submit(void)
{
    struct try *try = &all[made];
    size_t waiting = count_waiting();
    begin_request(try);
    if (waiting == queue.count) {
        expect(kelifandro_submit(&queue, &try->request) == KELIFANDRO_FULL, "more wait than there are slots");
        return;
    }
    expect(kelifandro_submit(&queue, &try->request) == KELIFANDRO_WAITING, "a request is refused");
    try->state = WAITS;
    made++;
}

static const struct kelifandro_slot *slot_of(const struct try *try)
{
    for (size_t i = 0; i < queue.count; i++)
        if (slots[i].state && slots[i].ticket == try->request.ticket)
            return &slots[i];
    return 0;
}

static void give_back(void)
{
    struct try *try = &all[made - 1 - (int)any_of(made < 20 ? (unsigned)made : 20)];
    int waits = try->state == WAITS, alone = waits && slot_of(try)->state == TO_BE_SERVED_ALONE;
    int32_t result = kelifandro_cancel(&try->request);
    expect(result == (!waits ? KELIFANDRO_UNKNOWN : alone ? KELIFANDRO_IN_SERVICE : KELIFANDRO_DONE), "what giving back answers");
    if (result != KELIFANDRO_DONE) {
        expect(!waits || kelifandro_submit(&queue, &try->request) == KELIFANDRO_IN_SERVICE, "a request is accepted twice");
        return;
    }
    expect(kelifandro_answer(&try->request) == KELIFANDRO_GIVEN_BACK, "what was given back has another answer");
    try->state = TAKEN_BACK;
    given_back++;
}

/* The worker's side. */

/* Which request is to be served next: one alone, or the oldest. */
static struct try *next_to_serve(void)
{
    struct try *oldest = 0;
    for (int i = made - 1; i >= 0; i--)
        if (all[i].state == WAITS && slot_of(&all[i])->state == TO_BE_SERVED_ALONE)
            oldest = &all[i];
    for (int i = 0; i < made && !oldest; i++)
        if (all[i].state == WAITS)
            oldest = &all[i];
    return oldest;
}

/* Answers that no call has told of; and who is to be served alone. */
static void look_at_requests(void)
{
    for (int i = 0; i < made; i++) {
        if (all[i].state != WAITS)
            continue;
        if (!all[i].request.answered && kelifandro_answer(&all[i].request) != KELIFANDRO_WAITING)
            note_answer(&all[i]);
        else
            all[i].has_failed_with_others |= slot_of(&all[i])->state == TO_BE_SERVED_ALONE;
    }
}

static void turn(void)
{
    const struct try *next = next_to_serve();
    unsigned long before = calls;
    size_t left, most = queue.gather ? queue.gather_sectors : 1;
    answers_in_turn = sectors_in_turn = failed_in_turn = 0;
    left = kelifandro_turn(&queue);
    look_at_requests();
    expect(left == count_waiting(), "how many are without an answer");
    expect(calls == before + (next != 0), "a turn makes one request, where something waits");
    if (!next)
        return;
    expect(answers_in_turn <= 1 || failed_in_turn == 0, "a request fails for its neighbours");
    expect(answers_in_turn <= 16 && (answers_in_turn <= 1 || sectors_in_turn <= most), "more are served together than may be");
    expect(answers_in_turn <= 1 || next->request.kind < KELIFANDRO_ERASES, "erases are served together");
    expect(answers_in_turn == 0 || sectors_in_turn == call_sectors, "other sectors are served than were asked for");
    expect(answers_in_turn == 0 ? next->has_failed_with_others : next->state == ANSWERED, "another request is served than the next one");
    expect(call_attempts == (answers_in_turn == 1 ? 0 : 2), "several have two attempts, one alone has as many as the card");
    together += answers_in_turn > 1;
    splits += answers_in_turn == 0;
}

static void open_queue(void)
{
    /* an eMMC device whose registers are all 0 but for their checks, which fit */
    static const struct kelifandro_card known = {.state = 1, .kind = 1, .addressing = 1, .lines = 4, .trims = 1, .cid = {[15] = 1},
                                                 .csd = {[15] = 1}, .user = SECTORS, .erase_unit = 1};
    size_t count = run % 8 ? 1 + any_of(16) : 17 + any_of(MOST_SLOTS - 16);
    free(slots);
    slots = malloc(count * sizeof *slots); /* the sanitizer sees what lies past it */
    memset(slots, 0xa5, count * sizeof *slots);
    card.card = known;
    queue = (struct kelifandro_queue){.card = &card, .slots = slots, .count = count};
    if (count > 16 || any_of(4)) {
        queue.gather = gathered;
        queue.gather_sectors = count > 16 ? SECTORS : 2 + any_of(15);
    }
    expect(kelifandro_queue_open(&queue) == KELIFANDRO_DONE, "the queue isn't opened");
}

/* The last turns, or the queue is closed; then the card holds what it may. */
static void end_run(void)
{
    unsigned turns = 0;
    if (run % 5 == 0) {
        answers_in_turn = 0;
        expect(kelifandro_queue_close(&queue) == KELIFANDRO_DONE, "the queue isn't closed");
        look_at_requests();
    }
    while (kelifandro_unanswered(&queue)) {
        turn();
        expect(++turns < PATIENCE, "turns never end");
    }
    expect(count_waiting() == 0, "a request without an answer");
    for (int s = 0; s < SECTORS; s++)
        expect(may_hold[s][disk[s]], "a sector holds what it may not");
}

static void go(void)
{
    seed = run * 2654435761u + 12345;
    fails_one_of = run % 3 ? 2 + any_of(6) : 0;
    made = 0;
    next_byte = 1;
    memset(all, 0, sizeof all);
    memset(may_hold, 0, sizeof may_hold);
    for (int s = 0; s < SECTORS; s++)
        may_hold[s][disk[s]] = 1;
    open_queue();
    while (made < MANY) {
        unsigned what = any_of(20), deep = queue.count > 16 ? 18 : 12;
        if (what < deep)
            submit();
        else if (what == deep && made)
            give_back();
        else
            turn();
        if (count_waiting() == queue.count && any_of(2))
            turn();
    }
    end_run();
}

int main(int count, char **words)
{
    unsigned runs = count > 1 ? (unsigned)atoi(words[1]) : 1000;
    for (run = 0; run < runs; run++)
        go();
    free(slots);
    printf("machine: %u runs, %lu answers, 0 wrong: %lu failed, %lu turns answered several, %lu groups split, %lu given back, %lu closed\n",
           runs, answers, failed, together, splits, given_back, closed);
    return 0;
}
