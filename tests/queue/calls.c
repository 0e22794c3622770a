/* Each call of the queue by itself: what is refused by name and changes nothing; calls by an interrupt while the card is spoken to, and by
   `answered`; the lock, which is never held then; a queue that is closed; and what is served together. */
#include <stdio.h>
#include <string.h>
#include "model.h"

enum { SLOTS = 20, SECTORS = 1200, ALL_SLOTS = KELIFANDRO_MOST_WAITING + 1 };

static struct model model;
static struct kelifandro_slot slots[ALL_SLOTS], slots_before[ALL_SLOTS];
static uint8_t gathered[SECTORS * 512], memory[SECTORS * 512];
static struct kelifandro_request requests[SLOTS + 1], interrupting;
static struct kelifandro_queue queue, queue_before;
static int is_locked;
static uint64_t last_ticket;
static unsigned long woken, interrupts, answers;

static void lock(void *context)
{
    expect(context == &queue && !is_locked, "the lock is taken twice", 0);
    is_locked = 1;
}

static void unlock(void *context)
{
    expect(context == &queue && is_locked, "a lock is given up that isn't held", 0);
    is_locked = 0;
}

static void wake(void *context)
{
    expect(context == &queue && !is_locked, "the worker is woken under the lock", 0);
    woken++;
}

/* The queue as it is given before it is opened. */
static struct kelifandro_queue *given(void)
{
    queue = (struct kelifandro_queue){.card = &model.sd, .slots = slots, .count = SLOTS, .gather = gathered, .gather_sectors = SECTORS,
                                      .lock = lock, .unlock = unlock, .wake = wake, .context = &queue};
    return &queue;
}

static void begin(int is_emmc)
{
    expect(model_begin(&model, &card_host, is_emmc), "the card isn't opened", 0);
    memset(slots, 0xa5, sizeof slots);
    expect(kelifandro_queue_open(given()) == KELIFANDRO_DONE, "the queue isn't opened", 0);
    expect(slots[SLOTS].state == 0xa5, "a slot past the last one is written to", 0);
}

static struct kelifandro_request asked(unsigned kind, uint32_t start, uint32_t count)
{
    return (struct kelifandro_request){.kind = (uint8_t)kind, .start = start, .count = count, .memory = memory};
}

static void submit(unsigned n, struct kelifandro_request what)
{
    requests[n] = what;
    expect(kelifandro_submit(&queue, &requests[n]) == KELIFANDRO_WAITING, "a request is refused", n);
}

/* The queue as it is now isn't opened, for this reason, and nothing changes. */
static void expect_unopened(int32_t why, const char *what)
{
    memset(slots, 0xa5, sizeof slots);
    memcpy(slots_before, slots, sizeof slots);
    queue_before = queue;
    expect(kelifandro_queue_open(&queue) == why, what, (unsigned long)-why);
    expect(!memcmp(&queue, &queue_before, sizeof queue) && !memcmp(slots, slots_before, sizeof slots), "a fault changes something", 0);
    expect(kelifandro_turn(&queue) == 0 && kelifandro_unanswered(&queue) == 0, "a queue that isn't open has requests", 0);
    requests[0] = asked(KELIFANDRO_READS, 0, 1);
    expect(kelifandro_submit(&queue, &requests[0]) == KELIFANDRO_NOT_OPEN, "a queue that isn't open accepts a request", 0);
    expect(kelifandro_answer(&requests[0]) == KELIFANDRO_NOT_OPEN, "a refusal isn't the answer", 0);
    expect(kelifandro_queue_close(&queue) == KELIFANDRO_NOT_OPEN, "a queue that isn't open is closed", 0);
}

static void what_is_given_wrongly_for_a_queue(void)
{
    expect(model_begin(&model, &card_host, 0), "the card isn't opened", 0);
    expect(kelifandro_queue_open(0) == KELIFANDRO_NO_POINTER, "no queue", 0);
    given()->card = 0;
    expect_unopened(KELIFANDRO_NO_POINTER, "no card");
    given()->slots = 0;
    expect_unopened(KELIFANDRO_NO_POINTER, "no slots");
    given()->count = 0;
    expect_unopened(KELIFANDRO_SLOTS, "none");
    given()->count = KELIFANDRO_MOST_WAITING + 1;
    expect_unopened(KELIFANDRO_SLOTS, "too many");
    given()->count = (size_t)-1;
    expect_unopened(KELIFANDRO_SLOTS, "far too many");
    given()->gather_sectors = 0;
    expect_unopened(KELIFANDRO_GATHER, "no sector to gather in");
    given();
    model.sd.card.state = 0;
    expect_unopened(KELIFANDRO_NOT_OPEN, "no open card");
    model.sd.card.state = 1;
    given()->gather = 0;
    queue.gather_sectors = 0;
    expect(kelifandro_queue_open(&queue) == KELIFANDRO_DONE, "without memory to gather in", 0);
    expect(kelifandro_queue_open(&queue) == KELIFANDRO_IN_SERVICE, "opened twice", 0);
    expect(kelifandro_turn(0) == 0 && kelifandro_unanswered(0) == 0, "no queue has requests", 0);
    expect(kelifandro_queue_close(0) == KELIFANDRO_NO_POINTER, "no queue is closed", 0);
}

/* A request is refused for this reason, which is its answer, and the queue is as before. */
static void expect_refused(struct kelifandro_request what, int32_t why)
{
    struct kelifandro_request request = what;
    queue_before = queue;
    memcpy(slots_before, slots, sizeof slots);
    expect(kelifandro_submit(&queue, &request) == why, "another refusal", (unsigned long)-why);
    expect(kelifandro_answer(&request) == why, "a refusal isn't the answer", (unsigned long)-why);
    expect(kelifandro_cancel(&request) == KELIFANDRO_UNKNOWN, "what was refused is given back", 0);
    expect(!memcmp(&queue, &queue_before, sizeof queue) && !memcmp(slots, slots_before, sizeof slots), "a refusal changes something", 0);
}

static struct kelifandro_request with_part(struct kelifandro_request request, unsigned part)
{
    request.part = (uint8_t)part;
    return request;
}

static struct kelifandro_request without_memory(struct kelifandro_request request)
{
    request.memory = 0;
    return request;
}

static void refusals_of_an_sd_card(void)
{
    begin(0);
    expect(kelifandro_submit(0, &requests[0]) == KELIFANDRO_NO_POINTER, "no queue", 0);
    expect(kelifandro_submit(&queue, 0) == KELIFANDRO_NO_POINTER, "no request", 0);
    expect_refused(asked(4, 0, 1), KELIFANDRO_KIND);
    expect_refused(with_part(asked(255, 0, 0), 9), KELIFANDRO_KIND);
    expect_refused(without_memory(asked(KELIFANDRO_READS, 0, 1)), KELIFANDRO_NO_POINTER);
    expect_refused(without_memory(asked(KELIFANDRO_WRITES, 0, 1)), KELIFANDRO_NO_POINTER);
    expect_refused(with_part(asked(KELIFANDRO_READS, 0, 0), 7), KELIFANDRO_NO_PARTITION);
    expect_refused(with_part(asked(KELIFANDRO_READS, 0, 1), 255), KELIFANDRO_NO_PARTITION);
    expect_refused(with_part(asked(KELIFANDRO_READS, 0, 1), KELIFANDRO_BOOT1), KELIFANDRO_NO_PARTITION);
    expect_refused(asked(KELIFANDRO_READS, 0xffffffff, 0), KELIFANDRO_COUNT);
    expect_refused(asked(KELIFANDRO_WRITES, 0, 1025), KELIFANDRO_COUNT);
    expect_refused(asked(KELIFANDRO_READS, USER_SECTORS, 1), KELIFANDRO_OUT_OF_RANGE);
    expect_refused(asked(KELIFANDRO_WRITES, USER_SECTORS - 1023, 1024), KELIFANDRO_OUT_OF_RANGE);
    expect_refused(asked(KELIFANDRO_ERASES, 0xffffffff, 0xffffffff), KELIFANDRO_OUT_OF_RANGE);
    expect_refused(asked(KELIFANDRO_TRIMS, 0, 1), KELIFANDRO_NOT_ERASABLE);
    for (unsigned i = 0; i < SLOTS; i++)
        submit(i, asked(KELIFANDRO_READS, i, 1));
    expect_refused(asked(KELIFANDRO_READS, 0, 1), KELIFANDRO_FULL);
    queue_before = queue;
    for (unsigned i = 0; i < SLOTS; i++)
        expect(kelifandro_submit(&queue, &requests[i]) == KELIFANDRO_IN_SERVICE && requests[i].ticket == i, "accepted twice", i);
    expect(!memcmp(&queue, &queue_before, sizeof queue), "what was accepted before changes something", 0);
    expect(woken == SLOTS && model.commands == 0, "a submission wakes the worker, and reaches no card", woken);
}

static void refusals_of_other_cards(void)
{
    begin(1);
    expect_refused(asked(KELIFANDRO_ERASES, 1, 1024), KELIFANDRO_NOT_ERASABLE);
    expect_refused(asked(KELIFANDRO_ERASES, 0, 1023), KELIFANDRO_NOT_ERASABLE);
    expect_refused(with_part(asked(KELIFANDRO_TRIMS, 0, 1), KELIFANDRO_BOOT1), KELIFANDRO_NOT_ERASABLE);
    expect_refused(with_part(asked(KELIFANDRO_READS, BOOT_SECTORS, 1), KELIFANDRO_BOOT2), KELIFANDRO_OUT_OF_RANGE);
    submit(0, without_memory(asked(KELIFANDRO_ERASES, 1024, 1024)));
    submit(1, without_memory(asked(KELIFANDRO_TRIMS, 7, 3)));
    submit(2, with_part(asked(KELIFANDRO_READS, BOOT_SECTORS - 1, 1), KELIFANDRO_BOOT2));
    memset(model.card.user, 0xff, sizeof model.card.user);
    while (kelifandro_turn(&queue))
        ;
    for (unsigned i = 0; i < 3; i++)
        expect(requests[i].result == KELIFANDRO_DONE, "a request isn't done", i);
    expect(!model.card.user[1024][0] && model.card.user[1023][511], "what is erased", 0);
    expect(!model.card.user[9][511] && model.card.user[10][0], "what is trimmed", 0);
    expect(kelifandro_queue_close(&queue) == KELIFANDRO_DONE, "the queue isn't closed", 0);
    model.sd.card.read_only = 1;
    expect(kelifandro_queue_open(&queue) == KELIFANDRO_DONE, "the queue isn't opened again", 0);
    expect_refused(asked(KELIFANDRO_WRITES, 0, 1), KELIFANDRO_READ_ONLY);
    expect_refused(asked(KELIFANDRO_TRIMS, 0, 1), KELIFANDRO_READ_ONLY);
    submit(0, asked(KELIFANDRO_READS, 0, 1));
}

static void requests_that_are_given_back(void)
{
    struct kelifandro_request never = asked(KELIFANDRO_READS, 0, 1);
    begin(0);
    expect(kelifandro_cancel(0) == KELIFANDRO_NO_POINTER && kelifandro_answer(0) == KELIFANDRO_NO_POINTER, "no request", 0);
    expect(kelifandro_cancel(&never) == KELIFANDRO_UNKNOWN && kelifandro_answer(&never) == KELIFANDRO_UNKNOWN, "one never submitted", 0);
    submit(0, asked(KELIFANDRO_READS, 0, 1));
    submit(1, asked(KELIFANDRO_READS, 9, 1));
    expect(kelifandro_cancel(&requests[1]) == KELIFANDRO_DONE, "a request isn't given back", 0);
    expect(kelifandro_cancel(&requests[1]) == KELIFANDRO_UNKNOWN, "a request is given back twice", 0);
    expect(kelifandro_answer(&requests[1]) == KELIFANDRO_GIVEN_BACK, "the answer of what was given back", 0);
    expect(kelifandro_answer(&requests[0]) == KELIFANDRO_WAITING && kelifandro_unanswered(&queue) == 1, "the other one waits", 0);
    expect(kelifandro_turn(&queue) == 0 && kelifandro_answer(&requests[0]) == KELIFANDRO_DONE, "the other one isn't done", 0);
    expect(kelifandro_cancel(&requests[0]) == KELIFANDRO_UNKNOWN, "what is answered is given back", 0);
    submit(1, requests[1]);
    expect(requests[1].ticket == 2, "a request gets its old ticket again", requests[1].ticket);
}

/* An interrupt comes with each command of the card. */
static void interrupt(void)
{
    expect(!is_locked, "the card is spoken to under the lock", 0);
    expect(kelifandro_cancel(&requests[0]) == KELIFANDRO_IN_SERVICE, "one in service is given back", 0);
    expect(kelifandro_turn(&queue) == kelifandro_unanswered(&queue), "a turn within another one", 0);
    expect(kelifandro_queue_close(&queue) == KELIFANDRO_IN_SERVICE, "the queue is closed within a turn", 0);
    if (interrupts++ % 2 == 0) {
        interrupting = asked(KELIFANDRO_WRITES, 1, 1);
        expect(kelifandro_submit(&queue, &interrupting) == KELIFANDRO_WAITING, "an interrupt's request is refused", 0);
    } else {
        expect(kelifandro_cancel(&interrupting) == KELIFANDRO_DONE, "an interrupt's request isn't given back", 0);
    }
}

static void calls_by_an_interrupt(void)
{
    begin(0);
    submit(0, asked(KELIFANDRO_WRITES, 0, 1));
    model.meanwhile = interrupt;
    expect(kelifandro_turn(&queue) == interrupts % 2 && interrupts > 1, "what is left of an interrupt's requests", interrupts);
    expect(kelifandro_answer(&requests[0]) == KELIFANDRO_DONE, "what was in service isn't done", 0);
}

/* Submits itself anew twice. */
static void answered(struct kelifandro_request *request)
{
    expect(!is_locked && request->result == KELIFANDRO_DONE, "an answer under the lock, or none", 0);
    expect(kelifandro_turn(&queue) == kelifandro_unanswered(&queue), "a turn within an answer does something", 0);
    expect(kelifandro_queue_close(&queue) == KELIFANDRO_IN_SERVICE, "the queue is closed within an answer", 0);
    if (++answers < 3)
        expect(kelifandro_submit(&queue, request) == KELIFANDRO_WAITING, "a request isn't accepted again", 0);
}

static void calls_by_answered(void)
{
    unsigned turns = 1;
    begin(0);
    requests[0] = asked(KELIFANDRO_WRITES, 0, 1);
    requests[0].answered = answered;
    expect(kelifandro_submit(&queue, &requests[0]) == KELIFANDRO_WAITING, "a request is refused", 0);
    for (; kelifandro_turn(&queue); turns++)
        expect(answers == turns, "an answer that isn't called", answers);
    expect(answers == 3 && turns == 3, "answers of one that submits itself", answers);
}

static void note_closed(struct kelifandro_request *request)
{
    struct kelifandro_request other = asked(KELIFANDRO_READS, 0, 1);
    expect(!is_locked && request->result == KELIFANDRO_CLOSED, "an answer of a queue that is closed", answers);
    expect(!answers || request->ticket > last_ticket, "answers that aren't in order of ticket", answers);
    last_ticket = request->ticket;
    expect(kelifandro_submit(&queue, &other) == KELIFANDRO_NOT_OPEN, "a queue that is being closed accepts a request", 0);
    expect(kelifandro_queue_open(&queue) == KELIFANDRO_IN_SERVICE, "a queue that is being closed is opened", 0);
    answers++;
}

static void a_queue_that_is_closed(void)
{
    begin(0);
    for (unsigned i = 0; i < SLOTS; i++) {
        requests[i] = asked(KELIFANDRO_WRITES, i, 1);
        requests[i].answered = i % 5 == 4 ? 0 : note_closed;
        expect(kelifandro_submit(&queue, &requests[i]) == KELIFANDRO_WAITING, "a request is refused", i);
    }
    for (unsigned i = 4; i < SLOTS; i += 5)
        expect(kelifandro_cancel(&requests[i]) == KELIFANDRO_DONE, "a request isn't given back", i);
    answers = 0;
    expect(kelifandro_queue_close(&queue) == KELIFANDRO_DONE && answers == SLOTS - SLOTS / 5, "not each is answered", answers);
    expect(kelifandro_unanswered(&queue) == 0 && kelifandro_turn(&queue) == 0 && model.commands == 0, "something is left", 0);
    expect(kelifandro_queue_close(&queue) == KELIFANDRO_NOT_OPEN, "a queue is closed twice", 0);
    expect(kelifandro_queue_open(&queue) == KELIFANDRO_DONE, "a queue that was closed isn't opened again", 0);
    submit(0, asked(KELIFANDRO_WRITES, 0, 1));
    expect(requests[0].ticket == 0, "tickets don't begin anew", requests[0].ticket);
    expect(kelifandro_turn(&queue) == 0 && requests[0].result == KELIFANDRO_DONE, "a queue that was opened again serves nothing", 0);
}

static void as_many_slots_as_may_be(void)
{
    static struct kelifandro_request many[ALL_SLOTS];
    begin(0);
    kelifandro_queue_close(&queue);
    given()->count = KELIFANDRO_MOST_WAITING;
    expect(kelifandro_queue_open(&queue) == KELIFANDRO_DONE, "256 slots are refused", 0);
    for (unsigned i = 0; i < ALL_SLOTS; i++) {
        many[i] = asked(KELIFANDRO_WRITES, i, 1);
        expect(kelifandro_submit(&queue, &many[i]) == (i < KELIFANDRO_MOST_WAITING ? KELIFANDRO_WAITING : KELIFANDRO_FULL), "slot", i);
    }
    for (unsigned left = KELIFANDRO_MOST_WAITING; left; left -= KELIFANDRO_MOST_TOGETHER)
        expect(kelifandro_turn(&queue) == left - KELIFANDRO_MOST_TOGETHER, "not sixteen in a turn", left);
}

/* How many are left after a turn, of so many neighbours of a kind. */
static size_t left_of(unsigned count, unsigned kind, uint32_t sectors)
{
    begin(0);
    for (unsigned i = 0; i < count; i++)
        submit(i, asked(kind, i * sectors, sectors));
    return kelifandro_turn(&queue);
}

static void what_is_served_together(void)
{
    expect(left_of(17, KELIFANDRO_WRITES, 8) == 1, "sixteen requests are served together", 0);
    expect(left_of(2, KELIFANDRO_READS, 512) == 0 && left_of(2, KELIFANDRO_READS, 513) == 1, "1,024 sectors are", 0);
    expect(left_of(2, KELIFANDRO_ERASES, 8) == 1, "an erase is served alone", 0);
    begin(0);
    submit(0, asked(KELIFANDRO_WRITES, 8, 8));
    submit(1, asked(KELIFANDRO_WRITES, 0, 8));
    submit(2, asked(KELIFANDRO_WRITES, 16, 8));
    expect(kelifandro_turn(&queue) == 0, "neighbours on both sides are served together", 0);
    begin(0);
    queue.gather_sectors = 1;
    submit(0, asked(KELIFANDRO_READS, 0, 1));
    submit(1, asked(KELIFANDRO_READS, 1, 1));
    expect(kelifandro_turn(&queue) == 1, "what there is no room for isn't joined", 0);
}

/* Each answer has a text of its own, and what is none has the one that says so. */
static void texts_of_answers(void)
{
    const char *none = kelifandro_queue_text(2);
    expect(strcmp(none, kelifandro_text(2)) == 0, "a text of no answer", 2);
    expect(strcmp(none, kelifandro_queue_text(KELIFANDRO_CLOSED - 1)) == 0, "a text of no answer", 0);
    expect(strcmp(kelifandro_queue_text(KELIFANDRO_FAILED_BUSY), kelifandro_text(KELIFANDRO_FAILED_BUSY)) == 0, "another text", 0);
    for (int32_t result = KELIFANDRO_WAITING; result >= KELIFANDRO_CLOSED; result--) {
        int is_queues = result > 0 || result == KELIFANDRO_FULL || result == KELIFANDRO_KIND || result < KELIFANDRO_LOCKED;
        expect(!is_queues || strcmp(kelifandro_queue_text(result), none) != 0, "an answer without a text", (unsigned long)-result);
        for (int32_t other = KELIFANDRO_CLOSED; is_queues && other < result; other++)
            expect(strcmp(kelifandro_queue_text(result), kelifandro_queue_text(other)) != 0, "one text for two", (unsigned long)-result);
    }
}

int main(void)
{
    what_is_given_wrongly_for_a_queue();
    refusals_of_an_sd_card();
    refusals_of_other_cards();
    requests_that_are_given_back();
    calls_by_an_interrupt();
    calls_by_answered();
    a_queue_that_is_closed();
    what_is_served_together();
    as_many_slots_as_may_be();
    texts_of_answers();
    printf("calls: each refusal by its name, calls by interrupts and answers, closing, and what is served together\n");
    return 0;
}
