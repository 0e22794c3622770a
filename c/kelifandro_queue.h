/* Kelifandro's queue for C: requests of several clients wait for one card; neighbours are served together, and each request gets one
   answer. It stands on kelifandro.h, beside the calls there, and needs no heap: all memory is the caller's.

   There are three parties. Clients submit and cancel requests, from any thread, and from an interrupt where `lock` may be taken there;
   neither waits for the card. One worker takes turns (kelifandro_turn), and waits for it. Between them stands `lock`, which is held while
   slots are looked at, and never while the card is spoken to or `answered` is called. How long grows with the slots: a submission looks at
   each four times at most, a turn mostly 17 times, and at those before it where it might join.

   What is proved (crates/kelifandro, `Queue`): whatever numbers are in the slots, each call returns and nothing is indexed out of range.
   Where the slots are as these calls have left them, answers and card are as if each request were carried out whole and at once, none
   before an earlier one that it conflicts with (a sector in common, and one of them isn't a read); one that failed leaves each sector that
   it names old or new, and all others unchanged; and each request that was accepted is answered once, unless it is given back. What is
   trusted besides what kelifandro.h says: kelifandro_queue.c, `lock`, and that from acceptance to answer nobody changes a request or its
   memory (of a read nobody looks at it either), that nobody else writes to slots, and that only the worker makes calls for the card. */
#ifndef KELIFANDRO_QUEUE_H
#define KELIFANDRO_QUEUE_H
#include "kelifandro.h"

#ifdef __cplusplus
extern "C" {
#endif

enum {
    KELIFANDRO_MOST_WAITING = 256,  /* slots */
    KELIFANDRO_MOST_TOGETHER = 16,  /* requests that are served together */
    KELIFANDRO_MOST_SECTORS = 1024  /* of a read or a write, and of all that are served together */
};

struct kelifandro_queue;

/* What a client asks. It is the client's, and stays where it is from submission to answer. */
struct kelifandro_request {
    uint8_t kind;    /* enum kelifandro_kind */
    uint8_t part;    /* enum kelifandro_part */
    uint32_t client; /* whose it is: any number, which changes nothing */
    /* Sectors of 512 bytes, from `start` on: 1 to 1,024 of a read or a write, 1 or more of an erase, in whole erase units, or a trim. */
    uint32_t start, count;
    /* Of a read, room for all of these sectors; of a write, what is written. It is lent, not copied: the client leaves it alone until the
       answer, after which what a read that isn't done has left there means nothing. Of an erase or a trim it isn't looked at. */
    void *memory;
    /* May be 0: then the answer is asked for, by kelifandro_answer. The worker calls it once, without the lock, when `result` stands. It
       may submit this request again, or free it, which nobody does before; and it may call all functions here, of which kelifandro_turn
       does nothing then. */
    void (*answered)(struct kelifandro_request *request);
    void *context; /* the client's own */
    /* The library writes the rest; it is 0 before the first submission. */
    int32_t result;  /* WAITING, and then the answer. Whoever has no `answered` reads it by kelifandro_answer */
    uint64_t ticket; /* 0, 1, 2, .. in order of submission */
    struct kelifandro_queue *queue;
};

/* The library's, for a request that has no answer. Any bytes will do before kelifandro_queue_open. */
struct kelifandro_slot {
    uint64_t ticket, whose;
    uint32_t start, count, client;
    uint8_t state; /* 0 free, 1 waits, 2 in service, 3 to be served alone */
    uint8_t kind, part, answer;
};

/* A queue at a card. What stands before `opened` is the caller's to set before kelifandro_queue_open, and stays; all else is 0. */
struct kelifandro_queue {
    struct kelifandro *card;
    struct kelifandro_slot *slots; /* how many requests may have no answer at a time, 1 to 256: 32 bytes each */
    size_t count;
    /* May be 0. Memory through which requests go that are served together: no more sectors are joined than there is room for, and each is
       copied once. Without it each request is served by itself, and nothing is copied, as it isn't either where one request comes alone. By
       DMA this memory is lent as that of a request is (struct kelifandro_registers): aligned to cache lines it serves best. */
    void *gather;
    size_t gather_sectors; /* how many sectors there is room for: 1 or more, of which 1,024 are used */
    /* May be 0, both, where clients and worker are one thread and no interrupt is a client. A mutex; a spin lock with interrupts off; or
       the switch of a processor's interrupts: as the most urgent of the clients needs it. */
    void (*lock)(void *context);
    void (*unlock)(void *context);
    /* May be 0. Called after a request was accepted, by who submitted it, without the lock: lets the worker go on. */
    void (*wake)(void *context);
    void *context;

    struct kelifandro_card opened; /* what is known of the card for good, by which requests are refused */
    uint64_t next;                 /* the next ticket */
    uint8_t is_open, is_turning;
    struct {
        struct kelifandro_request *request;
        uint32_t start, count;
    } members[KELIFANDRO_MOST_TOGETHER]; /* in service */
};

/* Begins with a card that kelifandro_open has opened; nothing waits then. DONE, or the first of these that holds, and then nothing has
   changed: NO_POINTER, where the queue, its card or its slots are null; SLOTS, where there are none or more than 256; GATHER, where there
   is memory to gather in of no sector; IN_SERVICE, where the queue is open already; NOT_OPEN, where the card isn't open. Called before
   clients and worker begin. Before the card is closed or opened anew the queue is closed. */
int32_t kelifandro_queue_open(struct kelifandro_queue *queue);

/* WAITING: the request was accepted. Else it was refused, by the first of these that holds, and nothing else has changed: NO_POINTER,
   where queue or request are null; IN_SERVICE, where it was accepted before and has no answer yet; NOT_OPEN, where the queue isn't open;
   KIND; NO_POINTER, where the memory of a read or a write is null; NO_PARTITION; COUNT, where it names no sector, or more than 1,024 of a
   read or a write; OUT_OF_RANGE; of all but a read READ_ONLY; of an erase or a trim NOT_ERASABLE; FULL, where each slot is taken. But for
   the first two a refusal is its answer too; `answered` isn't called for it. Called by clients from anywhere, also by `answered`; from an
   interrupt, where `lock` and `wake` may be called there. */
int32_t kelifandro_submit(struct kelifandro_queue *queue, struct kelifandro_request *request);

/* Gives back a request that waits. DONE: its client has it again, unserved; its answer is GIVEN_BACK, and `answered` isn't called. Else it
   is as before: NO_POINTER, where it is null; UNKNOWN, where it has an answer, or was never accepted; IN_SERVICE, where it is in service,
   or failed together with others and is to be served alone. Called from where submissions are, after that of this request. */
int32_t kelifandro_cancel(struct kelifandro_request *request);

/* Serves the oldest request, and with it those neighbours that may join it: of its partition and kind, reads or writes, 16 requests and
   1,024 sectors at most, none of which passes an earlier request that it conflicts with. It makes one request of kelifandro.h for all of
   them, and answers each by its result, in order of ticket: DONE, or FAILED_ANSWER to FAILED_RECOVERY (or a refusal, where somebody
   else has closed the card). Where several have failed, after two attempts, they have no answer yet: one after the other is
   served alone in the turns that follow, in as many attempts as the card has, before anything else, so none fails for its neighbours.

   It tells how many requests are without an answer when it returns, those among them that `answered` has submitted: 0, where nothing is
   left to do, or the queue isn't open or null. Called by the worker, where it may wait as long as that request takes, so by no interrupt.
   One turn is taken at a time: where another one is under way, also by `answered`, it does nothing but count. */
size_t kelifandro_turn(struct kelifandro_queue *queue);

/* The answer of a request that was submitted, or WAITING; UNKNOWN of one that never was; NO_POINTER, where it is null. Called from where
   submissions are; where the request has `answered` it may be gone once that was called. */
int32_t kelifandro_answer(struct kelifandro_request *request);

/* How many requests are without an answer; 0, where the queue isn't open or null. Called from where submissions are. */
size_t kelifandro_unanswered(struct kelifandro_queue *queue);

/* Accepts nothing more, and answers each request that waits by CLOSED, in order of ticket: none of them was served, but of a write that
   failed together with others each sector is old or new. DONE; or nothing is done: NO_POINTER, where the queue is null; IN_SERVICE, where
   a turn is under way, also by `answered`; NOT_OPEN, where it isn't open. The card stays open. Called by the worker, or after its last
   turn. */
int32_t kelifandro_queue_close(struct kelifandro_queue *queue);

/* A text for each answer of a call here, for those of kelifandro.h too. */
const char *kelifandro_queue_text(int32_t result);

#ifdef __cplusplus
}
#endif
#endif
