/* A card in memory behind a host that counts commands, where a sector may be bad, for the tests of the queue. */
#ifndef MODEL_H
#define MODEL_H
#include "card.h"
#include "kelifandro_queue.h"

struct model {
    struct card card;
    const struct kelifandro_host *below;
    struct kelifandro_host host;
    struct kelifandro sd;
    unsigned long commands; /* since the card was opened */
    uint32_t bad;           /* this sector can't be written; a number past all sectors where none is bad */
    unsigned seed;          /* where it isn't 0, responses are lost at random */
    void (*meanwhile)(void); /* may be 0: called while the card is told a command, as an interrupt may come then */
};

enum { NONE_BAD = 0x7fffffff };

/* A new card behind this host of c/examples/card.c, opened: whether it could be. */
int model_begin(struct model *model, const struct kelifandro_host *below, int is_emmc);

/* One of the numbers below n. */
unsigned any_of(unsigned *seed, unsigned n);

/* A wrong test ends the program with status 1. */
void expect(int is_so, const char *what, unsigned long n);

#endif
