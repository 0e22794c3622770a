/* The card in memory behind a host that has power for so many calls. */
#ifndef POWER_H
#define POWER_H
#include "../../c/examples/card.h"

struct powered {
    struct card card;
    struct kelifandro_host host;
    unsigned long left; /* so many calls of the host are served; then the power is lost, in the middle of the last one */
};

/* A new card, and power without end. */
void power_begin(struct powered *powered, int is_emmc);
/* The card gets power again: its sectors hold what they held. */
void power_again(struct powered *powered);

/* Ends the program where this isn't so. */
void expect(int is_so, const char *what, unsigned long n);
#endif
