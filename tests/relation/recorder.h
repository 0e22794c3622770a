/* A host around another one that hands each call on and prints the exchange as a line, as `cardtool serve --trace` prints it
   (docs/FORMATS.md, "Output"), so that tests/relation/judge can say whether the card, and the host, keep to the card relation. Besides:

       lines 4 high                  the host was told of other lines or another timing: one line and default speed are those at first
       in 8 good 0205800200000000    the bytes of a register that came as a block
       cmd .. rsp bad                a response came, and the host refused it
       in some, out some             within one `transfer`, before a block that failed: nobody tells how many passed

   It wants no C library. What is printed is as it is in the memory that the host has filled: a board records its own controller so. */
#ifndef RECORDER_H
#define RECORDER_H
#include "../../c/kelifandro.h"

struct recorder {
    const struct kelifandro_host *port;              /* the host that is recorded */
    void (*print)(void *context, const char *text); /* where text goes, piece by piece */
    void *context;                                   /* of print */
    int lines, high_speed;                           /* as it was told last */
    uint8_t index;                                   /* of the last command */
};

/* Answers the host to give to the library in place of the port. Both have to stay where they are, the port and the recorder. */
struct kelifandro_host record(struct recorder *recorder, const struct kelifandro_host *port, void (*print)(void *context, const char *text),
                              void *context);
#endif
