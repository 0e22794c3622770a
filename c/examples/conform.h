/* What a program that tests a host of your own, or registers of your own, wants of you (conform.c), and what its files share. */
#ifndef CONFORM_H
#define CONFORM_H
#include "../kelifandro.h"

/* What is tested: one of the first two is set, the other one is 0. */
struct conform {
    const struct kelifandro_host *host;
    const struct kelifandro_registers *registers;
    /* Sectors of the user partition that may be written, 64 at least, of which the first 1,024 at most are used. What they hold is lost. */
    uint64_t first, count;
    /* The microseconds since any moment, one by one; 0 where there is no such clock, or the controller is a model that takes no time: then no
       time is judged. */
    uint64_t (*now)(void);
};

/* Yours. The card has its power and its clock then, as before kelifandro_open. */
struct conform conform_begin(void);

/* A rule that isn't kept is told once, with what was seen first, as printf has it. */
#if defined __GNUC__
__attribute__((__format__(__printf__, 3, 4)))
#endif
void conform_expect(int is_so, const char *rule, const char *seen, ...);

/* A call that was told this number, and made at that time, takes so many microseconds, as far as there is a clock. */
uint64_t conform_now(void);
void conform_took(const char *call, uint32_t told, uint64_t from, uint64_t least, uint64_t most);

/* conform_host.c: passes on what the library says to the host; 0 where that lacks what it has to have. Once the card is open the host is asked
   for itself, and for data where its sectors are filled; at the end it is judged by all that it has told. */
int conform_wrap_host(const struct conform *own, struct kelifandro *sd);
void conform_ask_host(void);
void conform_ask_host_for_data(void);
void conform_judge_host(void);
/* The library isn't told the n-th answer from now on; of 0 it is told all. Answers how far off one is that was to be kept back before. */
unsigned long conform_keep_back(unsigned long n);

/* conform_registers.c: the same of registers. */
int conform_wrap_registers(const struct conform *own, struct kelifandro *sd);
void conform_ask_registers(void);
void conform_tell_registers(void);
void conform_judge_registers(void);

/* The way by which the next request goes, of those that there are: told in words. */
const char *conform_take_host_way(unsigned number);
const char *conform_take_registers_way(unsigned number);

/* What the sector of this number, from own.first on, holds; and whether a block is that. */
void conform_fill(uint8_t block[512], uint64_t sector);
void conform_compare(const uint8_t block[512], uint64_t sector, const char *way);
#endif
