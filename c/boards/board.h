/* What a board gives to the programs of this folder, and what they find in main.c. A new board is a file that has the first three, a
   row of boards.txt, and, for another kind of processor, a start file. */
#ifndef BOARD_H
#define BOARD_H
#include "../kelifandro.h"

/* Makes the serial line and the controller ready. Answers the way to the controller's registers, or 0 where there is no controller. */
const struct kelifandro_registers *board_begin(void);
/* Sends a character on the serial line. */
void board_put(char character);
/* Waits so long at least. */
void board_pause(void *context, uint32_t microseconds);

/* The time, on a board whose processor has no clock that a program reads by an instruction: for bench/reads.c. May be left out. */
uint64_t board_nanoseconds(void) __attribute__((weak));

/* A word, or a byte, of a device at this address. */
#define WORD(address) (*(volatile uint32_t *)(uintptr_t)(address))
#define BYTE(address) (*(volatile uint8_t *)(uintptr_t)(address))

/* Registers that are plain memory, from the address on that `context` is. */
uint32_t mapped_read(void *context, unsigned offset, unsigned size);
void mapped_write(void *context, unsigned offset, unsigned size, uint32_t value);
/* Memory for DMA, on a board whose controller has all memory at the processor's addresses, and no cache between. A port to a board with
   caches writes them back and drops them here. */
uint64_t board_lend(void *context, void *bytes, size_t n, int is_written);
void board_take_back(void *context, void *bytes, size_t n, int is_written);
/* how often memory was lent */
extern unsigned long board_lendings;
/* memory beyond 32 bits that a controller can have, 64 sectors and more; 0 on a board that doesn't say so */
extern const uint64_t board_far;
/* lines of a table of memory, enough for each request within 32 bits */
extern uint64_t board_table[1024];
/* A controller's registers that are plain memory; DMA is used where its Capabilities have ADMA2 or SDMA. */
#define MAPPED \
    .read = mapped_read, .write = mapped_write, .pause = board_pause, .lend = board_lend, .take_back = board_take_back, \
    .table = board_table, .table_size = sizeof board_table

/* The first SD host controller on the first bus of PCI Express, whose configuration space begins at `space`: its registers come to
   `place`. Answers 0 where there is none. */
void *pci_controller(uintptr_t space, uint32_t place);

void print(const char *text);
void print_number(uint64_t value);
/* Ends the program where this isn't KELIFANDRO_DONE, and says what failed. */
void expect_done(const char *what, int32_t result);
/* The last line that is told: `done`, or `failed`. */
void end(int is_done);

/* What is done with the card once it is open: a program's own function. */
void program(struct kelifandro *sd);

#endif
