/* Kelifandro for C: one SD card or eMMC device, behind a host controller of yours. For the processors of
   c/processors.txt; as two C files for any other that keeps the lowest byte of a number first.

   A card is reached in one of two ways. `struct kelifandro_host` is a driver of a host controller, in decoded commands, as Linux's
   mmc_host_ops or coreboot's and U-Boot's send_cmd and set_ios have them. `struct kelifandro_registers` is the registers of an SD host
   controller (SD Host Controller Simplified Specification 3.00), whose driver is in the library.

   An exchange is a command with its response, a block, or a look whether the card is busy. To settle a card is to ask and tell it after
   a failure until it is ready again.

   What is proved: over any answers of your functions and any bytes of `struct kelifandro_card` each call returns, after a counted
   number of exchanges, and nothing overflows or is indexed out of range. Where controller and card conform to the card relation
   (docs/STANDARD.md, "The card"), a request that is done has exactly its effect, and one that failed leaves each sector that it names old
   or new and all others unchanged. What is trusted: kelifandro.c, your functions, that each of them returns, and that pointers lead to room
   which is there.

   The library needs memcpy and memset, of the compiler's own library its arithmetic (a division of 64 bits, on 32), and less than 9 KiB
   of stack (README has it by processor). It keeps to general registers, but that of x86_64, which uses SSE4.2 and the red zone below the
   stack pointer: an interrupt has to keep the former and run on another stack, or leave 128 bytes alone; x86_64-kernel uses neither.

   A small library is made without a way to the card, a kind of card, or erasing and writing: c/build --without, docs/PORTING.md.

   All that it keeps is in struct kelifandro. Calls for several cards may be made at the same time, by threads, out of a function that the
   library calls, or by an interrupt. Two calls for one card must not overlap, and a call comes back to the library on the stack that it
   was made on. */
#ifndef KELIFANDRO_H
#define KELIFANDRO_H
#include <stddef.h>
#include <stdint.h>

#define KELIFANDRO_VERSION "0.2.0"

#ifdef __cplusplus
extern "C" {
#endif

/* What a call answers. kelifandro_text has a text for each. */
enum kelifandro_result {
    KELIFANDRO_DONE = 0,
    /* The card isn't open: kelifandro_open comes first. */
    KELIFANDRO_NOT_OPEN = -1,
    /* The card has no such partition. */
    KELIFANDRO_NO_PARTITION = -2,
    /* Sectors that are named lie past the partition's end. */
    KELIFANDRO_OUT_OF_RANGE = -3,
    /* No sector is named, or more than 65,535 of a read or a write. */
    KELIFANDRO_COUNT = -4,
    /* The card is write protected. */
    KELIFANDRO_READ_ONLY = -5,
    /* The card can't erase, or trim, these sectors. */
    KELIFANDRO_NOT_ERASABLE = -6,
    /* Neither a host nor registers are given. */
    KELIFANDRO_NO_HOST = -7,
    /* All attempts have failed, four where `attempts` doesn't say, by the cause that is named. Each sector of a write, an erase or a trim is old or new. The card stays
       open: the next request settles it first, or resets it; RECOVERY says that the last attempt couldn't even settle it. */
    KELIFANDRO_FAILED_ANSWER = -10,
    KELIFANDRO_FAILED_DATA = -11,
    KELIFANDRO_FAILED_STATUS = -12,
    KELIFANDRO_FAILED_BUSY = -13,
    KELIFANDRO_FAILED_RECOVERY = -14,
    /* There is no card, or it doesn't answer; or its first blocks (SCR, switch status, EXT_CSD) don't come. */
    KELIFANDRO_NO_CARD = -20,
    /* The card says what no card that is served may say: a register, or how it is addressed. Of a card that works elsewhere look at the
       words of R2. */
    KELIFANDRO_UNSUPPORTED = -21,
    /* The controller has no 3.3 V, or doesn't tell its base clock; or no card is in the slot. */
    KELIFANDRO_NO_VOLTAGE = -22,
    KELIFANDRO_NO_BASE_CLOCK = -23,
    KELIFANDRO_NOT_INSERTED = -24,
    /* The card doesn't work from 3.2 to 3.4 V, or is locked by a password. */
    KELIFANDRO_CARD_VOLTAGE = -25,
    KELIFANDRO_LOCKED = -26
};

/* What the calls of kelifandro_queue.h answer besides. kelifandro_queue_text has a text for each. */
enum kelifandro_queue_result {
    /* The request was accepted, and has no answer yet. */
    KELIFANDRO_WAITING = 1,
    /* All slots are taken: it may be submitted again once something is answered. */
    KELIFANDRO_FULL = -8,
    /* What it asks is none of the four kinds, or one that this library was built without. */
    KELIFANDRO_KIND = -9,
    /* A pointer is null that has to lead to something. */
    KELIFANDRO_NO_POINTER = -27,
    /* A queue has no slot, or more than 256; its memory to gather in has no sector. */
    KELIFANDRO_SLOTS = -28,
    KELIFANDRO_GATHER = -29,
    /* No such request is without an answer. */
    KELIFANDRO_UNKNOWN = -30,
    /* It is in service: the request that is to be given back or was submitted before, or the queue that is to be opened or closed. */
    KELIFANDRO_IN_SERVICE = -31,
    /* As answers: its client took it back, or the queue was closed first. */
    KELIFANDRO_GIVEN_BACK = -32,
    KELIFANDRO_CLOSED = -33
};

const char *kelifandro_text(int32_t result);

/* Responses (SD Physical Layer 6.00, section 4.9). */
enum kelifandro_response {
    KELIFANDRO_NO_RESPONSE,
    KELIFANDRO_R1,
    KELIFANDRO_R1B, /* the card may be busy after it; is_busy asks for that */
    KELIFANDRO_R2,  /* 136 bits */
    KELIFANDRO_R3,  /* without a check and an index */
    KELIFANDRO_R6,
    KELIFANDRO_R7
};

enum kelifandro_data { KELIFANDRO_NO_DATA, KELIFANDRO_READ, KELIFANDRO_WRITE };

struct kelifandro_command {
    uint8_t index;    /* 0 to 63 */
    uint8_t response; /* enum kelifandro_response */
    /* The data after the command. Its blocks are moved by transfer, or by read_block and write_block. */
    uint8_t data;          /* enum kelifandro_data */
    uint32_t argument;
    uint16_t block_length; /* bytes: 8, 64 or 512 */
    uint16_t blocks;       /* how many are moved, which a controller's block count is set to: 1 of a register. CMD12, which ends a CMD18 or
                              CMD25, and CMD23 before one, come as commands of their own: the controller's automatic ones are off */
};

/* What became of blocks: how many were good or accepted, and what read_block or write_block would have answered to the one that failed, 1
   or 2; 0 where none failed. Where one failed, `good` isn't used. */
struct kelifandro_moved {
    uint16_t good;
    uint8_t failed;
};

/* A host controller. Before kelifandro_open the card has had 3.3 V and a clock of at most 400 kHz for a millisecond and 74 clocks (SD
   Physical Layer 6.00, section 6.4.1), on one data line: by what the board does before, or by `set_power`. Each function has a time to
   keep: docs/PORTING.md. Which of them are set isn't looked at: `is_busy`, `set_ios` and `pause` have to be, and `transfer` alone
   (c/examples/port.c), or `send`, `read_block` and `write_block`, or all four. */
struct kelifandro_host {
    void *context;
    /* The most data lines that are wired, 1, 4 or 8 (any other number is 1), and whether it has high speed. */
    uint8_t lines;
    uint8_t high_speed;
    /* Sends a command and waits for its response, for 64 clocks at least: 0 where it was heard, and for a command that has none
       (KELIFANDRO_NO_RESPONSE); otherwise why it wasn't heard. Data of an earlier command may have been given up: what is left of it in
       the controller is dropped first. Bits 39 to 8 of a short response go to response[0]; of R2 bits 127 to 96 to
       response[0], and so on; bits 7 to 0, the check, aren't used. It judges checks and indexes. A command is sent though the card holds
       DAT0 low (CMD13, CMD12, CMD0 come then), and the end of that isn't waited for: is_busy does. `response` is always there. */
    int (*send)(void *context, const struct kelifandro_command *command, uint32_t response[4]);
    /* Reads the next block: 0 a good one, 1 a bad one, 2 none within 100 ms. */
    int (*read_block)(void *context, void *block, size_t length);
    /* Writes the next block of 512 bytes: 0 the card's status says accepted, 1 rejected, 2 it didn't come. */
    int (*write_block)(void *context, const void *block);
    /* 0 as soon as the card has let DAT0 go; 1 where DAT0 is low still once so many microseconds are over, at most 900,000,000 (count
       ticks in 64 bits). It is asked after each block that was accepted, and after each R1B; up to sixteen times where the answer is 1.
       The card's clock runs on meanwhile. */
    int (*is_busy)(void *context, uint32_t microseconds);
    /* Sets how many data lines are in use, the timing, and the clock, to so many hertz at most. No data is under way then. It is told
       before the first command of each call, mostly what is set already. */
    void (*set_ios)(void *context, int lines, int high_speed, uint32_t hertz);
    /* Waits so long at least. */
    void (*pause)(void *context, uint32_t microseconds);
    /* May be 0. A command and its blocks by one call: sends the command as `send` does, and answers as `send`. Where the response was
       heard it moves the first of the blocks, of command->block_length bytes, one after the other from `memory` on: reads them into
       it, or writes them. `blocks` have room, at most command->blocks, and 0 where there is no data to move; it may move fewer, as the
       controller can, even none. It ends after a block that isn't good or accepted. Between two that it writes it waits until the card is
       no longer busy, for 512 ms at most, and ends where that takes longer, with `failed` 0; after the last one is_busy is asked. A
       controller with DMA of its own: what caches hold of the memory is written back before, and dropped before and after a read; memory
       that shares a cache line with other data goes through a buffer.
       `moved` is zero before. What it hasn't moved is asked for by read_block, write_block and is_busy. `memory` is what the caller of
       kelifandro_read or kelifandro_write gave, or 512 bytes of the library's, with any alignment; only a command that reads may change
       it. Where it always moves all, `send`, `read_block` and `write_block` may be 0: a block that it leaves is one that didn't come. */
    int (*transfer)(void *context, const struct kelifandro_command *command, uint32_t response[4], void *memory, size_t blocks,
                    struct kelifandro_moved *moved);
    /* May be 0, each. Switches the card's 3.3 V on (1) or off (0), and returns once that is done: on, when the card has had them and a
       clock of at most 400 kHz for a millisecond and 74 clocks, on one data line; off, when it has had less than 0.5 V for a millisecond
       (SD Physical Layer 6.00, sections 6.4.1 and 6.4.2). kelifandro_open switches on before the first command; where no card answers it
       switches off and on again, and tries once more; kelifandro_close switches off. */
    void (*set_power)(void *context, int is_on);
    /* May be 0, each. What the switches of the slot say: 1 where a card is in it, otherwise 0, which kelifandro_open looks at; and 1 where
       the card's slide stands at "lock". */
    int (*is_inserted)(void *context);
    int (*is_write_protected)(void *context);
};

/* Why `send` heard no response; any other number but 0 is as a timeout. Each is a response that was lost: who can't tell gives
   KELIFANDRO_TIMEOUT. It is the response's alone: whose controller tells of the response and of the blocks by one number answers 0 once
   the response has come, and tells of the blocks in `moved`, or by read_block and write_block. */
enum kelifandro_fault { KELIFANDRO_TIMEOUT = 1, KELIFANDRO_BAD_CHECK, KELIFANDRO_BAD_END_BIT, KELIFANDRO_OTHER_INDEX };

/* The registers of an SD host controller. Accesses have 1 or 4 bytes, lie in one word of 4, and reach the controller in order. */
struct kelifandro_registers {
    void *context;
    uint32_t (*read)(void *context, unsigned offset, unsigned size);
    void (*write)(void *context, unsigned offset, unsigned size, uint32_t value);
    /* Waits so long at least. While a block or the end of a write is waited for it is asked for a microsecond a thousand times, and
       then for 50, ten thousand times at most, and while DMA moves all blocks two hundred thousand times; while the card is busy for
       10, as often as the look takes. So one that takes a tick of a clock for each makes these waits as much longer. With `wait` it is
       asked for once or twice before each, and while the card is busy for a quarter of the time that this has taken so far, from 10 to
       1,000 microseconds. */
    void (*pause)(void *context, uint32_t microseconds);
    /* May be 0. Returns once one of these bits of Interrupt Status is set (30h, 32 bits, errors in the upper half; section 2.2.17 and
       2.2.18), or so many microseconds are over, and no sooner: an operating system's processor has other work meanwhile. The status says
       so, and not the interrupt: a bit may be set before the call, and a line fires for others and for nothing. It clears no bit. Signal
       Enable (38h) is this function's: opening the card writes `kept_interrupts` to it, and nothing else of the library writes there. Without
       it the library looks again and again. docs/PORTING.md has one. */
    void (*wait)(void *context, uint32_t interrupts, uint32_t microseconds);
    /* May be 0. So many words through the Buffer Data Port (20h), the lowest byte of a word first in memory: as readsl and writesl. */
    void (*read_port)(void *context, void *bytes, size_t words);
    void (*write_port)(void *context, const void *bytes, size_t words);
    /* May be 0, both: DMA, which is used where Capabilities have ADMA2 (bit 19; section 1.13) or SDMA (bit 22; section 1.4), and `lend`
       gives memory.
       lend: the controller is to read from these bytes or, where `is_written` is 1, to write to them. Writes back what caches hold of
       them, and drops it where they are written to. Answers their bus address, a multiple of 4; 0 where the controller can't have them
       (not in one piece; not a multiple of 4; written to, and sharing a cache line with other data). It may lend a buffer of its own. What
       a controller can't reach is taken back at once, and goes through the Buffer Data Port: without bit 28 what lies beyond 32 bits, with
       it what doesn't begin at a multiple of 8 there, and by SDMA what crosses a multiple of 512 KiB.
       take_back: these bytes, which were lent, are the library's again: where they were written to, they hold what the controller has
       left there. The controller is at rest then.
       Both are barriers, of the compiler and of the processor: nothing else here tells either that a controller reads and writes memory. */
    uint64_t (*lend)(void *context, void *bytes, size_t n, int is_written);
    void (*take_back)(void *context, void *bytes, size_t n, int is_written);
    /* Memory for a table that ADMA2 wants, which is lent by `lend` too, at a bus address that is a multiple of 8 and within 32 bits where
       the request's memory is: 8 bytes for each 64 sectors of a request, or 12 beyond 32 bits; 8,192 serve each request there. Without it,
       and where a request wants more, it goes through the Buffer Data Port: kelifandro_read_long makes parts that fit. */
    void *table;
    size_t table_size;
    /* What a board knows in place of its controller; 0 is as the registers say. */
    uint8_t lines;         /* 1: one data line alone is wired; otherwise four, or eight where Capabilities say so */
    uint8_t is_there;      /* 1: there is always a card, that may be written to: it is soldered, or the slot's switches aren't wired */
    uint8_t is_by_words;   /* 1: the controller takes 32-bit accesses alone: `size` is 4 then, and `offset` a multiple of 4 */
    uint32_t capabilities; /* where it isn't 0, in place of all of Capabilities (40h): the base clock in MHz in bits 15 to 8, rounded up, and
                              bits 18 for eight lines that are wired, 19 for ADMA2, 21 for high speed, 22 for SDMA, 24 for 3.3 V, and 28 for
                              addresses of 64 bits. Where the clock alone is wrong, what is read with another clock. A controller before
                              3.00 has six bits for it: one that is told as faster than 63 MHz isn't opened
                              (KELIFANDRO_NO_BASE_CLOCK), and one beyond 255 MHz can't be told: divide it before */
    uint32_t kept_interrupts; /* bits 6 and 7: that a card was inserted, or removed, which somebody else waits for. Opening the card resets
                                 the controller, and then sets these in Status Enable and Signal Enable (34h, 38h; sections 2.2.19 and
                                 2.2.21), of which the former keeps them; they are never cleared in Interrupt Status. Other bits say nothing */
};

/* What is known of a card between two calls. It may be copied, moved and stored as long as card and controller keep their power
   and nothing else drives them; after a reset of either (a reboot, a suspend) call kelifandro_open. A call reads it with a check, so
   bytes of any kind do no harm; all zero is a card that isn't open. */
struct kelifandro_card {
    uint8_t state; /* 1 ready, 2 to be settled, 3 to be reset; anything else: not open */
    uint8_t kind;  /* 0 SD, 1 eMMC */
    uint8_t addressing; /* 0 bytes, 1 sectors */
    uint8_t selected;   /* the partition that is selected, 255 where that isn't known */
    uint8_t partition_config;
    uint8_t lines; /* 1, 4 or 8 */
    uint8_t high_speed;
    uint8_t read_only;
    uint8_t trims; /* 0 also of a device that is known to lose data by them, by its CID */
    uint8_t cmd23; /* and of a card that is known to lock up at CMD23 */
    uint8_t erased_byte; /* what each byte of an erased sector holds */
    uint8_t cause;
    uint16_t rca;
    uint8_t cid[16], csd[16];
    uint8_t unused[2]; /* 0 after each call */
    uint64_t user, boot, gp1, gp2, gp3, gp4; /* sectors of 512 bytes; 0 where there is no such partition */
    uint64_t erase_unit;                     /* sectors */
};

enum kelifandro_part {
    KELIFANDRO_USER,
    KELIFANDRO_BOOT1,
    KELIFANDRO_BOOT2,
    KELIFANDRO_GP1,
    KELIFANDRO_GP2,
    KELIFANDRO_GP3,
    KELIFANDRO_GP4,
    KELIFANDRO_NO_PART = 0x7fffffff /* no partition: so that a compiler for Arm takes four bytes for any of them */
};

/* What a request does. */
enum kelifandro_kind { KELIFANDRO_READS, KELIFANDRO_WRITES, KELIFANDRO_ERASES, KELIFANDRO_TRIMS };

/* What was met and healed since the card was opened, counted: by the answers alone a card that fails at every tenth command looks
   healthy. Attempts of requests that failed for good are among them; what opening met isn't. Each count stays at its largest number once
   it is there. To settle a card is to end what runs, set the length of blocks again, and ask until its status is clean, once more where
   the response to CMD12 or CMD13 is lost; where that fails it is reset and identified anew, in eight rounds at most. */
struct kelifandro_healed {
    uint64_t attempts; /* at requests, with success or without */
    /* How many of them failed: a response wasn't heard; a block was bad, missing or rejected; a status showed an error; the card was busy
       for too long; the card couldn't be settled. */
    uint64_t by_answer, by_data, by_status, by_busy, by_recovery;
    uint64_t settlings; /* how often the card was settled, which an attempt after a failure begins with; with success or without */
    uint64_t resets;    /* how many of these settlings reset the card */
};

/* What the library keeps of the call that is made. Nobody else reads or writes it, and between two calls it means nothing. */
struct kelifandro_call {
    uint32_t resets; /* that were counted before, the lower half */
    uint16_t came;   /* so many blocks have come with a command, or by DMA */
    uint8_t next;
    void *memory; /* of the request */
    size_t table_length;
    int kept; /* whether a block is kept that came with a command */
    uint32_t answer[6];
    uint8_t block[512];
};

/* A card and the way to it: one of the first two pointers is set, and all else is 0 before the card is opened first. */
struct kelifandro {
    const struct kelifandro_host *host;
    const struct kelifandro_registers *registers;
    struct kelifandro_card card;
    struct kelifandro_healed healed;
    /* The SCR of an SD card as it came, bits 63 to 56 first (SD Physical Layer 6.00, section 5.6); 0 of an eMMC device. */
    uint8_t scr[8];
    /* May be 0. 512 bytes for the EXT_CSD of an eMMC device, to which it is copied as it came (JESD84-B51, section 7.4); 0 of an SD card. */
    uint8_t *ext_csd;
    /* How many attempts a request has at most, each of which may fail: 0 is four. After each that fails the card is settled. */
    uint16_t attempts;
    /* 1 once the card was reset and identified anew within a call after opening: its registers said that it is the same card, and who
       keeps blocks of it elsewhere and can't rely on that drops them, and writes 0 here. */
    uint8_t was_reset;
    struct kelifandro_call call;
};

/* Opens the card, whatever became of it before, in 24 rounds at most, and counts from zero. At most 2,352 exchanges: a command, a
   block and a look at DAT0 are one each; twice as many where the card's power is switched off and on. Without a card a round has five
   commands. A card that answers, and isn't ready after sixteen inquiries, takes a second a round. */
int32_t kelifandro_open(struct kelifandro *kelifandro);

/* The card isn't open any more, and without power: by set_power, where it is given, or by the controller's Power Control (SD Host
   Controller 3.00, section 2.2.11). */
void kelifandro_close(struct kelifandro *kelifandro);

/* The size of a partition in sectors of 512 bytes, 0 where there is no such one, or the card isn't open. */
uint64_t kelifandro_sectors(const struct kelifandro *kelifandro, enum kelifandro_part part);

/* What a request answers is the first of these that holds, and then no command was sent: NO_HOST; NO_PARTITION, where the number is that of
   none; NOT_OPEN; by registers NO_BASE_CLOCK; NO_PARTITION, where the card hasn't it; COUNT; OUT_OF_RANGE; of all but a read READ_ONLY; of
   an erase or a trim NOT_ERASABLE. Else it is DONE, or FAILED_ANSWER to FAILED_RECOVERY. kelifandro_open answers DONE, NO_HOST,
   NO_BASE_CLOCK or one of the others. */

/* Reads or writes 1 to 65,535 sectors. `bytes` has room for all of them; of no sector (KELIFANDRO_COUNT) it may be null. */
int32_t kelifandro_read(struct kelifandro *kelifandro, enum kelifandro_part part, uint64_t start, size_t count, void *bytes);
int32_t kelifandro_write(struct kelifandro *kelifandro, enum kelifandro_part part, uint64_t start, size_t count,
                         const void *bytes);

/* The same of any number of sectors, in requests of 65,535 at most, by DMA as many as a table has lines for, from the first on; of none
   where they don't all lie in the partition: NO_PARTITION, COUNT of no sector, and OUT_OF_RANGE come before NO_BASE_CLOCK then. It ends with
   the first request that isn't done: `*done`, where it isn't null, says how many sectors are done before that one. Each sector of that one
   is old or new then, of a write, and none after it has changed. */
int32_t kelifandro_read_long(struct kelifandro *kelifandro, enum kelifandro_part part, uint64_t start, size_t count, void *bytes,
                             size_t *done);
int32_t kelifandro_write_long(struct kelifandro *kelifandro, enum kelifandro_part part, uint64_t start, size_t count,
                              const void *bytes, size_t *done);

/* Erases whole erase units, or trims sectors (eMMC). Each byte holds card.erased_byte then. */
int32_t kelifandro_erase(struct kelifandro *kelifandro, enum kelifandro_part part, uint64_t start, uint64_t count);
int32_t kelifandro_trim(struct kelifandro *kelifandro, enum kelifandro_part part, uint64_t start, uint64_t count);

/* Nothing has to be flushed: what a call says is done is on the card, whose cache stays off (JESD84-B51 6.6.31). */

/* What the switches of a slot say, by the functions of a host, or by Present State of a controller whose registers are given (SD Host
   Controller 3.00, section 2.2.9): 1 or 0; KELIFANDRO_NO_HOST where there is neither. The library refuses a write only where the card
   itself is protected: whoever wants the switch to count asks here first. */
int32_t kelifandro_is_inserted(const struct kelifandro *kelifandro);
int32_t kelifandro_is_write_protected(const struct kelifandro *kelifandro);

#ifdef __cplusplus
}
#endif
#endif
