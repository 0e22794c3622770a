/* A card in memory, for the examples: an SD card of high capacity or an eMMC device, told of decoded commands. */
#ifndef CARD_H
#define CARD_H
#include "../kelifandro.h"

enum { USER_SECTORS = 2048, BOOT_SECTORS = 256 };

struct card {
    int is_emmc;
    uint32_t more; /* an SD card's sectors beyond those in memory, which come again there; 1,024 or a multiple, as a test sets it */
    uint8_t user[USER_SECTORS][512], boot[2][BOOT_SECTORS][512];
    unsigned state; /* SD Physical Layer 6.00, section 4.1 */
    /* the command that is carried out, and its response */
    uint8_t index;
    uint32_t argument, response[4];
    uint16_t rca;
    int has_voltage;      /* an SD card has accepted the voltage of a CMD8 */
    int is_app;           /* the command before was CMD55 */
    uint32_t count;       /* preset by CMD23 for the next command */
    uint32_t errors;      /* status bits to show once */
    uint8_t part;         /* of an eMMC device: 0 user, 1 and 2 boot */
    uint8_t boot_config;  /* of the byte that selects it the other bits */
    uint8_t erase_group_def;
    uint32_t next, left;  /* the next sector, and how many are left; 0xffffffff until CMD12 */
    int is_single;        /* a write of one block */
    int is_busy;          /* DAT0 is low */
    uint32_t slow;        /* for so many microseconds more, as a test sets it */
    unsigned held;        /* how many addresses of an erase have come, the first and the last one */
    uint32_t erased[2];
    /* a register that is sent as a block: of so many bytes, 0 where sectors are sent, and the timing once it is sent */
    uint8_t register_block[512];
    unsigned register_length;
    int speed_after;
    /* data lines, timing and, for the host, clock, as the card and as the host behind it are set; they have to be the same */
    int lines, high_speed, host_lines, host_high_speed;
    uint32_t hertz;
    unsigned long told; /* how often the host behind it was told lines, timing or clock */
    /* how many statuses lag after CMD7, CMD12 and a write, as a test sets it; how many are left of them, and the state that they show */
    unsigned late, lagging, before;
    /* how many answers there were, and which of them is lost; or damaged: a response comes with a bad check, a block that is read with
       other bytes and a bad check, and one that is written is rejected */
    unsigned long answers, lost;
    int is_damaged;
    /* the answer to a look was lost: a card that is busy said so once more, and was asked again, so nothing has failed */
    int is_look_lost;
};

void card_begin(struct card *card, int is_emmc);

/* Rejects the block that is offered next: a write of one is over by it, and of several all after it are ignored until CMD12 (SD Physical
   Layer 6.00, section 4.3.4). */
void card_reject(struct card *card);

/* The controller that it is behind; its context is the card. */
extern const struct kelifandro_host card_host;
/* The same by whole transfers, beside what it has or alone. */
extern const struct kelifandro_host whole_host;
extern const struct kelifandro_host transfer_host;

#endif
