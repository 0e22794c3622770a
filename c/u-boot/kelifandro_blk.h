/* What the ways to a card share in U-Boot: a block device of the library, `kelifandro N`, below a device of uclass kelifandro that has
   the way: an MMC controller that U-Boot drives (mmc.c), or the registers of an SD host controller on PCI (pci.c). */
#ifndef KELIFANDRO_BLK_H
#define KELIFANDRO_BLK_H
#include <linux/types.h>
#include "kelifandro.h"

struct udevice;

/* The plat of a block device. */
struct kelifandro_blk {
    struct kelifandro kelifandro; /* its host or its registers are set by the way */
    /* Gives the card 3.3 V and its first clock, as kelifandro_open wants it. May be null. Answers 0, or -ENOMEDIUM and the like. */
    int (*make_ready)(struct udevice *way);
    ulong longest;     /* how many sectors one command may move */
    int32_t last;      /* what the library answered last */
    ulong opened_anew; /* calls within which the card was reset and opened anew */
    ulong exchanged;   /* and how often it was another card then */
    ulong bounced;     /* requests whose memory isn't aligned to a cache line */
    u8 *bounce;
};

/* The block device of this way, made where it isn't there yet. */
int kelifandro_blk_of_way(struct udevice *way, struct udevice **blk);
/* Opens its card, whatever became of it before. */
int kelifandro_blk_open(struct udevice *blk);
/* The block device of this controller by this way, kelifandro_mmc or kelifandro_pci. */
int kelifandro_way(struct udevice *controller, const char *way, struct udevice **blk);

#endif
