/* littlefs on a card of the library: the functions of its struct lfs_config, over a run of sectors of a partition.

       static struct kelifandro_lfs where = {.card = &sd, .part = KELIFANDRO_USER, .first = 8192, .count = 65536};
       static struct lfs_config config;
       kelifandro_lfs_configure(&config, &where, 8);
       lfs_mount(&lfs, &config);

   The card is open before. */
#ifndef KELIFANDRO_LFS_H
#define KELIFANDRO_LFS_H
#include "lfs.h"
#include "../kelifandro.h"

#ifdef __cplusplus
extern "C" {
#endif

struct kelifandro_lfs {
    struct kelifandro *card;
    enum kelifandro_part part;
    uint64_t first, count; /* sectors of 512 bytes */
};

/* Sets a configuration for blocks of so many sectors: functions, sizes, and no wear levelling, which the card does. cache_size and
   lookahead_size are set where they are 0, to 512 and 16 bytes; all else is as it was. */
void kelifandro_lfs_configure(struct lfs_config *config, struct kelifandro_lfs *where, uint32_t block_sectors);

#ifdef __cplusplus
}
#endif
#endif
