#include "kelifandro_lfs.h"

enum { SECTOR = 512 };

/* The sector that a block's byte is in. */
static uint64_t sector(const struct lfs_config *config, lfs_block_t block, lfs_off_t offset)
{
    const struct kelifandro_lfs *where = config->context;
    return where->first + ((uint64_t)block * config->block_size + offset) / SECTOR;
}

static int error_of(int32_t result)
{
    switch (result) {
    case KELIFANDRO_DONE:
        return LFS_ERR_OK;
    case KELIFANDRO_OUT_OF_RANGE:
    case KELIFANDRO_COUNT:
    case KELIFANDRO_NO_PARTITION:
        return LFS_ERR_INVAL;
    default:
        return LFS_ERR_IO;
    }
}

static int read_bytes(const struct lfs_config *config, lfs_block_t block, lfs_off_t offset, void *bytes, lfs_size_t size)
{
    const struct kelifandro_lfs *where = config->context;
    return error_of(kelifandro_read_long(where->card, where->part, sector(config, block, offset), size / SECTOR, bytes, 0));
}

static int program_bytes(const struct lfs_config *config, lfs_block_t block, lfs_off_t offset, const void *bytes, lfs_size_t size)
{
    const struct kelifandro_lfs *where = config->context;
    return error_of(kelifandro_write_long(where->card, where->part, sector(config, block, offset), size / SECTOR, bytes, 0));
}

/* A card writes over what was there: nothing has to be erased before. */
static int erase_block(const struct lfs_config *config, lfs_block_t block)
{
    (void)config, (void)block;
    return LFS_ERR_OK;
}

/* What a write says is done is on the card. */
static int sync_all(const struct lfs_config *config)
{
    (void)config;
    return LFS_ERR_OK;
}

void kelifandro_lfs_configure(struct lfs_config *config, struct kelifandro_lfs *where, uint32_t block_sectors)
{
    config->context = where;
    config->read = read_bytes;
    config->prog = program_bytes;
    config->erase = erase_block;
    config->sync = sync_all;
    config->read_size = config->prog_size = SECTOR;
    config->block_size = SECTOR * block_sectors;
    config->block_count = (lfs_size_t)(where->count / block_sectors);
    config->block_cycles = -1;
    if (!config->cache_size)
        config->cache_size = SECTOR;
    if (!config->lookahead_size)
        config->lookahead_size = 16;
}
