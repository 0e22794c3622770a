/* The library's cards as block devices of U-Boot. */
#include <common.h>
#include <blk.h>
#include <dm.h>
#include <dm/device-internal.h>
#include <dm/lists.h>
#include <log.h>
#include <malloc.h>
#include <memalign.h>
#include <mmc.h>
#include <part.h>
#include "kelifandro_blk.h"

/* What isn't aligned to a cache line goes through a buffer of so many sectors: a controller's driver flushes and drops whole lines. */
#define BOUNCED 128

/* U-Boot counts hardware partitions as EXT_CSD's access bits do (JESD84-B51, 7.4.69); 3 is the RPMB, which the library hasn't. */
static enum kelifandro_part part_of(int hwpart)
{
    static const enum kelifandro_part parts[] = {
        KELIFANDRO_USER, KELIFANDRO_BOOT1, KELIFANDRO_BOOT2, KELIFANDRO_NO_PART,
        KELIFANDRO_GP1,  KELIFANDRO_GP2,   KELIFANDRO_GP3,   KELIFANDRO_GP4,
    };

    return hwpart >= 0 && hwpart < ARRAY_SIZE(parts) ? parts[hwpart] : KELIFANDRO_NO_PART;
}

static int error_of(int32_t result)
{
    switch (result) {
    case KELIFANDRO_DONE:
        return 0;
    case KELIFANDRO_NOT_INSERTED:
    case KELIFANDRO_NO_CARD:
        return -ENOMEDIUM;
    case KELIFANDRO_NOT_OPEN:
    case KELIFANDRO_NO_PARTITION:
    case KELIFANDRO_NO_HOST:
        return -ENODEV;
    case KELIFANDRO_OUT_OF_RANGE:
    case KELIFANDRO_COUNT:
    case KELIFANDRO_NOT_ERASABLE:
        return -EINVAL;
    case KELIFANDRO_READ_ONLY:
        return -EROFS;
    case KELIFANDRO_UNSUPPORTED:
    case KELIFANDRO_NO_VOLTAGE:
    case KELIFANDRO_NO_BASE_CLOCK:
    case KELIFANDRO_CARD_VOLTAGE:
    case KELIFANDRO_LOCKED:
        return -EOPNOTSUPP;
    default:
        return -EIO;
    }
}

/* What U-Boot shows of the card: its maker, name and revision (SD Physical Layer 6.00, section 5.2). */
static void describe(struct blk_desc *desc, const struct kelifandro *kelifandro)
{
    const u8 *cid = kelifandro->card.cid;

    desc->lba = kelifandro_sectors(kelifandro, part_of(desc->hwpart));
    desc->blksz = 512;
    desc->log2blksz = 9;
    desc->type = DEV_TYPE_HARDDISK;
    snprintf(desc->vendor, sizeof(desc->vendor), "Man %02x", cid[0]);
    snprintf(desc->product, sizeof(desc->product), "%.*s", kelifandro->card.kind ? 6 : 5, (const char *)cid + 3);
    snprintf(desc->revision, sizeof(desc->revision), "%x.%x", cid[kelifandro->card.kind ? 9 : 8] >> 4,
             cid[kelifandro->card.kind ? 9 : 8] & 15);
}

/* The card of U-Boot's own stack behind the same controller, or NULL. */
static struct mmc *own_card(struct udevice *blk)
{
    struct udevice *controller = dev_get_parent(dev_get_parent(blk));

    if (!IS_ENABLED(CONFIG_DM_MMC) || device_get_uclass_id(controller) != UCLASS_MMC)
        return NULL;
    return mmc_get_mmc_dev(controller);
}

/* From here on U-Boot's own stack has to begin anew, by `mmc rescan`. */
int kelifandro_blk_open(struct udevice *blk)
{
    struct kelifandro_blk *own = dev_get_plat(blk);
    struct blk_desc *desc = dev_get_uclass_plat(blk);
    struct mmc *mmc = own_card(blk);
    int error;

    if (mmc)
        mmc->has_init = mmc->init_in_progress = 0;
    error = own->make_ready ? own->make_ready(dev_get_parent(blk)) : 0;
    blkcache_invalidate(desc->uclass_id, desc->devnum);
    if (error)
        return error;
    own->last = kelifandro_open(&own->kelifandro);
    if (own->last != KELIFANDRO_DONE) {
        log_err("%s: %s\n", blk->name, kelifandro_text(own->last));
        return error_of(own->last);
    }
    desc->hwpart = 0;
    describe(desc, &own->kelifandro);
    return 0;
}

/* A card that was reset within a call may be another one, or have lost power: what U-Boot's cache holds of it is dropped. */
static void look_at_card(struct udevice *blk, const u8 cid[16])
{
    struct kelifandro_blk *own = dev_get_plat(blk);
    struct blk_desc *desc = dev_get_uclass_plat(blk);
    bool is_another = memcmp(cid, own->kelifandro.card.cid, 16);

    if (!is_another && !own->kelifandro.was_reset)
        return;
    own->kelifandro.was_reset = 0;
    own->opened_anew++;
    blkcache_invalidate(desc->uclass_id, desc->devnum);
    if (!is_another)
        return;
    own->exchanged++;
    log_err("%s: it's another card now\n", blk->name);
    describe(desc, &own->kelifandro);
}

/* Sectors in memory that is aligned, or fewer than BOUNCED of others. Answers how many were moved. */
static size_t move_aligned(struct kelifandro_blk *own, int hwpart, u64 start, size_t count, void *bytes, bool is_write)
{
    size_t moved = 0;

    own->last = is_write ? kelifandro_write_long(&own->kelifandro, part_of(hwpart), start, count, bytes, &moved)
                         : kelifandro_read_long(&own->kelifandro, part_of(hwpart), start, count, bytes, &moved);
    return moved;
}

static size_t move_bounced(struct kelifandro_blk *own, int hwpart, u64 start, size_t count, void *bytes, bool is_write)
{
    size_t moved;

    own->bounced++;
    if (is_write)
        memcpy(own->bounce, bytes, count * 512);
    moved = move_aligned(own, hwpart, start, count, own->bounce, is_write);
    if (!is_write)
        memcpy(bytes, own->bounce, moved * 512);
    return moved;
}

static ulong move(struct udevice *blk, lbaint_t start, lbaint_t count, void *bytes, bool is_write)
{
    struct kelifandro_blk *own = dev_get_plat(blk);
    struct blk_desc *desc = dev_get_uclass_plat(blk);
    bool is_aligned = IS_ALIGNED((ulong)bytes, ARCH_DMA_MINALIGN);
    lbaint_t longest = is_aligned ? own->longest : min_t(lbaint_t, own->longest, BOUNCED), done = 0;
    u8 cid[16];

    memcpy(cid, own->kelifandro.card.cid, 16);
    own->last = KELIFANDRO_DONE;
    while (done < count && own->last == KELIFANDRO_DONE) {
        size_t n = min(count - done, longest);

        done += is_aligned ? move_aligned(own, desc->hwpart, start + done, n, bytes + done * 512, is_write)
                           : move_bounced(own, desc->hwpart, start + done, n, bytes + done * 512, is_write);
    }
    if (own->last != KELIFANDRO_DONE)
        log_err("%s: %s at " LBAFU ": %s\n", blk->name, is_write ? "write" : "read", start + done, kelifandro_text(own->last));
    look_at_card(blk, cid);
    return done;
}

/* Where U-Boot's own stack has driven the card meanwhile, it's opened anew before a request. */
static bool is_open(struct udevice *blk)
{
    struct mmc *mmc = own_card(blk);

    return !mmc || !mmc->has_init || !kelifandro_blk_open(blk);
}

static ulong blk_read_sectors(struct udevice *blk, lbaint_t start, lbaint_t count, void *to)
{
    return is_open(blk) ? move(blk, start, count, to, false) : 0;
}

static ulong blk_write_sectors(struct udevice *blk, lbaint_t start, lbaint_t count, const void *from)
{
    return is_open(blk) ? move(blk, start, count, (void *)from, true) : 0;
}

/* Whole erase units are erased; other sectors where the card trims. */
static ulong blk_erase_sectors(struct udevice *blk, lbaint_t start, lbaint_t count)
{
    struct kelifandro_blk *own = dev_get_plat(blk);
    struct blk_desc *desc = dev_get_uclass_plat(blk);
    u8 cid[16];

    if (!is_open(blk))
        return 0;
    memcpy(cid, own->kelifandro.card.cid, 16);
    own->last = kelifandro_erase(&own->kelifandro, part_of(desc->hwpart), start, count);
    if (own->last == KELIFANDRO_NOT_ERASABLE && own->kelifandro.card.trims)
        own->last = kelifandro_trim(&own->kelifandro, part_of(desc->hwpart), start, count);
    if (own->last != KELIFANDRO_DONE)
        log_err("%s: erase at " LBAFU ": %s\n", blk->name, start, kelifandro_text(own->last));
    look_at_card(blk, cid);
    return own->last == KELIFANDRO_DONE ? count : 0;
}

static int blk_select_part(struct udevice *blk, int hwpart)
{
    struct kelifandro_blk *own = dev_get_plat(blk);
    struct blk_desc *desc = dev_get_uclass_plat(blk);

    if (!kelifandro_sectors(&own->kelifandro, part_of(hwpart)))
        return -EMEDIUMTYPE;
    if (desc->hwpart != hwpart)
        blkcache_invalidate(desc->uclass_id, desc->devnum);
    desc->hwpart = hwpart;
    desc->lba = kelifandro_sectors(&own->kelifandro, part_of(hwpart));
    return 0;
}

static const struct blk_ops blk_ops = {
    .read = blk_read_sectors,
    .write = blk_write_sectors,
    .erase = blk_erase_sectors,
    .select_hwpart = blk_select_part,
};

U_BOOT_DRIVER(kelifandro_blk) = {
    .name = "kelifandro_blk",
    .id = UCLASS_BLK,
    .ops = &blk_ops,
    .probe = kelifandro_blk_open,
    .plat_auto = sizeof(struct kelifandro_blk),
};

int kelifandro_blk_of_way(struct udevice *way, struct udevice **blk)
{
    struct kelifandro_blk *own;
    int error;

    if (!blk_find_from_parent(way, blk))
        return 0;
    error = blk_create_devicef(way, "kelifandro_blk", "blk", UCLASS_KELIFANDRO, -1, 512, 0, blk);
    if (error)
        return error;
    own = dev_get_plat(*blk);
    own->longest = ULONG_MAX;
    own->bounce = memalign(ARCH_DMA_MINALIGN, BOUNCED * 512);
    return own->bounce ? 0 : -ENOMEM;
}

static struct udevice *way_below(struct udevice *controller, const char *name)
{
    struct udevice *way;

    device_foreach_child (way, controller)
        if (!strcmp(way->driver->name, name))
            return way;
    return device_bind_driver(controller, name, name, &way) ? NULL : way;
}

int kelifandro_way(struct udevice *controller, const char *name, struct udevice **blk)
{
    struct udevice *way = way_below(controller, name);
    int error = way ? device_probe(way) : -ENODEV;

    return error ? error : blk_find_from_parent(way, blk);
}

/* A way's block device is found by the uclass of the way (blk_get_devnum_by_uclass_idname). */
UCLASS_DRIVER(kelifandro) = {
    .id = UCLASS_KELIFANDRO,
    .name = "kelifandro",
};
