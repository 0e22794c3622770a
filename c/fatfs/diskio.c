/* FatFs's disk functions (R0.13 and later) over cards of the library: this file takes the place of FatFs's diskio.c.

   The program has one function for it, kelifandro_drive, which answers the card of a drive with its host or its registers set. Mounting
   opens the card (disk_initialize). A sector has 512 bytes: FF_MIN_SS and FF_MAX_SS are 512. What the library promises of a write holds of
   each disk_write: where it fails, each of its sectors is old or new, and no other has changed. */
#include "ff.h"
#include "diskio.h"
#include "../kelifandro.h"

#if FF_DEFINED < 86606
typedef DWORD LBA_t;
#endif

/* The card of this drive, or 0 where there is no such drive. */
struct kelifandro *kelifandro_drive(BYTE drive);

enum { GREATEST_BLOCK = 32768 };

static DRESULT result_of(int32_t result)
{
    switch (result) {
    case KELIFANDRO_DONE:
        return RES_OK;
    case KELIFANDRO_READ_ONLY:
        return RES_WRPRT;
    case KELIFANDRO_NOT_OPEN:
    case KELIFANDRO_NO_HOST:
    case KELIFANDRO_NO_CARD:
    case KELIFANDRO_NOT_INSERTED:
        return RES_NOTRDY;
    case KELIFANDRO_OUT_OF_RANGE:
    case KELIFANDRO_COUNT:
        return RES_PARERR;
    default:
        return RES_ERROR;
    }
}

static uint64_t sectors(const struct kelifandro *card)
{
    return card ? kelifandro_sectors(card, KELIFANDRO_USER) : 0;
}

DSTATUS disk_status(BYTE drive)
{
    const struct kelifandro *card = kelifandro_drive(drive);
    if (!card || kelifandro_is_inserted(card) == 0)
        return STA_NOINIT | STA_NODISK;
    if (sectors(card) == 0)
        return STA_NOINIT;
    return card->card.read_only ? STA_PROTECT : 0;
}

DSTATUS disk_initialize(BYTE drive)
{
    struct kelifandro *card = kelifandro_drive(drive);
    if (card)
        kelifandro_open(card);
    return disk_status(drive);
}

DRESULT disk_read(BYTE drive, BYTE *bytes, LBA_t sector, UINT count)
{
    struct kelifandro *card = kelifandro_drive(drive);
    return card ? result_of(kelifandro_read_long(card, KELIFANDRO_USER, sector, count, bytes, 0)) : RES_NOTRDY;
}

DRESULT disk_write(BYTE drive, const BYTE *bytes, LBA_t sector, UINT count)
{
    struct kelifandro *card = kelifandro_drive(drive);
    return card ? result_of(kelifandro_write_long(card, KELIFANDRO_USER, sector, count, bytes, 0)) : RES_NOTRDY;
}

/* The sectors of an erase unit, a power of two; 1 where it's none, which tells FatFs that it isn't known. */
static DWORD block_size(const struct kelifandro *card)
{
    uint64_t unit = card->card.erase_unit;
    return unit > 0 && unit <= GREATEST_BLOCK && (unit & (unit - 1)) == 0 ? (DWORD)unit : 1;
}

/* What isn't used any more, from the first sector to the last: trimmed, or the whole erase units in it are erased. */
static int32_t give_up(struct kelifandro *card, uint64_t first, uint64_t last)
{
    uint64_t unit = card->card.erase_unit, end = last + 1;
    if (last < first || end > sectors(card))
        return KELIFANDRO_OUT_OF_RANGE;
    if (card->card.trims)
        return kelifandro_trim(card, KELIFANDRO_USER, first, end - first);
    first = unit ? (first + unit - 1) / unit * unit : end;
    end = unit ? end / unit * unit : end;
    return first < end ? kelifandro_erase(card, KELIFANDRO_USER, first, end - first) : KELIFANDRO_DONE;
}

DRESULT disk_ioctl(BYTE drive, BYTE command, void *buffer)
{
    struct kelifandro *card = kelifandro_drive(drive);
    const LBA_t *range = buffer;
    if (sectors(card) == 0)
        return RES_NOTRDY;
    switch (command) {
    case CTRL_SYNC: /* what a write says is done is on the card */
        return RES_OK;
    case GET_SECTOR_COUNT:
        *(LBA_t *)buffer = (LBA_t)sectors(card);
        return (LBA_t)sectors(card) == sectors(card) ? RES_OK : RES_PARERR;
    case GET_SECTOR_SIZE:
        *(WORD *)buffer = 512;
        return RES_OK;
    case GET_BLOCK_SIZE:
        *(DWORD *)buffer = block_size(card);
        return RES_OK;
    case CTRL_TRIM:
        return result_of(give_up(card, range[0], range[1]));
    default:
        return RES_PARERR;
    }
}
