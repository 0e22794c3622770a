/* A file on FatFs, on a card of the library: c/fatfs/diskio.c takes the place of FatFs's own diskio.c, and asks for the card of a drive.
   Here that is a card in memory, which loses an answer while the file is written. */
#include <stdio.h>
#include "ff.h"
#include "card.h"

static struct card card;
static struct kelifandro_host host;
static struct kelifandro sd = {.host = &host};
static FATFS volume;

struct kelifandro *kelifandro_drive(BYTE drive);

struct kelifandro *kelifandro_drive(BYTE drive)
{
    return drive == 0 ? &sd : 0;
}

static FRESULT write_text(const char *name, const char *text, UINT size)
{
    FIL file;
    UINT done;
    FRESULT result = f_open(&file, name, FA_WRITE | FA_CREATE_ALWAYS);
    if (result == FR_OK)
        result = f_write(&file, text, size, &done);
    return result != FR_OK ? result : f_close(&file);
}

static FRESULT read_text(const char *name, char *text, UINT room, UINT *size)
{
    FIL file;
    FRESULT result = f_open(&file, name, FA_READ);
    return result != FR_OK ? result : f_read(&file, text, room, size);
}

int main(void)
{
    static const char text[] = "kept, whatever is lost";
    static BYTE work[4096];
    char back[64];
    UINT size;

    host = card_host;
    host.context = &card;
    card_begin(&card, 0);
    if (f_mkfs("", FM_FAT | FM_SFD, 512, work, sizeof work) != FR_OK || f_mount(&volume, "", 1) != FR_OK)
        return 1;
    card.lost = card.answers + 2;
    if (write_text("kept.txt", text, sizeof text) != FR_OK || read_text("kept.txt", back, sizeof back, &size) != FR_OK)
        return 1;
    printf("kept.txt, %u bytes: %s\n", size, back);
    printf("answers that were lost and healed: %lu\n", (unsigned long)sd.healed.by_answer);
    return 0;
}
