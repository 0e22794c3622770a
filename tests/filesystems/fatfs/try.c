/* Tries FatFs over a card of the library: files are written and read where each answer of the card is lost in turn, and where its power
   is lost at each call of its host. A file is replaced as a careful program does it: a new one is written beside it, the old one is
   removed, and the new one gets its name. Afterwards the file is the old one or the new one, whole, and one that wasn't touched is whole. */
#include <stdio.h>
#include <string.h>
#include "ff.h"
#include "../power.h"

enum { OLD_SIZE = 3000, NEW_SIZE = 5000 };
static struct powered powered;
static struct kelifandro sd;
static FATFS volume;

struct kelifandro *kelifandro_drive(BYTE drive);

struct kelifandro *kelifandro_drive(BYTE drive)
{
    return drive == 0 ? &sd : 0;
}

static void begin(int is_emmc)
{
    power_begin(&powered, is_emmc);
    memset(&sd, 0, sizeof sd);
    sd.host = &powered.host;
}

static BYTE byte_of(const char *name, UINT size, UINT i)
{
    return (BYTE)(i * 7 + i / 256 + (UINT)name[0] + size);
}

static FRESULT write_file(const char *name, UINT size)
{
    BYTE bytes[NEW_SIZE];
    FIL file;
    UINT done;
    FRESULT result = f_open(&volume, &file, name, FA_WRITE | FA_CREATE_ALWAYS), closed;
    if (result != FR_OK)
        return result;
    for (UINT i = 0; i < size; i++)
        bytes[i] = byte_of("x", size, i);
    result = f_write(&file, bytes, size, &done);
    closed = f_close(&file);
    return result != FR_OK ? result : done != size ? FR_DENIED : closed;
}

/* Whether a file is there, whole, of this size. */
static int is_whole(const char *name, UINT size)
{
    BYTE bytes[NEW_SIZE + 1];
    FIL file;
    UINT done = 0;
    if (f_open(&volume, &file, name, FA_READ) != FR_OK)
        return 0;
    FRESULT result = f_read(&file, bytes, sizeof bytes, &done);
    f_close(&file);
    for (UINT i = 0; i < done; i++)
        if (bytes[i] != byte_of("x", size, i))
            return 0;
    return result == FR_OK && done == size;
}

static FRESULT format(void)
{
    static BYTE work[4096];
    FRESULT result = f_mkfs(&volume, FM_FAT | FM_SFD, 512, work, sizeof work);
    return result != FR_OK ? result : f_mount(&volume);
}

static FRESULT replace(void)
{
    FRESULT result = write_file("b.new", NEW_SIZE);
    if (result == FR_OK)
        result = f_unlink(&volume, "b.txt");
    return result != FR_OK ? result : f_rename(&volume, "b.new", "b.txt");
}

static void fill(int is_emmc)
{
    begin(is_emmc);
    expect(format() == FR_OK, "format", 0);
    expect(write_file("another name.txt", OLD_SIZE) == FR_OK && write_file("b.txt", OLD_SIZE) == FR_OK, "first files", 0);
}

/* Each answer is lost in turn, and nothing is seen of it. */
static unsigned long lose_answers(int is_emmc)
{
    unsigned long lost = 0, answers;
    do {
        fill(is_emmc);
        powered.card.lost = powered.card.answers + lost;
        expect(replace() == FR_OK, "replaced", lost);
        answers = powered.card.answers;
        expect(f_mount(&volume) == FR_OK, "mounted", lost);
        expect(is_whole("b.txt", NEW_SIZE) && is_whole("another name.txt", OLD_SIZE), "files", lost);
        lost++;
    } while (powered.card.lost < answers);
    return lost - 1;
}

/* Power is lost at each call in turn. */
static unsigned long lose_power(int is_emmc)
{
    for (unsigned long calls = 1;; calls++) {
        fill(is_emmc);
        powered.left = calls;
        int is_done = replace() == FR_OK;
        if (is_done && powered.left > 0)
            return calls - 1;
        power_again(&powered);
        expect(f_mount(&volume) == FR_OK, "mounted again", calls);
        expect(is_whole("another name.txt", OLD_SIZE), "the file that wasn't touched", calls);
        expect(is_whole("b.txt", OLD_SIZE) || is_whole("b.txt", NEW_SIZE) || is_whole("b.new", NEW_SIZE), "old or new", calls);
        expect(!is_done || is_whole("b.txt", NEW_SIZE), "what was done", calls);
        expect(write_file("c.txt", NEW_SIZE) == FR_OK && is_whole("c.txt", NEW_SIZE), "a file more", calls);
    }
}

int main(void)
{
    for (int is_emmc = 0; is_emmc < 2; is_emmc++) {
        unsigned long answers = lose_answers(is_emmc), calls = lose_power(is_emmc);
        printf("FatFs on %s: %lu answers lost in turn, power lost at %lu calls\n", is_emmc ? "eMMC" : "SD", answers, calls);
    }
    return 0;
}
