/* Tries littlefs over a card of the library: a file is written over where each answer of the card is lost in turn, and where its power is
   lost at each call of its host. Afterwards the file is the old one or the new one, whole, and one that wasn't touched is whole. */
#include <stdio.h>
#include <string.h>
#include "../../../c/littlefs/kelifandro_lfs.h"
#include "../power.h"

enum { OLD_SIZE = 3000, NEW_SIZE = 5000, FIRST = 64, COUNT = 512, BLOCK = 8 };
static struct powered powered;
static struct kelifandro sd;
static struct kelifandro_lfs where = {&sd, KELIFANDRO_USER, FIRST, COUNT};
static struct lfs_config config;
static lfs_t lfs;

static void begin(int is_emmc)
{
    power_begin(&powered, is_emmc);
    memset(&sd, 0, sizeof sd);
    sd.host = &powered.host;
    expect(kelifandro_open(&sd) == KELIFANDRO_DONE, "open", 0);
    kelifandro_lfs_configure(&config, &where, BLOCK);
}

static uint8_t byte_of(unsigned size, unsigned i)
{
    return (uint8_t)(i * 7 + i / 256 + size);
}

static int write_file(const char *name, unsigned size)
{
    uint8_t bytes[NEW_SIZE];
    lfs_file_t file;
    int result = lfs_file_open(&lfs, &file, name, LFS_O_WRONLY | LFS_O_CREAT | LFS_O_TRUNC);
    if (result < 0)
        return result;
    for (unsigned i = 0; i < size; i++)
        bytes[i] = byte_of(size, i);
    lfs_ssize_t done = lfs_file_write(&lfs, &file, bytes, size);
    int closed = lfs_file_close(&lfs, &file);
    return done < 0 ? (int)done : closed;
}

/* Whether a file is there, whole, of this size. */
static int is_whole(const char *name, unsigned size)
{
    uint8_t bytes[NEW_SIZE + 1];
    lfs_file_t file;
    if (lfs_file_open(&lfs, &file, name, LFS_O_RDONLY) < 0)
        return 0;
    lfs_ssize_t done = lfs_file_read(&lfs, &file, bytes, sizeof bytes);
    lfs_file_close(&lfs, &file);
    for (lfs_ssize_t i = 0; i < done; i++)
        if (bytes[i] != byte_of(size, (unsigned)i))
            return 0;
    return done == (lfs_ssize_t)size;
}

static void fill(int is_emmc)
{
    begin(is_emmc);
    expect(lfs_format(&lfs, &config) == 0 && lfs_mount(&lfs, &config) == 0, "format", 0);
    expect(write_file("a", OLD_SIZE) == 0 && write_file("b", OLD_SIZE) == 0, "first files", 0);
}

static void mount_again(unsigned long n)
{
    lfs_unmount(&lfs);
    expect(lfs_mount(&lfs, &config) == 0, "mounted", n);
}

/* Each answer is lost in turn, and nothing is seen of it. */
static unsigned long lose_answers(int is_emmc)
{
    unsigned long lost = 0, answers;
    do {
        fill(is_emmc);
        powered.card.lost = powered.card.answers + lost;
        expect(write_file("b", NEW_SIZE) == 0, "written", lost);
        answers = powered.card.answers;
        mount_again(lost);
        expect(is_whole("b", NEW_SIZE) && is_whole("a", OLD_SIZE), "files", lost);
        lfs_unmount(&lfs);
        lost++;
    } while (powered.card.lost < answers);
    return lost - 1;
}

/* Power is lost at each call in turn. */
static unsigned long lose_power(int is_emmc)
{
    for (unsigned long calls = 1;; calls++) {
        fill(is_emmc);
        powered.left = calls;
        int is_done = write_file("b", NEW_SIZE) == 0, is_over = is_done && powered.left > 0;
        power_again(&powered);
        expect(kelifandro_open(&sd) == KELIFANDRO_DONE, "open again", calls);
        mount_again(calls);
        expect(is_whole("a", OLD_SIZE), "the file that wasn't touched", calls);
        expect(is_whole("b", NEW_SIZE) || (!is_done && is_whole("b", OLD_SIZE)), "old or new", calls);
        expect(write_file("c", NEW_SIZE) == 0 && is_whole("c", NEW_SIZE), "a file more", calls);
        lfs_unmount(&lfs);
        if (is_over)
            return calls - 1;
    }
}

int main(void)
{
    for (int is_emmc = 0; is_emmc < 2; is_emmc++) {
        unsigned long answers = lose_answers(is_emmc), calls = lose_power(is_emmc);
        printf("littlefs on %s: %lu answers lost in turn, power lost at %lu calls\n", is_emmc ? "eMMC" : "SD", answers, calls);
    }
    return 0;
}
