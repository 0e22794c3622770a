/* A file on littlefs, on a card of the library: c/littlefs/kelifandro_lfs.c has the functions of its struct lfs_config. Here the card is
   one in memory, which loses an answer while the file is written. */
#include <stdio.h>
#include "kelifandro_lfs.h"
#include "card.h"

static struct card card;
static struct kelifandro_host host;
static struct kelifandro sd = {.host = &host};
static struct kelifandro_lfs where = {.card = &sd, .part = KELIFANDRO_USER, .first = 64, .count = 512};
static lfs_t lfs;

static int write_text(const char *name, const char *text, lfs_size_t size)
{
    lfs_file_t file;
    if (lfs_file_open(&lfs, &file, name, LFS_O_WRONLY | LFS_O_CREAT | LFS_O_TRUNC) < 0)
        return -1;
    lfs_ssize_t done = lfs_file_write(&lfs, &file, text, size);
    return lfs_file_close(&lfs, &file) < 0 || done != (lfs_ssize_t)size ? -1 : 0;
}

static lfs_ssize_t read_text(const char *name, char *text, lfs_size_t room)
{
    lfs_file_t file;
    if (lfs_file_open(&lfs, &file, name, LFS_O_RDONLY) < 0)
        return -1;
    return lfs_file_read(&lfs, &file, text, room);
}

int main(void)
{
    static const char text[] = "kept, whatever is lost";
    static struct lfs_config config;
    char back[64];

    host = card_host;
    host.context = &card;
    card_begin(&card, 0);
    if (kelifandro_open(&sd) != KELIFANDRO_DONE)
        return 1;
    kelifandro_lfs_configure(&config, &where, 8);
    if (lfs_format(&lfs, &config) < 0 || lfs_mount(&lfs, &config) < 0)
        return 1;
    card.lost = card.answers + 2;
    if (write_text("kept.txt", text, sizeof text) != 0)
        return 1;
    lfs_ssize_t size = read_text("kept.txt", back, sizeof back);
    if (size < 0)
        return 1;
    printf("kept.txt, %ld bytes: %s\n", (long)size, back);
    printf("answers that were lost and healed: %lu\n", (unsigned long)sd.healed.by_answer);
    return lfs_unmount(&lfs);
}
