/* The command `kelifandro`: opens a card, and shows what is known of it and what was healed. */
#include <common.h>
#include <blk.h>
#include <command.h>
#include <dm.h>
#include <dm/device-internal.h>
#include <pci.h>
#include <vsprintf.h>
#include "kelifandro_blk.h"

static int current;

/* The Nth SD host controller on PCI: class 08h, subclass 05h (SD Host Controller 3.00, appendix A). */
static struct udevice *pci_controller(int n)
{
    struct udevice *dev;

    if (!IS_ENABLED(CONFIG_KELIFANDRO_PCI))
        return NULL;
    for (pci_find_first_device(&dev); dev; pci_find_next_device(&dev)) {
        struct pci_child_plat *plat = dev_get_parent_plat(dev);

        if (plat->class >> 8 == PCI_CLASS_SYSTEM_SDHCI && n-- == 0)
            return device_probe(dev) ? NULL : dev;
    }
    return NULL;
}

static struct udevice *mmc_controller(int n)
{
    struct udevice *dev;

    if (!IS_ENABLED(CONFIG_KELIFANDRO_MMC) || uclass_get_device(UCLASS_MMC, n, &dev))
        return NULL;
    return dev;
}

static int open_card(bool is_pci, int n)
{
    struct udevice *controller = is_pci ? pci_controller(n) : mmc_controller(n), *blk;
    struct blk_desc *desc;
    int error;

    if (!controller) {
        printf("no such controller: %s %d\n", is_pci ? "pci" : "mmc", n);
        return CMD_RET_FAILURE;
    }
    error = kelifandro_way(controller, is_pci ? "kelifandro_pci" : "kelifandro_mmc", &blk);
    if (!error)
        error = device_active(blk) ? kelifandro_blk_open(blk) : device_probe(blk);
    if (error) {
        printf("%s: not opened, %d\n", controller->name, error);
        return CMD_RET_FAILURE;
    }
    desc = dev_get_uclass_plat(blk);
    current = desc->devnum;
    printf("kelifandro %d: %s by %s, " LBAFU " sectors\n", current, controller->name, is_pci ? "its registers" : "U-Boot's driver",
           desc->lba);
    return 0;
}

static void show_bytes(const char *name, const u8 *bytes, int n)
{
    printf("  %s ", name);
    while (n--)
        printf("%02x", *bytes++);
    printf("\n");
}

static void show_card(const struct kelifandro_card *card)
{
    static const char *const parts[] = {"user", "boot1", "boot2", "gp1", "gp2", "gp3", "gp4"};
    const u64 sectors[] = {card->user, card->boot, card->boot, card->gp1, card->gp2, card->gp3, card->gp4};
    int i;

    printf("  %s by %s, RCA %04x, %d lines%s%s%s%s\n", card->kind ? "eMMC" : "SD card", card->addressing ? "sectors" : "bytes", card->rca,
           card->lines, card->high_speed ? ", high speed" : "", card->cmd23 ? ", CMD23" : "", card->trims ? ", trims" : "",
           card->read_only ? ", read only" : "");
    show_bytes("CID", card->cid, 16);
    show_bytes("CSD", card->csd, 16);
    for (i = 0; i < ARRAY_SIZE(parts); i++)
        if (sectors[i])
            printf("  %s: %llu sectors\n", parts[i], sectors[i]);
    printf("  erase unit %llu sectors, erased to %02x\n", card->erase_unit, card->erased_byte);
}

static void show_healed(const struct kelifandro_blk *own)
{
    const struct kelifandro_healed *healed = &own->kelifandro.healed;

    printf("  attempts %llu, failed by answer %llu, by data %llu, by status %llu, by busy %llu, by recovery %llu\n", healed->attempts,
           healed->by_answer, healed->by_data, healed->by_status, healed->by_busy, healed->by_recovery);
    printf("  settlings %llu, resets %llu; opened anew in %lu calls, %lu times another card; bounced %lu\n", healed->settlings,
           healed->resets, own->opened_anew, own->exchanged, own->bounced);
    printf("  last answer: %s\n", kelifandro_text(own->last));
}

static int show_info(void)
{
    struct udevice *blk;
    struct kelifandro_blk *own;

    if (blk_find_device(UCLASS_KELIFANDRO, current, &blk)) {
        printf("no card was opened: kelifandro open\n");
        return CMD_RET_FAILURE;
    }
    own = dev_get_plat(blk);
    printf("kelifandro %d: %s, version " KELIFANDRO_VERSION "\n", current, blk->name);
    if (kelifandro_sectors(&own->kelifandro, KELIFANDRO_USER))
        show_card(&own->kelifandro.card);
    show_healed(own);
    return 0;
}

static int erase(ulong start, ulong count)
{
    struct udevice *blk;
    long done = blk_get_device(UCLASS_KELIFANDRO, current, &blk) ? 0 : blk_erase(blk, start, count);

    printf("%ld sectors erased\n", done);
    return done == count ? 0 : CMD_RET_FAILURE;
}

static int do_kelifandro(struct cmd_tbl *table, int flag, int argc, char *const argv[])
{
    if (argc < 2)
        return CMD_RET_USAGE;
    if (!strcmp(argv[1], "open"))
        return open_card(argc > 2 ? !strcmp(argv[2], "pci") : !IS_ENABLED(CONFIG_KELIFANDRO_MMC), argc > 3 ? dectoul(argv[3], NULL) : 0);
    if (!strcmp(argv[1], "info"))
        return show_info();
    if (!strcmp(argv[1], "erase") && argc == 4)
        return erase(hextoul(argv[2], NULL), hextoul(argv[3], NULL));
    return blk_common_cmd(argc, argv, UCLASS_KELIFANDRO, &current);
}

U_BOOT_CMD(kelifandro, 6, 0, do_kelifandro, "SD cards and eMMC by libkelifandro",
           "open [mmc|pci [N]] - open the card of the Nth MMC controller, or SD host controller on PCI\n"
           "kelifandro info - what is known of the card, and what was healed since it was opened\n"
           "kelifandro erase START COUNT - erase sectors\n"
           "kelifandro device [N] - show or set the device\n"
           "kelifandro part [N] - list the partitions\n"
           "kelifandro read ADDRESS START COUNT - read sectors\n"
           "kelifandro write ADDRESS START COUNT - write sectors");
