/* A way to a card: any MMC controller that U-Boot drives, by its driver's struct dm_mmc_ops. */
#include <common.h>
#include <dm.h>
#include <malloc.h>
#include <memalign.h>
#include <mmc.h>
#include <linux/delay.h>
#include <power/regulator.h>
#include "kelifandro_blk.h"

/* No response of a card that works: the card would say all errors at once, or a relative address of ones. */
#define NOT_HEARD 0xffffffffu

struct kelifandro_mmc {
    struct mmc *mmc;
    struct kelifandro_host host;
    u8 *one_block; /* aligned to a cache line, for a block whose memory isn't */
};

static const uint responses[] = {
    [KELIFANDRO_NO_RESPONSE] = MMC_RSP_NONE,
    [KELIFANDRO_R1] = MMC_RSP_R1,
    [KELIFANDRO_R1B] = MMC_RSP_R1b,
    [KELIFANDRO_R2] = MMC_RSP_R2,
    [KELIFANDRO_R3] = MMC_RSP_R3,
    [KELIFANDRO_R6] = MMC_RSP_R6,
    [KELIFANDRO_R7] = MMC_RSP_R7,
};

static int fault_of(int error)
{
    return !error ? 0 : error == -ETIMEDOUT ? KELIFANDRO_TIMEOUT : KELIFANDRO_BAD_CHECK;
}

static int send_with_data(struct kelifandro_mmc *way, struct mmc_cmd *cmd, const struct kelifandro_command *command, void *memory,
                          size_t blocks, struct kelifandro_moved *moved)
{
    size_t length = command->block_length;
    bool is_read = command->data == KELIFANDRO_READ;
    /* a register, whose memory is the library's; all other memory is aligned as blk.c gives it */
    bool is_bounced = !IS_ALIGNED((ulong)memory | length, ARCH_DMA_MINALIGN);
    struct mmc_data data = {.flags = is_read ? MMC_DATA_READ : MMC_DATA_WRITE, .blocksize = length, .blocks = is_bounced ? 1 : blocks};
    int error;

    data.dest = is_bounced ? (char *)way->one_block : memory;
    if (is_bounced && !is_read)
        memcpy(way->one_block, memory, length);
    error = mmc_send_cmd(way->mmc, cmd, &data);
    /* one number for command and data: where the response has come, it's the data's */
    if (error && cmd->response[0] == NOT_HEARD)
        return error;
    moved->failed = !error ? 0 : error == -ETIMEDOUT ? 2 : 1;
    moved->good = error ? 0 : data.blocks;
    if (!error && is_bounced && is_read)
        memcpy(memory, way->one_block, length);
    return 0;
}

static int mmc_transfer(void *context, const struct kelifandro_command *command, uint32_t response[4], void *memory, size_t blocks,
                        struct kelifandro_moved *moved)
{
    struct kelifandro_mmc *way = context;
    struct mmc_cmd cmd = {
        .cmdidx = command->index,
        .cmdarg = command->argument,
        .resp_type = responses[command->response],
        .response = {NOT_HEARD, NOT_HEARD, NOT_HEARD, NOT_HEARD},
    };
    size_t n = min_t(size_t, blocks, command->blocks);
    int error = command->data != KELIFANDRO_NO_DATA && n ? send_with_data(way, &cmd, command, memory, n, moved)
                                                         : mmc_send_cmd(way->mmc, &cmd, NULL);

    if (!error)
        memcpy(response, cmd.response, sizeof(cmd.response));
    return fault_of(error);
}

/* A driver that can't look at DAT0 has waited with the command (R1b), or CMD13 tells. 0 would wait for ever. */
static int mmc_is_busy(void *context, uint32_t microseconds)
{
    struct kelifandro_mmc *way = context;

    return mmc_wait_dat0(way->mmc, 1, max(microseconds, 1u)) == -ETIMEDOUT;
}

static void set_lines(void *context, int lines, int high_speed, uint32_t hertz)
{
    struct kelifandro_mmc *way = context;
    struct mmc *mmc = way->mmc;

    mmc->bus_width = lines;
    mmc->clock = clamp_t(uint, hertz, mmc->cfg->f_min, mmc->cfg->f_max);
    mmc->clk_disable = false;
    mmc->selected_mode = high_speed ? SD_HS : MMC_LEGACY;
    mmc->ddr_mode = 0;
    mmc_set_ios(mmc);
}

static void mmc_pause(void *context, uint32_t microseconds)
{
    udelay(microseconds);
}

/* The slot's power, where a regulator gives it. */
static void power_on(struct mmc *mmc)
{
    struct udevice *supply;

    if (!device_get_supply_regulator(mmc->dev, "vmmc-supply", &supply))
        regulator_set_enable_if_allowed(supply, true);
}

/* 74 clocks at 400 kHz take 185 microseconds (SD Physical Layer 6.00, 6.4.1). */
static int mmc_make_ready(struct udevice *dev)
{
    struct kelifandro_mmc *way = dev_get_priv(dev);
    struct mmc *mmc = way->mmc;

    mmc_deferred_probe(mmc);
    if (mmc_getcd(mmc) == 0)
        return -ENOMEDIUM;
    power_on(mmc);
    mmc_reinit(mmc);
    mmc->signal_voltage = MMC_SIGNAL_VOLTAGE_330;
    set_lines(way, 1, 0, 400000);
    udelay(2000);
    return 0;
}

static int kelifandro_mmc_probe(struct udevice *dev)
{
    struct kelifandro_mmc *way = dev_get_priv(dev);
    struct kelifandro_blk *own;
    struct udevice *blk;
    uint caps;
    int error = kelifandro_blk_of_way(dev, &blk);

    if (error)
        return error;
    way->mmc = mmc_get_mmc_dev(dev_get_parent(dev));
    way->one_block = memalign(ARCH_DMA_MINALIGN, 512);
    if (!way->mmc || !way->one_block)
        return way->mmc ? -ENOMEM : -ENODEV;
    caps = way->mmc->cfg->host_caps;
    way->host = (struct kelifandro_host){
        .context = way,
        .lines = caps & MMC_MODE_8BIT ? 8 : caps & MMC_MODE_4BIT ? 4 : 1,
        .high_speed = caps & MMC_MODE_HS ? 1 : 0,
        .transfer = mmc_transfer,
        .is_busy = mmc_is_busy,
        .set_ios = set_lines,
        .pause = mmc_pause,
    };
    own = dev_get_plat(blk);
    own->kelifandro.host = &way->host;
    own->make_ready = mmc_make_ready;
    own->longest = way->mmc->cfg->b_max < 65535 ? way->mmc->cfg->b_max : ULONG_MAX;
    return 0;
}

U_BOOT_DRIVER(kelifandro_mmc) = {
    .name = "kelifandro_mmc",
    .id = UCLASS_KELIFANDRO,
    .probe = kelifandro_mmc_probe,
    .priv_auto = sizeof(struct kelifandro_mmc),
};
