/* Test commands for U-Boot, which c/u-boot/build builds in by --also:

    kelifandro_faults mmc|kelifandro KIND FROM TO STEP          one fault at each of these commands, in turn
    kelifandro_faults mmc|kelifandro KIND FROM TO STEP CHANCE   a run with each of these seeds, in which a fault falls at each command
                                                                with this chance, in thousands
    kelifandro_measure mmc|kelifandro [pio]                     how long opening, reading and writing take

   The faults fall below both stacks: the functions of the controller's driver are replaced by functions that call them. What the block
   devices are asked for, and answer, is noted in memory, which tests/u-boot/run shares: it judges. */
#include <common.h>
#include <blk.h>
#include <command.h>
#include <cpu_func.h>
#include <dm.h>
#include <dm/device-internal.h>
#include <fs.h>
#include <mmc.h>
#include <sdhci.h>
#include <stdio.h>
#include <time.h>
#include <vsprintf.h>
#include "kelifandro_blk.h"

/* What is shared, from the beginning of RAM: as tests/u-boot/sweeps.py has it. */
#define NOTES ((u8 *)0x42000000)
#define READ_TO ((u8 *)0x44000000)
#define WRITE_FROM ((u8 *)0x44100000)
#define BACK_TO ((u8 *)0x44200000)
#define BUFFER ((u8 *)0x45000000)

enum { SECTOR = 512, LENGTH_WRITTEN = 0x8000, MOST_COMMANDS = 20000, LOOKED_AT = 2148, MEASURED = 32768 };

enum fault_kind {
    NO_FAULT,
    COMMAND_LOST,         /* the card doesn't see it */
    RESPONSE_LOST,        /* the card carries it out, and no data moves */
    RESPONSE_BAD,         /* the same, told as a wrong check */
    DONE_BUT_TIMEOUT,     /* all is done, data too; a timeout is told, and no response */
    DONE_BUT_BAD,         /* all is done, data too; the response is told, and that data had a wrong check */
    BLOCK_BAD,            /* the last block is damaged, or the card rejects the one in the middle of a write */
    BLOCK_MISSING,        /* no block comes, or a write stops in the middle */
    NOT_PROGRAMMED,       /* half of a write isn't stored: ERROR in the next status (SD Physical Layer 6.00, section 4.10.1) */
    NOT_PROGRAMMED_LOST,  /* the same, and the response that would show it is lost */
    RESET,                /* the card loses its state before the command, as by CMD0 */
    RESET_WITHIN_DATA,    /* the same in the middle of the data */
    BUSY,                 /* the next wait for DAT0 comes to its end */
    LEFT_OVER             /* COM_CRC_ERROR and ILLEGAL_COMMAND in a status, of an earlier command */
};

enum { PHASE_OPEN, PHASE_READ, PHASE_WRITE, PHASE_BACK, PHASE_AFTER };

enum { ERROR = 1 << 19, LEFT_OVER_ERRORS = 3 << 22 };

static struct {
    int kind, at;               /* which fault, and at which command; or with which seed */
    int chance;                 /* in thousands; 0 where it falls once */
    u64 random;
    int is_on, seen, has_fallen;
    int is_busy_next, is_error_next;
    int phase, index, in_phase; /* the step that is taken; which command was hit, and in which step */
} plan;

static struct dm_mmc_ops below, between;
static struct blk_ops blk_below, blk_between;
static u64 *notes;

static int send_plain(struct udevice *dev, int index, uint response)
{
    struct mmc_cmd cmd = {.cmdidx = index, .resp_type = response};
    return below.send_cmd(dev, &cmd, NULL);
}

/* Sends the command with its first blocks alone. */
static int send_partly(struct udevice *dev, struct mmc_cmd *cmd, const struct mmc_data *data, uint blocks)
{
    struct mmc_data some = *data;
    some.blocks = blocks;
    return below.send_cmd(dev, cmd, blocks ? &some : NULL);
}

static bool is_write(const struct mmc_cmd *cmd, const struct mmc_data *data)
{
    return data && data->flags == MMC_DATA_WRITE &&
           (cmd->cmdidx == MMC_CMD_WRITE_SINGLE_BLOCK || cmd->cmdidx == MMC_CMD_WRITE_MULTIPLE_BLOCK);
}

static bool has_status(const struct mmc_cmd *cmd)
{
    return cmd->resp_type == MMC_RSP_R1 || cmd->resp_type == MMC_RSP_R1b;
}

/* The first half of a write comes to the card; a write of one block is ended by CMD12. */
static int write_half(struct udevice *dev, struct mmc_cmd *cmd, const struct mmc_data *data)
{
    int error = send_partly(dev, cmd, data, data->blocks / 2);
    if (cmd->cmdidx == MMC_CMD_WRITE_SINGLE_BLOCK)
        send_plain(dev, MMC_CMD_STOP_TRANSMISSION, MMC_RSP_R1b);
    return error;
}

/* The card carries the command out, and its response isn't told. */
static int send_unheard(struct udevice *dev, const struct mmc_cmd *cmd, struct mmc_data *data, int error)
{
    struct mmc_cmd copy = *cmd;
    below.send_cmd(dev, &copy, data);
    return error;
}

static int send_block_bad(struct udevice *dev, struct mmc_cmd *cmd, struct mmc_data *data)
{
    char *first = data->dest;
    int error;
    if (is_write(cmd, data)) {
        error = write_half(dev, cmd, data);
        return error ? error : -ECOMM;
    }
    error = below.send_cmd(dev, cmd, data);
    if (error)
        return error;
    first[(data->blocks - 1) * data->blocksize + 5] ^= 0x10;
    return -ECOMM;
}

static int send_block_missing(struct udevice *dev, struct mmc_cmd *cmd, struct mmc_data *data, bool is_reset)
{
    int error = is_write(cmd, data) ? send_partly(dev, cmd, data, data->blocks / 2) : below.send_cmd(dev, cmd, NULL);
    if (is_reset)
        send_plain(dev, MMC_CMD_GO_IDLE_STATE, MMC_RSP_NONE);
    return error ? error : -ETIMEDOUT;
}

/* Whether this fault can fall at this command. */
static bool can_fall(const struct mmc_cmd *cmd, const struct mmc_data *data)
{
    switch (plan.kind) {
    case NO_FAULT:
        return false;
    case RESPONSE_LOST:
    case RESPONSE_BAD:
    case DONE_BUT_TIMEOUT:
        return cmd->resp_type != MMC_RSP_NONE;
    case DONE_BUT_BAD:
    case BLOCK_BAD:
    case BLOCK_MISSING:
    case RESET_WITHIN_DATA:
        return data;
    case NOT_PROGRAMMED:
    case NOT_PROGRAMMED_LOST:
        return is_write(cmd, data);
    case LEFT_OVER:
        return has_status(cmd);
    default:
        return true;
    }
}

static u32 draw(void)
{
    plan.random = plan.random * 6364136223846793005ull + 1442695040888963407ull;
    return plan.random >> 33;
}

/* Whether the fault falls at this command, the nth one. */
static bool falls(int n, const struct mmc_cmd *cmd, const struct mmc_data *data)
{
    return can_fall(cmd, data) && (plan.chance ? draw() % 1000 < plan.chance : n == plan.at);
}

static int send_with_fault(struct udevice *dev, struct mmc_cmd *cmd, struct mmc_data *data)
{
    int error;
    switch (plan.kind) {
    case COMMAND_LOST:
        return cmd->resp_type == MMC_RSP_NONE ? 0 : -ETIMEDOUT;
    case RESPONSE_LOST:
        return send_unheard(dev, cmd, NULL, -ETIMEDOUT);
    case RESPONSE_BAD:
        return send_unheard(dev, cmd, NULL, -ECOMM);
    case DONE_BUT_TIMEOUT:
        return send_unheard(dev, cmd, data, -ETIMEDOUT);
    case DONE_BUT_BAD:
        error = below.send_cmd(dev, cmd, data);
        return error ? error : -ECOMM;
    case BLOCK_BAD:
        return send_block_bad(dev, cmd, data);
    case BLOCK_MISSING:
    case RESET_WITHIN_DATA:
        return send_block_missing(dev, cmd, data, plan.kind == RESET_WITHIN_DATA);
    case NOT_PROGRAMMED:
    case NOT_PROGRAMMED_LOST:
        plan.is_error_next = 1;
        return write_half(dev, cmd, data);
    case RESET:
        send_plain(dev, MMC_CMD_GO_IDLE_STATE, MMC_RSP_NONE);
        return below.send_cmd(dev, cmd, data);
    case LEFT_OVER:
        error = below.send_cmd(dev, cmd, data);
        cmd->response[0] |= error ? 0 : LEFT_OVER_ERRORS;
        return error;
    default:
        return below.send_cmd(dev, cmd, data);
    }
}

/* The status that shows what wasn't programmed, or is lost. */
static int send_late_error(struct udevice *dev, struct mmc_cmd *cmd, struct mmc_data *data)
{
    int error = below.send_cmd(dev, cmd, data);
    plan.is_error_next = 0;
    if (plan.kind == NOT_PROGRAMMED_LOST)
        return -ETIMEDOUT;
    cmd->response[0] |= error ? 0 : ERROR;
    return error;
}

static int send_between(struct udevice *dev, struct mmc_cmd *cmd, struct mmc_data *data)
{
    int n;
    if (!plan.is_on)
        return below.send_cmd(dev, cmd, data);
    if (plan.seen >= MOST_COMMANDS)
        return -ETIMEDOUT;
    n = plan.seen++;
    plan.is_busy_next = 0;
    if (plan.is_error_next && has_status(cmd))
        return send_late_error(dev, cmd, data);
    if (!falls(n, cmd, data))
        return below.send_cmd(dev, cmd, data);
    plan.index = cmd->cmdidx;
    plan.in_phase = plan.phase;
    plan.is_busy_next = plan.kind == BUSY;
    plan.has_fallen |= plan.kind != BUSY;
    return send_with_fault(dev, cmd, data);
}

static int wait_between(struct udevice *dev, int state, int microseconds)
{
    if (plan.is_on && plan.is_busy_next) {
        plan.is_busy_next = 0;
        plan.has_fallen = 1;
        return -ETIMEDOUT;
    }
    return below.wait_dat0 ? below.wait_dat0(dev, state, microseconds) : -ENOSYS;
}

/* A note: what was asked, and whether after the steps; what came of it, and the sectors. */
static void note(int is_write, lbaint_t start, lbaint_t count, const void *bytes, ulong done)
{
    notes[0] = is_write | (plan.phase == PHASE_AFTER) << 1;
    notes[1] = start;
    notes[2] = count;
    notes[3] = done;
    memcpy(notes + 4, bytes, count * SECTOR);
    notes += 4 + count * SECTOR / sizeof(u64);
    notes[0] = ~0ull;
}

static ulong read_noted(struct udevice *blk, lbaint_t start, lbaint_t count, void *to)
{
    ulong done = blk_below.read(blk, start, count, to);
    note(0, start, count, to, done);
    return done;
}

static ulong write_noted(struct udevice *blk, lbaint_t start, lbaint_t count, const void *from)
{
    ulong done = blk_below.write(blk, start, count, from);
    note(1, start, count, from, done);
    return done;
}

/* The functions of this driver become ours; a driver's struct is in memory that can be written. */
static void *replace_ops(struct udevice *dev, void *ops)
{
    struct driver *driver = (struct driver *)dev->driver;
    void *was = (void *)driver->ops;
    driver->ops = ops;
    return was;
}

static int begin_between(struct udevice *controller, struct udevice *blk)
{
    below = *(struct dm_mmc_ops *)controller->driver->ops;
    between = below;
    between.send_cmd = send_between;
    between.wait_dat0 = wait_between;
    blk_below = *blk_get_ops(blk);
    blk_between = blk_below;
    blk_between.read = read_noted;
    blk_between.write = write_noted;
    return 0;
}

static bool is_own(const char *stack)
{
    return !strcmp(stack, "mmc");
}

/* The first card by this stack. */
static struct udevice *card_of(const char *stack)
{
    struct udevice *blk;
    return blk_get_device(is_own(stack) ? UCLASS_MMC : UCLASS_KELIFANDRO, 0, &blk) ? NULL : blk;
}

static struct udevice *controller_of(const char *stack, struct udevice *blk)
{
    return is_own(stack) ? dev_get_parent(blk) : dev_get_parent(dev_get_parent(blk));
}

/* Opens the card anew: `mmc rescan`, or `kelifandro open`. */
static int open_anew(const char *stack, struct udevice *blk)
{
    struct mmc *mmc;
    if (!is_own(stack))
        return kelifandro_blk_open(blk);
    mmc = mmc_get_mmc_dev(controller_of(stack, blk));
    mmc->has_init = mmc->init_in_progress = 0;
    blkcache_invalidate(UCLASS_MMC, 0);
    return mmc_init(mmc);
}

static int move_file(const char *stack, const char *name, bool is_write, u8 *at, loff_t length, loff_t *moved)
{
    if (fs_set_blk_dev(stack, "0:1", FS_TYPE_FAT))
        return -ENODEV;
    return is_write ? fs_write(name, (ulong)at, 0, length, moved) : fs_read(name, (ulong)at, 0, 0, moved);
}

/* Opens the card, reads a file, writes one and reads it back. Answers how many of these steps went well. */
static int take_steps(const char *stack, struct udevice *blk)
{
    loff_t moved;
    plan.phase = PHASE_OPEN;
    if (open_anew(stack, blk))
        return 0;
    plan.phase = PHASE_READ;
    if (move_file(stack, "a.bin", false, READ_TO, 0, &moved))
        return 1;
    plan.phase = PHASE_WRITE;
    if (move_file(stack, "b.bin", true, WRITE_FROM, LENGTH_WRITTEN, &moved))
        return 2;
    plan.phase = PHASE_BACK;
    blkcache_invalidate(is_own(stack) ? UCLASS_MMC : UCLASS_KELIFANDRO, 0);
    return move_file(stack, "b.bin", false, BACK_TO, 0, &moved) ? 3 : 4;
}

/* Whether a read goes well, and after that one that doesn't, whether it does once the card is opened anew. */
static void look_after(const char *stack, struct udevice *blk, int steps, int *next, int *again)
{
    plan.phase = PHASE_AFTER;
    *again = 1;
    *next = (steps > 0 || !open_anew(stack, blk)) && blk_get_ops(blk)->read(blk, LOOKED_AT, 8, BUFFER) == 8;
    if (!*next)
        *again = !open_anew(stack, blk) && blk_get_ops(blk)->read(blk, LOOKED_AT, 8, BUFFER) == 8;
}

static void run_once(const char *stack, struct udevice *blk, int kind, int at, int chance)
{
    int next = 1, again = 1, steps;
    ulong begin = get_timer(0);
    memset(&plan, 0, sizeof(plan));
    plan.kind = kind;
    plan.at = at;
    plan.chance = chance;
    plan.random = (((u64)at * 16 + kind) * 1024 + chance) * 0x9e3779b97f4a7c15ull;
    notes = (u64 *)NOTES;
    notes[0] = ~0ull;
    memset(READ_TO, 0x5a, 0x10000);
    memset(BACK_TO, 0x5a, 0x10000);
    plan.is_on = 1;
    steps = take_steps(stack, blk);
    plan.is_on = !chance;
    if (steps < 4)
        look_after(stack, blk, steps, &next, &again);
    plan.is_on = 0;
    printf("\n@ %s %d %d fallen %d index %d phase %d steps %d next %d again %d seen %d ms %lu\n", stack, kind, at, plan.has_fallen,
           plan.index, plan.in_phase, steps, next, again, plan.seen, get_timer(begin));
}

/* After each run it waits for a character: the image is looked at, and put back. A `q` ends. */
static int do_faults(struct cmd_tbl *table, int flag, int argc, char *const argv[])
{
    struct udevice *blk, *controller;
    void *ops, *blk_ops;
    int at, i;
    if (argc < 6)
        return CMD_RET_USAGE;
    blk = card_of(argv[1]);
    if (!blk)
        return CMD_RET_FAILURE;
    controller = controller_of(argv[1], blk);
    begin_between(controller, blk);
    ops = replace_ops(controller, &between);
    blk_ops = replace_ops(blk, &blk_between);
    for (i = 0; i < LENGTH_WRITTEN; i++)
        WRITE_FROM[i] = (u8)(i * 7 + i / 251 + i / 512);
    for (at = dectoul(argv[3], NULL); at < dectoul(argv[4], NULL); at += dectoul(argv[5], NULL)) {
        run_once(argv[1], blk, dectoul(argv[2], NULL), at, argc > 6 ? dectoul(argv[6], NULL) : 0);
        if (getchar() == 'q' || (argc == 6 && !plan.has_fallen && at >= plan.seen))
            break;
    }
    replace_ops(controller, ops);
    replace_ops(blk, blk_ops);
    printf("\n@ end\n");
    return 0;
}

/* Without DMA, by what both drivers look at before each transfer. */
static void without_dma(const char *stack, struct udevice *blk)
{
    struct kelifandro_blk *own = dev_get_plat(blk);
    struct sdhci_host *host = mmc_get_mmc_dev(controller_of(stack, blk))->priv;
    host->flags &= ~USE_DMA;
    if (!is_own(stack) && own->kelifandro.registers)
        ((struct kelifandro_registers *)own->kelifandro.registers)->lend = NULL;
}

static int do_measure(struct cmd_tbl *table, int flag, int argc, char *const argv[])
{
    struct udevice *blk;
    ulong times[4], read, written;
    int error;
    if (argc < 2)
        return CMD_RET_USAGE;
    blk = card_of(argv[1]);
    if (!blk)
        return CMD_RET_FAILURE;
    if (argc > 2)
        without_dma(argv[1], blk);
    times[0] = timer_get_us();
    error = open_anew(argv[1], blk);
    times[1] = timer_get_us();
    read = blk_get_ops(blk)->read(blk, 0, MEASURED, BUFFER);
    times[2] = timer_get_us();
    written = blk_get_ops(blk)->write(blk, MEASURED, MEASURED, BUFFER);
    times[3] = timer_get_us();
    printf("\n@ measured %d %lu %lu microseconds %lu %lu %lu\n", error, read, written, times[1] - times[0], times[2] - times[1],
           times[3] - times[2]);
    return 0;
}

U_BOOT_CMD(kelifandro_faults, 7, 0, do_faults, "faults below a stack", "mmc|kelifandro KIND FROM TO STEP [CHANCE]");
U_BOOT_CMD(kelifandro_measure, 3, 0, do_measure, "times of a stack", "mmc|kelifandro [pio]");
