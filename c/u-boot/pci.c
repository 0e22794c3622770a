/* A way to a card: the registers of an SD host controller on PCI, by the library's own driver of it. */
#include <common.h>
#include <cpu_func.h>
#include <dm.h>
#include <malloc.h>
#include <memalign.h>
#include <pci.h>
#include <asm/cache.h>
#include <asm/io.h>
#include <asm/unaligned.h>
#include <linux/delay.h>
#include "kelifandro_blk.h"

#define BUFFER_DATA_PORT 0x20
#define TABLE_SIZE 8192 /* serves each request within 32 bits */

struct kelifandro_pci {
    struct udevice *controller;
    void *base;
    struct kelifandro_registers registers;
};

static uint32_t pci_read(void *context, unsigned offset, unsigned size)
{
    struct kelifandro_pci *way = context;

    return size == 1 ? readb(way->base + offset) : readl(way->base + offset);
}

static void pci_write(void *context, unsigned offset, unsigned size, uint32_t value)
{
    struct kelifandro_pci *way = context;

    if (size == 1)
        writeb(value, way->base + offset);
    else
        writel(value, way->base + offset);
}

static void pci_pause(void *context, uint32_t microseconds)
{
    udelay(microseconds);
}

static void pci_read_port(void *context, void *bytes, size_t words)
{
    struct kelifandro_pci *way = context;

    for (; words; words--, bytes += 4)
        put_unaligned_le32(readl(way->base + BUFFER_DATA_PORT), bytes);
}

static void pci_write_port(void *context, const void *bytes, size_t words)
{
    struct kelifandro_pci *way = context;

    for (; words; words--, bytes += 4)
        writel(get_unaligned_le32(bytes), way->base + BUFFER_DATA_PORT);
}

/* A cache line that holds something else too can't be dropped: such memory goes through the Buffer Data Port. */
static uint64_t pci_lend(void *context, void *bytes, size_t n, int is_written)
{
    struct kelifandro_pci *way = context;
    ulong begin = ALIGN_DOWN((ulong)bytes, ARCH_DMA_MINALIGN), end = ALIGN((ulong)bytes + n, ARCH_DMA_MINALIGN);

    if (is_written && (begin != (ulong)bytes || end != (ulong)bytes + n))
        return 0;
    flush_dcache_range(begin, end);
    return dm_pci_phys_to_bus(way->controller, virt_to_phys(bytes), n, PCI_REGION_SYS_MEMORY, PCI_REGION_SYS_MEMORY);
}

/* What a processor has read ahead meanwhile is dropped. */
static void pci_take_back(void *context, void *bytes, size_t n, int is_written)
{
    if (is_written)
        invalidate_dcache_range((ulong)bytes, (ulong)bytes + n);
}

static int kelifandro_pci_probe(struct udevice *dev)
{
    struct kelifandro_pci *way = dev_get_priv(dev);
    struct kelifandro_blk *own;
    struct udevice *blk;
    int error = kelifandro_blk_of_way(dev, &blk);

    if (error)
        return error;
    way->controller = dev_get_parent(dev);
    way->base = dm_pci_map_bar(way->controller, PCI_BASE_ADDRESS_0, 0, 0, PCI_REGION_TYPE, PCI_REGION_MEM);
    if (!way->base)
        return -ENXIO;
    dm_pci_clrset_config16(way->controller, PCI_COMMAND, 0, PCI_COMMAND_MEMORY | PCI_COMMAND_MASTER);
    way->registers = (struct kelifandro_registers){
        .context = way,
        .read = pci_read,
        .write = pci_write,
        .pause = pci_pause,
        .read_port = pci_read_port,
        .write_port = pci_write_port,
        .lend = pci_lend,
        .take_back = pci_take_back,
        .table = memalign(ARCH_DMA_MINALIGN, TABLE_SIZE),
    };
    way->registers.table_size = way->registers.table ? TABLE_SIZE : 0;
    own = dev_get_plat(blk);
    own->kelifandro.registers = &way->registers;
    return 0;
}

U_BOOT_DRIVER(kelifandro_pci) = {
    .name = "kelifandro_pci",
    .id = UCLASS_KELIFANDRO,
    .probe = kelifandro_pci_probe,
    .priv_auto = sizeof(struct kelifandro_pci),
};
