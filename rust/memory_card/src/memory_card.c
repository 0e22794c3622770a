/* What leads from Rust to c/examples/card.c and controller.c: calls and numbers alone, so that Rust needn't know their structs. */
#include "controller.h"

/* A card, and a controller that it may be behind, in one piece, which isn't moved. */
struct memory_card {
    struct card card;
    struct kelifandro_host host;
    struct controller controller;
    struct kelifandro_registers registers;
};

size_t memory_card_size(void)
{
    return sizeof(struct memory_card);
}

void memory_card_begin(struct memory_card *memory, int is_emmc)
{
    card_begin(&memory->card, is_emmc);
    memory->host = card_host;
    memory->host.context = &memory->card;
}

int memory_card_send(struct memory_card *memory, uint8_t index, uint8_t response, uint8_t data, uint32_t argument,
                     uint16_t block_length, uint16_t blocks, uint32_t words[4])
{
    struct kelifandro_command command = {
        .index = index, .response = response, .data = data, .argument = argument, .block_length = block_length, .blocks = blocks};
    return card_host.send(&memory->card, &command, words);
}

int memory_card_read_block(struct memory_card *memory, uint8_t *block, size_t length)
{
    return card_host.read_block(&memory->card, block, length);
}

int memory_card_write_block(struct memory_card *memory, const uint8_t *block)
{
    return card_host.write_block(&memory->card, block);
}

int memory_card_is_busy(struct memory_card *memory, uint32_t microseconds)
{
    return card_host.is_busy(&memory->card, microseconds);
}

void memory_card_set_ios(struct memory_card *memory, int lines, int high_speed, uint32_t hertz)
{
    card_host.set_ios(&memory->card, lines, high_speed, hertz);
}

/* A sector of a partition, 0 the user's, 1 and 2 boot; null where there is none. */
uint8_t *memory_card_sector(struct memory_card *memory, uint32_t partition, uint64_t sector)
{
    struct card *card = &memory->card;
    if (partition == 0 && sector < USER_SECTORS)
        return card->user[sector];
    if (card->is_emmc && (partition == 1 || partition == 2) && sector < BOOT_SECTORS)
        return card->boot[partition - 1][sector];
    return 0;
}

void memory_card_lose(struct memory_card *memory, uint64_t answer, int is_damaged)
{
    memory->card.lost = (unsigned long)answer;
    memory->card.is_damaged = is_damaged;
}

uint64_t memory_card_answers(const struct memory_card *memory)
{
    return memory->card.answers;
}

/* As where its power is lost and comes back. */
void memory_card_lose_power(struct memory_card *memory)
{
    memory->card.state = 0;
}

void memory_card_slow(struct memory_card *memory, uint32_t microseconds)
{
    memory->card.slow = microseconds;
}

void memory_card_enlarge(struct memory_card *memory, uint32_t sectors)
{
    memory->card.more = sectors;
}

/* Puts the controller before it, with these bits of Capabilities beside its own. */
void memory_card_control(struct memory_card *memory, uint32_t capabilities)
{
    controller_begin(&memory->controller, &memory->host, 0);
    memory->controller.capabilities |= capabilities;
    memory->registers = dma_registers;
}

uint32_t memory_card_read_register(struct memory_card *memory, uint32_t offset, uint32_t size)
{
    return memory->registers.read(&memory->controller, offset, size);
}

void memory_card_write_register(struct memory_card *memory, uint32_t offset, uint32_t size, uint32_t value)
{
    memory->registers.write(&memory->controller, offset, size, value);
}

void memory_card_lock(struct memory_card *memory, int is_locked)
{
    memory->controller.is_locked = is_locked;
}

void memory_card_take_out(struct memory_card *memory)
{
    memory->controller.has_no_switches = 1;
}

/* The controller lacks bytes: accesses are of words alone, and Capabilities read 0. */
void memory_card_bare(struct memory_card *memory)
{
    memory->controller.is_bare = 1;
}

uint64_t memory_card_moved(const struct memory_card *memory)
{
    return memory->controller.moved;
}

uint64_t memory_card_misuses(const struct memory_card *memory)
{
    return memory->controller.misuses;
}

/* The controller knows a table by its place alone, which is its own: what is lent second is copied there. */
uint64_t memory_card_lend(struct memory_card *memory, uint8_t *bytes, size_t n, int is_written)
{
    uint8_t *table = memory->registers.table;
    if (!memory->controller.lent)
        return memory->registers.lend(&memory->controller, bytes, n, is_written);
    for (size_t i = 0; i < n && i < memory->registers.table_size; i++)
        table[i] = bytes[i];
    return memory->registers.lend(&memory->controller, table, n, is_written);
}

void memory_card_take_back(struct memory_card *memory, uint8_t *bytes, size_t n, int is_written)
{
    void *lent = bytes == memory->controller.lent ? bytes : memory->registers.table;
    memory->registers.take_back(&memory->controller, lent, n, is_written);
}
