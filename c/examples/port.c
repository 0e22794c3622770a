/* What a port begins with: a driver of your host controller, as the library wants it, and the calls of a boot loader. Replace the bodies
   of the first three functions by what your controller does. One function, `transfer`, has all commands and all blocks, those of
   registers too (SCR, switch status, EXT_CSD); what moves a block a call gives `send`, `read_block` and `write_block` in its place. With
   an SD host controller give `struct kelifandro_registers` instead (c/boards). */
#include "../kelifandro.h"

/* Tell the controller of index, argument, the response's length and checks, and of the direction, length and number of the blocks, then
   wait for the response. */
static int begin(const struct kelifandro_command *command, uint32_t response[4])
{
    (void)command, (void)response;
    return KELIFANDRO_TIMEOUT;
}

/* Wait for the next block, and take it or give it: 0 once it is good or accepted, 1 a bad or rejected one, 2 none. Before a block that is
   written is given, the card is no longer busy with the one before it. */
static uint8_t move(const struct kelifandro_command *command, void *block)
{
    (void)command, (void)block;
    return 2;
}

/* Look so long whether the card holds DAT0 low. */
static int port_is_busy(void *context, uint32_t microseconds)
{
    (void)context, (void)microseconds;
    return 0;
}

/* A controller with DMA is given the memory as it is, and says at the end whether all has moved. */
static int port_transfer(void *context, const struct kelifandro_command *command, uint32_t response[4], void *memory, size_t blocks,
                         struct kelifandro_moved *moved)
{
    uint8_t *at = memory;
    int fault = begin(command, response);
    (void)context;
    while (fault == 0 && moved->failed == 0 && moved->good < blocks) {
        moved->failed = move(command, at);
        moved->good = (uint16_t)(moved->good + !moved->failed);
        at += command->block_length;
    }
    return fault;
}

static void port_set_ios(void *context, int lines, int high_speed, uint32_t hertz)
{
    (void)context, (void)lines, (void)high_speed, (void)hertz;
}

static void port_pause(void *context, uint32_t microseconds)
{
    (void)context, (void)microseconds;
}

static const struct kelifandro_host host = {
    .lines = 4,
    .high_speed = 1,
    .transfer = port_transfer,
    .is_busy = port_is_busy,
    .set_ios = port_set_ios,
    .pause = port_pause,
};

/* Loads so many sectors. */
int load(uint64_t start, size_t count, void *to)
{
    static struct kelifandro sd = {.host = &host};
    if (kelifandro_open(&sd) != KELIFANDRO_DONE)
        return -1;
    return kelifandro_read(&sd, KELIFANDRO_USER, start, count, to) == KELIFANDRO_DONE ? 0 : -1;
}

int main(void)
{
    static uint8_t sectors[16][512];
    return load(0, 16, sectors) == -1 ? 0 : 1; /* the functions above find no card, and so nothing may be loaded */
}
