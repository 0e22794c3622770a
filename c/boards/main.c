/* Where a program for a bare board begins, on each of them: it opens the card, tells of it on the serial line, and goes on in
   `program`. */
#include "board.h"

void print(const char *text)
{
    for (; *text; text++)
        board_put(*text);
}

void print_number(uint64_t value)
{
    char digits[21];
    int i = 20;
    digits[i] = 0;
    do
        digits[--i] = (char)('0' + value % 10), value /= 10;
    while (value);
    print(digits + i);
}

void end(int is_done)
{
    print(is_done ? "done\n" : "failed\n");
    for (;;)
        ;
}

/* Where the start files' vectors lead. */
void fault(void);
void fault(void)
{
    print("a fault of the processor\n");
    end(0);
}

void expect_done(const char *what, int32_t result)
{
    if (result == KELIFANDRO_DONE)
        return;
    print(what);
    print(": ");
    print(kelifandro_text(result));
    print("\n");
    end(0);
}

uint32_t mapped_read(void *context, unsigned offset, unsigned size)
{
    uintptr_t at = (uintptr_t)context + offset;
    return size == 1 ? BYTE(at) : WORD(at);
}

void mapped_write(void *context, unsigned offset, unsigned size, uint32_t value)
{
    uintptr_t at = (uintptr_t)context + offset;
    if (size == 1)
        BYTE(at) = (uint8_t)value;
    else
        WORD(at) = value;
}

unsigned long board_lendings;

uint64_t board_table[1024];
__attribute__((weak)) const uint64_t board_far = 0;

uint64_t board_lend(void *context, void *bytes, size_t n, int is_written)
{
    (void)context, (void)n, (void)is_written;
    if ((uintptr_t)bytes % 4)
        return 0;
    board_lendings++;
    return (uintptr_t)bytes;
}

void board_take_back(void *context, void *bytes, size_t n, int is_written)
{
    (void)context, (void)bytes, (void)n, (void)is_written;
}

static void print_name(const struct kelifandro_card *card)
{
    char name[6] = {0};
    for (int i = 0; i < 5; i++)
        name[i] = (char)card->cid[3 + i];
    print(name);
}

int main(void)
{
    static struct kelifandro sd;
    sd.registers = board_begin();
    if (!sd.registers) {
        print("no SD host controller\n");
        end(0);
    }
    expect_done("open", kelifandro_open(&sd));
    print("card ");
    print_name(&sd.card);
    print(", ");
    print_number(kelifandro_sectors(&sd, KELIFANDRO_USER));
    print(" sectors\n");
    program(&sd);
    end(1);
    return 0;
}
