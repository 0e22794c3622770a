/* The library without a C library and without an operating system's: opens a card, writes, reads back, and ends with status 0 where
   what was read is what was written. It prints the bytes of stack that opening, writing and reading took, and reading once the card had lost its
   power. */
#include "card.h"

static struct card card;
static struct kelifandro_host host;
static struct kelifandro sd = {.host = &host};
static uint8_t data[16 * 512], back[16 * 512];

/* Fills the stack below, and counts what was overwritten of it later. */
enum { ROOM = 65536 };

__attribute__((noinline)) static void fill(void)
{
    uint8_t room[ROOM];
    for (int i = 0; i < ROOM; i++)
        room[i] = 0xa5;
    __asm__ volatile("" : : "r"(room) : "memory");
}

__attribute__((noinline)) static int used(void)
{
    uint8_t room[ROOM];
    __asm__ volatile("" : "=m"(room)); /* what was there stays */
    int i = 512;
    while (i < ROOM && room[i] == 0xa5)
        i++;
    return ROOM - i;
}

static long call(long number, long a, long b, long c)
{
    long result;
    __asm__ volatile("syscall" : "=a"(result) : "a"(number), "D"(a), "S"(b), "d"(c) : "rcx", "r11", "memory");
    return result;
}

static void print(const char *what, int n)
{
    char text[64];
    int i = 63;
    text[i] = '\n';
    do
        text[--i] = (char)('0' + n % 10), n /= 10;
    while (n);
    text[--i] = ' ';
    int length = 0;
    while (what[length])
        length++;
    while (length)
        text[--i] = what[--length];
    call(1, 1, (long)(text + i), 64 - i);
}

static int whole(void)
{
    for (int i = 0; i < 16 * 512; i++)
        data[i] = (uint8_t)(i * 5 + i / 512);
    card_begin(&card, 0);
    host = card_host;
    host.context = &card;
    fill();
    if (kelifandro_open(&sd))
        return 1;
    print("stack of open", used());
    fill();
    if (kelifandro_write(&sd, KELIFANDRO_USER, 7, 16, data))
        return 2;
    print("stack of write", used());
    fill();
    if (kelifandro_read(&sd, KELIFANDRO_USER, 7, 16, back))
        return 3;
    print("stack of read", used());
    card.state = 0;
    fill();
    if (kelifandro_read(&sd, KELIFANDRO_USER, 7, 16, back))
        return 4;
    print("stack of read after a loss of power", used());
    for (int i = 0; i < 16 * 512; i++)
        if (data[i] != back[i])
            return 5;
    return 0;
}

__attribute__((force_align_arg_pointer)) void _start(void)
{
    call(60, whole(), 0, 0);
    __builtin_unreachable();
}
