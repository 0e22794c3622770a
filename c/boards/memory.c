/* The three functions that a compiler may call, for a program without a C library. They are built so that a loop isn't made a call of
   them again (-fno-tree-loop-distribute-patterns). */
#include <stddef.h>

void *memcpy(void *restrict to, const void *restrict from, size_t n)
{
    unsigned char *target = to;
    const unsigned char *source = from;
    while (n--)
        *target++ = *source++;
    return to;
}

void *memset(void *to, int byte, size_t n)
{
    unsigned char *target = to;
    while (n--)
        *target++ = (unsigned char)byte;
    return to;
}

void *memmove(void *to, const void *from, size_t n)
{
    unsigned char *target = to;
    const unsigned char *source = from;
    if (target <= source)
        return memcpy(to, from, n);
    while (n--)
        target[n] = source[n];
    return to;
}
