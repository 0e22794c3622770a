/* Calls each function of instructions.py as C and as the toolchain's back end has it, on the same numbers and bytes. */
#include <stdio.h>
#include <string.h>
#include "kelifandro_core.h"

static const struct {
    const char *name;
    uint64_t (*c)(uint64_t a, uint64_t b, void *m), (*ir)(uint64_t a, uint64_t b, void *m);
} functions[] = {
#include "functions.inc"
};

enum { EDGES = 27, VALUES = 43, BYTES = 96 };
static uint64_t values[VALUES] = {
    0, 1, 2, 3, 5, 7, 8, 31, 32, 63, 64, 100, 0x7f, 0x80, 0xff, 0x100, 0x7fff, 0x8000, 0xffff, 0x7fffffff, 0x80000000,
    0xffffffff, 0x100000000, 0x7fffffffffffffff, 0x8000000000000000, 0xfffffffffffffffe, 0xffffffffffffffff,
};
static uint64_t random_state = 1, told;

static uint64_t any(void)
{
    random_state ^= random_state << 13;
    random_state ^= random_state >> 7;
    random_state ^= random_state << 17;
    return random_state;
}

int64_t kelifandro_put(int32_t stream, const uint8_t *bytes, uint64_t n)
{
    told = told * 31 + (uint64_t)(int64_t)stream;
    for (uint64_t i = 0; i < n; i++)
        told = told * 31 + bytes[i];
    return (int64_t)(told % 1000) - 500;
}

int64_t kelifandro_get(int32_t stream, uint8_t *bytes, uint64_t n)
{
    for (uint64_t i = 0; i < n; i++)
        bytes[i] = (uint8_t)(stream + (int32_t)i);
    return stream < 0 ? -1 : (int64_t)n;
}

static int is_same(uint64_t a, uint64_t b, size_t n)
{
    uint8_t by_c[BYTES], by_ir[BYTES];
    for (int i = 0; i < BYTES; i++)
        by_c[i] = by_ir[i] = (uint8_t)(a + b * 7 + (uint64_t)i * 37);
    told = 5;
    uint64_t from_c = functions[n].c(a, b, by_c), told_c = told;
    told = 5;
    uint64_t from_ir = functions[n].ir(a, b, by_ir);
    if (from_c == from_ir && memcmp(by_c, by_ir, BYTES) == 0 && told == told_c)
        return 1;
    printf("%s of %#llx and %#llx: %#llx as C, %#llx by the toolchain\n", functions[n].name, (unsigned long long)a, (unsigned long long)b,
           (unsigned long long)from_c, (unsigned long long)from_ir);
    return 0;
}

int main(void)
{
    unsigned long wrong = 0;
    for (int i = EDGES; i < VALUES; i++)
        values[i] = any() >> (i % 4 * 16);
    for (size_t n = 0; n < sizeof functions / sizeof *functions; n++)
        for (int i = 0; i < VALUES * VALUES; i++)
            if (!is_same(values[i / VALUES], values[i % VALUES], n)) {
                wrong++;
                break;
            }
    printf("%lu functions of IR, %lu of them wrong\n", (unsigned long)(sizeof functions / sizeof *functions), wrong);
    return wrong != 0;
}
