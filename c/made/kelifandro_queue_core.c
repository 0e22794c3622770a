/* Of the crates of the commit that this file lies in, which its merge gate compares; by the toolchain
   rattle-kit-13b logic dac8208d650f15bf. `c/generate --made` makes it anew. */
/* Made by c/generate of the proved library: not for editing. C99, freestanding; it needs memcpy and memset, and the functions
   kelifandro_put and kelifandro_get of kelifandro.c. Each function's name in Rattle stands above it. What is
   marked as any is of no weight: it may be any number. */
#include "kelifandro_core.h"
#include <stdbool.h>
#include <stddef.h>
#include <stdint.h>

void *memcpy(void *to, const void *from, size_t n);
void *memset(void *to, int byte, size_t n);

/* Numbers in memory have their lowest byte first on every processor. Byte by byte is right everywhere, and the smaller code; a copy is
   faster, and right where the processor keeps them so too. Which of them it is, 1 or 0, may be given. */
#ifndef KELIFANDRO_BY_BYTES
#if defined __OPTIMIZE_SIZE__ || !defined __BYTE_ORDER__ || !defined __ORDER_LITTLE_ENDIAN__
#define KELIFANDRO_BY_BYTES 1
#else
#define KELIFANDRO_BY_BYTES (__BYTE_ORDER__ != __ORDER_LITTLE_ENDIAN__)
#endif
#endif

/* Bytes that mean nothing, of a variant that isn't there, are copied with those that do, and may never have been written. */
#if defined __GNUC__ && !defined __clang__
#pragma GCC diagnostic ignored "-Wmaybe-uninitialized"
#endif

/* What is done where the proof says that nothing comes. */
#ifndef KELIFANDRO_TRAP
#ifdef __GNUC__
#define KELIFANDRO_TRAP() __builtin_trap()
#else
#define KELIFANDRO_TRAP() for (;;)
#endif
#endif

/* Where accesses go by bytes a number that begins at a multiple of its size, as those in rooms do, is still had at once. */
#if KELIFANDRO_BY_BYTES && defined __GNUC__ && defined __BYTE_ORDER__ && __BYTE_ORDER__ == __ORDER_LITTLE_ENDIAN__
#define KELIFANDRO_AT_ONCE 1
#define KELIFANDRO_ROOM __attribute__((__aligned__(8)))
typedef uint16_t __attribute__((__may_alias__)) any16;
typedef uint32_t __attribute__((__may_alias__)) any32;
typedef uint64_t __attribute__((__may_alias__)) any64;
#else
#define KELIFANDRO_AT_ONCE 0
#define KELIFANDRO_ROOM
#endif

/* What is smaller where it is called than where it is taken in. */
#ifdef __GNUC__
#define KELIFANDRO_APART __attribute__((__noinline__))
#else
#define KELIFANDRO_APART
#endif

typedef struct {
    uint64_t lo, hi;
} u128;

static inline void trap(void)
{
    KELIFANDRO_TRAP();
}

static inline uint8_t *at(uint8_t *bytes, uint64_t offset)
{
    return bytes + (ptrdiff_t)offset;
}

static inline u128 u128_of(uint64_t high, uint64_t low)
{
    u128 made;
    made.lo = low;
    made.hi = high;
    return made;
}

static inline uint16_t load16(const uint8_t *bytes)
{
#if KELIFANDRO_BY_BYTES
    return (uint16_t)((uint32_t)bytes[0] | (uint32_t)bytes[1] << 8);
#else
    uint16_t value = 0;
    memcpy(&value, bytes, 2);
    return value;
#endif
}

static inline void store16(uint8_t *bytes, uint16_t value)
{
#if KELIFANDRO_BY_BYTES
    bytes[0] = (uint8_t)value;
    bytes[1] = (uint8_t)(value >> 8);
#else
    memcpy(bytes, &value, 2);
#endif
}

static inline uint32_t load32(const uint8_t *bytes)
{
#if KELIFANDRO_BY_BYTES
    return (uint32_t)bytes[0] | (uint32_t)bytes[1] << 8 | (uint32_t)bytes[2] << 16 | (uint32_t)bytes[3] << 24;
#else
    uint32_t value = 0;
    memcpy(&value, bytes, 4);
    return value;
#endif
}

static inline void store32(uint8_t *bytes, uint32_t value)
{
#if KELIFANDRO_BY_BYTES
    bytes[0] = (uint8_t)value;
    bytes[1] = (uint8_t)(value >> 8);
    bytes[2] = (uint8_t)(value >> 16);
    bytes[3] = (uint8_t)(value >> 24);
#else
    memcpy(bytes, &value, 4);
#endif
}

static inline uint64_t load64(const uint8_t *bytes)
{
#if KELIFANDRO_BY_BYTES
    return (uint64_t)bytes[0] | (uint64_t)bytes[1] << 8 | (uint64_t)bytes[2] << 16 | (uint64_t)bytes[3] << 24 | (uint64_t)bytes[4] << 32 | (uint64_t)bytes[5] << 40 | (uint64_t)bytes[6] << 48 | (uint64_t)bytes[7] << 56;
#else
    uint64_t value = 0;
    memcpy(&value, bytes, 8);
    return value;
#endif
}

static inline void store64(uint8_t *bytes, uint64_t value)
{
#if KELIFANDRO_BY_BYTES
    bytes[0] = (uint8_t)value;
    bytes[1] = (uint8_t)(value >> 8);
    bytes[2] = (uint8_t)(value >> 16);
    bytes[3] = (uint8_t)(value >> 24);
    bytes[4] = (uint8_t)(value >> 32);
    bytes[5] = (uint8_t)(value >> 40);
    bytes[6] = (uint8_t)(value >> 48);
    bytes[7] = (uint8_t)(value >> 56);
#else
    memcpy(bytes, &value, 8);
#endif
}

static inline uint16_t load16_aligned(const uint8_t *bytes)
{
#if KELIFANDRO_AT_ONCE
    return *(const any16 *)(const void *)bytes;
#else
    return load16(bytes);
#endif
}

static inline uint32_t load32_aligned(const uint8_t *bytes)
{
#if KELIFANDRO_AT_ONCE
    return *(const any32 *)(const void *)bytes;
#else
    return load32(bytes);
#endif
}

static inline uint64_t load64_aligned(const uint8_t *bytes)
{
#if KELIFANDRO_AT_ONCE
    return *(const any64 *)(const void *)bytes;
#else
    return load64(bytes);
#endif
}

static inline void store64_aligned(uint8_t *bytes, uint64_t value)
{
#if KELIFANDRO_AT_ONCE
    *(any64 *)(void *)bytes = value;
#else
    store64(bytes, value);
#endif
}

static inline uint8_t umin8(uint8_t a, uint8_t b)
{
    return a < b ? a : b;
}

static inline uint16_t umin16(uint16_t a, uint16_t b)
{
    return a < b ? a : b;
}

static inline int32_t signed32(uint32_t a)
{
    return (int32_t)(a < UINT32_C(0x80000000) ? (int32_t)a : -(int32_t)(uint32_t)~a - 1);
}

static inline uint64_t usub_sat64(uint64_t a, uint64_t b)
{
    return a < b ? (uint64_t)0u : (uint64_t)(a - b);
}

static inline uint64_t bswap64(uint64_t a)
{
    return (uint64_t)(((uint64_t)a >> 0 & 255u) << 56 | ((uint64_t)a >> 8 & 255u) << 48 | ((uint64_t)a >> 16 & 255u) << 40 | ((uint64_t)a >> 24 & 255u) << 32 | ((uint64_t)a >> 32 & 255u) << 24 | ((uint64_t)a >> 40 & 255u) << 16 | ((uint64_t)a >> 48 & 255u) << 8 | ((uint64_t)a >> 56 & 255u) << 0);
}

static inline u128 u128_and(u128 a, u128 b)
{
    return u128_of(a.hi & b.hi, a.lo & b.lo);
}

static inline u128 u128_or(u128 a, u128 b)
{
    return u128_of(a.hi | b.hi, a.lo | b.lo);
}

static inline u128 u128_add(u128 a, u128 b)
{
    uint64_t low = a.lo + b.lo;
    return u128_of(a.hi + b.hi + (low < a.lo), low);
}

static inline bool u128_eq(u128 a, u128 b)
{
    return a.hi == b.hi && a.lo == b.lo;
}

static inline bool u128_lt(u128 a, u128 b)
{
    return a.hi < b.hi || (a.hi == b.hi && a.lo < b.lo);
}

static inline u128 u128_lshr(u128 a, unsigned n)
{
    if (n >= 64)
        return u128_of(0u, a.hi >> (n - 64));
    return n ? u128_of(a.hi >> n, a.lo >> n | a.hi << (64 - n)) : a;
}

static inline u128 u128_shl(u128 a, unsigned n)
{
    if (n >= 64)
        return u128_of(a.lo << (n - 64), 0u);
    return n ? u128_of(a.hi << n | a.lo >> (64 - n), a.lo << n) : a;
}

static inline u128 u128_bswap(u128 a)
{
    return u128_of(bswap64(a.lo), bswap64(a.hi));
}

static inline void store128(uint8_t *bytes, u128 value)
{
    store64(bytes, value.lo);
    store64(bytes + 8, value.hi);
}

static inline u128 load128_aligned(const uint8_t *bytes)
{
    return u128_of(load64_aligned(bytes + 8), load64_aligned(bytes));
}

static const KELIFANDRO_ROOM uint8_t bytes_static_0[256] = {
    0, 9, 18, 27, 36, 45, 54, 63, 72, 65, 90, 83, 108, 101, 126, 119, 25, 16, 11, 2, 61, 52, 47, 38,
    81, 88, 67, 74, 117, 124, 103, 110, 50, 59, 32, 41, 22, 31, 4, 13, 122, 115, 104, 97, 94, 87, 76, 69,
    43, 34, 57, 48, 15, 6, 29, 20, 99, 106, 113, 120, 71, 78, 85, 92, 100, 109, 118, 127, 64, 73, 82, 91,
    44, 37, 62, 55, 8, 1, 26, 19, 125, 116, 111, 102, 89, 80, 75, 66, 53, 60, 39, 46, 17, 24, 3, 10,
    86, 95, 68, 77, 114, 123, 96, 105, 30, 23, 12, 5, 58, 51, 40, 33, 79, 70, 93, 84, 107, 98, 121, 112,
    7, 14, 21, 28, 35, 42, 49, 56, 65, 72, 83, 90, 101, 108, 119, 126, 9, 0, 27, 18, 45, 36, 63, 54,
    88, 81, 74, 67, 124, 117, 110, 103, 16, 25, 2, 11, 52, 61, 38, 47, 115, 122, 97, 104, 87, 94, 69, 76,
    59, 50, 41, 32, 31, 22, 13, 4, 106, 99, 120, 113, 78, 71, 92, 85, 34, 43, 48, 57, 6, 15, 20, 29,
    37, 44, 55, 62, 1, 8, 19, 26, 109, 100, 127, 118, 73, 64, 91, 82, 60, 53, 46, 39, 24, 17, 10, 3,
    116, 125, 102, 111, 80, 89, 66, 75, 23, 30, 5, 12, 51, 58, 33, 40, 95, 86, 77, 68, 123, 114, 105, 96,
    14, 7, 28, 21, 42, 35, 56, 49, 70, 79, 84, 93, 98, 107, 112, 121,
};

static void bits_read_checked(uint8_t *a0, uint8_t *a1);

/* mmc_regs::bits::read_checked */
static void bits_read_checked(uint8_t *a0, uint8_t *a1)
{
    uint8_t r3_05;
    uint64_t r4_04;
    uint8_t sink;
    r3_05 = 0u;
    r4_04 = 0u;
join_6: {
    uint8_t r18 = *at((uint8_t *)bytes_static_0, (uint64_t)(uint8_t)(*at(a1, r4_04) ^ (uint8_t)((uint32_t)r3_05 << 1u)));
    uint64_t r28 = r4_04 + 1u;
    if (r28 != 15u) {
        r3_05 = r18;
        r4_04 = r28;
        goto join_6;
    }
    uint8_t r17 = a1[15];
    if ((r18 != (uint8_t)((uint32_t)r17 >> 1u)) || ((uint8_t)(r17 & 1u) == 0u)) {
        a0[1] = 0u;
        sink = 1u;
        goto common_ret;
    }
    store128(a0 + 16, u128_bswap(u128_or(u128_shl(u128_of(0u, load64(a1 + 8)), 64u), u128_of(0u, load64(a1)))));
    sink = 0u;
}
common_ret: {
    *a0 = sink;
    return;
}
}

/* kelifandro_cancel_by */
int32_t kelifandro_cancel_by(void *slots, uint64_t count, uint64_t ticket)
{
    uint8_t *r4;
    uint64_t r3_020;
    uint32_t r6_0;
    uint8_t *slots_bytes = (uint8_t *)slots;
    r4 = at(slots_bytes, (slots_bytes == (uint8_t *)0) ? 4096u : 0u);
    if (count == 0u) {
        r6_0 = UINT32_C(0xffffffe2);
        goto kelifandro_queue_exports_kelifandro_cancel_by_exit;
    }
    r3_020 = 0u;
join_5: {
    uint8_t *r9 = at(r4, r3_020 << 5u);
    uint8_t r7_3_0 = r9[28];
    if (!(((uint8_t)(r7_3_0 + 255u) < 3u) && (load64(r9) == ticket))) {
        uint64_t r68 = r3_020 + 1u;
        if (r68 == count) {
            r6_0 = UINT32_C(0xffffffe2);
            goto kelifandro_queue_exports_kelifandro_cancel_by_exit;
        }
        r3_020 = r68;
        goto join_5;
    }
    if (r7_3_0 != 1u) {
        r6_0 = UINT32_C(0xffffffe1);
        goto kelifandro_queue_exports_kelifandro_cancel_by_exit;
    }
    r9[28] = 0u;
    r6_0 = 0u;
}
kelifandro_queue_exports_kelifandro_cancel_by_exit: {
    return signed32(r6_0);
}
}

/* kelifandro_conclude_by */
uint8_t kelifandro_conclude_by(void *slots, uint64_t count, uint8_t is_done)
{
    uint8_t *r4;
    uint64_t r3_08;
    uint64_t r4_07;
    uint8_t v2;
    bool r4_0_in1115;
    uint64_t r2_08;
    uint8_t v3;
    uint8_t *slots_bytes = (uint8_t *)slots;
    r4 = at(slots_bytes, (slots_bytes == (uint8_t *)0) ? 4096u : 0u);
    bool r147_not = count == 0u;
    if (is_done == 0u) {
        if (r147_not) {
            goto mmc_slots_conclusion_conclude_exit_thread;
        }
        r3_08 = 0u;
        r4_07 = 0u;
        goto join_5;
    }
    if (r147_not) {
        goto mmc_slots_conclusion_conclude_exit_thread;
    }
    v2 = 0u;
    r4_0_in1115 = true;
    goto join_5_4_preheader;
join_5: {
    uint8_t *r9 = at(r4, r4_07 << 5u);
    uint64_t spec_select = r3_08 + (uint64_t)(r9[28] == 2u);
    uint64_t r29 = r4_07 + 1u;
    if (r29 != count) {
        r3_08 = spec_select;
        r4_07 = r29;
        goto join_5;
    }
    bool v0 = spec_select < 2u;
    v2 = (uint8_t)(v0 ? 0u : 3u);
    r4_0_in1115 = v0;
}
join_5_4_preheader: {
    r2_08 = 0u;
}
join_5_4: {
    uint8_t *r9_6 = at(r4, r2_08 << 5u);
    if (r9_6[28] != 2u) {
        goto join_8;
    }
    r9_6[28] = v2;
}
join_8: {
    uint64_t r43 = r2_08 + 1u;
    if (r43 != count) {
        r2_08 = r43;
        goto join_5_4;
    }
    if (r4_0_in1115) {
        goto mmc_slots_conclusion_conclude_exit_thread;
    }
    v3 = 0u;
    goto kelifandro_queue_exports_kelifandro_conclude_by_exit;
}
mmc_slots_conclusion_conclude_exit_thread: {
    v3 = 1u;
}
kelifandro_queue_exports_kelifandro_conclude_by_exit: {
    return v3;
}
}

/* kelifandro_start_by */
uint8_t kelifandro_start_by(void *slots, uint64_t count, uint64_t most, void *asked)
{
    uint8_t *r4;
    uint64_t r3_07;
    uint64_t r3_07_9;
    uint8_t r3_33;
    uint8_t r3_4_34;
    u128 r99;
    bool switch_2;
    uint64_t r4_19_056;
    uint64_t r4_16_055;
    uint64_t r4_12_054;
    u128 r73;
    bool r84;
    u128 r91;
    u128 r102;
    uint64_t r3_014;
    uint8_t *r9_2;
    uint64_t r7_0_0;
    uint32_t r7_4_0;
    uint8_t r7_7_0;
    uint64_t r12_2;
    u128 r35;
    bool r63;
    u128 r69;
    bool r52;
    uint64_t r3_09;
    uint16_t r0_13_0_ph;
    uint64_t r0_11_0_ph;
    uint64_t r0_92_0_ph;
    uint8_t r0_7_0_ph;
    uint8_t r0_41_0_ph;
    uint8_t r4_0_0_extract_trunc24;
    uint8_t *slots_bytes = (uint8_t *)slots;
    uint8_t *asked_bytes = (uint8_t *)asked;
    r4 = at(slots_bytes, (slots_bytes == (uint8_t *)0) ? 4096u : 0u);
    if (count == 0u) {
        r4_0_0_extract_trunc24 = 0u;
        goto kelifandro_queue_exports_kelifandro_start_by_exit;
    }
    r3_07 = 0u;
join_5: {
    uint8_t *r9 = at(r4, r3_07 << 5u);
    if (r9[28] != 3u) {
        uint64_t r28 = r3_07 + 1u;
        if (r28 == count) {
            r3_07_9 = 0u;
            goto join_5_8;
        }
        r3_07 = r28;
        goto join_5;
    }
    uint32_t r5_3_0 = load32(r9 + 20);
    uint8_t r5_5_0 = r9[29];
    uint8_t r5_6_0 = r9[30];
    uint64_t r12 = (uint64_t)load32(r9 + 16);
    r9[28] = 2u;
    r0_13_0_ph = 0u;
    r0_11_0_ph = (uint64_t)r5_3_0 + r12;
    r0_92_0_ph = r12;
    r0_7_0_ph = umin8(r5_5_0, 3u);
    r0_41_0_ph = (uint8_t)((r5_6_0 < 7u) ? r5_6_0 : 0u);
    goto arm_1;
}
join_5_8: {
    uint8_t *r9_11 = at(r4, r3_07_9 << 5u);
    if (r9_11[28] != 1u) {
        uint64_t r28_16 = r3_07_9 + 1u;
        if (r28_16 == count) {
            r4_0_0_extract_trunc24 = 0u;
            goto kelifandro_queue_exports_kelifandro_start_by_exit;
        }
        r3_07_9 = r28_16;
        goto join_5_8;
    }
    uint32_t r5_3_0_28 = load32(r9_11 + 20);
    uint8_t r5_5_0_30 = r9_11[29];
    uint8_t r5_6_0_32 = r9_11[30];
    r3_33 = umin8(r5_5_0_30, 3u);
    r3_4_34 = (uint8_t)((r5_6_0_32 < 7u) ? r5_6_0_32 : 0u);
    uint64_t r12_35 = (uint64_t)load32(r9_11 + 16);
    r9_11[28] = 2u;
    r99 = u128_of(0u, most);
    switch_2 = r5_5_0_30 < 2u;
    r4_19_056 = 1u;
    r4_16_055 = (uint64_t)r5_3_0_28 + r12_35;
    r4_12_054 = r12_35;
}
join_5_43: {
    r73 = u128_of(0u, r4_12_054);
    r84 = r4_19_056 < 16u;
    r91 = u128_of(0u, r4_16_055);
    r102 = u128_add(r73, r99);
    r3_014 = 0u;
}
join_5_2: {
    r9_2 = at(r4, r3_014 << 5u);
    r7_0_0 = load64(r9_2);
    r7_4_0 = load32(r9_2 + 20);
    r7_7_0 = r9_2[29];
    if (r9_2[28] != 1u) {
        goto join_8;
    }
    uint8_t r7_8_0 = r9_2[30];
    uint32_t r7_3_0 = load32(r9_2 + 16);
    r12_2 = (uint64_t)r7_3_0;
    r35 = u128_of(0u, r7_3_0);
    u128 r39 = u128_of(0u, r7_4_0);
    r63 = r4_16_055 == r12_2;
    r69 = u128_add(r35, r39);
    bool v5 = (((uint8_t)((r7_8_0 < 7u) ? r7_8_0 : 0u) == r3_4_34) && (switch_2 && (umin8(r7_7_0, 3u) == r3_33))) && (r63 || u128_eq(r69, r73));
    if (!((v5 && r84) && !u128_lt(r102, u128_add(r39, r91)))) {
        goto join_8;
    }
    r52 = r7_4_0 != 0u;
    r3_09 = 0u;
}
join_5_3: {
    uint8_t *r9_3 = at(r4, r3_09 << 5u);
    uint32_t r7_3_0_2 = load32(r9_3 + 16);
    uint32_t r7_4_0_2 = load32(r9_3 + 20);
    uint8_t r7_7_0_2 = r9_3[29];
    uint8_t r7_8_0_2 = r9_3[30];
    if (r9_3[28] != 1u) {
        goto join_8_2;
    }
    if (!(load64(r9_3) < r7_0_0)) {
        goto join_8_2;
    }
    if (!((r52 && (r7_4_0_2 != 0u)) && ((uint8_t)((r7_8_0_2 < 7u) ? r7_8_0_2 : 0u) == r3_4_34))) {
        goto join_8_2;
    }
    u128 r21 = u128_of(0u, r7_3_0_2);
    if ((u128_lt(r21, r69) && u128_lt(r35, u128_add(u128_of(0u, r7_4_0_2), r21))) && ((uint8_t)(r7_7_0_2 | r7_7_0) != 0u)) {
        goto join_8;
    }
}
join_8_2: {
    uint64_t r31 = r3_09 + 1u;
    if (r31 != count) {
        r3_09 = r31;
        goto join_5_3;
    }
    r9_2[28] = 2u;
    r4_19_056 = r4_19_056 + 1u;
    r4_16_055 = (r63 ? (uint64_t)r7_4_0 : 0u) + r4_16_055;
    r4_12_054 = r63 ? r4_12_054 : r12_2;
    goto join_5_43;
}
join_8: {
    uint64_t r33 = r3_014 + 1u;
    if (r33 != count) {
        r3_014 = r33;
        goto join_5_2;
    }
    r0_13_0_ph = (uint16_t)((r4_19_056 < 2u) ? 0u : 2u);
    r0_11_0_ph = r4_16_055;
    r0_92_0_ph = r4_12_054;
    r0_7_0_ph = r3_33;
    r0_41_0_ph = r3_4_34;
}
arm_1: {
    store64(asked_bytes, r0_92_0_ph);
    store64(asked_bytes + 8, usub_sat64(r0_11_0_ph, r0_92_0_ph));
    store32(asked_bytes + 16, (uint32_t)r0_41_0_ph);
    store16(asked_bytes + 20, (uint16_t)r0_7_0_ph);
    store16(asked_bytes + 22, r0_13_0_ph);
    r4_0_0_extract_trunc24 = 1u;
}
kelifandro_queue_exports_kelifandro_start_by_exit: {
    return r4_0_0_extract_trunc24;
}
}

/* kelifandro_submit_by */
int32_t kelifandro_submit_by(const void *card, void *slots, uint64_t count, void *next, const void *asked, uint32_t client, uint64_t whose)
{
    KELIFANDRO_ROOM uint8_t room[32];
    uint8_t *const r6 = room;
    uint8_t *const r5 = room;
    uint8_t *r4;
    uint8_t r16;
    bool narrow_not21;
    uint8_t r5_212_0;
    uint64_t r5_513_0;
    uint64_t r5_6_0;
    bool r3_8_not;
    uint64_t r75;
    bool r1_not;
    bool r1_37;
    uint64_t r2_0_in_speculated;
    uint64_t r34;
    uint32_t r16_13;
    uint32_t r16_2;
    uint64_t r3_08;
    uint64_t r4_07;
    uint64_t r3_012;
    uint64_t r4_011;
    uint64_t r3_1;
    uint64_t common_ret_op;
    uint32_t r7_0;
    uint8_t *card_bytes = (uint8_t *)card;
    uint8_t *slots_bytes = (uint8_t *)slots;
    uint8_t *next_bytes = (uint8_t *)next;
    uint8_t *asked_bytes = (uint8_t *)asked;
    r4 = at(slots_bytes, (slots_bytes == (uint8_t *)0) ? 4096u : 0u);
    uint32_t r10 = load32_aligned(asked_bytes + 16);
    r16 = (uint8_t)r10;
    narrow_not21 = (r10 > 255u) || (r16 > 6u);
    if (narrow_not21) {
        r5_212_0 = 0u; /* any */
        r5_513_0 = 0u; /* any */
        r5_6_0 = 0u; /* any */
        goto kelifandro_asked_AskedRecord_asked_exit;
    }
    r5_212_0 = (uint8_t)umin16(load16_aligned(asked_bytes + 20), 3u);
    r5_513_0 = load64_aligned(asked_bytes);
    r5_6_0 = load64_aligned(asked_bytes + 8);
kelifandro_asked_AskedRecord_asked_exit: {
    bool r3_not = card_bytes[1] == 0u;
    r3_8_not = card_bytes[2] == 0u;
    bits_read_checked(r5, card_bytes + 14);
    uint8_t r1_0_0 = *r5;
    if (r1_0_0 != 0u) {
        goto mmc_direct_noting_stands_by_exit_thread;
    }
    bits_read_checked(r6, card_bytes + 30);
    if (*r6 != 0u) {
        goto arm_6;
    }
    u128 r1_4_16_22 = load128_aligned(r6 + 16);
    if (!r3_not) {
        goto arm_5;
    }
    switch ((uint8_t)(u128_lshr(r1_4_16_22, 126u).lo & 3u)) {
    default: {
        goto arm_6;
    }
    case 0u: {
        if (!u128_lt(u128_add(u128_and(u128_lshr(r1_4_16_22, 80u), u128_of(0u, 15u)), u128_of(UINT64_C(0xffffffffffffffff), UINT64_C(0xfffffffffffffff7))), u128_of(0u, 3u))) {
            goto arm_6;
        }
        if (u128_lt(u128_add(u128_and(u128_lshr(r1_4_16_22, 22u), u128_of(0u, 15u)), u128_of(UINT64_C(0xffffffffffffffff), UINT64_C(0xfffffffffffffff7))), u128_of(0u, 3u))) {
            goto arm_5;
        }
        goto arm_6;
    }
    case 1u: {
        goto arm_5;
    }
    }
}
arm_5: {
    r75 = load64_aligned(card_bytes + 96);
    if (r75 == 0u) {
        goto mmc_direct_noting_stands_by_exit_thread;
    }
    uint64_t r40_36 = load64_aligned(card_bytes + 88);
    uint64_t v = r3_8_not ? UINT64_C(0x800000) : UINT64_C(0x100000000);
    uint64_t a0_25 = (r40_36 > v) ? 0u : r40_36;
    uint64_t r35 = load64_aligned(card_bytes + 80);
    uint64_t a0_21 = (r35 > v) ? 0u : r35;
    uint64_t r30 = load64_aligned(card_bytes + 72);
    uint64_t a0_17 = (r30 > v) ? 0u : r30;
    uint64_t r25 = load64_aligned(card_bytes + 64);
    uint64_t a0_13 = (r25 > v) ? 0u : r25;
    uint64_t r20 = load64_aligned(card_bytes + 56);
    uint64_t a0_9 = (r20 > v) ? 0u : r20;
    r1_not = card_bytes[7] == 0u;
    r1_37 = card_bytes[8] != 0u;
    if (narrow_not21 || ((uint8_t)(*card_bytes + 252u) < 253u)) {
        r7_0 = narrow_not21 ? UINT32_C(0xfffffffe) : UINT32_C(0xffffffff);
        goto kelifandro_queue_exports_kelifandro_submit_by_exit;
    }
    uint64_t r15 = load64_aligned(card_bytes + 48);
    switch (r16) {
    default: {
        trap();
        return 0;
    }
    case 0u: {
        r2_0_in_speculated = (r15 > v) ? 0u : r15;
        goto mmc_switch_sizes_Sizes_of_exit;
    }
    case 1u:
    case 2u: {
        r2_0_in_speculated = a0_9;
        goto mmc_switch_sizes_Sizes_of_exit;
    }
    case 3u: {
        r2_0_in_speculated = a0_13;
        goto mmc_switch_sizes_Sizes_of_exit;
    }
    case 4u: {
        r2_0_in_speculated = a0_17;
        goto mmc_switch_sizes_Sizes_of_exit;
    }
    case 5u: {
        r2_0_in_speculated = a0_21;
        goto mmc_switch_sizes_Sizes_of_exit;
    }
    case 6u: {
        r2_0_in_speculated = a0_25;
        goto mmc_switch_sizes_Sizes_of_exit;
    }
    }
}
mmc_switch_sizes_Sizes_of_exit: {
    if (r2_0_in_speculated == 0u) {
        r7_0 = UINT32_C(0xfffffffe);
        goto kelifandro_queue_exports_kelifandro_submit_by_exit;
    }
    if (r5_6_0 == 0u) {
        r7_0 = UINT32_C(0xfffffffc);
        goto kelifandro_queue_exports_kelifandro_submit_by_exit;
    }
    if ((r5_212_0 < 2u) && (r5_6_0 > 1024u)) {
        r7_0 = UINT32_C(0xfffffffc);
        goto kelifandro_queue_exports_kelifandro_submit_by_exit;
    }
    if ((r2_0_in_speculated < r5_6_0) || ((r2_0_in_speculated - r5_6_0) < r5_513_0)) {
        r7_0 = UINT32_C(0xfffffffd);
        goto kelifandro_queue_exports_kelifandro_submit_by_exit;
    }
    if (!r1_not) {
        if (r5_212_0 == 0u) {
            goto join_4;
        }
        r7_0 = UINT32_C(0xfffffffb);
        goto kelifandro_queue_exports_kelifandro_submit_by_exit;
    }
    switch (r5_212_0) {
    default: {
        trap();
        return 0;
    }
    case 0u:
    case 1u: {
        goto join_4;
    }
    case 2u: {
        if ((r5_513_0 % r75) != 0u) {
            r7_0 = UINT32_C(0xfffffffa);
            goto kelifandro_queue_exports_kelifandro_submit_by_exit;
        }
        uint64_t r19 = r5_6_0 + r5_513_0;
        if (((uint8_t)(r16 + 255u) < 2u) || ((r19 != r2_0_in_speculated) && ((r19 % r75) != 0u))) {
            r7_0 = UINT32_C(0xfffffffa);
            goto kelifandro_queue_exports_kelifandro_submit_by_exit;
        }
        goto join_4;
    }
    case 3u: {
        if (((uint8_t)(r16 + 253u) < 254u) && r1_37) {
            goto join_4;
        }
        r7_0 = UINT32_C(0xfffffffa);
        goto kelifandro_queue_exports_kelifandro_submit_by_exit;
    }
    }
}
join_4: {
    r34 = load64_aligned(next_bytes);
    if (!((r5_6_0 | r5_513_0) < UINT64_C(0x100000000))) {
        r7_0 = UINT32_C(0xfffffffc);
        goto kelifandro_queue_exports_kelifandro_submit_by_exit;
    }
    r16_13 = (uint32_t)r5_6_0;
    r16_2 = (uint32_t)r5_513_0;
    if (r34 == UINT64_C(0xffffffffffffffff)) {
        r7_0 = UINT32_C(0xfffffff8);
        goto kelifandro_queue_exports_kelifandro_submit_by_exit;
    }
    if (count == 0u) {
        common_ret_op = 0u;
        goto mmc_slots_submission_make_room_exit;
    }
    r3_08 = 0u;
    r4_07 = 0u;
}
join_5: {
    uint8_t *r9 = at(r4, r4_07 << 5u);
    uint64_t r27 = r4_07 + 1u;
    uint64_t spec_select = (r9[28] == 0u) ? r3_08 : r27;
    if (r27 != count) {
        r3_08 = spec_select;
        r4_07 = r27;
        goto join_5;
    }
    if (spec_select < count) {
        common_ret_op = spec_select;
        goto mmc_slots_submission_make_room_exit;
    }
    r3_012 = 0u;
    r4_011 = 0u;
}
join_5_5: {
    uint8_t *r9_7 = at(r4, r4_011 << 5u);
    uint8_t r5_2_0_9 = r9_7[28];
    if (r5_2_0_9 == 0u) {
        r3_1 = r3_012;
        goto join_8;
    }
    r9_7[28] = 0u;
    uint8_t *r50 = at(r4, r3_012 << 5u);
    {
        uint8_t moved[28];
        memcpy(moved, r9_7, 28);
        memcpy(r50, moved, 28);
    }
    r50[28] = r5_2_0_9;
    {
        uint8_t moved[3];
        memcpy(moved, r9_7 + 29, 3);
        memcpy(r50 + 29, moved, 3);
    }
    r3_1 = r3_012 + 1u;
}
join_8: {
    uint64_t r55 = r4_011 + 1u;
    if (r55 == count) {
        common_ret_op = r3_1;
        goto mmc_slots_submission_make_room_exit;
    }
    r3_012 = r3_1;
    r4_011 = r55;
    goto join_5_5;
}
mmc_slots_submission_make_room_exit: {
    if (common_ret_op == count) {
        r7_0 = UINT32_C(0xfffffff8);
        goto kelifandro_queue_exports_kelifandro_submit_by_exit;
    }
    uint8_t *r73 = at(r4, common_ret_op << 5u);
    store64(r73, r34);
    store64(r73 + 8, whose);
    store32(r73 + 16, r16_2);
    store32(r73 + 20, r16_13);
    store32(r73 + 24, client);
    r73[28] = 1u;
    r73[29] = r5_212_0;
    r73[30] = r16;
    r73[31] = 0u;
    store64_aligned(next_bytes, load64_aligned(next_bytes) + 1u);
    r7_0 = 1u;
    goto kelifandro_queue_exports_kelifandro_submit_by_exit;
}
arm_6: {
}
mmc_direct_noting_stands_by_exit_thread: {
    r7_0 = narrow_not21 ? UINT32_C(0xfffffffe) : UINT32_C(0xffffffff);
}
kelifandro_queue_exports_kelifandro_submit_by_exit: {
    return signed32(r7_0);
}
}
