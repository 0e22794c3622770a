/* Of the crates of the commit that this file lies in, which its merge gate compares; by the toolchain
   rattle-kit-13b logic dac8208d650f15bf. `c/generate --made` makes it anew. */
/* Made by c/generate of the proved library: not for editing. C99, freestanding; it needs memcpy and memset, and the functions
   kelifandro_put and kelifandro_get of kelifandro.c. Each function's name in Rattle stands above it. What is
   marked as any is of no weight: it may be any number. */
#include "kelifandro_core.h"
#include <stdbool.h>
#include <stddef.h>
#include <stdint.h>

void *memcpy(void *to, const void *from, size_t n);
void *memset(void *to, int byte, size_t n);

/* Numbers in memory have their lowest byte first on every processor. Byte by byte is right everywhere, and the smaller code; a copy is
   faster, and right where the processor keeps them so too. Which of them it is, 1 or 0, may be given. */
#ifndef KELIFANDRO_BY_BYTES
#if defined __OPTIMIZE_SIZE__ || !defined __BYTE_ORDER__ || !defined __ORDER_LITTLE_ENDIAN__
#define KELIFANDRO_BY_BYTES 1
#else
#define KELIFANDRO_BY_BYTES (__BYTE_ORDER__ != __ORDER_LITTLE_ENDIAN__)
#endif
#endif

/* Bytes that mean nothing, of a variant that isn't there, are copied with those that do, and may never have been written. */
#if defined __GNUC__ && !defined __clang__
#pragma GCC diagnostic ignored "-Wmaybe-uninitialized"
#endif

/* What is done where the proof says that nothing comes. */
#ifndef KELIFANDRO_TRAP
#ifdef __GNUC__
#define KELIFANDRO_TRAP() __builtin_trap()
#else
#define KELIFANDRO_TRAP() for (;;)
#endif
#endif

/* Where accesses go by bytes a number that begins at a multiple of its size, as those in rooms do, is still had at once. */
#if KELIFANDRO_BY_BYTES && defined __GNUC__ && defined __BYTE_ORDER__ && __BYTE_ORDER__ == __ORDER_LITTLE_ENDIAN__
#define KELIFANDRO_AT_ONCE 1
#define KELIFANDRO_ROOM __attribute__((__aligned__(8)))
typedef uint16_t __attribute__((__may_alias__)) any16;
typedef uint32_t __attribute__((__may_alias__)) any32;
typedef uint64_t __attribute__((__may_alias__)) any64;
#else
#define KELIFANDRO_AT_ONCE 0
#define KELIFANDRO_ROOM
#endif

/* What is smaller where it is called than where it is taken in. */
#ifdef __GNUC__
#define KELIFANDRO_APART __attribute__((__noinline__))
#else
#define KELIFANDRO_APART
#endif

typedef struct {
    uint64_t lo, hi;
} u128;

struct of_i8_i32 {
    uint8_t f0;
    uint32_t f1;
};

struct of_i8_i64 {
    uint8_t f0;
    uint64_t f1;
};

struct of_i8_i8 {
    uint8_t f0;
    uint8_t f1;
};

static inline void trap(void)
{
    KELIFANDRO_TRAP();
}

static inline uint8_t *at(uint8_t *bytes, uint64_t offset)
{
    return bytes + (ptrdiff_t)offset;
}

static inline uint8_t *load_pointer(const uint8_t *bytes)
{
    uint8_t *pointer;
    memcpy(&pointer, bytes, sizeof pointer);
    return pointer;
}

static inline void store_pointer(uint8_t *bytes, uint8_t *pointer)
{
    memcpy(bytes, &pointer, sizeof pointer);
}

static inline u128 u128_of(uint64_t high, uint64_t low)
{
    u128 made;
    made.lo = low;
    made.hi = high;
    return made;
}

static inline uint16_t load16(const uint8_t *bytes)
{
#if KELIFANDRO_BY_BYTES
    return (uint16_t)((uint32_t)bytes[0] | (uint32_t)bytes[1] << 8);
#else
    uint16_t value = 0;
    memcpy(&value, bytes, 2);
    return value;
#endif
}

static inline void store16(uint8_t *bytes, uint16_t value)
{
#if KELIFANDRO_BY_BYTES
    bytes[0] = (uint8_t)value;
    bytes[1] = (uint8_t)(value >> 8);
#else
    memcpy(bytes, &value, 2);
#endif
}

static inline uint32_t load32(const uint8_t *bytes)
{
#if KELIFANDRO_BY_BYTES
    return (uint32_t)bytes[0] | (uint32_t)bytes[1] << 8 | (uint32_t)bytes[2] << 16 | (uint32_t)bytes[3] << 24;
#else
    uint32_t value = 0;
    memcpy(&value, bytes, 4);
    return value;
#endif
}

static inline void store32(uint8_t *bytes, uint32_t value)
{
#if KELIFANDRO_BY_BYTES
    bytes[0] = (uint8_t)value;
    bytes[1] = (uint8_t)(value >> 8);
    bytes[2] = (uint8_t)(value >> 16);
    bytes[3] = (uint8_t)(value >> 24);
#else
    memcpy(bytes, &value, 4);
#endif
}

static inline uint64_t load64(const uint8_t *bytes)
{
#if KELIFANDRO_BY_BYTES
    return (uint64_t)bytes[0] | (uint64_t)bytes[1] << 8 | (uint64_t)bytes[2] << 16 | (uint64_t)bytes[3] << 24 | (uint64_t)bytes[4] << 32 | (uint64_t)bytes[5] << 40 | (uint64_t)bytes[6] << 48 | (uint64_t)bytes[7] << 56;
#else
    uint64_t value = 0;
    memcpy(&value, bytes, 8);
    return value;
#endif
}

static inline void store64(uint8_t *bytes, uint64_t value)
{
#if KELIFANDRO_BY_BYTES
    bytes[0] = (uint8_t)value;
    bytes[1] = (uint8_t)(value >> 8);
    bytes[2] = (uint8_t)(value >> 16);
    bytes[3] = (uint8_t)(value >> 24);
    bytes[4] = (uint8_t)(value >> 32);
    bytes[5] = (uint8_t)(value >> 40);
    bytes[6] = (uint8_t)(value >> 48);
    bytes[7] = (uint8_t)(value >> 56);
#else
    memcpy(bytes, &value, 8);
#endif
}

static inline uint16_t load16_aligned(const uint8_t *bytes)
{
#if KELIFANDRO_AT_ONCE
    return *(const any16 *)(const void *)bytes;
#else
    return load16(bytes);
#endif
}

static inline void store16_aligned(uint8_t *bytes, uint16_t value)
{
#if KELIFANDRO_AT_ONCE
    *(any16 *)(void *)bytes = value;
#else
    store16(bytes, value);
#endif
}

static inline uint32_t load32_aligned(const uint8_t *bytes)
{
#if KELIFANDRO_AT_ONCE
    return *(const any32 *)(const void *)bytes;
#else
    return load32(bytes);
#endif
}

static inline void store32_aligned(uint8_t *bytes, uint32_t value)
{
#if KELIFANDRO_AT_ONCE
    *(any32 *)(void *)bytes = value;
#else
    store32(bytes, value);
#endif
}

static inline uint64_t load64_aligned(const uint8_t *bytes)
{
#if KELIFANDRO_AT_ONCE
    return *(const any64 *)(const void *)bytes;
#else
    return load64(bytes);
#endif
}

static inline void store64_aligned(uint8_t *bytes, uint64_t value)
{
#if KELIFANDRO_AT_ONCE
    *(any64 *)(void *)bytes = value;
#else
    store64(bytes, value);
#endif
}

static inline uint8_t *load_pointer_aligned(const uint8_t *bytes)
{
#if KELIFANDRO_AT_ONCE
    return *(uint8_t *const __attribute__((__may_alias__)) *)(const void *)bytes;
#else
    return load_pointer(bytes);
#endif
}

static inline void store_pointer_aligned(uint8_t *bytes, uint8_t *pointer)
{
#if KELIFANDRO_AT_ONCE
    *(uint8_t *__attribute__((__may_alias__)) *)(void *)bytes = pointer;
#else
    store_pointer(bytes, pointer);
#endif
}

static inline uint8_t umin8(uint8_t a, uint8_t b)
{
    return a < b ? a : b;
}

static inline uint16_t umin16(uint16_t a, uint16_t b)
{
    return a < b ? a : b;
}

static inline uint16_t umax16(uint16_t a, uint16_t b)
{
    return a > b ? a : b;
}

static inline uint32_t umin32(uint32_t a, uint32_t b)
{
    return a < b ? a : b;
}

static inline uint32_t umax32(uint32_t a, uint32_t b)
{
    return a > b ? a : b;
}

static inline uint32_t usub_sat32(uint32_t a, uint32_t b)
{
    return a < b ? (uint32_t)0u : (uint32_t)(a - b);
}

static inline uint32_t ctlz32(uint32_t a)
{
    uint32_t n = 0;
    while (n < 32 && !((uint32_t)a >> (31 - n) & 1u))
        n++;
    return n;
}

static inline uint32_t bswap32(uint32_t a)
{
    return (uint32_t)(((uint32_t)a >> 0 & 255u) << 24 | ((uint32_t)a >> 8 & 255u) << 16 | ((uint32_t)a >> 16 & 255u) << 8 | ((uint32_t)a >> 24 & 255u) << 0);
}

static inline int32_t signed32(uint32_t a)
{
    return (int32_t)(a < UINT32_C(0x80000000) ? (int32_t)a : -(int32_t)(uint32_t)~a - 1);
}

static inline uint64_t umin64(uint64_t a, uint64_t b)
{
    return a < b ? a : b;
}

static KELIFANDRO_APART uint64_t uadd_sat64(uint64_t a, uint64_t b)
{
    return b > UINT64_C(0xffffffffffffffff) - a ? (uint64_t)UINT64_C(0xffffffffffffffff) : (uint64_t)(a + b);
}

static inline uint64_t bswap64(uint64_t a)
{
    return (uint64_t)(((uint64_t)a >> 0 & 255u) << 56 | ((uint64_t)a >> 8 & 255u) << 48 | ((uint64_t)a >> 16 & 255u) << 40 | ((uint64_t)a >> 24 & 255u) << 32 | ((uint64_t)a >> 32 & 255u) << 24 | ((uint64_t)a >> 40 & 255u) << 16 | ((uint64_t)a >> 48 & 255u) << 8 | ((uint64_t)a >> 56 & 255u) << 0);
}

static inline u128 u128_and(u128 a, u128 b)
{
    return u128_of(a.hi & b.hi, a.lo & b.lo);
}

static inline u128 u128_or(u128 a, u128 b)
{
    return u128_of(a.hi | b.hi, a.lo | b.lo);
}

static inline u128 u128_xor(u128 a, u128 b)
{
    return u128_of(a.hi ^ b.hi, a.lo ^ b.lo);
}

static inline u128 u128_add(u128 a, u128 b)
{
    uint64_t low = a.lo + b.lo;
    return u128_of(a.hi + b.hi + (low < a.lo), low);
}

static inline bool u128_eq(u128 a, u128 b)
{
    return a.hi == b.hi && a.lo == b.lo;
}

static inline bool u128_lt(u128 a, u128 b)
{
    return a.hi < b.hi || (a.hi == b.hi && a.lo < b.lo);
}

static inline u128 u128_lshr(u128 a, unsigned n)
{
    if (n >= 64)
        return u128_of(0u, a.hi >> (n - 64));
    return n ? u128_of(a.hi >> n, a.lo >> n | a.hi << (64 - n)) : a;
}

static inline u128 u128_shl(u128 a, unsigned n)
{
    if (n >= 64)
        return u128_of(a.lo << (n - 64), 0u);
    return n ? u128_of(a.hi << n | a.lo >> (64 - n), a.lo << n) : a;
}

static inline u128 u128_bswap(u128 a)
{
    return u128_of(bswap64(a.lo), bswap64(a.hi));
}

static inline u128 load128(const uint8_t *bytes)
{
    return u128_of(load64(bytes + 8), load64(bytes));
}

static inline void store128(uint8_t *bytes, u128 value)
{
    store64(bytes, value.lo);
    store64(bytes + 8, value.hi);
}

static inline u128 load128_aligned(const uint8_t *bytes)
{
    return u128_of(load64_aligned(bytes + 8), load64_aligned(bytes));
}

static inline void store128_aligned(uint8_t *bytes, u128 value)
{
    store64_aligned(bytes, value.lo);
    store64_aligned(bytes + 8, value.hi);
}

static const KELIFANDRO_ROOM uint8_t bytes_static_0[256] = {
    0, 9, 18, 27, 36, 45, 54, 63, 72, 65, 90, 83, 108, 101, 126, 119, 25, 16, 11, 2, 61, 52, 47, 38,
    81, 88, 67, 74, 117, 124, 103, 110, 50, 59, 32, 41, 22, 31, 4, 13, 122, 115, 104, 97, 94, 87, 76, 69,
    43, 34, 57, 48, 15, 6, 29, 20, 99, 106, 113, 120, 71, 78, 85, 92, 100, 109, 118, 127, 64, 73, 82, 91,
    44, 37, 62, 55, 8, 1, 26, 19, 125, 116, 111, 102, 89, 80, 75, 66, 53, 60, 39, 46, 17, 24, 3, 10,
    86, 95, 68, 77, 114, 123, 96, 105, 30, 23, 12, 5, 58, 51, 40, 33, 79, 70, 93, 84, 107, 98, 121, 112,
    7, 14, 21, 28, 35, 42, 49, 56, 65, 72, 83, 90, 101, 108, 119, 126, 9, 0, 27, 18, 45, 36, 63, 54,
    88, 81, 74, 67, 124, 117, 110, 103, 16, 25, 2, 11, 52, 61, 38, 47, 115, 122, 97, 104, 87, 94, 69, 76,
    59, 50, 41, 32, 31, 22, 13, 4, 106, 99, 120, 113, 78, 71, 92, 85, 34, 43, 48, 57, 6, 15, 20, 29,
    37, 44, 55, 62, 1, 8, 19, 26, 109, 100, 127, 118, 73, 64, 91, 82, 60, 53, 46, 39, 24, 17, 10, 3,
    116, 125, 102, 111, 80, 89, 66, 75, 23, 30, 5, 12, 51, 58, 33, 40, 95, 86, 77, 68, 123, 114, 105, 96,
    14, 7, 28, 21, 42, 35, 56, 49, 70, 79, 84, 93, 98, 107, 112, 121,
};

static const KELIFANDRO_ROOM uint8_t bytes_static_5[1] = {
    18,
};

static const KELIFANDRO_ROOM uint8_t bytes_answers_refused_number[32] = {
    254, 255, 255, 255, 252, 255, 255, 255, 252, 255, 255, 255, 253, 255, 255, 255, 251, 255, 255, 255, 250, 255, 255, 255,
    250, 255, 255, 255, 250, 255, 255, 255,
};

static const KELIFANDRO_ROOM uint8_t bytes_opening_open_once[20] = {
    236, 255, 255, 255, 231, 255, 255, 255, 235, 255, 255, 255, 235, 255, 255, 255, 230, 255, 255, 255,
};

static const KELIFANDRO_ROOM uint8_t bytes_command_send[28] = {
    0, 0, 0, 0, 0, 0, 26, 0, 0, 0, 26, 0, 0, 0, 9, 0, 0, 0, 2, 0, 0, 0, 26, 0,
    0, 0, 26, 0,
};

static void calls_open_card(uint8_t *a0, uint8_t *a1, uint8_t *a2);
static void noting_stands_by(uint8_t *a0, uint8_t *a1);
static void cid_read_cid(uint8_t *a0, uint8_t *a1);
static void bits_read_checked(uint8_t *a0, uint8_t *a1);
static bool register_response_check_fits(uint8_t *a0);
static void csd_read_csd(uint8_t *a0, uint8_t a1, uint8_t *a2);
static uint64_t Sizes_of(uint8_t *a0, uint8_t a1);
static struct of_i8_i8 rules_sectors_refusal(uint64_t a0, uint8_t a1, uint8_t *a2, uint8_t a3, uint64_t a4, uint64_t a5);
static void hosts_switch_off(uint8_t *a0);
static void given_given_by(uint8_t *a0, uint8_t *a1);
static void CFunctions_set_power(uint8_t *a0, bool a1);
static void io_write_all(uint32_t a0, uint8_t *a1, uint64_t a2);
static void StoryRegistersRegisters_write8(uint8_t *a0, uint8_t a1, uint8_t a2);
static KELIFANDRO_APART void CRegisters_write_in_word(uint8_t *a0, uint8_t a1, uint8_t a2);
static uint32_t Stream_read_register(uint8_t *a0, uint8_t a1, uint8_t a2);
static void Stream_ask(uint8_t *a0, uint8_t *a1, uint64_t a2, uint8_t *a3, uint64_t a4);
static uint64_t io_read_full(uint32_t a0, uint8_t *a1, uint64_t a2);
static void Stream_write_register(uint8_t *a0, uint8_t a1, uint8_t a2, uint32_t a3);
static void hosts_switch_on(uint8_t *a0);
static KELIFANDRO_APART uint32_t opening_open_once(uint8_t *a0, uint8_t *a1, uint8_t *a2);
static void CFunctionsHost_set_ios(uint8_t *a0, uint8_t *a1);
static void command_lose_all(uint8_t *a0);
static void command_reset_command(uint8_t *a0);
static void settling_settle_reset(uint8_t *a0);
static void Stream_pause(uint8_t *a0, uint32_t a1);
static void command_reset_data(uint8_t *a0);
static uint32_t CRegistersRegisters_read32(uint8_t *a0, uint8_t a1);
static uint8_t StoryRegistersRegisters_read8(uint8_t *a0, uint8_t a1);
static KELIFANDRO_APART uint8_t CRegisters_read_in_word(uint8_t *a0, uint8_t a1);
static void clock_set_clock(uint8_t *a0, uint32_t a1, uint8_t a2, uint32_t a3);
static void opening_initialize_in(uint8_t *a0, uint8_t *a1, uint64_t a2);
static KELIFANDRO_APART void identification_identify(uint8_t *a0, uint8_t *a1);
static void shared_go_idle(uint8_t *a0);
static void frame_framed(uint8_t *a0, uint8_t a1, uint32_t a2);
static void HostBusBus_command(uint8_t *a0, uint8_t *a1, uint8_t *a2, uint8_t a3);
static void HostBusBus_begin(uint8_t *a0, uint8_t *a1, uint8_t *a2, uint8_t a3, uint16_t a4);
static void command_read_command(uint8_t *a0, uint8_t *a1);
static bool frame_is_sound_frame(uint8_t *a0);
static void HostState_command(uint8_t *a0, uint8_t *a1, uint8_t a2, uint32_t a3, uint16_t a4);
static void WayHost_set_ios(uint8_t *a0, uint8_t *a1);
static void records_heard_by(uint8_t *a0, uint8_t a1, uint8_t *a2);
static void SdhciHost_send(uint8_t *a0, uint8_t *a1, uint8_t *a2);
static void command_send(uint8_t *a0, uint8_t *a1, uint8_t *a2, uint8_t *a3, uint8_t a4);
static uint32_t command_look(uint8_t *a0, uint32_t a1);
static void StoryRegistersRegisters_wait(uint8_t *a0, uint32_t a1, uint32_t a2);
static void HostState_sent(uint8_t *a0, uint8_t *a1, uint8_t *a2, bool a3);
static void replies_spelled(uint8_t *a0, uint8_t *a1, uint8_t *a2);
static void Wire_note(uint8_t *a0, uint8_t *a1);
static void host_ask(uint8_t *a0, uint8_t *a1, uint8_t a2, uint32_t a3);
static void host_response_in(uint8_t *a0, uint8_t *a1, uint8_t a2);
static struct of_i8_i8 sd_announce(uint8_t *a0);
static void sd_inquire(uint8_t *a0, uint8_t *a1, bool a2);
static void host_ask_ocr(uint8_t *a0, uint8_t *a1, uint8_t a2, uint32_t a3);
static void judging_inquired(uint8_t *a0, uint8_t *a1);
static void host_ask_register(uint8_t *a0, uint8_t *a1, uint8_t a2, uint32_t a3);
static void wait_count_polls(uint8_t *a0, uint8_t *a1);
static bool host_poll(uint8_t *a0);
static struct of_i8_i8 status_check_closing(uint8_t a0, uint8_t *a1);
static uint8_t sd_announce_2(uint8_t *a0, uint16_t a1);
static uint8_t data_receive(uint8_t *a0, uint8_t *a1, uint64_t a2);
static uint8_t SdhciHost_read_block(uint8_t *a0, uint8_t *a1, uint64_t a2);
static void watching_watch(uint8_t *a0, uint8_t *a1, uint8_t a2, uint8_t a3);
static void watching_look_often(uint8_t *a0, uint8_t *a1, uint8_t a2, uint8_t a3, uint32_t a4);
static struct of_i8_i32 watching_look(uint8_t *a0, uint8_t a1);
static bool Sought_is_over(uint8_t a0, uint8_t a1, uint8_t a2, uint32_t a3);
static void HostState_block_passed(uint8_t *a0, uint8_t *a1, bool a2);
static void sd_switch_func(uint8_t *a0, uint8_t *a1, uint32_t a2);
static struct of_i8_i8 status_confirm(uint8_t *a0, uint8_t a1, uint16_t a2);
static struct of_i8_i8 status_ask_closing(uint8_t *a0, uint8_t a1, uint16_t a2);
static uint64_t Csd_sectors(uint8_t *a0);
static struct of_i8_i8 mmc_switch(uint8_t *a0, uint16_t a1, uint32_t a2);
static void noted_note(uint8_t *a0, uint8_t *a1);
static void noted_noted(uint8_t *a0, uint8_t *a1, uint8_t a2, uint8_t a3);
static void u128_to_be_bytes(uint8_t *a0, u128 a1);
static void hosts_end(uint8_t *a0, bool a1);
static void CRegisters_give_back(uint8_t *a0);
static uint32_t requests_serve_told(uint8_t *a0, uint8_t *a1, uint8_t *a2, uint8_t *a3, uint8_t *a4, uint64_t a5);
static void noted_note_broken(uint8_t *a0, uint8_t *a1);
static void attempts_attempt(uint8_t *a0, uint8_t *a1, uint8_t *a2, uint8_t *a3, uint8_t *a4);
static struct of_i8_i8 order_restore(uint8_t *a0, uint8_t *a1);
static void order_show_status(uint8_t *a0, uint8_t *a1, uint16_t a2);
static void reopening_reset(uint8_t *a0, uint8_t *a1, uint8_t *a2);
static void Info_used_as(uint8_t *a0, uint8_t *a1, uint8_t *a2);
static void Stream_send_with(uint8_t *a0, uint8_t *a1, uint8_t a2, uint8_t *a3, uint64_t a4);
static struct of_i8_i64 CRegisters_lend(uint8_t *a0, bool a1, uint64_t a2);
static void Sdhci_move_blocks(uint8_t *a0, uint8_t *a1, uint8_t *a2, uint64_t a3, uint64_t a4);
static struct of_i8_i32 moving_look(uint8_t *a0, uint32_t a1);
static void Data_less_by(uint8_t *a0, uint8_t *a1, uint64_t a2);
static struct of_i8_i8 Run_stand(uint8_t *a0, uint8_t *a1);
static void steps_step(uint8_t *a0, uint8_t *a1, uint8_t *a2, uint8_t *a3);
static void Ending_step(uint8_t *a0, uint8_t a1, uint64_t a2, uint8_t *a3, uint8_t *a4);
static uint8_t SdhciHost_write_block(uint8_t *a0, uint8_t *a1);
static void request_erase(uint8_t *a0, uint8_t *a1, uint8_t *a2, uint64_t a3, uint64_t a4, uint8_t a5);
static KELIFANDRO_APART void counting_count_done(uint8_t *a0);
static KELIFANDRO_APART void counting_count_failed(uint8_t *a0, uint8_t a1);
static KELIFANDRO_APART struct of_i8_i32 longs_may_begin(uint8_t *a0, uint8_t *a1, uint8_t *a2);

/* kelifandro::calls::open_card */
static void calls_open_card(uint8_t *a0, uint8_t *a1, uint8_t *a2)
{
    KELIFANDRO_ROOM uint8_t r0[208];
    u128 sink;
    u128 r31_sink;
    if (!((uint8_t)((a2[1] == 0u) ? a1[22] : a1[23]) == 0u)) {
        sink = u128_of(0u, 0u);
        r31_sink = u128_of(0u, 0u);
        goto common_ret;
    }
    noting_stands_by(r0, a2);
    uint8_t r34 = *r0;
    uint8_t r38 = r0[16];
    memcpy(a0 + 32, r0 + 32, 176);
    sink = u128_of(0u, r34);
    r31_sink = u128_of(0u, r38);
common_ret: {
    store128(a0, sink);
    store128(a0 + 16, r31_sink);
    return;
}
}

/* mmc_direct::noting::stands_by */
static void noting_stands_by(uint8_t *a0, uint8_t *a1)
{
    KELIFANDRO_ROOM uint8_t room[48];
    uint8_t *const r19 = room;
    uint8_t *const r9_9_3_0_6 = room;
    uint8_t *const r9_9_3_0_8 = room + 32;
    KELIFANDRO_ROOM uint8_t room_2[32];
    uint8_t *const r14 = room_2;
    uint8_t *const r1_0_8 = room_2;
    KELIFANDRO_ROOM uint8_t r33_4[28];
    uint8_t v;
    bool r3_8;
    uint64_t r75;
    uint64_t a0_20;
    uint64_t a0_17;
    uint64_t a0_14;
    uint64_t a0_11;
    uint64_t a0_8;
    uint64_t a0_2;
    u128 r33_92;
    uint16_t r86;
    uint8_t r91;
    uint8_t r93;
    uint8_t r98;
    uint8_t r103;
    uint8_t switch_select2;
    uint8_t v26;
    uint8_t r25_2;
    uint8_t r27;
    uint8_t r9_9_3_17_0_ph;
    uint8_t r9_9_3_15_0_ph;
    bool r9_9_3_7_0_ph_shrunk;
    uint8_t r9_51_0_ph;
    uint8_t r0_0_0_0;
    uint8_t r0_29_0;
    uint8_t r0_283_0;
    uint8_t r0_27_0;
    uint8_t r0_26_0;
    uint8_t r0_252_0;
    uint8_t r0_24_0;
    uint8_t r0_23_0;
    uint8_t r0_22_0;
    uint8_t r0_21_0;
    uint8_t r0_20_0;
    uint64_t r0_191_0;
    uint8_t r0_18_0;
    uint64_t r0_17_0;
    uint64_t r0_16_0;
    uint64_t r0_15_0;
    uint64_t r0_14_0;
    uint64_t r0_13_0;
    uint64_t r0_12_0;
    u128 r0_10_0;
    uint16_t r0_8_0;
    uint8_t r0_3_0_off0;
    v = (uint8_t)(a1[1] != 0u);
    r3_8 = a1[2] != 0u;
    cid_read_cid(r14, a1 + 14);
    if (*r14 != 0u) {
        goto mmc_record_reading_restored_session_exit;
    }
    csd_read_csd(r19, v, a1 + 30);
    if (*r19 != 0u) {
        goto mmc_record_reading_restored_session_exit;
    }
    r75 = load64_aligned(a1 + 96);
    if (r75 == 0u) {
        goto mmc_record_reading_restored_session_exit;
    }
    uint64_t r40_22 = load64_aligned(a1 + 88);
    uint64_t v_2 = r3_8 ? UINT64_C(0x100000000) : UINT64_C(0x800000);
    a0_20 = (r40_22 > v_2) ? 0u : r40_22;
    uint64_t r35 = load64_aligned(a1 + 80);
    a0_17 = (r35 > v_2) ? 0u : r35;
    uint64_t r30 = load64_aligned(a1 + 72);
    a0_14 = (r30 > v_2) ? 0u : r30;
    uint64_t r25 = load64_aligned(a1 + 64);
    a0_11 = (r25 > v_2) ? 0u : r25;
    uint64_t r20 = load64_aligned(a1 + 56);
    a0_8 = (r20 > v_2) ? 0u : r20;
    uint64_t r15 = load64_aligned(a1 + 48);
    a0_2 = (r15 > v_2) ? 0u : r15;
    r33_92 = u128_of(0u, r19[16]);
    r86 = load16_aligned(a1 + 12);
    r91 = (uint8_t)(a1[7] != 0u);
    r93 = a1[10];
    r98 = (uint8_t)(a1[8] != 0u);
    r103 = (uint8_t)(a1[9] != 0u);
    uint8_t r105 = a1[5];
    switch_select2 = (uint8_t)((r105 == 8u) ? 2u : (uint8_t)(r105 == 4u));
    v26 = (uint8_t)(a1[6] != 0u);
    memcpy(r33_4 + 12, r14 + 16, 16);
    memcpy(r1_0_8, r19 + 32, 16);
    r25_2 = a1[4];
    r27 = a1[3];
    bool v2 = r27 < 7u;
    switch (*a1) {
    default: {
        r0_0_0_0 = 0u;
        r0_29_0 = 0u; /* any */
        r0_283_0 = 0u; /* any */
        r0_27_0 = r27;
        r0_26_0 = 0u; /* any */
        r0_252_0 = r25_2;
        r0_24_0 = v26;
        r0_23_0 = switch_select2;
        r0_22_0 = r103;
        r0_21_0 = r98;
        r0_20_0 = r93;
        r0_191_0 = r75;
        r0_18_0 = r91;
        r0_17_0 = a0_20;
        r0_16_0 = a0_17;
        r0_15_0 = a0_14;
        r0_14_0 = a0_11;
        r0_13_0 = a0_8;
        r0_12_0 = a0_2;
        r0_10_0 = u128_of(0u, 0u); /* any */
        r0_8_0 = r86;
        r0_3_0_off0 = 0u; /* any */
        goto mmc_record_reading_restored_exit;
    }
    case 1u: {
        r9_9_3_17_0_ph = 0u; /* any */
        r9_9_3_15_0_ph = 0u; /* any */
        r9_9_3_7_0_ph_shrunk = v2;
        r9_51_0_ph = 0u;
        goto join_9_sink_split;
    }
    case 2u: {
        r9_9_3_17_0_ph = 0u;
        r9_9_3_15_0_ph = umin8(a1[11], 4u);
        r9_9_3_7_0_ph_shrunk = v2;
        r9_51_0_ph = 1u;
        goto join_9_sink_split;
    }
    case 3u: {
        r9_9_3_17_0_ph = 1u;
        r9_9_3_15_0_ph = 4u;
        r9_9_3_7_0_ph_shrunk = false;
        r9_51_0_ph = 1u;
        goto join_9_sink_split;
    }
    }
join_9_sink_split: {
    memcpy(r9_9_3_0_6, r33_4, 28);
    memcpy(r9_9_3_0_8, r1_0_8, 16);
    r0_0_0_0 = 1u;
    r0_29_0 = r9_9_3_17_0_ph;
    r0_283_0 = r9_9_3_15_0_ph;
    r0_27_0 = r27;
    r0_26_0 = (uint8_t)r9_9_3_7_0_ph_shrunk;
    r0_252_0 = r25_2;
    r0_24_0 = v26;
    r0_23_0 = switch_select2;
    r0_22_0 = r103;
    r0_21_0 = r98;
    r0_20_0 = r93;
    r0_191_0 = r75;
    r0_18_0 = r91;
    r0_17_0 = a0_20;
    r0_16_0 = a0_17;
    r0_15_0 = a0_14;
    r0_14_0 = a0_11;
    r0_13_0 = a0_8;
    r0_12_0 = a0_2;
    r0_10_0 = r33_92;
    r0_8_0 = r86;
    r0_3_0_off0 = r9_51_0_ph;
    goto mmc_record_reading_restored_exit;
}
mmc_record_reading_restored_session_exit: {
    r0_0_0_0 = 0u;
    r0_29_0 = 0u; /* any */
    r0_283_0 = 0u; /* any */
    r0_27_0 = 0u; /* any */
    r0_26_0 = 0u; /* any */
    r0_252_0 = 0u; /* any */
    r0_24_0 = 0u; /* any */
    r0_23_0 = 0u; /* any */
    r0_22_0 = 0u; /* any */
    r0_21_0 = 0u; /* any */
    r0_20_0 = 0u; /* any */
    r0_191_0 = 0u; /* any */
    r0_18_0 = 0u; /* any */
    r0_17_0 = 0u; /* any */
    r0_16_0 = 0u; /* any */
    r0_15_0 = 0u; /* any */
    r0_14_0 = 0u; /* any */
    r0_13_0 = 0u; /* any */
    r0_12_0 = 0u; /* any */
    r0_10_0 = u128_of(0u, 0u); /* any */
    r0_8_0 = 0u; /* any */
    r0_3_0_off0 = 0u;
}
mmc_record_reading_restored_exit: {
    store128(a0, u128_of(0u, r0_0_0_0));
    store128(a0 + 16, u128_of(0u, r0_3_0_off0));
    a0[32] = v;
    a0[33] = (uint8_t)r3_8;
    store16(a0 + 34, r0_8_0);
    memcpy(a0 + 36, r9_9_3_0_6, 28);
    store128(a0 + 64, r0_10_0);
    memcpy(a0 + 80, r9_9_3_0_8, 16);
    store64(a0 + 96, r0_12_0);
    store64(a0 + 104, r0_13_0);
    store64(a0 + 112, r0_14_0);
    store64(a0 + 120, r0_15_0);
    store64(a0 + 128, r0_16_0);
    store64(a0 + 136, r0_17_0);
    a0[144] = r0_18_0;
    store64(a0 + 152, r0_191_0);
    a0[160] = r0_20_0;
    a0[161] = r0_21_0;
    a0[162] = r0_22_0;
    a0[163] = r0_23_0;
    a0[164] = r0_24_0;
    a0[176] = r0_252_0;
    a0[177] = r0_26_0;
    a0[178] = r0_27_0;
    a0[192] = r0_283_0;
    a0[193] = r0_29_0;
    return;
}
}

/* mmc_regs::cid::read_cid */
static void cid_read_cid(uint8_t *a0, uint8_t *a1)
{
    KELIFANDRO_ROOM uint8_t r5[32];
    uint8_t sink;
    bits_read_checked(r5, a1);
    if (*r5 == 0u) {
        store128(a0 + 16, load128_aligned(r5 + 16));
        sink = 0u;
        goto common_ret;
    }
    a0[1] = r5[1];
    sink = 1u;
common_ret: {
    *a0 = sink;
    return;
}
}

/* mmc_regs::bits::read_checked */
static void bits_read_checked(uint8_t *a0, uint8_t *a1)
{
    bool r12 = register_response_check_fits(a1);
    if (!r12) {
        goto join_5;
    }
    if ((uint8_t)(a1[15] & 1u) == 0u) {
        goto join_5;
    }
    uint64_t r39 = load64(a1);
    uint64_t r71 = load64(a1 + 8);
    *a0 = 0u;
    store128(a0 + 16, u128_bswap(u128_or(u128_shl(u128_of(0u, r71), 64u), u128_of(0u, r39))));
    goto common_ret;
join_5: {
    *a0 = 1u;
    a0[1] = 0u;
}
common_ret: {
    return;
}
}

/* mmc_frame::register_response::check_fits */
static bool register_response_check_fits(uint8_t *a0)
{
    uint8_t r3_05;
    uint64_t r4_04;
    r3_05 = 0u;
    r4_04 = 0u;
join_6: {
    uint8_t r18 = *at((uint8_t *)bytes_static_0, (uint64_t)(uint8_t)(*at(a0, r4_04) ^ (uint8_t)((uint32_t)r3_05 << 1u)));
    uint64_t r28 = r4_04 + 1u;
    if (r28 != 15u) {
        r3_05 = r18;
        r4_04 = r28;
        goto join_6;
    }
    return r18 == (uint8_t)((uint32_t)a0[15] >> 1u);
}
}

/* mmc_regs::csd::read_csd */
static void csd_read_csd(uint8_t *a0, uint8_t a1, uint8_t *a2)
{
    KELIFANDRO_ROOM uint8_t room[32];
    uint8_t *const r0_9 = room;
    uint8_t *const r6 = room;
    uint8_t *const r0_15 = room + 16;
    uint8_t r0_0_0;
    uint8_t *sink_phi;
    u128 a1_sink;
    u128 r8_13_4_1;
    uint8_t r8_8_1;
    uint8_t r8_5_1;
    uint8_t r8_0_1;
    u128 r8_13_4_0;
    uint8_t r8_8_0;
    uint8_t r8_5_0;
    uint8_t r8_0_0;
    uint64_t sink;
    u128 r8_13_4_0_sink;
    bits_read_checked(r6, a2);
    if (*r6 != 0u) {
        uint8_t r1_2_1 = r6[1];
        *a0 = 1u;
        a0[1] = r1_2_1;
        sink = 16u;
        r8_13_4_0_sink = u128_of(0u, 0u);
        goto common_ret;
    }
    u128 r1_4_16 = load128_aligned(r6 + 16);
    if (a1 != 0u) {
        r8_13_4_0 = r1_4_16;
        r8_8_0 = 2u;
        r8_5_0 = 0u; /* any */
        r8_0_0 = 0u;
        goto join_7;
    }
    switch ((uint8_t)(u128_lshr(r1_4_16, 126u).lo & 3u)) {
    default: {
        r8_13_4_1 = u128_of(0u, 0u); /* any */
        r8_8_1 = 0u;
        r8_5_1 = 1u;
        r8_0_1 = 1u;
        goto mmc_regs_csd_read_sd_csd_exit;
    }
    case 0u: {
        if (!u128_lt(u128_add(u128_and(u128_lshr(r1_4_16, 80u), u128_of(0u, 15u)), u128_of(UINT64_C(0xffffffffffffffff), UINT64_C(0xfffffffffffffff7))), u128_of(0u, 3u))) {
            r0_0_0 = 1u;
            sink_phi = r0_9;
            a1_sink = u128_of(0u, 0u);
            goto mmc_regs_csd_read_v1_exit;
        }
        if (!u128_lt(u128_add(u128_and(u128_lshr(r1_4_16, 22u), u128_of(0u, 15u)), u128_of(UINT64_C(0xffffffffffffffff), UINT64_C(0xfffffffffffffff7))), u128_of(0u, 3u))) {
            r0_0_0 = 1u;
            sink_phi = r0_9;
            a1_sink = u128_of(0u, 0u);
            goto mmc_regs_csd_read_v1_exit;
        }
        store128_aligned(r0_9, u128_of(0u, 0u));
        r0_0_0 = 0u;
        sink_phi = r0_15;
        a1_sink = r1_4_16;
        goto mmc_regs_csd_read_v1_exit;
    }
    case 1u: {
        r8_13_4_1 = r1_4_16;
        r8_8_1 = 1u;
        r8_5_1 = 0u; /* any */
        r8_0_1 = 0u;
        goto mmc_regs_csd_read_sd_csd_exit;
    }
    }
mmc_regs_csd_read_v1_exit: {
    store128_aligned(sink_phi, a1_sink);
    r8_13_4_1 = load128_aligned(r0_15);
    r8_8_1 = *r0_9;
    r8_5_1 = 2u;
    r8_0_1 = r0_0_0;
}
mmc_regs_csd_read_sd_csd_exit: {
    r8_13_4_0 = r8_13_4_1;
    r8_8_0 = r8_8_1;
    r8_5_0 = r8_5_1;
    r8_0_0 = r8_0_1;
}
join_7: {
    *a0 = r8_0_0;
    a0[1] = r8_5_0;
    store128(a0 + 16, u128_of(0u, r8_8_0));
    sink = 32u;
    r8_13_4_0_sink = r8_13_4_0;
}
common_ret: {
    store128(at(a0, sink), r8_13_4_0_sink);
    return;
}
}

/* mmc_switch::sizes::Sizes::of */
static uint64_t Sizes_of(uint8_t *a0, uint8_t a1)
{
    uint8_t *r2_0_in;
    switch (a1) {
    default: {
        trap();
        return 0;
    }
    case 0u: {
        r2_0_in = a0;
        goto join_8;
    }
    case 1u:
    case 2u: {
        r2_0_in = a0 + 8;
        goto join_8;
    }
    case 3u: {
        r2_0_in = a0 + 16;
        goto join_8;
    }
    case 4u: {
        r2_0_in = a0 + 24;
        goto join_8;
    }
    case 5u: {
        r2_0_in = a0 + 32;
        goto join_8;
    }
    case 6u: {
        r2_0_in = a0 + 40;
        goto join_8;
    }
    }
join_8: {
    return load64_aligned(r2_0_in);
}
}

/* mmc_requests::rules::sectors_refusal */
static struct of_i8_i8 rules_sectors_refusal(uint64_t a0, uint8_t a1, uint8_t *a2, uint8_t a3, uint64_t a4, uint64_t a5)
{
    uint8_t r0_0_0;
    uint8_t r0_3_0;
    uint64_t r7 = Sizes_of(a2 + 64, a3);
    if (r7 == 0u) {
        r0_0_0 = 1u;
        r0_3_0 = 0u;
        goto return_5;
    }
    if (a5 == 0u) {
        r0_0_0 = 1u;
        r0_3_0 = 1u;
        goto return_5;
    }
    if ((a1 < 2u) && (a0 < a5)) {
        r0_0_0 = 1u;
        r0_3_0 = 2u;
        goto return_5;
    }
    r0_0_0 = (uint8_t)((r7 < a5) || ((r7 - a5) < a4));
    r0_3_0 = 3u;
return_5: {
    struct of_i8_i8 r68_fca_0_insert = (struct of_i8_i8){r0_0_0, 0};
    struct of_i8_i8 r68_fca_1_insert = (struct of_i8_i8){r68_fca_0_insert.f0, r0_3_0};
    return r68_fca_1_insert;
}
}

/* kelifandro::hosts::switch_off::<#fb070baa9c134c3e> */
static void hosts_switch_off(uint8_t *a0)
{
    KELIFANDRO_ROOM uint8_t r5[40];
    given_given_by(r5, a0);
    if (*r5 == 0u) {
        CFunctions_set_power(r5 + 4, false);
        goto join_4;
    }
    StoryRegistersRegisters_write8(r5 + 4, 41u, 0u);
join_4: {
    return;
}
}

/* c_host::given::given_by */
static void given_given_by(uint8_t *a0, uint8_t *a1)
{
    uint32_t sink;
    uint64_t r0_45_0_0_insert_insert28_sink;
    bool sink_in;
    uint32_t r34 = load32_aligned(a1);
    if (a1[14] == 0u) {
        uint8_t r45 = a1[15];
        uint64_t r0_45_5_0_insert_insert = (((a1[16] == 0u) ? 0u : UINT64_C(0x10000000000)) | (uint64_t)r34) | ((r45 == 8u) ? UINT64_C(0x200000000) : ((r45 == 4u) ? UINT64_C(0x100000000) : 0u));
        sink = 0u;
        r0_45_0_0_insert_insert28_sink = (r0_45_5_0_insert_insert | ((a1[21] == 0u) ? 0u : UINT64_C(0x1000000000000))) | ((a1[22] == 0u) ? UINT64_C(0x100000000000000) : 0u);
        sink_in = a1[23] == 0u;
        goto common_ret;
    }
    uint8_t r76 = a1[17];
    uint32_t r80 = load32_aligned(a1 + 4);
    uint8_t r96 = a1[18];
    uint8_t r101 = a1[19];
    uint8_t r106 = a1[20];
    uint32_t r111 = load32_aligned(a1 + 8);
    uint16_t r113 = load16_aligned(a1 + 12);
    uint8_t r6_47 = a1[22];
    uint8_t r11_51 = a1[23];
    store32(a0 + 16, r80);
    a0[20] = (uint8_t)(r96 != 0u);
    a0[21] = (uint8_t)(r101 != 0u);
    a0[22] = (uint8_t)(r106 != 0u);
    store32(a0 + 24, r111);
    store16(a0 + 28, r113);
    a0[30] = (uint8_t)(r6_47 == 0u);
    a0[31] = (uint8_t)(r11_51 == 0u);
    store16(a0 + 32, 0u);
    sink = 1u;
    r0_45_0_0_insert_insert28_sink = ((r76 == 0u) ? 0u : UINT64_C(0x100000000)) | (uint64_t)r34;
    sink_in = r80 != 0u;
common_ret: {
    store32(a0, sink);
    store64(a0 + 4, r0_45_0_0_insert_insert28_sink);
    store32(a0 + 12, (uint32_t)sink_in);
    return;
}
}

/* c_host::functions::CFunctions::set_power */
static void CFunctions_set_power(uint8_t *a0, bool a1)
{
    KELIFANDRO_ROOM uint8_t r1[2];
    if (!((a0[6] & 1u) != 0)) {
        goto join_3;
    }
    *r1 = 7u;
    r1[1] = (uint8_t)a1;
    io_write_all(load32_aligned(a0), r1, 2u);
join_3: {
    return;
}
}

/* io::write_all */
static void io_write_all(uint32_t a0, uint8_t *a1, uint64_t a2)
{
    uint64_t r3_012;
    r3_012 = 0u;
join_5: {
    uint64_t r27 = a2 - r3_012;
    uint64_t r3 = (uint64_t)kelifandro_put(signed32(a0), at(a1, r3_012), r27);
    uint64_t a0_a1 = umin64(r3, r27);
    uint64_t r51 = a0_a1 + r3_012;
    if ((((r3 ^ UINT64_C(0x8000000000000000)) > UINT64_C(0x8000000000000000)) && (a0_a1 != 0u)) && (r51 < a2)) {
        r3_012 = r51;
        goto join_5;
    }
    return;
}
}

/* sdhci_story::registers::StoryRegistersRegisters::write8::<#52343085cde207f1> */
static void StoryRegistersRegisters_write8(uint8_t *a0, uint8_t a1, uint8_t a2)
{
    if ((a0[16] & 1u) != 0) {
        CRegisters_write_in_word(a0, a1, a2);
        goto c_host_registers_CRegistersRegisters_write8_exit;
    }
    Stream_write_register(a0, 1u, a1, (uint32_t)a2);
c_host_registers_CRegistersRegisters_write8_exit: {
    return;
}
}

/* c_host::registers::CRegisters::write_in_word */
static KELIFANDRO_APART void CRegisters_write_in_word(uint8_t *a0, uint8_t a1, uint8_t a2)
{
    KELIFANDRO_ROOM uint8_t r1[4];
    uint8_t r4 = (uint8_t)(a1 & 44u);
    uint32_t r8 = Stream_read_register(a0, 4u, r4);
    store32_aligned(r1, r8);
    *at(r1, (uint64_t)(uint8_t)(a1 & 3u)) = a2;
    uint32_t v0 = load32_aligned(r1);
    Stream_write_register(a0, 4u, r4, v0);
    return;
}

/* c_host::stream::Stream::read_register */
static uint32_t Stream_read_register(uint8_t *a0, uint8_t a1, uint8_t a2)
{
    KELIFANDRO_ROOM uint8_t r1[4];
    KELIFANDRO_ROOM uint8_t r3[3];
    store32_aligned(r1, 0u);
    *r3 = 8u;
    r3[1] = a1;
    r3[2] = a2;
    Stream_ask(a0, r3, 3u, r1, 4u);
    return load32_aligned(r1);
}

/* c_host::stream::Stream::ask */
static void Stream_ask(uint8_t *a0, uint8_t *a1, uint64_t a2, uint8_t *a3, uint64_t a4)
{
    io_write_all(load32_aligned(a0), a1, a2);
    io_read_full(load32_aligned(a0), a3, a4);
    return;
}

/* io::read_full */
static uint64_t io_read_full(uint32_t a0, uint8_t *a1, uint64_t a2)
{
    uint64_t r3_014;
    uint64_t r3_0_lcssa;
    if (a2 == 0u) {
        r3_0_lcssa = 0u;
        goto after_1;
    }
    r3_014 = 0u;
join_5: {
    uint64_t r24 = a2 - r3_014;
    uint64_t r3 = (uint64_t)kelifandro_get(signed32(a0), at(a1, r3_014), r24);
    uint64_t a0_a1 = umin64(r3, r24);
    if (((r3 ^ UINT64_C(0x8000000000000000)) < UINT64_C(0x8000000000000001)) || (a0_a1 == 0u)) {
        r3_0_lcssa = r3_014;
        goto after_1;
    }
    uint64_t r47 = a0_a1 + r3_014;
    if (r47 < a2) {
        r3_014 = r47;
        goto join_5;
    }
    r3_0_lcssa = r47;
}
after_1: {
    return r3_0_lcssa;
}
}

/* c_host::stream::Stream::write_register */
static void Stream_write_register(uint8_t *a0, uint8_t a1, uint8_t a2, uint32_t a3)
{
    KELIFANDRO_ROOM uint8_t r15[7];
    *r15 = 9u;
    r15[1] = a1;
    r15[2] = a2;
    store32(r15 + 3, a3);
    io_write_all(load32_aligned(a0), r15, 7u);
    return;
}

/* kelifandro::hosts::switch_on */
static void hosts_switch_on(uint8_t *a0)
{
    KELIFANDRO_ROOM uint8_t r2[40];
    given_given_by(r2, a0);
    if (*r2 != 0u) {
        goto join_4;
    }
    CFunctions_set_power(r2 + 4, true);
join_4: {
    return;
}
}

/* kelifandro::opening::open_once::<#fb070baa9c134c3e> */
static KELIFANDRO_APART uint32_t opening_open_once(uint8_t *a0, uint8_t *a1, uint8_t *a2)
{
    KELIFANDRO_ROOM uint8_t room[208];
    uint8_t *const r4 = room;
    uint8_t *const r2_2 = room;
    uint8_t *const r4_3 = room;
    uint8_t *const r7_4 = room;
    uint8_t *const r11 = room;
    uint8_t *const r8_41 = room;
    uint8_t *const r3 = room + 40;
    uint8_t *const r25_6_8_0 = room + 40;
    uint8_t *const r16 = room + 56;
    uint8_t *const r25_6_4 = room + 64;
    KELIFANDRO_ROOM uint8_t r2[192];
    KELIFANDRO_ROOM uint8_t r9[160];
    uint8_t r1_3_0;
    uint32_t r1_0_0;
    uint8_t r1_2_0;
    uint8_t r3_917_0;
    uint8_t r3_10_0;
    uint16_t r3_11_0;
    bool r7;
    uint32_t r6;
    uint8_t r40;
    uint32_t r8;
    uint32_t r3_0;
    uint32_t r1_07;
    uint32_t r12_3_2_0_ph;
    uint8_t r0_0_0_pn_speculated;
    uint8_t r0_2_0_pn_speculated;
    uint16_t r12_6_8_0;
    uint8_t r12_6_7_0;
    uint8_t r12_6_6_0;
    uint8_t r12_6_9_18_0;
    uint8_t r12_6_9_19_0;
    uint32_t r12_6_9_21_0;
    uint8_t r12_6_9_22_0;
    uint32_t r12_6_9_24_0;
    uint32_t r12_3_2_0;
    uint8_t r1_0_0_2;
    u128 r1_3_0_2;
    uint8_t r1_6_0;
    uint8_t v10;
    uint8_t v11;
    uint8_t v12;
    bool r2_0_off0;
    bool r5_0_shrunk;
    bool r6_0_off0;
    uint32_t v;
    uint32_t r6_0;
    uint32_t r7_0;
    given_given_by(r11, a0);
    r1_3_0 = r11[9];
    r1_0_0 = load32_aligned(r11 + 4);
    r1_2_0 = r11[8];
    if (*r11 == 0u) {
        memcpy(r3 + 6, r11 + 10, 6);
        store32_aligned(r3, r1_0_0);
        r3[4] = r1_2_0;
        r3[5] = r1_3_0;
        *r16 = 0u;
        r16[1] = 0u;
        r16[2] = 1u;
        CFunctionsHost_set_ios(r3, r16);
        memcpy(r25_6_4, r11 + 10, 6);
        r0_0_0_pn_speculated = r1_2_0;
        r0_2_0_pn_speculated = r1_3_0;
        r12_6_8_0 = 0u; /* any */
        r12_6_7_0 = r1_3_0;
        r12_6_6_0 = r1_2_0;
        r12_6_9_18_0 = 0u; /* any */
        r12_6_9_19_0 = 0u; /* any */
        r12_6_9_21_0 = 0u; /* any */
        r12_6_9_22_0 = 0u; /* any */
        r12_6_9_24_0 = 0u; /* any */
        r12_3_2_0 = 0u;
        goto arm_1;
    }
    r3_917_0 = r11[16];
    r3_10_0 = r11[17];
    r3_11_0 = load16_aligned(r11 + 18);
    uint32_t r3_1218_0 = load32_aligned(r11 + 24);
    r7 = a0[15] == 1u;
    command_lose_all(r11 + 4);
    StoryRegistersRegisters_write8(r11 + 4, 41u, 0u);
    Stream_pause(r11 + 4, 10000u);
    uint32_t r5 = r3_1218_0 & 192u;
    StoryRegistersRegisters_write8(r11 + 4, 47u, 1u);
    settling_settle_reset(r11 + 4);
    Stream_write_register(r11 + 4, 4u, 52u, r5 | UINT32_C(0x7f0033));
    Stream_write_register(r11 + 4, 4u, 56u, r5);
    r6 = CRegistersRegisters_read32(r11 + 4, 64u);
    r40 = StoryRegistersRegisters_read8(r11 + 4, 254u);
    r8 = (uint32_t)(r6 >> 8u) & 255u;
    r3_0 = ((r40 < 2u) && (r8 > 63u)) ? 0u : r8;
    if ((r6 & UINT32_C(0x1000000)) == 0u) {
        r12_3_2_0_ph = UINT32_C(0xffffffea);
        goto arm_2;
    }
    if (r3_0 == 0u) {
        r12_3_2_0_ph = UINT32_C(0xffffffe9);
        goto arm_2;
    }
    r1_07 = 0u;
join_5: {
    uint32_t r6_2 = CRegistersRegisters_read32(r11 + 4, 36u);
    if ((r6_2 & UINT32_C(0x20000)) == 0u) {
        Stream_pause(r11 + 4, 100u);
        uint32_t r37 = r1_07 + 1u;
        if (r37 == 1000u) {
            r12_3_2_0_ph = UINT32_C(0xffffffe8);
            goto arm_2;
        }
        r1_07 = r37;
        goto join_5;
    }
    if ((r6_2 & UINT32_C(0x10000)) == 0u) {
        r12_3_2_0_ph = UINT32_C(0xffffffe8);
        goto arm_2;
    }
    StoryRegistersRegisters_write8(r11 + 4, 41u, 15u);
    StoryRegistersRegisters_write8(r11 + 4, 40u, 0u);
    clock_set_clock(r11 + 4, r3_0, r40, UINT32_C(0x61a80));
    Stream_pause(r11 + 4, (UINT32_C(0x24f6c) / r8) + 1001u);
    uint8_t spec_select = (uint8_t)(r7 ? 0u : (uint8_t)(((r6 & UINT32_C(0x40000)) == 0u) ? 1u : 2u));
    uint8_t r7_0_0 = (uint8_t)((uint8_t)(r6 >> 21u) & 1u);
    memcpy(r25_6_4, r11 + 10, 6);
    memcpy(r25_6_8_0, r11 + 20, 20);
    r0_0_0_pn_speculated = spec_select;
    r0_2_0_pn_speculated = r7_0_0;
    r12_6_8_0 = r3_11_0;
    r12_6_7_0 = r3_10_0;
    r12_6_6_0 = r3_917_0;
    r12_6_9_18_0 = spec_select;
    r12_6_9_19_0 = r7_0_0;
    r12_6_9_21_0 = r3_0;
    r12_6_9_22_0 = r40;
    r12_6_9_24_0 = r6;
    r12_3_2_0 = 1u;
    goto arm_1;
}
arm_2: {
    *a1 = 0u;
    memset(a2, 0u, 64);
    r7_0 = r12_3_2_0_ph;
    goto join_4;
}
arm_1: {
    memset(r8_41 + 4, 0u, 13);
    store32_aligned(r2, r12_3_2_0);
    store32_aligned(r2 + 4, r1_0_0);
    r2[8] = r1_2_0;
    r2[9] = r1_3_0;
    memcpy(r2 + 10, r25_6_4, 6);
    r2[16] = r12_6_6_0;
    r2[17] = r12_6_7_0;
    store16_aligned(r2 + 18, r12_6_8_0);
    memcpy(r2 + 20, r25_6_8_0, 20);
    r2[40] = 0u;
    r2[41] = 0u;
    r2[42] = 1u;
    r2[43] = 1u;
    r2[44] = 0u;
    store16_aligned(r2 + 46, 0u);
    store16_aligned(r2 + 48, 0u);
    store32_aligned(r2 + 56, 0u);
    store32_aligned(r2 + 64, 0u);
    store32_aligned(r2 + 68, 0u);
    store32_aligned(r2 + 72, 0u);
    r2[76] = 1u;
    r2[77] = r12_6_9_18_0;
    r2[78] = r12_6_9_19_0;
    store32_aligned(r2 + 80, r12_6_9_21_0);
    r2[84] = r12_6_9_22_0;
    store32_aligned(r2 + 88, r12_6_9_24_0);
    r2[96] = 0u;
    r2[97] = 0u;
    r2[98] = r0_0_0_pn_speculated;
    r2[99] = r0_2_0_pn_speculated;
    store64_aligned(r2 + 104, 0u);
    store64_aligned(r2 + 144, 0u);
    r2[152] = 0u;
    r2[153] = 0u;
    r2[154] = 1u;
    r2[155] = 1u;
    r2[156] = 0u;
    store16_aligned(r2 + 158, 0u);
    store16_aligned(r2 + 160, 0u);
    store32_aligned(r2 + 168, 0u);
    memcpy(r2 + 172, r8_41, 17);
    *a1 = 0u;
    memset(a2, 0u, 64);
    opening_initialize_in(r4_3, r2, 24u);
    if (*r4_3 != 0u) {
        uint8_t r2_0_0 = r4_3[1];
        uint8_t r2_2_1 = r4_3[2];
        if (r2_0_0 != 0u) {
            r6_0 = (r2_2_1 == 0u) ? UINT32_C(0xffffffec) : UINT32_C(0xffffffeb);
            goto kelifandro_opening_open_over_1bed76fd314cf36e_exit;
        }
        r6_0 = load32_aligned(at((uint8_t *)bytes_opening_open_once, (uint64_t)r2_2_1 * 4u));
        goto kelifandro_opening_open_over_1bed76fd314cf36e_exit;
    }
    r1_0_0_2 = r4_3[16];
    r1_3_0_2 = load128_aligned(r4_3 + 32);
    r1_6_0 = r4_3[146];
    v10 = r4_3[160];
    v11 = r4_3[161];
    v12 = r4_3[162];
    if (!((r4_3[145] & 1u) != 0)) {
        r2_0_off0 = false;
        goto join_3;
    }
    uint64_t r14 = (uint64_t)u128_lshr(r1_3_0_2, 56u).lo & UINT64_C(0xffffffffffff);
    if (r1_0_0_2 != 1u) {
        r2_0_off0 = true;
        goto join_3;
    }
    switch ((uint8_t)u128_lshr(r1_3_0_2, 120u).lo) {
    default: {
        r2_0_off0 = true;
        goto join_3;
    }
    case 2u: {
        switch (r14) {
        default: {
            r2_0_off0 = true;
            goto join_3;
        }
        case UINT64_C(0x53454d303247):
        case UINT64_C(0x53454d303447):
        case UINT64_C(0x53454d303847):
        case UINT64_C(0x53454d313647):
        case UINT64_C(0x53454d333247): {
            r2_0_off0 = false;
            goto join_3;
        }
        }
    }
    case 112u: {
        switch (r14) {
        default: {
            r2_0_off0 = true;
            goto join_3;
        }
        case UINT64_C(0x4d3632373034):
        case UINT64_C(0x563130303038):
        case UINT64_C(0x563130303136): {
            r2_0_off0 = false;
            goto join_3;
        }
        }
    }
    case 19u: {
        r2_0_off0 = r14 != UINT64_C(0x51324a353441);
        goto join_3;
    }
    }
}
join_3: {
    if (!((r1_6_0 & 1u) != 0)) {
        r6_0_off0 = false;
        goto arm_1_7;
    }
    if (r1_0_0_2 != 0u) {
        r5_0_shrunk = false;
        goto mmc_switch_known_faults_locks_up_at_cmd23_exit;
    }
    switch ((uint8_t)u128_lshr(r1_3_0_2, 120u).lo) {
    default: {
        r5_0_shrunk = false;
        goto mmc_switch_known_faults_locks_up_at_cmd23_exit;
    }
    case 9u: {
        r5_0_shrunk = u128_eq(u128_and(r1_3_0_2, u128_of(UINT64_C(0xffffffffff), 0u)), u128_of(UINT64_C(0x4146205344), 0u));
        goto mmc_switch_known_faults_locks_up_at_cmd23_exit;
    }
    case 39u: {
        r5_0_shrunk = u128_eq(u128_and(r1_3_0_2, u128_of(UINT64_C(0xffffffffff), 0u)), u128_of(UINT64_C(0x4150555344), 0u));
        goto mmc_switch_known_faults_locks_up_at_cmd23_exit;
    }
    }
}
mmc_switch_known_faults_locks_up_at_cmd23_exit: {
    r6_0_off0 = r5_0_shrunk != true;
}
arm_1_7: {
    memcpy(r9 + 32, r4_3 + 48, 97);
    *r9 = r1_0_0_2;
    memcpy(r9 + 1, r4_3 + 17, 15);
    store128_aligned(r9 + 16, r1_3_0_2);
    r9[129] = (uint8_t)r2_0_off0;
    r9[130] = (uint8_t)r6_0_off0;
    memcpy(r9 + 131, r4_3 + 147, 13);
    r9[144] = v10;
    r9[145] = v11;
    r9[146] = v12;
    noted_note(r7_4, r9);
    memcpy(a1, r7_4, 104);
    noting_stands_by(r2_2, a1);
    if (*r2_2 == 1u) {
        v = 0u;
        goto kelifandro_opening_is_noted_exit;
    }
    *a1 = 0u;
    v = UINT32_C(0xffffffeb);
}
kelifandro_opening_is_noted_exit: {
    r6_0 = v;
}
kelifandro_opening_open_over_1bed76fd314cf36e_exit: {
    uint8_t r0_0_0 = *r2;
    memcpy(r4 + 4, r2 + 4, 88);
    store32_aligned(r4, (uint32_t)r0_0_0);
    hosts_end(r4, r6_0 != 0u);
    r7_0 = r6_0;
}
join_4: {
    return r7_0;
}
}

/* c_host::functions::CFunctionsHost::set_ios */
static void CFunctionsHost_set_ios(uint8_t *a0, uint8_t *a1)
{
    KELIFANDRO_ROOM uint8_t r3[7];
    uint8_t r0_0_0 = *a1;
    uint8_t r0_2_0 = a1[1];
    uint8_t r0_3_0 = a1[2];
    *r3 = 5u;
    r3[1] = (uint8_t)((uint32_t)UINT32_C(0x80401) >> ((((uint32_t)r0_0_0 << 3u) & UINT32_C(0xffffff)) & 31u));
    r3[2] = r0_2_0;
    store32(r3 + 3, ((r0_3_0 & 1u) != 0) ? UINT32_C(0x61a80) : ((r0_2_0 == 0u) ? UINT32_C(0x17d7840) : UINT32_C(0x2faf080)));
    io_write_all(load32_aligned(a0), r3, 7u);
    return;
}

/* mmc_sdhci::command::lose_all::<#d002fd087b3dc1c2> */
static void command_lose_all(uint8_t *a0)
{
    command_reset_command(a0);
    command_reset_data(a0);
    return;
}

/* mmc_sdhci::command::reset_command::<#d002fd087b3dc1c2> */
static void command_reset_command(uint8_t *a0)
{
    StoryRegistersRegisters_write8(a0, 47u, 2u);
    settling_settle_reset(a0);
    return;
}

/* mmc_sdhci::settling::settle_reset::<#d002fd087b3dc1c2> */
static void settling_settle_reset(uint8_t *a0)
{
    uint32_t r0_03;
    r0_03 = 0u;
join_5: {
    uint8_t r13 = StoryRegistersRegisters_read8(a0, 47u);
    if (r13 == 0u) {
        goto common_ret;
    }
    Stream_pause(a0, 100u);
    uint32_t r21 = r0_03 + 1u;
    if (r21 != 1000u) {
        r0_03 = r21;
        goto join_5;
    }
    StoryRegistersRegisters_read8(a0, 47u);
}
common_ret: {
    return;
}
}

/* c_host::stream::Stream::pause */
static void Stream_pause(uint8_t *a0, uint32_t a1)
{
    KELIFANDRO_ROOM uint8_t r15[5];
    *r15 = 6u;
    store32(r15 + 1, a1);
    io_write_all(load32_aligned(a0), r15, 5u);
    return;
}

/* mmc_sdhci::command::reset_data::<#d002fd087b3dc1c2> */
static void command_reset_data(uint8_t *a0)
{
    StoryRegistersRegisters_write8(a0, 47u, 4u);
    settling_settle_reset(a0);
    return;
}

/* c_host::registers::CRegistersRegisters::read32 */
static uint32_t CRegistersRegisters_read32(uint8_t *a0, uint8_t a1)
{
    uint32_t r3_0;
    uint32_t r6 = Stream_read_register(a0, 4u, a1);
    switch (a1) {
    default: {
        r3_0 = r6;
        goto sdhci_board_known_Known_shown_exit;
    }
    case 36u: {
        r3_0 = (a0[4] == 1u) ? (r6 | UINT32_C(0xf0000)) : r6;
        goto sdhci_board_known_Known_shown_exit;
    }
    case 64u: {
        r3_0 = (a0[8] == 1u) ? load32(a0 + 12) : r6;
        goto sdhci_board_known_Known_shown_exit;
    }
    }
sdhci_board_known_Known_shown_exit: {
    return r3_0;
}
}

/* sdhci_story::registers::StoryRegistersRegisters::read8::<#52343085cde207f1> */
static uint8_t StoryRegistersRegisters_read8(uint8_t *a0, uint8_t a1)
{
    uint8_t r2_0;
    if ((a0[16] & 1u) != 0) {
        uint8_t r14 = CRegisters_read_in_word(a0, a1);
        r2_0 = r14;
        goto c_host_registers_CRegistersRegisters_read8_exit;
    }
    uint32_t r16 = Stream_read_register(a0, 1u, a1);
    r2_0 = (uint8_t)r16;
c_host_registers_CRegistersRegisters_read8_exit: {
    return r2_0;
}
}

/* c_host::registers::CRegisters::read_in_word */
static KELIFANDRO_APART uint8_t CRegisters_read_in_word(uint8_t *a0, uint8_t a1)
{
    KELIFANDRO_ROOM uint8_t r2[4];
    uint32_t r7 = CRegistersRegisters_read32(a0, (uint8_t)(a1 & 252u));
    store32_aligned(r2, r7);
    uint8_t r15 = *at(r2, (uint64_t)(uint8_t)(a1 & 3u));
    return r15;
}

/* mmc_sdhci::clock::set_clock::<#d002fd087b3dc1c2> */
static void clock_set_clock(uint8_t *a0, uint32_t a1, uint8_t a2, uint32_t a3)
{
    uint32_t common_ret_op;
    uint32_t r13_6;
    uint32_t r0_04;
    uint32_t r5 = a1 * UINT32_C(0xf4240);
    if (!(r5 > a3)) {
        common_ret_op = 0u;
        goto mmc_sdhci_clock_divider_exit;
    }
    uint32_t r12 = (r5 + UINT32_C(0xffffffff)) / (a3 << 1u);
    if (!(a2 < 2u)) {
        common_ret_op = r12 + 1u;
        goto mmc_sdhci_clock_divider_exit;
    }
    common_ret_op = (uint32_t)1u << (((0u - ctlz32(r12)) & 31u) & 31u);
mmc_sdhci_clock_divider_exit: {
    r13_6 = ((uint32_t)(common_ret_op << 8u) & 65280u) + ((common_ret_op >> 2u) & UINT32_C(0x3fffffc0));
    Stream_write_register(a0, 4u, 44u, UINT32_C(0xe0000));
    Stream_write_register(a0, 4u, 44u, r13_6 + UINT32_C(0xe0001));
    r0_04 = 0u;
}
join_5: {
    uint8_t r15 = StoryRegistersRegisters_read8(a0, 44u);
    if (!((uint8_t)(r15 & 2u) == 0u)) {
        goto mmc_sdhci_settling_settle_clock_d002fd087b3dc1c2_exit;
    }
    Stream_pause(a0, 100u);
    uint32_t r27 = r0_04 + 1u;
    if (r27 != 1500u) {
        r0_04 = r27;
        goto join_5;
    }
    StoryRegistersRegisters_read8(a0, 44u);
}
mmc_sdhci_settling_settle_clock_d002fd087b3dc1c2_exit: {
    Stream_write_register(a0, 4u, 44u, r13_6 + UINT32_C(0xe0005));
    return;
}
}

/* mmc_switch::opening::initialize_in::<#1bed76fd314cf36e> */
static void opening_initialize_in(uint8_t *a0, uint8_t *a1, uint64_t a2)
{
    KELIFANDRO_ROOM uint8_t room[512];
    uint8_t *const r0_4 = room;
    uint8_t *const r2_3_2 = room;
    uint8_t *const r7_3 = room;
    uint8_t *const r7_1 = room;
    uint8_t *const r7_3_2 = room;
    uint8_t *const r2_4 = room;
    uint8_t *const r2_3 = room;
    uint8_t *const r7_2 = room;
    uint8_t *const r2_2 = room;
    uint8_t *const r1_28 = room + 32;
    KELIFANDRO_ROOM uint8_t r5[80];
    KELIFANDRO_ROOM uint8_t r2[64];
    uint64_t r2_0263;
    uint8_t r16;
    bool v1;
    uint8_t r4_6_pre;
    uint8_t r0_0_0;
    uint8_t r0_2_0;
    uint8_t r14_8_0_2_0;
    uint8_t r14_8_0_3_0;
    uint8_t r14_8_0_4_0;
    uint8_t r14_8_0_5_0;
    uint8_t r14_8_0_6_0;
    uint8_t r14_8_0_7_0;
    uint8_t r14_8_0_8_0;
    uint8_t r14_8_0_9_0;
    uint8_t r14_8_0_10_0;
    uint8_t r14_8_0_11_0;
    uint8_t r14_8_0_12_0;
    uint8_t r14_8_0_13_0;
    uint8_t r14_8_0_14_0;
    uint8_t r14_8_0_16_0;
    uint8_t r14_8_0_18_0;
    uint32_t r14_8_4_0;
    uint64_t r14_8_5_0;
    uint8_t r14_8_6_0;
    uint8_t r14_8_7_2_0;
    uint8_t r14_8_7_4_0;
    bool v37;
    uint16_t r80;
    uint8_t v101;
    uint64_t v102;
    uint64_t v103;
    uint64_t v104;
    uint64_t v105;
    uint8_t v106;
    bool v107;
    uint64_t v108;
    bool v109;
    uint64_t v110;
    uint8_t r21;
    uint64_t v;
    uint64_t r1_0;
    uint64_t a0_14;
    uint64_t pre;
    uint64_t a0_17_297;
    uint64_t a0_11_283288296;
    uint64_t a0_14_289295;
    uint64_t common_ret_op;
    uint8_t r1_8_2_ph;
    uint16_t r24;
    u128 r4_0;
    bool r2_0_in;
    uint64_t r130;
    uint8_t r0_3_0_ph;
    uint8_t r0_3_0_ph_2;
    uint8_t r3_3_0_62_ph;
    uint8_t r3_3_0_62;
    uint8_t r3;
    uint64_t r1_3_2_0;
    uint8_t *sink392_phi;
    uint8_t *r1_28_sink;
    uint8_t r1_14_0_86;
    uint16_t r1_22_0_85;
    uint8_t r1_26_0_84_in;
    uint64_t r1_30_0_83;
    u128 r1_38_0_82_in_in_in;
    uint64_t r1_4021_0_81;
    uint8_t r1_42_0_80;
    uint8_t r1_44_0_79;
    uint8_t r1_51_0_78;
    uint8_t r1_53_0_77;
    uint64_t r1_37_0_76;
    uint64_t r1_36_0_75;
    uint64_t r1_35_0_74;
    uint64_t r1_34_0_73;
    uint64_t r1_32_0_72;
    uint8_t r1_46_0_r1_46_0_r1_46_16_71;
    uint8_t r1_5522_0_r1_5522_0_r1_5522_160_r0_6_160_70;
    uint8_t r1_8_0_ph;
    uint8_t r7_3_0_ph;
    uint8_t r7_6_0_ph;
    uint64_t sink458;
    uint8_t r7_3_0_ph_sink;
    uint64_t sink;
    uint8_t r7_6_0_ph_sink;
    r2_0263 = 0u;
join_5: {
    identification_identify(r5, a1);
    if (*r5 != 0u) {
        r7_3_0_ph = 0u;
        r7_6_0_ph = r5[1];
        goto arm_7;
    }
    memcpy(r2, r5 + 16, 64);
    r16 = r2[1];
    v1 = r16 == 0u;
    r4_6_pre = *r2;
    if (!v1) {
        goto join_4;
    }
    host_ask(r2_2, a1, 16u, 512u);
    if (*r2_2 != 0u) {
        goto mmc_switch_widening_widen_1bed76fd314cf36e_exit_thread;
    }
    uint32_t v4 = load32_aligned(r2_2 + 4);
    if ((v4 & ((r4_6_pre == 0u) ? UINT32_C(0xfd39a000) : UINT32_C(0xfd39a080))) == 0u) {
        goto join_4;
    }
}
mmc_switch_widening_widen_1bed76fd314cf36e_exit_thread: {
    r7_3_0_ph = 1u;
    r7_6_0_ph = 0u;
    goto arm_7;
}
join_4: {
    if (r4_6_pre == 0u) {
        r24 = load16_aligned(r2 + 2);
        r4_0 = load128_aligned(r2 + 48);
        r2_0_in = u128_eq(u128_and(r4_0, u128_of(UINT64_C(0xfff00000), 0u)), u128_of(0u, 0u)) || !u128_eq(u128_and(r4_0, u128_of(UINT64_C(0x40000000), 0u)), u128_of(0u, 0u));
        uint8_t r7 = sd_announce_2(a1, r24);
        if (r7 != 0u) {
            r1_8_0_ph = 0u;
            goto mmc_switch_widening_widen_1bed76fd314cf36e_exit_thread_2;
        }
        host_ask(r7_2, a1, 51u, 0u);
        if (*r7_2 != 0u) {
            goto mmc_switch_sd_read_scr_1bed76fd314cf36e_exit_thread46;
        }
        if (!((load32_aligned(r7_2 + 4) & UINT32_C(0xfd39a000)) == 0u)) {
            goto mmc_switch_sd_read_scr_1bed76fd314cf36e_exit_thread46;
        }
        store64_aligned(r2_3, 0u);
        uint8_t r43 = data_receive(a1, r2_3, 8u);
        if (r43 != 0u) {
            goto mmc_switch_sd_read_scr_1bed76fd314cf36e_exit_thread46;
        }
        r130 = bswap64(load64_aligned(r2_3));
        if ((r130 & UINT64_C(0x4000000000000)) == 0u) {
            r0_3_0_ph = 0u;
            goto arm_5;
        }
        if (a1[98] == 0u) {
            r0_3_0_ph = 0u;
            goto arm_5;
        }
        uint8_t r12 = sd_announce_2(a1, r24);
        if (r12 != 0u) {
            r1_8_0_ph = 0u;
            goto mmc_switch_widening_widen_1bed76fd314cf36e_exit_thread_2;
        }
        host_ask(r2_4, a1, 6u, 2u);
        uint8_t v16 = *r2_4;
        uint32_t v18 = load32_aligned(r2_4 + 4);
        if (!((v16 == 0u) && ((v18 & UINT32_C(0xfd39a000)) == 0u))) {
            r1_8_0_ph = 0u;
            goto mmc_switch_widening_widen_1bed76fd314cf36e_exit_thread_2;
        }
        a1[96] = 1u;
        a1[97] = 0u;
        r0_3_0_ph = 1u;
        goto arm_5;
    }
    r0_0_0 = a1[98];
    r0_2_0 = a1[99];
    host_ask(r7_3, a1, 8u, 0u);
    if (*r7_3 != 0u) {
        goto arm_2_6;
    }
    if (!((load32_aligned(r7_3 + 4) & UINT32_C(0xfd39a080)) == 0u)) {
        goto arm_2_6;
    }
    memset(r2_3_2, 0u, 512);
    uint8_t r40 = data_receive(a1, r2_3_2, 512u);
    if (r40 != 0u) {
        goto arm_2_6;
    }
    r14_8_0_2_0 = r2_3_2[143];
    r14_8_0_3_0 = r2_3_2[144];
    r14_8_0_4_0 = r2_3_2[145];
    r14_8_0_5_0 = r2_3_2[146];
    r14_8_0_6_0 = r2_3_2[147];
    r14_8_0_7_0 = r2_3_2[148];
    r14_8_0_8_0 = r2_3_2[149];
    r14_8_0_9_0 = r2_3_2[150];
    r14_8_0_10_0 = r2_3_2[151];
    r14_8_0_11_0 = r2_3_2[152];
    r14_8_0_12_0 = r2_3_2[153];
    r14_8_0_13_0 = r2_3_2[154];
    r14_8_0_14_0 = r2_3_2[155];
    r14_8_0_16_0 = r2_3_2[179];
    r14_8_0_18_0 = r2_3_2[181];
    uint8_t r14_8_2_0 = r2_3_2[192];
    uint8_t r14_8_3_2_0 = r2_3_2[196];
    r14_8_4_0 = load32(r2_3_2 + 212);
    r14_8_5_0 = load64(r2_3_2 + 216);
    r14_8_6_0 = r2_3_2[224];
    r14_8_7_2_0 = r2_3_2[226];
    r14_8_7_4_0 = r2_3_2[231];
    v37 = (uint8_t)(r14_8_3_2_0 & 2u) == 0u;
    if ((r14_8_2_0 < 5u) || (r14_8_6_0 == 0u)) {
        r1_8_2_ph = 1u;
        goto mmc_switch_widening_widen_1bed76fd314cf36e_exit_thread89;
    }
    if (!((r16 != 1u) || (r14_8_4_0 != 0u))) {
        r1_8_2_ph = 1u;
        goto mmc_switch_widening_widen_1bed76fd314cf36e_exit_thread89;
    }
    r80 = load16_aligned(r2 + 2);
    struct of_i8_i8 r6_21 = mmc_switch(a1, r80, UINT32_C(0x3af0100));
    if (r6_21.f0 != 0u) {
        r1_8_2_ph = 0u;
        goto mmc_switch_widening_widen_1bed76fd314cf36e_exit_thread89;
    }
    if (r0_0_0 == 0u) {
        goto arm_6_25;
    }
    struct of_i8_i8 r16_2 = mmc_switch(a1, r80, ((uint32_t)r0_0_0 << 8u) | UINT32_C(0x3b70000));
    if (r16_2.f0 != 0u) {
        r1_8_2_ph = 0u;
        goto mmc_switch_widening_widen_1bed76fd314cf36e_exit_thread89;
    }
    a1[96] = r0_0_0;
    a1[97] = 0u;
    goto arm_6_25;
}
arm_2_6: {
    r1_8_2_ph = 0u;
    goto mmc_switch_widening_widen_1bed76fd314cf36e_exit_thread89;
}
arm_6_25: {
    if (v37 || (r0_2_0 == 0u)) {
        v101 = 0u;
        v102 = (((uint64_t)r14_8_0_3_0 << 8u) | (uint64_t)r14_8_0_2_0) | ((uint64_t)r14_8_0_4_0 << 16u);
        v103 = (((uint64_t)r14_8_0_6_0 << 8u) | (uint64_t)r14_8_0_5_0) | ((uint64_t)r14_8_0_7_0 << 16u);
        v104 = (((uint64_t)r14_8_0_9_0 << 8u) | (uint64_t)r14_8_0_8_0) | ((uint64_t)r14_8_0_10_0 << 16u);
        v105 = (((uint64_t)r14_8_0_12_0 << 8u) | (uint64_t)r14_8_0_11_0) | ((uint64_t)r14_8_0_13_0 << 16u);
        goto arm_8;
    }
    struct of_i8_i8 r12_2 = mmc_switch(a1, r80, UINT32_C(0x3b90100));
    if (r12_2.f0 != 0u) {
        r1_8_2_ph = 0u;
        goto mmc_switch_widening_widen_1bed76fd314cf36e_exit_thread89;
    }
    a1[96] = r0_0_0;
    a1[97] = 1u;
    v101 = r0_2_0;
    v102 = (((uint64_t)r14_8_0_3_0 << 8u) | (uint64_t)r14_8_0_2_0) | ((uint64_t)r14_8_0_4_0 << 16u);
    v103 = (((uint64_t)r14_8_0_6_0 << 8u) | (uint64_t)r14_8_0_5_0) | ((uint64_t)r14_8_0_7_0 << 16u);
    v104 = (((uint64_t)r14_8_0_9_0 << 8u) | (uint64_t)r14_8_0_8_0) | ((uint64_t)r14_8_0_10_0 << 16u);
    v105 = (((uint64_t)r14_8_0_12_0 << 8u) | (uint64_t)r14_8_0_11_0) | ((uint64_t)r14_8_0_13_0 << 16u);
}
arm_8: {
    v106 = (uint8_t)((uint8_t)((uint32_t)r14_8_7_4_0 >> 4u) & 1u);
    v107 = r14_8_0_18_0 != 0u;
    v108 = (r14_8_5_0 >> 30u) & UINT64_C(0x3fc00);
    v109 = (uint8_t)(r14_8_0_14_0 & 1u) == 0u;
    v110 = (uint64_t)r14_8_7_2_0 << 8u;
    r21 = r2[32];
    if (!v1) {
        v = UINT64_C(0x100000000);
        r1_0 = (uint64_t)r14_8_4_0;
        goto mmc_switch_registers_mmc_info_exit;
    }
    uint64_t r7_17 = Csd_sectors(r2 + 32);
    v = UINT64_C(0x800000);
    r1_0 = r7_17;
}
mmc_switch_registers_mmc_info_exit: {
    a0_14 = (r1_0 > v) ? 0u : r1_0;
    pre = (uint64_t)r14_8_6_0;
    if (v109) {
        a0_17_297 = 0u;
        a0_11_283288296 = 0u;
        a0_14_289295 = 0u;
        common_ret_op = 0u;
        goto mmc_switch_widening_widen_1bed76fd314cf36e_exit;
    }
    uint64_t r15_138 = v108 * pre;
    uint64_t r24_139 = r15_138 * v102;
    uint64_t r24_110 = r15_138 * v103;
    uint64_t r24_81 = r15_138 * v104;
    a0_17_297 = (r24_81 > v) ? 0u : r24_81;
    a0_11_283288296 = (r24_139 > v) ? 0u : r24_139;
    a0_14_289295 = (r24_110 > v) ? 0u : r24_110;
    common_ret_op = r15_138 * v105;
}
mmc_switch_widening_widen_1bed76fd314cf36e_exit: {
    u128 r4_0_15 = load128_aligned(r2 + 48);
    memcpy(r0_4 + 12, r5 + 32, 16);
    sink392_phi = r5 + 64;
    r1_28_sink = r1_28;
    r1_14_0_86 = 1u;
    r1_22_0_85 = r80;
    r1_26_0_84_in = r21;
    r1_30_0_83 = a0_14;
    r1_38_0_82_in_in_in = r4_0_15;
    r1_4021_0_81 = pre << 10u;
    r1_42_0_80 = (uint8_t)(v107 ? 255u : 0u);
    r1_44_0_79 = v106;
    r1_51_0_78 = r0_0_0;
    r1_53_0_77 = v101;
    r1_37_0_76 = (common_ret_op > v) ? 0u : common_ret_op;
    r1_36_0_75 = a0_17_297;
    r1_35_0_74 = a0_14_289295;
    r1_34_0_73 = a0_11_283288296;
    r1_32_0_72 = v110;
    r1_46_0_r1_46_0_r1_46_16_71 = 1u;
    r1_5522_0_r1_5522_0_r1_5522_160_r0_6_160_70 = r14_8_0_16_0;
    goto arm_6;
}
mmc_switch_widening_widen_1bed76fd314cf36e_exit_thread89: {
    r7_3_0_ph = 1u;
    r7_6_0_ph = r1_8_2_ph;
    goto arm_7;
}
mmc_switch_sd_read_scr_1bed76fd314cf36e_exit_thread46: {
    r1_8_0_ph = 0u;
    goto mmc_switch_widening_widen_1bed76fd314cf36e_exit_thread_2;
}
arm_5: {
    if (!(r2_0_in && ((r130 & UINT64_C(0xf00000000000000)) != 0u))) {
        r3_3_0_62 = 0u;
        goto arm_8_2;
    }
    if (a1[99] != 1u) {
        r3_3_0_62 = 0u;
        goto arm_8_2;
    }
    sd_switch_func(r7_3_2, a1, UINT32_C(0xfffff1));
    if (*r7_3_2 != 0u) {
        goto arm_9;
    }
    if ((uint8_t)(r7_3_2[14] & 2u) == 0u) {
        r3_3_0_62_ph = 0u;
        goto arm_8_sink_split;
    }
    sd_switch_func(r7_1, a1, UINT32_C(0x80fffff1));
    if (*r7_1 != 0u) {
        goto arm_9;
    }
    if (!((uint8_t)(r7_1[17] & 15u) == 1u)) {
        r0_3_0_ph_2 = 0u;
        goto mmc_switch_sd_set_timing_1bed76fd314cf36e_exit_thread75;
    }
    a1[96] = r0_3_0_ph;
    a1[97] = 1u;
    r0_3_0_ph_2 = 1u;
    goto mmc_switch_sd_set_timing_1bed76fd314cf36e_exit_thread75;
}
arm_9: {
    r1_8_0_ph = 0u;
    goto mmc_switch_widening_widen_1bed76fd314cf36e_exit_thread_2;
}
mmc_switch_sd_set_timing_1bed76fd314cf36e_exit_thread75: {
    r3_3_0_62_ph = r0_3_0_ph_2;
}
arm_8_sink_split: {
    r3_3_0_62 = r3_3_0_62_ph;
}
arm_8_2: {
    struct of_i8_i8 r82 = status_confirm(a1, 0u, r24);
    if (r82.f0 != 0u) {
        r1_8_0_ph = 0u;
        goto mmc_switch_widening_widen_1bed76fd314cf36e_exit_thread_2;
    }
    r3 = r2[32];
    switch (r3) {
    default: {
        trap();
        return;
    }
    case 2u: {
        r1_8_0_ph = 1u;
        goto mmc_switch_widening_widen_1bed76fd314cf36e_exit_thread_2;
    }
    case 0u: {
        if (!u128_eq(u128_and(r4_0, u128_of(0u, UINT64_C(0x400000000000))), u128_of(0u, 0u))) {
            r1_3_2_0 = 1u;
            goto mmc_switch_widening_widen_1bed76fd314cf36e_exit_thread50;
        }
        uint64_t v25 = (uint64_t)r4_0.lo;
        r1_3_2_0 = ((uint64_t)((uint64_t)(v25 >> 39u) & 127u) + 1u) << (((uint64_t)((uint64_t)((uint64_t)(v25 >> 22u) & 15u) + 247u) & 255u) & 63u);
        goto mmc_switch_widening_widen_1bed76fd314cf36e_exit_thread50;
    }
    case 1u: {
        r1_3_2_0 = 1u;
        goto mmc_switch_widening_widen_1bed76fd314cf36e_exit_thread50;
    }
    }
}
mmc_switch_widening_widen_1bed76fd314cf36e_exit_thread50: {
    memcpy(r1_28, r5 + 64, 16);
    uint64_t r7_7 = Csd_sectors(r2 + 32);
    sink392_phi = r5 + 32;
    r1_28_sink = r0_4 + 12;
    r1_14_0_86 = 0u;
    r1_22_0_85 = r24;
    r1_26_0_84_in = r3;
    r1_30_0_83 = (v1 && (r7_7 > UINT64_C(0x800000))) ? 0u : r7_7;
    r1_38_0_82_in_in_in = r4_0;
    r1_4021_0_81 = r1_3_2_0;
    r1_42_0_80 = (uint8_t)((((r130 << 8u) ^ (uint64_t)UINT64_C(0x8000000000000000)) >> 63u) - ((uint64_t)UINT64_C(0x8000000000000000) >> 63u));
    r1_44_0_79 = 0u;
    r1_51_0_78 = r0_3_0_ph;
    r1_53_0_77 = r3_3_0_62;
    r1_37_0_76 = 0u;
    r1_36_0_75 = 0u;
    r1_35_0_74 = 0u;
    r1_34_0_73 = 0u;
    r1_32_0_72 = 0u;
    r1_46_0_r1_46_0_r1_46_16_71 = (uint8_t)((uint8_t)(r130 >> 33u) & 1u);
    r1_5522_0_r1_5522_0_r1_5522_160_r0_6_160_70 = 0u;
}
arm_6: {
    memcpy(r1_28_sink, sink392_phi, 16);
    *a0 = 0u;
    a0[16] = r1_14_0_86;
    a0[17] = r16;
    store16(a0 + 18, r1_22_0_85);
    memcpy(a0 + 20, r0_4, 28);
    store128(a0 + 48, u128_of(0u, r1_26_0_84_in));
    memcpy(a0 + 64, r1_28, 16);
    store64(a0 + 80, r1_30_0_83);
    store64(a0 + 88, r1_32_0_72);
    store64(a0 + 96, r1_34_0_73);
    store64(a0 + 104, r1_35_0_74);
    store64(a0 + 112, r1_36_0_75);
    store64(a0 + 120, r1_37_0_76);
    a0[128] = (uint8_t)!u128_eq(u128_and(r1_38_0_82_in_in_in, u128_of(0u, 12288u)), u128_of(0u, 0u));
    store64(a0 + 136, r1_4021_0_81);
    a0[144] = r1_42_0_80;
    a0[145] = r1_44_0_79;
    a0[146] = r1_46_0_r1_46_0_r1_46_16_71;
    a0[147] = r1_51_0_78;
    a0[148] = r1_53_0_77;
    a0[160] = r1_5522_0_r1_5522_0_r1_5522_160_r0_6_160_70;
    sink458 = 161u;
    r7_3_0_ph_sink = 1u;
    sink = 162u;
    r7_6_0_ph_sink = 0u;
    goto common_ret;
}
mmc_switch_widening_widen_1bed76fd314cf36e_exit_thread_2: {
    r7_3_0_ph = 1u;
    r7_6_0_ph = r1_8_0_ph;
}
arm_7: {
    uint64_t r49 = r2_0263 + 1u;
    if (r49 != a2) {
        r2_0263 = r49;
        goto join_5;
    }
    *a0 = 1u;
    sink458 = 1u;
    r7_3_0_ph_sink = r7_3_0_ph;
    sink = 2u;
    r7_6_0_ph_sink = r7_6_0_ph;
}
common_ret: {
    *at(a0, sink458) = r7_3_0_ph_sink;
    *at(a0, sink) = r7_6_0_ph_sink;
    return;
}
}

/* mmc_identify::identification::identify::<#1bed76fd314cf36e> */
static KELIFANDRO_APART void identification_identify(uint8_t *a0, uint8_t *a1)
{
    KELIFANDRO_ROOM uint8_t room[80];
    uint8_t *const r21_38 = room;
    uint8_t *const r34_4 = room;
    uint8_t *const r2_3 = room;
    uint8_t *const r1_1 = room;
    uint8_t *const r1_25 = room;
    uint8_t *const r1_9 = room;
    uint8_t *const r1_3 = room;
    uint8_t *const r1_4 = room;
    uint8_t *const r1_8 = room;
    uint8_t *const r0 = room;
    uint8_t *const r0_2 = room;
    uint8_t *const r6 = room;
    uint8_t *const r1 = room;
    uint8_t *const r17_4_2 = room;
    uint8_t *const r2 = room + 8;
    uint8_t *const r1_2 = room + 16;
    uint8_t *const r5 = room + 16;
    uint8_t *const r2_2 = room + 24;
    uint8_t *const r12_8 = room + 40;
    uint8_t *const r16 = room + 48;
    uint8_t *const r17_7_2 = room + 56;
    KELIFANDRO_ROOM uint8_t r7[16];
    bool v0;
    bool r43;
    uint8_t r1_019;
    uint8_t r1_025;
    uint8_t r8_4_0_ph;
    uint8_t r16_3_0_ph;
    uint8_t r8_3_0_ph;
    uint32_t r16_6_0;
    uint8_t r14_4_0;
    uint32_t r14_7_0;
    uint8_t r1_2_1_12;
    uint16_t r2_6_0_54;
    uint32_t r4;
    uint8_t r18_5_0_ph;
    uint64_t r13;
    uint64_t r2_010;
    uint8_t r0_4_0_ph;
    u128 r4_0_0_fr;
    u128 r38_67;
    uint8_t r24_0_0;
    uint8_t r0_32_0;
    uint8_t r0_12_0;
    uint8_t r0_0_0;
    u128 r0_39_0;
    u128 r0_40_0;
    uint8_t r49_pn_ph;
    shared_go_idle(a1);
    a1[96] = 0u;
    a1[97] = 0u;
    host_ask(r1, a1, 8u, 426u);
    v0 = *r1 == 0u;
    if (!v0) {
        uint8_t r1_2_1 = r1[1];
        if (r1_2_1 == 0u) {
            goto arm_1;
        }
        r8_3_0_ph = 0u;
        goto arm_2;
    }
    uint32_t r1_4_4 = load32_aligned(r1 + 4);
    if ((uint32_t)(r1_4_4 & 4095u) == 426u) {
        goto arm_1;
    }
    r8_3_0_ph = 1u;
    goto arm_2;
arm_1: {
    struct of_i8_i8 r29 = sd_announce(a1);
    uint8_t r38 = r29.f1;
    if (r29.f0 != 0u) {
        r8_3_0_ph = r38;
        goto arm_2;
    }
    r43 = (r38 & 1u) != 0;
    if (!r43) {
        shared_go_idle(a1);
        r1_019 = 0u;
        goto join_5;
    }
    sd_inquire(r6, a1, v0);
    if (*r6 != 0u) {
        r16_3_0_ph = r6[1];
        goto arm_9;
    }
    if (r6[4] == 1u) {
        r16_6_0 = load32_aligned(r6 + 8);
        goto arm_8;
    }
    r1_025 = 1u;
    goto join_5_2;
}
join_5: {
    host_ask_ocr(r1_2, a1, 1u, UINT32_C(0x40300000));
    judging_inquired(r0, r1_2);
    uint8_t v10 = *r0;
    uint8_t v11 = r0[1];
    uint8_t r10 = r0[4];
    uint32_t v12 = load32_aligned(r0 + 8);
    if (v10 != 0u) {
        r8_3_0_ph = v11;
        goto arm_2;
    }
    if (r10 == 1u) {
        r14_4_0 = 1u;
        r14_7_0 = v12;
        goto arm_1_2;
    }
    if (r1_019 < 15u) {
        r1_019 = (uint8_t)(r1_019 + 1u);
        goto join_5;
    }
    r8_3_0_ph = 0u;
    goto arm_2;
}
join_5_2: {
    struct of_i8_i8 r14 = sd_announce(a1);
    uint8_t r23 = r14.f1;
    if (r14.f0 != 0u) {
        r8_4_0_ph = r23;
        goto mmc_identify_sd_inquire_again_1bed76fd314cf36e_exit_thread;
    }
    if (!((r23 & 1u) != 0)) {
        r8_4_0_ph = 0u;
        goto mmc_identify_sd_inquire_again_1bed76fd314cf36e_exit_thread;
    }
    sd_inquire(r0_2, a1, v0);
    uint8_t v5 = *r0_2;
    uint8_t v6 = r0_2[1];
    uint8_t r69 = r0_2[4];
    uint32_t v7 = load32_aligned(r0_2 + 8);
    if (v5 != 0u) {
        r16_3_0_ph = v6;
        goto arm_9;
    }
    if (r69 == 1u) {
        r16_6_0 = v7;
        goto arm_8;
    }
    if (r1_025 < 15u) {
        r1_025 = (uint8_t)(r1_025 + 1u);
        goto join_5_2;
    }
    r16_3_0_ph = 0u;
    goto arm_9;
}
mmc_identify_sd_inquire_again_1bed76fd314cf36e_exit_thread: {
    r16_3_0_ph = r8_4_0_ph;
}
arm_9: {
    r8_3_0_ph = r16_3_0_ph;
}
arm_2: {
    *a0 = 1u;
    a0[1] = r8_3_0_ph;
    goto common_ret;
}
arm_8: {
    r14_4_0 = 0u;
    r14_7_0 = r16_6_0;
}
arm_1_2: {
    host_ask_register(r1_8, a1, 2u, 0u);
    if (*r1_8 != 0u) {
        r18_5_0_ph = 0u;
        goto arm_6;
    }
    r1_2_1_12 = r1_8[1];
    memcpy(r12_8, r1_8 + 2, 15);
    memcpy(r2_2, r12_8, 15);
    if (!r43) {
        host_ask(r1_3, a1, 3u, UINT32_C(0x10000));
        uint8_t r1_0_0_13 = *r1_3;
        if (r1_0_0_13 == 0u) {
            r2_6_0_54 = 1u;
            goto arm_5;
        }
        r18_5_0_ph = 0u;
        goto arm_6;
    }
    host_ask(r1_4, a1, 3u, 0u);
    bool v18 = *r1_4 == 0u;
    uint32_t r302 = load32_aligned(r1_4 + 4) >> 16u;
    if (v18 && (r302 != 0u)) {
        r2_6_0_54 = (uint16_t)(v18 ? (uint16_t)r302 : 0u);
        goto arm_5;
    }
    r18_5_0_ph = (uint8_t)(v18 ? 2u : 0u);
    goto arm_6;
}
arm_5: {
    r4 = (uint32_t)r2_6_0_54 << 16u;
    host_ask_register(r1_9, a1, 9u, r4);
    if (*r1_9 != 0u) {
        r18_5_0_ph = 0u;
        goto arm_6;
    }
    uint8_t r1_2_1_15 = r1_9[1];
    memcpy(r12_8, r1_9 + 2, 15);
    memcpy(r17_4_2, r2_2, 15);
    memcpy(r17_7_2, r12_8, 15);
    *r5 = r1_2_1_12;
    memcpy(r5 + 1, r17_4_2, 15);
    *r7 = r1_2_1_15;
    memcpy(r7 + 1, r17_7_2, 15);
    host_ask(r1_25, a1, 7u, r4);
    uint32_t v24 = load32_aligned(r1_25 + 4);
    bool v25 = *r1_25 == 0u;
    if (!(v25 && ((v24 & UINT32_C(0x2000000)) == 0u))) {
        r49_pn_ph = (uint8_t)(v25 ? 4u : 0u);
        goto arm_9_2;
    }
    wait_count_polls(r1_1, a1);
    uint8_t r1_0_0_32 = *r1_1;
    uint64_t r1_4_8 = load64_aligned(r1_1 + 8);
    if (r1_0_0_32 != 0u) {
        r49_pn_ph = 0u;
        goto arm_9_2;
    }
    r13 = 16u - r1_4_8;
    if (r1_4_8 == 16u) {
        r49_pn_ph = 0u;
        goto arm_9_2;
    }
    r2_010 = 0u;
    goto join_5_3;
}
arm_6: {
    *a0 = 1u;
    a0[1] = r18_5_0_ph;
    goto common_ret;
}
join_5_3: {
    host_ask(r2, a1, 13u, r4);
    uint8_t v30 = *r2;
    *r2_3 = v30;
    r2_3[1] = r2[1];
    uint32_t v32 = load32_aligned(r2 + 4);
    store32_aligned(r2_3 + 4, v32);
    if (v30 != 0u) {
        r0_4_0_ph = 0u;
        goto mmc_identify_shared_ask_status_1bed76fd314cf36e_exit_thread;
    }
    if (!((v32 & UINT32_C(0x2000000)) == 0u)) {
        r0_4_0_ph = 4u;
        goto mmc_identify_shared_ask_status_1bed76fd314cf36e_exit_thread;
    }
    struct of_i8_i8 r42 = status_check_closing(r14_4_0, r2_3);
    if (r42.f0 != 0u) {
        r49_pn_ph = 0u;
        goto arm_9_2;
    }
    if (r42.f1 != 0u) {
        uint64_t r44 = r2_010 + 1u;
        if (r44 == r13) {
            r49_pn_ph = 0u;
            goto arm_9_2;
        }
        r2_010 = r44;
        goto join_5_3;
    }
    cid_read_cid(r16, r5);
    if (*r16 != 0u) {
        r0_32_0 = 0u; /* any */
        r0_12_0 = 2u;
        r0_0_0 = 1u;
        r0_39_0 = u128_of(0u, 0u); /* any */
        r0_40_0 = u128_of(0u, 0u); /* any */
        goto mmc_identify_judging_found_exit;
    }
    csd_read_csd(r21_38, r14_4_0, r7);
    if (*r21_38 != 0u) {
        r0_32_0 = 0u; /* any */
        r0_12_0 = 2u;
        r0_0_0 = 1u;
        r0_39_0 = u128_of(0u, 0u); /* any */
        r0_40_0 = u128_of(0u, 0u); /* any */
        goto mmc_identify_judging_found_exit;
    }
    uint8_t r6_2 = r21_38[16];
    r4_0_0_fr = load128_aligned(r21_38 + 32);
    r38_67 = u128_of(0u, r6_2);
    if (r43) {
        bool r9_not = (r14_7_0 & UINT32_C(0x40000000)) == 0u;
        switch (r6_2) {
        default: {
            trap();
            return;
        }
        case 0u: {
            if (r9_not) {
                r24_0_0 = 0u;
                goto join_10;
            }
            r0_32_0 = 0u; /* any */
            r0_12_0 = 3u;
            r0_0_0 = 1u;
            r0_39_0 = u128_of(0u, 0u); /* any */
            r0_40_0 = u128_of(0u, 0u); /* any */
            goto mmc_identify_judging_found_exit;
        }
        case 1u: {
            if (r9_not) {
                r0_32_0 = 0u; /* any */
                r0_12_0 = 3u;
                r0_0_0 = 1u;
                r0_39_0 = u128_of(0u, 0u); /* any */
                r0_40_0 = u128_of(0u, 0u); /* any */
                goto mmc_identify_judging_found_exit;
            }
            r24_0_0 = 1u;
            goto join_10;
        }
        case 2u: {
            r0_32_0 = 0u; /* any */
            r0_12_0 = 3u;
            r0_0_0 = 1u;
            r0_39_0 = u128_of(0u, 0u); /* any */
            r0_40_0 = u128_of(0u, 0u); /* any */
            goto mmc_identify_judging_found_exit;
        }
        }
    }
    switch ((uint8_t)((uint8_t)(r14_7_0 >> 29u) & 3u)) {
    default: {
        r0_32_0 = 0u; /* any */
        r0_12_0 = 3u;
        r0_0_0 = 1u;
        r0_39_0 = u128_of(0u, 0u); /* any */
        r0_40_0 = u128_of(0u, 0u); /* any */
        goto mmc_identify_judging_found_exit;
    }
    case 0u: {
        if (r6_2 != 2u) {
            r0_32_0 = 0u; /* any */
            r0_12_0 = 2u;
            r0_0_0 = 1u;
            r0_39_0 = u128_of(0u, 0u); /* any */
            r0_40_0 = u128_of(0u, 0u); /* any */
            goto mmc_identify_judging_found_exit;
        }
        if ((uint8_t)((uint8_t)((uint8_t)u128_lshr(r4_0_0_fr, 80u).lo & 15u) + 247u) < 3u) {
            r24_0_0 = 0u;
            goto join_10;
        }
        r0_32_0 = 0u; /* any */
        r0_12_0 = 2u;
        r0_0_0 = 1u;
        r0_39_0 = u128_of(0u, 0u); /* any */
        r0_40_0 = u128_of(0u, 0u); /* any */
        goto mmc_identify_judging_found_exit;
    }
    case 2u: {
        r24_0_0 = 1u;
        goto join_10;
    }
    }
}
mmc_identify_shared_ask_status_1bed76fd314cf36e_exit_thread: {
    r49_pn_ph = r0_4_0_ph;
    goto arm_9_2;
}
join_10: {
    memcpy(r34_4 + 12, r16 + 16, 16);
    r0_32_0 = r24_0_0;
    r0_12_0 = 0u; /* any */
    r0_0_0 = 0u;
    r0_39_0 = r38_67;
    r0_40_0 = r4_0_0_fr;
}
mmc_identify_judging_found_exit: {
    *a0 = r0_0_0;
    a0[1] = r0_12_0;
    a0[16] = r14_4_0;
    a0[17] = r0_32_0;
    store16(a0 + 18, r2_6_0_54);
    memcpy(a0 + 20, r34_4, 28);
    store128(a0 + 48, r0_39_0);
    store128(a0 + 64, r0_40_0);
    goto common_ret;
}
arm_9_2: {
    *a0 = 1u;
    a0[1] = r49_pn_ph;
}
common_ret: {
    return;
}
}

/* mmc_identify::shared::go_idle::<#1bed76fd314cf36e> */
static void shared_go_idle(uint8_t *a0)
{
    KELIFANDRO_ROOM uint8_t r0[18];
    KELIFANDRO_ROOM uint8_t r2[6];
    frame_framed(r2, 64u, 0u);
    HostBusBus_command(r0, a0, r2, 0u);
    return;
}

/* mmc_frame::frame::framed */
static void frame_framed(uint8_t *a0, uint8_t a1, uint32_t a2)
{
    KELIFANDRO_ROOM uint8_t r17[5];
    uint32_t r4_0_0_insert_insert;
    uint8_t r3_05;
    uint64_t r4_04;
    r4_0_0_insert_insert = bswap32(a2);
    *r17 = a1;
    store32(r17 + 1, r4_0_0_insert_insert);
    r3_05 = 0u;
    r4_04 = 0u;
join_6: {
    uint8_t r18 = *at((uint8_t *)bytes_static_0, (uint64_t)(uint8_t)(*at(r17, r4_04) ^ (uint8_t)((uint32_t)r3_05 << 1u)));
    uint64_t r28 = r4_04 + 1u;
    if (r28 != 5u) {
        r3_05 = r18;
        r4_04 = r28;
        goto join_6;
    }
    *a0 = a1;
    store32(a0 + 1, r4_0_0_insert_insert);
    a0[5] = (uint8_t)((uint8_t)((uint32_t)r18 << 1u) | 1u);
    return;
}
}

/* mmc_host::host_bus::HostBusBus::command::<#d568f3fc8d51bff2> */
static void HostBusBus_command(uint8_t *a0, uint8_t *a1, uint8_t *a2, uint8_t a3)
{
    KELIFANDRO_ROOM uint8_t r0[18];
    KELIFANDRO_ROOM uint8_t r1[6];
    memcpy(r1, a2, 6);
    HostBusBus_begin(r0, a1, r1, a3, 65535u);
    *a0 = *r0;
    memcpy(a0 + 1, r0 + 1, 17);
    return;
}

/* mmc_host::host_bus::HostBusBus::begin::<#d568f3fc8d51bff2> */
static void HostBusBus_begin(uint8_t *a0, uint8_t *a1, uint8_t *a2, uint8_t a3, uint16_t a4)
{
    KELIFANDRO_ROOM uint8_t room[76];
    uint8_t *const r2 = room;
    uint8_t *const r4_2 = room;
    uint8_t *const r12 = room;
    uint8_t *const r11 = room;
    uint8_t *const r22 = room;
    uint8_t *const r4 = room;
    uint8_t *const r5 = room;
    uint8_t *const r11_2 = room;
    uint8_t *const r0 = room + 24;
    uint8_t *const r5_2 = room + 24;
    uint8_t *const r1 = room + 24;
    uint8_t *const r0_2 = room + 24;
    uint8_t *const r12_2 = room + 40;
    uint8_t *const r4_14 = room + 48;
    uint8_t *const r21 = room + 48;
    uint8_t *const r4_5 = room + 48;
    KELIFANDRO_ROOM uint8_t r13_2[16];
    KELIFANDRO_ROOM uint8_t r3_2[16];
    KELIFANDRO_ROOM uint8_t r3[6];
    KELIFANDRO_ROOM uint8_t r3_10[3];
    bool r23_not_3;
    uint8_t r1_0_0;
    bool spec_select;
    uint8_t r4_2_0;
    uint8_t r5_2_0;
    uint8_t r5_0_0_2;
    uint8_t a1_2;
    uint8_t r29;
    bool r43;
    uint32_t r1_413_0;
    uint8_t r1_5_0;
    uint8_t r1_620_0;
    uint16_t r1_725_0;
    uint16_t r1_8_0;
    uint8_t r11_41_0_off0;
    uint8_t r11_41_0_off8;
    uint8_t r11_7_0_off0;
    uint8_t r11_7_0_off8;
    uint8_t r4_0_0_2;
    uint8_t r4_5_0;
    uint8_t r4_10_0;
    uint8_t r0_4_4;
    uint8_t r0_2_1;
    uint8_t r0_0_0;
    uint32_t r8_6_2_0;
    uint64_t r8_6_3_0;
    uint32_t common_ret_op;
    uint8_t r4_0_0;
    memcpy(r3, a2, 6);
    command_read_command(r4, a2);
    if (*r4 != 1u) {
        a1[188] = 1u;
        r4_0_0 = 0u;
        goto mmc_host_host_bus_HostBus_carry_d568f3fc8d51bff2_exit;
    }
    uint8_t r13 = r4[4];
    uint32_t r16 = load32_aligned(r4 + 8);
    memcpy(r5, a1 + 152, 36);
    HostState_command(r3_2, r5, r13, r16, umax16(a4, 1u));
    if (r13 > 63u) {
        goto join_9;
    }
    r23_not_3 = a1[160] == 0u;
    if (!((r3_2[10] == 0u) || r23_not_3)) {
        goto join_9;
    }
    r1_0_0 = *r3_2;
    spec_select = ((a1[155] & 1u) != 0) || (r1_0_0 == 0u);
    r4_2_0 = a1[97];
    uint8_t r5_0_0 = a1[98];
    r5_2_0 = a1[99];
    switch (a1[96]) {
    default: {
        trap();
        return;
    }
    case 0u: {
        goto after_2;
    }
    case 1u: {
        if (r5_0_0 == 0u) {
            goto after_2;
        }
        r5_0_0_2 = 1u;
        goto mmc_host_limits_limited_exit;
    }
    case 2u: {
        r5_0_0_2 = r5_0_0;
        goto mmc_host_limits_limited_exit;
    }
    }
after_2: {
    r5_0_0_2 = 0u;
}
mmc_host_limits_limited_exit: {
    a1_2 = (uint8_t)((r4_2_0 == 0u) ? 0u : r5_2_0);
    r29 = (uint8_t)spec_select;
    if (a1[154] != r29) {
        goto then_2;
    }
    if (r5_0_0_2 != a1[152]) {
        goto then_2;
    }
    if ((a1_2 != a1[153]) && r23_not_3) {
        goto then_5;
    }
    goto mmc_host_host_bus_HostBus_set_ios_d568f3fc8d51bff2_exit;
}
then_2: {
    if (r23_not_3) {
        goto then_5;
    }
    goto mmc_host_host_bus_HostBus_set_ios_d568f3fc8d51bff2_exit;
}
then_5: {
    *r12 = r5_0_0_2;
    r12[1] = a1_2;
    r12[2] = r29;
    WayHost_set_ios(a1, r12);
    *r12 = r5_0_0_2;
    r12[1] = a1_2;
    r12[2] = r29;
    memcpy(a1 + 152, r12, 3);
}
mmc_host_host_bus_HostBus_set_ios_d568f3fc8d51bff2_exit: {
    r43 = (a1[156] & 1u) != 0;
    *r1 = r1_0_0;
    memcpy(r1 + 1, r3_2 + 1, 15);
    if (*a1 != 0u) {
        SdhciHost_send(r4_2, a1 + 4, r1);
        r0_4_4 = r4_2[4];
        r0_2_1 = r4_2[1];
        r0_0_0 = *r4_2;
        goto c_host_way_WayHost_send_b4302b8119c90b07_exit;
    }
    r1_413_0 = load32_aligned(r1 + 4);
    r1_5_0 = r1[8];
    r1_620_0 = r1[10];
    r1_725_0 = load16_aligned(r1 + 12);
    r1_8_0 = load16_aligned(r1 + 14);
    switch (r1_0_0) {
    default: {
        goto join_3;
    }
    case 1u: {
        if ((a1[12] & 1u) != 0) {
            goto join_3;
        }
        r4_0_0_2 = 1u;
        r4_5_0 = 0u;
        r4_10_0 = 0u; /* any */
        goto mmc_story_host_StoryHostHost_send_051560a3ce3af2be_exit;
    }
    case 41u: {
        if ((a1[11] & 1u) != 0) {
            goto join_3;
        }
        r4_0_0_2 = 1u;
        r4_5_0 = 0u;
        r4_10_0 = 0u; /* any */
        goto mmc_story_host_StoryHostHost_send_051560a3ce3af2be_exit;
    }
    }
}
join_3: {
    memset(r2, 0u, 24);
    switch (r1_620_0) {
    default: {
        trap();
        return;
    }
    case 0u: {
        r11_41_0_off0 = r1_620_0;
        r11_41_0_off8 = r1_620_0;
        r11_7_0_off0 = r1_620_0;
        r11_7_0_off8 = r1_620_0;
        goto c_host_stream_Stream_send_exit;
    }
    case 1u: {
        r11_41_0_off0 = (uint8_t)r1_725_0;
        r11_41_0_off8 = (uint8_t)(uint16_t)((uint32_t)r1_725_0 >> 8u);
        r11_7_0_off0 = (uint8_t)r1_8_0;
        r11_7_0_off8 = (uint8_t)(uint16_t)((uint32_t)r1_8_0 >> 8u);
        goto c_host_stream_Stream_send_exit;
    }
    case 2u: {
        r11_41_0_off0 = 0u;
        r11_41_0_off8 = 2u;
        r11_7_0_off0 = (uint8_t)r1_725_0;
        r11_7_0_off8 = (uint8_t)(uint16_t)((uint32_t)r1_725_0 >> 8u);
        goto c_host_stream_Stream_send_exit;
    }
    }
}
c_host_stream_Stream_send_exit: {
    *r5_2 = 1u;
    r5_2[1] = r1_0_0;
    r5_2[2] = r1_5_0;
    r5_2[3] = r1_620_0;
    store32_aligned(r5_2 + 4, r1_413_0);
    r5_2[8] = r11_41_0_off0;
    r5_2[9] = r11_41_0_off8;
    r5_2[10] = r11_7_0_off0;
    r5_2[11] = r11_7_0_off8;
    Stream_ask(a1 + 4, r5_2, 12u, r2, 24u);
    records_heard_by(r0, r1_5_0, r2);
    uint8_t v4 = *r0;
    uint8_t v5 = r0[1];
    uint8_t v6 = r0[4];
    memcpy(r4_14, r0 + 5, 15);
    r4_0_0_2 = v4;
    r4_5_0 = v5;
    r4_10_0 = v6;
}
mmc_story_host_StoryHostHost_send_051560a3ce3af2be_exit: {
    memcpy(r4_2 + 5, r4_14, 15);
    r0_4_4 = r4_10_0;
    r0_2_1 = r4_5_0;
    r0_0_0 = r4_0_0_2;
}
c_host_way_WayHost_send_b4302b8119c90b07_exit: {
    memcpy(r3_10, r4_2 + 5, 3);
    r8_6_2_0 = load32_aligned(r4_2 + 8);
    r8_6_3_0 = load64(r4_2 + 12);
    memcpy(r12_2, a1 + 152, 36);
    *r13_2 = r1_0_0;
    memcpy(r13_2 + 1, r3_2 + 1, 15);
    bool v7 = r0_0_0 == 0u;
    HostState_sent(r11, r12_2, r13_2, v7);
    memcpy(a1 + 152, r11, 36);
    if (!(v7 && (r0_4_4 == 1u))) {
        goto mmc_host_host_bus_HostBus_send_d568f3fc8d51bff2_exit;
    }
    switch (r1_0_0) {
    default: {
        goto mmc_host_host_bus_HostBus_send_d568f3fc8d51bff2_exit;
    }
    case 1u: {
        if ((r8_6_2_0 ^ UINT32_C(0x80000000)) > UINT32_C(0x7fffffff)) {
            common_ret_op = 64000u;
            goto then_1;
        }
        goto mmc_host_host_bus_HostBus_send_d568f3fc8d51bff2_exit;
    }
    case 41u: {
        if (r43 && ((r8_6_2_0 ^ UINT32_C(0x80000000)) > UINT32_C(0x7fffffff))) {
            common_ret_op = 64000u;
            goto then_1;
        }
        goto mmc_host_host_bus_HostBus_send_d568f3fc8d51bff2_exit;
    }
    case 13u: {
        uint32_t r9 = (uint32_t)(r8_6_2_0 >> 9u) & 15u;
        if ((r9 == 7u) || (((uint32_t)(r8_6_2_0 & 256u) == 0u) && (r9 == 4u))) {
            common_ret_op = 32000u;
            goto then_1;
        }
        goto mmc_host_host_bus_HostBus_send_d568f3fc8d51bff2_exit;
    }
    }
}
then_1: {
    uint8_t r4_3 = *a1;
    Stream_pause(a1 + 4, common_ret_op);
    if (r4_3 == 0u) {
        goto c_host_way_WayHost_pause_b4302b8119c90b07_exit;
    }
    store32_aligned(a1 + 72, common_ret_op);
}
c_host_way_WayHost_pause_b4302b8119c90b07_exit: {
    store32_aligned(a1 + 184, common_ret_op);
}
mmc_host_host_bus_HostBus_send_d568f3fc8d51bff2_exit: {
    *r21 = r1_0_0;
    memcpy(r21 + 1, r3_2 + 1, 15);
    *r22 = r0_0_0;
    r22[1] = r0_2_1;
    r22[4] = r0_4_4;
    memcpy(r22 + 5, r3_10, 3);
    store32_aligned(r22 + 8, r8_6_2_0);
    store64(r22 + 12, r8_6_3_0);
    replies_spelled(r0_2, r21, r22);
    uint8_t v11 = *r0_2;
    memcpy(r4_5, r0_2 + 1, 17);
    r4_0_0 = v11;
    goto mmc_host_host_bus_HostBus_carry_d568f3fc8d51bff2_exit;
}
join_9: {
    a1[188] = 1u;
    r4_0_0 = 0u;
}
mmc_host_host_bus_HostBus_carry_d568f3fc8d51bff2_exit: {
    memcpy(r11_2 + 1, r3, 6);
    *r11_2 = 0u;
    r11_2[7] = a3;
    r11_2[8] = r4_0_0;
    memcpy(r11_2 + 9, r4_5, 17);
    Wire_note(a1 + 96, r11_2);
    *a0 = r4_0_0;
    memcpy(a0 + 1, r4_5, 17);
    return;
}
}

/* mmc_frame::command::read_command */
static void command_read_command(uint8_t *a0, uint8_t *a1)
{
    uint8_t r20 = *a1;
    if (!((uint8_t)(r20 & 192u) == 64u)) {
        goto join_5;
    }
    if ((uint8_t)(a1[5] & 1u) == 0u) {
        goto join_5;
    }
    bool r46 = frame_is_sound_frame(a1);
    if (!r46) {
        store32(a0, 0u);
        goto common_ret;
    }
    uint32_t r15 = load32(a1 + 1);
    store32(a0, 1u);
    a0[4] = (uint8_t)(r20 & 63u);
    store32(a0 + 8, bswap32(r15));
    goto common_ret;
join_5: {
    store32(a0, 0u);
}
common_ret: {
    return;
}
}

/* mmc_frame::frame::is_sound_frame */
static bool frame_is_sound_frame(uint8_t *a0)
{
    uint8_t r3_05;
    uint64_t r4_04;
    r3_05 = 0u;
    r4_04 = 0u;
join_6: {
    uint8_t r18 = *at((uint8_t *)bytes_static_0, (uint64_t)(uint8_t)(*at(a0, r4_04) ^ (uint8_t)((uint32_t)r3_05 << 1u)));
    uint64_t r28 = r4_04 + 1u;
    if (r28 != 5u) {
        r3_05 = r18;
        r4_04 = r28;
        goto join_6;
    }
    return r18 == (uint8_t)((uint32_t)a0[5] >> 1u);
}
}

/* mmc_host::told::HostState::command */
static void HostState_command(uint8_t *a0, uint8_t *a1, uint8_t a2, uint32_t a3, uint16_t a4)
{
    uint8_t r2_0_0_44;
    uint16_t r2_15_0;
    uint8_t r2_0_0_10;
    uint16_t r2_8_7_0;
    uint16_t r1_22_0 = load16(a1 + 6);
    bool r7 = (a1[4] & 1u) != 0;
    switch (a2) {
    default: {
        goto after_2;
    }
    case 0u: {
        r2_0_0_44 = 0u;
        r2_15_0 = 0u; /* any */
        r2_0_0_10 = 0u;
        r2_8_7_0 = 0u; /* any */
        goto mmc_host_data_data_of_exit;
    }
    case 1u: {
        r2_0_0_44 = 4u;
        r2_15_0 = 0u; /* any */
        r2_0_0_10 = 0u;
        r2_8_7_0 = 0u; /* any */
        goto mmc_host_data_data_of_exit;
    }
    case 2u:
    case 9u: {
        r2_0_0_44 = 3u;
        r2_15_0 = 0u; /* any */
        r2_0_0_10 = 0u;
        r2_8_7_0 = 0u; /* any */
        goto mmc_host_data_data_of_exit;
    }
    case 3u: {
        r2_0_0_44 = (uint8_t)((a3 == 0u) ? 5u : 1u);
        r2_15_0 = 0u; /* any */
        r2_0_0_10 = 0u;
        r2_8_7_0 = 0u; /* any */
        goto mmc_host_data_data_of_exit;
    }
    case 6u: {
        if (r7) {
            r2_0_0_44 = 1u;
            r2_15_0 = 0u; /* any */
            r2_0_0_10 = 0u;
            r2_8_7_0 = 0u; /* any */
            goto mmc_host_data_data_of_exit;
        }
        if ((a3 & UINT32_C(0x3000000)) == 0u) {
            r2_0_0_44 = 1u;
            r2_15_0 = 1u;
            r2_0_0_10 = 1u;
            r2_8_7_0 = 64u;
            goto mmc_host_data_data_of_exit;
        }
        r2_0_0_44 = 2u;
        r2_15_0 = 0u; /* any */
        r2_0_0_10 = 0u;
        r2_8_7_0 = 0u; /* any */
        goto mmc_host_data_data_of_exit;
    }
    case 7u:
    case 12u:
    case 38u: {
        r2_0_0_44 = 2u;
        r2_15_0 = 0u; /* any */
        r2_0_0_10 = 0u;
        r2_8_7_0 = 0u; /* any */
        goto mmc_host_data_data_of_exit;
    }
    case 8u: {
        if (a3 != 0u) {
            r2_0_0_44 = 6u;
            r2_15_0 = 0u; /* any */
            r2_0_0_10 = 0u;
            r2_8_7_0 = 0u; /* any */
            goto mmc_host_data_data_of_exit;
        }
        r2_0_0_44 = 1u;
        r2_15_0 = 1u;
        r2_0_0_10 = 1u;
        r2_8_7_0 = 512u;
        goto mmc_host_data_data_of_exit;
    }
    case 13u:
    case 16u:
    case 23u:
    case 32u:
    case 35u:
    case 33u:
    case 36u:
    case 55u: {
        r2_0_0_44 = 1u;
        r2_15_0 = 0u; /* any */
        r2_0_0_10 = 0u;
        r2_8_7_0 = 0u; /* any */
        goto mmc_host_data_data_of_exit;
    }
    case 17u: {
        r2_0_0_44 = 1u;
        r2_15_0 = 1u;
        r2_0_0_10 = 1u;
        r2_8_7_0 = 512u;
        goto mmc_host_data_data_of_exit;
    }
    case 18u: {
        r2_0_0_44 = 1u;
        r2_15_0 = (uint16_t)((r1_22_0 == 0u) ? a4 : r1_22_0);
        r2_0_0_10 = 1u;
        r2_8_7_0 = 512u;
        goto mmc_host_data_data_of_exit;
    }
    case 24u: {
        r2_0_0_44 = 1u;
        r2_15_0 = 0u; /* any */
        r2_0_0_10 = 2u;
        r2_8_7_0 = 1u;
        goto mmc_host_data_data_of_exit;
    }
    case 25u: {
        r2_0_0_44 = 1u;
        r2_15_0 = 0u; /* any */
        r2_0_0_10 = 2u;
        r2_8_7_0 = (uint16_t)((r1_22_0 == 0u) ? a4 : r1_22_0);
        goto mmc_host_data_data_of_exit;
    }
    case 41u: {
        if (r7) {
            r2_0_0_44 = 4u;
            r2_15_0 = 0u; /* any */
            r2_0_0_10 = 0u;
            r2_8_7_0 = 0u; /* any */
            goto mmc_host_data_data_of_exit;
        }
        goto after_2;
    }
    case 51u: {
        if (r7) {
            r2_0_0_44 = 1u;
            r2_15_0 = 1u;
            r2_0_0_10 = 1u;
            r2_8_7_0 = 8u;
            goto mmc_host_data_data_of_exit;
        }
        goto after_2;
    }
    }
after_2: {
    r2_0_0_44 = 1u;
    r2_15_0 = 0u; /* any */
    r2_0_0_10 = 0u;
    r2_8_7_0 = 0u; /* any */
}
mmc_host_data_data_of_exit: {
    *a0 = a2;
    store32(a0 + 4, a3);
    a0[8] = r2_0_0_44;
    store16(a0 + 10, (uint16_t)r2_0_0_10);
    store16(a0 + 12, r2_8_7_0);
    store16(a0 + 14, r2_15_0);
    return;
}
}

/* c_host::way::WayHost::set_ios::<#b4302b8119c90b07> */
static void WayHost_set_ios(uint8_t *a0, uint8_t *a1)
{
    KELIFANDRO_ROOM uint8_t r0[3];
    uint8_t r0_0_0 = *a1;
    uint8_t r0_3_0 = a1[1];
    uint8_t r0_4_0 = a1[2];
    if (*a0 == 0u) {
        *r0 = r0_0_0;
        r0[1] = r0_3_0;
        r0[2] = r0_4_0;
        CFunctionsHost_set_ios(a0 + 4, r0);
        goto join_4;
    }
    uint32_t r9 = load32_aligned(a0 + 80);
    uint8_t r11 = a0[84];
    bool v1 = r0_3_0 == 0u;
    StoryRegistersRegisters_write8(a0 + 4, 40u, (uint8_t)((uint8_t)(v1 ? 0u : 4u) | (uint8_t)((uint32_t)UINT32_C(0x200200) >> ((((uint32_t)r0_0_0 << 3u) & UINT32_C(0xffffff)) & 31u))));
    clock_set_clock(a0 + 4, r9, r11, ((r0_4_0 & 1u) != 0) ? UINT32_C(0x61a80) : (v1 ? UINT32_C(0x17d7840) : UINT32_C(0x2faf080)));
    a0[40] = r0_0_0;
    a0[41] = r0_3_0;
    a0[42] = r0_4_0;
    a0[76] = 1u;
join_4: {
    return;
}
}

/* c_host::records::heard_by */
static void records_heard_by(uint8_t *a0, uint8_t a1, uint8_t *a2)
{
    uint8_t r17_7_0_0;
    uint8_t r17_7_2_0;
    uint8_t r17_7_3_0;
    uint32_t r17_7_4_0;
    uint64_t r17_7_5_0;
    uint8_t r17_3_0;
    uint8_t r17_0_0;
    uint8_t r17_5_0;
    switch (load32(a2 + 20)) {
    default: {
        r17_7_0_0 = 0u; /* any */
        r17_7_2_0 = 0u; /* any */
        r17_7_3_0 = 0u; /* any */
        r17_7_4_0 = 0u; /* any */
        r17_7_5_0 = 0u; /* any */
        r17_3_0 = 0u;
        r17_0_0 = 1u;
        r17_5_0 = 0u; /* any */
        goto join_3;
    }
    case 0u: {
        switch (a1) {
        default: {
            trap();
            return;
        }
        case 0u: {
            r17_7_0_0 = 0u; /* any */
            r17_7_2_0 = 0u; /* any */
            r17_7_3_0 = 0u; /* any */
            r17_7_4_0 = 0u; /* any */
            r17_7_5_0 = 0u; /* any */
            r17_3_0 = 0u; /* any */
            r17_0_0 = a1;
            r17_5_0 = a1;
            goto join_3;
        }
        case 3u: {
            uint32_t r3_6_3_insert_insert = (((uint32_t)a2[7] << 8u) | (uint32_t)*a2) | ((uint32_t)a2[6] << 16u);
            uint64_t r3_15_7_insert_insert = (((uint64_t)a2[11] << 8u) | (uint64_t)a2[4]) | ((uint64_t)a2[10] << 16u);
            uint64_t r3_11_7_insert_mask = ((r3_15_7_insert_insert | ((uint64_t)a2[9] << 24u)) | ((uint64_t)a2[8] << 32u)) | ((uint64_t)a2[15] << 40u);
            r17_7_0_0 = a2[3];
            r17_7_2_0 = a2[2];
            r17_7_3_0 = a2[1];
            r17_7_4_0 = r3_6_3_insert_insert | ((uint32_t)a2[5] << 24u);
            r17_7_5_0 = (r3_11_7_insert_mask | ((uint64_t)a2[14] << 48u)) | ((uint64_t)a2[13] << 56u);
            r17_3_0 = 0u; /* any */
            r17_0_0 = 0u;
            r17_5_0 = 2u;
            goto join_3;
        }
        case 1u:
        case 2u:
        case 4u:
        case 5u:
        case 6u: {
            r17_7_0_0 = 0u; /* any */
            r17_7_2_0 = 0u; /* any */
            r17_7_3_0 = 0u; /* any */
            r17_7_4_0 = load32(a2);
            r17_7_5_0 = 0u; /* any */
            r17_3_0 = 0u; /* any */
            r17_0_0 = 0u;
            r17_5_0 = 1u;
            goto join_3;
        }
        }
    }
    case 2u: {
        r17_7_0_0 = 0u; /* any */
        r17_7_2_0 = 0u; /* any */
        r17_7_3_0 = 0u; /* any */
        r17_7_4_0 = 0u; /* any */
        r17_7_5_0 = 0u; /* any */
        r17_3_0 = 1u;
        r17_0_0 = 1u;
        r17_5_0 = 0u; /* any */
        goto join_3;
    }
    case 3u: {
        r17_7_0_0 = 0u; /* any */
        r17_7_2_0 = 0u; /* any */
        r17_7_3_0 = 0u; /* any */
        r17_7_4_0 = 0u; /* any */
        r17_7_5_0 = 0u; /* any */
        r17_3_0 = 2u;
        r17_0_0 = 1u;
        r17_5_0 = 0u; /* any */
        goto join_3;
    }
    case 4u: {
        r17_7_0_0 = 0u; /* any */
        r17_7_2_0 = 0u; /* any */
        r17_7_3_0 = 0u; /* any */
        r17_7_4_0 = 0u; /* any */
        r17_7_5_0 = 0u; /* any */
        r17_3_0 = 3u;
        r17_0_0 = 1u;
        r17_5_0 = 0u; /* any */
        goto join_3;
    }
    }
join_3: {
    *a0 = r17_0_0;
    a0[1] = r17_3_0;
    a0[4] = r17_5_0;
    a0[5] = r17_7_0_0;
    a0[6] = r17_7_2_0;
    a0[7] = r17_7_3_0;
    store32(a0 + 8, r17_7_4_0);
    store64(a0 + 12, r17_7_5_0);
    return;
}
}

/* mmc_sdhci::sdhci::SdhciHost::send::<#d002fd087b3dc1c2> */
static void SdhciHost_send(uint8_t *a0, uint8_t *a1, uint8_t *a2)
{
    KELIFANDRO_ROOM uint8_t room[36];
    uint8_t *const r5 = room;
    uint8_t *const r7 = room;
    KELIFANDRO_ROOM uint8_t r8[36];
    KELIFANDRO_ROOM uint8_t r3[20];
    KELIFANDRO_ROOM uint8_t r1[16];
    memcpy(r1, a2, 16);
    store16_aligned(r5, (uint16_t)a1[44]);
    store16_aligned(r5 + 2, load16(a1 + 46));
    store16_aligned(r5 + 4, load16(a1 + 48));
    command_send(r3, a1, r5, r1, 0u);
    uint8_t v2 = *r3;
    uint8_t v3 = r3[1];
    uint8_t v4 = r3[4];
    memcpy(r8, a1 + 36, 36);
    HostState_sent(r7, r8, r1, v2 == 0u);
    memcpy(a1 + 36, r7, 36);
    *a0 = v2;
    a0[1] = v3;
    a0[4] = v4;
    memcpy(a0 + 5, r3 + 5, 15);
    return;
}

/* mmc_sdhci::command::send::<#d002fd087b3dc1c2> */
static void command_send(uint8_t *a0, uint8_t *a1, uint8_t *a2, uint8_t *a3, uint8_t a4)
{
    uint8_t r8_0_0;
    uint8_t r8_3_0;
    uint8_t r8_540_0;
    bool not;
    uint32_t r10_0;
    uint32_t r59;
    uint32_t common_ret_op;
    uint8_t r4_0_0;
    uint32_t r2_8_5_0;
    uint32_t r2_8_4_0;
    uint32_t r2_8_3_0;
    uint32_t r2_8_0_0;
    uint8_t r2_20_0;
    uint8_t r2_19_0;
    uint8_t r2_18_0;
    uint8_t r2_17_0;
    uint8_t r2_16_0;
    uint8_t r2_15_0;
    uint8_t r2_14_0;
    uint8_t r2_13_0;
    uint8_t r2_7_0;
    uint8_t r2_6_0;
    uint8_t r2_4_0;
    uint8_t r2_0_0;
    uint64_t sink;
    uint8_t r2_20_0_sink;
    r8_0_0 = *a3;
    uint32_t r8_239_0 = load32(a3 + 4);
    r8_3_0 = a3[8];
    r8_540_0 = a3[10];
    uint16_t r8_641_0 = load16(a3 + 12);
    uint16_t r8_7_0 = load16(a3 + 14);
    not = *a2 == 0u;
    Stream_write_register(a1, 4u, 48u, not ? UINT32_C(0xffffff3f) : UINT32_C(0xf0001));
    switch (r8_540_0) {
    default: {
        trap();
        return;
    }
    case 0u: {
        Stream_write_register(a1, 4u, 8u, r8_239_0);
        r10_0 = 0u;
        goto switch_lookup;
    }
    case 2u: {
        Stream_write_register(a1, 4u, 4u, (uint32_t)((uint32_t)r8_641_0 << 16u) | 29184u);
        Stream_write_register(a1, 4u, 8u, r8_239_0);
        r10_0 = (r8_641_0 == 1u) ? 0u : 34u;
        goto switch_lookup;
    }
    case 1u: {
        Stream_write_register(a1, 4u, 4u, (uint32_t)((uint32_t)r8_641_0 + 28672u) + ((uint32_t)r8_7_0 << 16u));
        Stream_write_register(a1, 4u, 8u, r8_239_0);
        r10_0 = (r8_7_0 == 1u) ? 16u : 50u;
        goto switch_lookup;
    }
    }
switch_lookup: {
    uint32_t r56 = (r10_0 | (uint32_t)a4) | (((r8_540_0 == 0u) ? 0u : UINT32_C(0x200000)) | ((uint32_t)((uint32_t)r8_0_0 << 24u) | ((r8_0_0 == 12u) ? UINT32_C(0xc00000) : 0u)));
    r59 = r56 + load32_aligned(at((uint8_t *)bytes_command_send, (uint64_t)r8_3_0 * 4u));
    switch ((uint8_t)((uint8_t)(r59 >> 24u) & 63u)) {
    default: {
        goto after_1;
    }
    case 1u: {
        if ((a1[27] & 1u) != 0) {
            goto after_1;
        }
        goto sdhci_story_registers_StoryRegistersRegisters_write32_52343085cde207f1_exit;
    }
    case 41u: {
        if ((a1[26] & 1u) != 0) {
            goto after_1;
        }
        goto sdhci_story_registers_StoryRegistersRegisters_write32_52343085cde207f1_exit;
    }
    }
}
after_1: {
    Stream_write_register(a1, 4u, 12u, r59);
}
sdhci_story_registers_StoryRegistersRegisters_write32_52343085cde207f1_exit: {
    if (!((a1[18] & 1u) != 0)) {
        uint32_t r23 = command_look(a1, 1000u);
        common_ret_op = r23;
        goto mmc_sdhci_command_wait_d002fd087b3dc1c2_exit;
    }
    uint32_t r26 = command_look(a1, 3u);
    if (r26 != 0u) {
        common_ret_op = r26;
        goto mmc_sdhci_command_wait_d002fd087b3dc1c2_exit;
    }
    StoryRegistersRegisters_wait(a1, UINT32_C(0xf0001), 10000u);
    uint32_t r6_6 = Stream_read_register(a1, 4u, 48u);
    common_ret_op = ((r6_6 & UINT32_C(0xf0001)) == 0u) ? 0u : r6_6;
}
mmc_sdhci_command_wait_d002fd087b3dc1c2_exit: {
    if (!((common_ret_op & UINT32_C(0xf0001)) == 1u)) {
        command_reset_command(a1);
        command_reset_data(a1);
        if (!((common_ret_op & UINT32_C(0x20000)) == 0u)) {
            r4_0_0 = 1u;
            goto mmc_sdhci_command_fault_in_exit;
        }
        r4_0_0 = (uint8_t)(((common_ret_op & UINT32_C(0x40000)) == 0u) ? (uint8_t)(((common_ret_op & UINT32_C(0x80000)) == 0u) ? 0u : 3u) : 2u);
        goto mmc_sdhci_command_fault_in_exit;
    }
    switch (r8_3_0) {
    default: {
        trap();
        return;
    }
    case 0u: {
        r2_8_5_0 = 0u;
        r2_8_4_0 = 0u;
        r2_8_3_0 = 0u;
        r2_8_0_0 = 0u;
        r2_20_0 = 0u; /* any */
        r2_19_0 = 0u; /* any */
        r2_18_0 = 0u; /* any */
        r2_17_0 = 0u; /* any */
        r2_16_0 = 0u; /* any */
        r2_15_0 = 0u; /* any */
        r2_14_0 = 0u; /* any */
        r2_13_0 = 0u; /* any */
        r2_7_0 = 0u; /* any */
        r2_6_0 = 0u; /* any */
        r2_4_0 = 0u; /* any */
        r2_0_0 = r8_3_0;
        goto mmc_sdhci_command_hear_d002fd087b3dc1c2_exit;
    }
    case 3u: {
        uint32_t r6 = Stream_read_register(a1, 4u, 28u);
        uint32_t r6_4 = Stream_read_register(a1, 4u, 24u);
        uint32_t r6_5 = Stream_read_register(a1, 4u, 20u);
        uint32_t r6_6_2 = Stream_read_register(a1, 4u, 16u);
        r2_8_5_0 = r6_4 & 255u;
        r2_8_4_0 = r6_4 >> 8u;
        r2_8_3_0 = r6_4 >> 16u;
        r2_8_0_0 = r6_4 >> 24u;
        r2_20_0 = (uint8_t)r6_6_2;
        r2_19_0 = (uint8_t)(r6_6_2 >> 8u);
        r2_18_0 = (uint8_t)(r6_6_2 >> 16u);
        r2_17_0 = (uint8_t)(r6_6_2 >> 24u);
        r2_16_0 = (uint8_t)r6_5;
        r2_15_0 = (uint8_t)(r6_5 >> 8u);
        r2_14_0 = (uint8_t)(r6_5 >> 16u);
        r2_13_0 = (uint8_t)(r6_5 >> 24u);
        r2_7_0 = (uint8_t)r6;
        r2_6_0 = (uint8_t)(r6 >> 8u);
        r2_4_0 = (uint8_t)(r6 >> 16u);
        r2_0_0 = 2u;
        goto mmc_sdhci_command_hear_d002fd087b3dc1c2_exit;
    }
    case 1u:
    case 2u:
    case 4u:
    case 5u:
    case 6u: {
        uint32_t r6_2 = Stream_read_register(a1, 4u, 16u);
        r2_8_5_0 = r6_2 >> 24u;
        r2_8_4_0 = r6_2 >> 16u;
        r2_8_3_0 = r6_2 >> 8u;
        r2_8_0_0 = r6_2 & 255u;
        r2_20_0 = 0u; /* any */
        r2_19_0 = 0u; /* any */
        r2_18_0 = 0u; /* any */
        r2_17_0 = 0u; /* any */
        r2_16_0 = 0u; /* any */
        r2_15_0 = 0u; /* any */
        r2_14_0 = 0u; /* any */
        r2_13_0 = 0u; /* any */
        r2_7_0 = 0u; /* any */
        r2_6_0 = 0u; /* any */
        r2_4_0 = 0u; /* any */
        r2_0_0 = 1u;
        goto mmc_sdhci_command_hear_d002fd087b3dc1c2_exit;
    }
    }
}
mmc_sdhci_command_fault_in_exit: {
    *a0 = 1u;
    sink = 1u;
    r2_20_0_sink = r4_0_0;
    goto common_ret;
}
mmc_sdhci_command_hear_d002fd087b3dc1c2_exit: {
    uint32_t r2_8_0_0_insert_insert = ((((r2_8_4_0 << 16u) & UINT32_C(0xff0000)) | (r2_8_5_0 << 24u)) | ((uint32_t)(r2_8_3_0 << 8u) & 65280u)) | r2_8_0_0;
    if (not) {
        *a0 = 0u;
        a0[4] = r2_0_0;
        a0[5] = r2_4_0;
        a0[6] = r2_6_0;
        a0[7] = r2_7_0;
        store32(a0 + 8, r2_8_0_0_insert_insert);
        a0[12] = r2_13_0;
        a0[13] = r2_14_0;
        a0[14] = r2_15_0;
        a0[15] = r2_16_0;
        a0[16] = r2_17_0;
        a0[17] = r2_18_0;
        a0[18] = r2_19_0;
        sink = 19u;
        r2_20_0_sink = r2_20_0;
        goto common_ret;
    }
    command_reset_data(a1);
    *a0 = 0u;
    a0[4] = r2_0_0;
    a0[5] = r2_4_0;
    a0[6] = r2_6_0;
    a0[7] = r2_7_0;
    store32(a0 + 8, r2_8_0_0_insert_insert);
    a0[12] = r2_13_0;
    a0[13] = r2_14_0;
    a0[14] = r2_15_0;
    a0[15] = r2_16_0;
    a0[16] = r2_17_0;
    a0[17] = r2_18_0;
    a0[18] = r2_19_0;
    sink = 19u;
    r2_20_0_sink = r2_20_0;
}
common_ret: {
    *at(a0, sink) = r2_20_0_sink;
    return;
}
}

/* mmc_sdhci::command::look::<#d002fd087b3dc1c2> */
static uint32_t command_look(uint8_t *a0, uint32_t a1)
{
    uint32_t r1_05;
    uint32_t common_ret_op;
    r1_05 = 0u;
join_5: {
    uint32_t r6_4 = Stream_read_register(a0, 4u, 48u);
    if (!((r6_4 & UINT32_C(0xf0001)) == 0u)) {
        common_ret_op = r6_4;
        goto common_ret;
    }
    Stream_pause(a0, 10u);
    uint32_t r23 = r1_05 + 1u;
    if (r23 == a1) {
        common_ret_op = 0u;
        goto common_ret;
    }
    r1_05 = r23;
    goto join_5;
}
common_ret: {
    return common_ret_op;
}
}

/* sdhci_story::registers::StoryRegistersRegisters::wait::<#52343085cde207f1> */
static void StoryRegistersRegisters_wait(uint8_t *a0, uint32_t a1, uint32_t a2)
{
    KELIFANDRO_ROOM uint8_t r2[9];
    *r2 = 19u;
    store32(r2 + 1, a1);
    r2[5] = (uint8_t)a2;
    r2[6] = (uint8_t)(a2 >> 8u);
    r2[7] = (uint8_t)(a2 >> 16u);
    r2[8] = 0u;
    io_write_all(load32_aligned(a0), r2, 9u);
    return;
}

/* mmc_host::told::HostState::sent */
static void HostState_sent(uint8_t *a0, uint8_t *a1, uint8_t *a2, bool a3)
{
    uint32_t r1_419_0;
    uint32_t r1_5_0;
    uint8_t r2_0_0;
    uint32_t r2_314_0;
    uint8_t r2_416_0;
    uint16_t r2_5_2_0;
    uint16_t v1;
    bool r8_0_in47;
    uint32_t r4_6_5_0_38;
    uint8_t r4_0_0_36;
    bool r8_0_in46;
    uint32_t r4_6_5_0_37;
    uint8_t r4_0_0_35;
    uint32_t r31_0;
    uint32_t r34_0;
    uint8_t r1_4_2_0 = a1[16];
    uint32_t r1_4_4_0 = load32(a1 + 20);
    r1_419_0 = load32(a1 + 24);
    r1_5_0 = load32(a1 + 28);
    r2_0_0 = *a2;
    r2_314_0 = load32(a2 + 4);
    uint16_t v0 = load16(a2 + 8);
    r2_416_0 = a2[10];
    r2_5_2_0 = load16(a2 + 12);
    v1 = load16(a2 + 14);
    if (r2_0_0 == 0u) {
        r8_0_in47 = true;
        r4_6_5_0_38 = r1_4_4_0;
        r4_0_0_36 = r1_4_2_0;
        goto default_25;
    }
    bool r8_0_in = ((a3 && (r2_0_0 == 7u)) != true) && ((a1[3] & 1u) != 0);
    switch (r2_0_0) {
    default: {
        bool or_cond = (uint8_t)(r2_0_0 & 254u) == 24u;
        uint8_t spec_select57 = (uint8_t)(or_cond ? 1u : r1_4_2_0);
        uint32_t spec_select58 = or_cond ? 0u : r1_4_4_0;
        switch (r2_0_0) {
        default: {
            r8_0_in47 = r8_0_in;
            r4_6_5_0_38 = spec_select58;
            r4_0_0_36 = spec_select57;
            goto default_25;
        }
        case 32u:
        case 35u: {
            r8_0_in46 = r8_0_in;
            r4_6_5_0_37 = spec_select58;
            r4_0_0_35 = spec_select57;
            r31_0 = r2_314_0;
            goto join_26;
        }
        }
    }
    case 7u: {
        r8_0_in47 = r8_0_in;
        r4_6_5_0_38 = 0u; /* any */
        r4_0_0_36 = 0u;
        goto default_25;
    }
    case 12u: {
        r8_0_in47 = r8_0_in;
        r4_6_5_0_38 = 0u; /* any */
        r4_0_0_36 = 1u;
        goto default_25;
    }
    case 6u: {
        bool r13_not = (uint8_t)v0 == 2u;
        r8_0_in47 = r8_0_in;
        r4_6_5_0_38 = r13_not ? 0u : r1_4_4_0;
        r4_0_0_36 = (uint8_t)(r13_not ? 2u : r1_4_2_0);
        goto default_25;
    }
    case 38u: {
        r8_0_in47 = r8_0_in;
        r4_6_5_0_38 = usub_sat32(r1_5_0, r1_419_0);
        r4_0_0_36 = 3u;
        goto default_25;
    }
    }
default_25: {
    r8_0_in46 = r8_0_in47;
    r4_6_5_0_37 = r4_6_5_0_38;
    r4_0_0_35 = r4_0_0_36;
    r31_0 = r1_419_0;
}
join_26: {
    switch (r2_0_0) {
    default: {
        r34_0 = r1_5_0;
        goto join_29;
    }
    case 33u:
    case 36u: {
        r34_0 = r2_314_0;
        goto join_29;
    }
    }
}
join_29: {
    {
        uint8_t moved[3];
        memcpy(moved, a1, 3);
        memcpy(a0, moved, 3);
    }
    a0[3] = (uint8_t)r8_0_in46;
    a0[4] = (uint8_t)(a3 && (r2_0_0 == 55u));
    store16(a0 + 6, (uint16_t)((a3 && (r2_0_0 == 23u)) ? (uint16_t)r2_314_0 : 0u));
    store16(a0 + 8, (uint16_t)(a3 ? (uint16_t)r2_416_0 : 0u));
    store16(a0 + 10, (uint16_t)(a3 ? r2_5_2_0 : 0u));
    store16(a0 + 12, (uint16_t)(a3 ? v1 : 0u));
    store32(a0 + 16, (uint32_t)r4_0_0_35);
    store32(a0 + 20, r4_6_5_0_37);
    store32(a0 + 24, r31_0);
    store32(a0 + 28, r34_0);
    store32(a0 + 32, 0u);
    return;
}
}

/* mmc_host::replies::spelled */
static void replies_spelled(uint8_t *a0, uint8_t *a1, uint8_t *a2)
{
    KELIFANDRO_ROOM uint8_t room[15];
    uint8_t *const r0 = room;
    uint8_t *const r10 = room;
    KELIFANDRO_ROOM uint8_t r15_5_6_0[10];
    uint32_t r2_7_5;
    uint8_t r3_05;
    uint64_t r4_04;
    uint8_t r15_5_6_2_0;
    uint8_t r15_5_5_0;
    uint32_t r15_5_4_0;
    uint8_t r15_5_0_0;
    uint8_t r15_0_0;
    uint8_t r1_0_0 = *a1;
    uint8_t r2_3_4 = a2[4];
    r2_7_5 = load32(a2 + 8);
    uint64_t r2_8_5 = load64(a2 + 12);
    if (*a2 != 0u) {
        *a0 = 0u;
        goto common_ret;
    }
    uint8_t r1_25_0 = a1[8];
    switch (r1_25_0) {
    default: {
        trap();
        return;
    }
    case 3u: {
        if (r2_3_4 != 2u) {
            r15_5_6_2_0 = 0u; /* any */
            r15_5_5_0 = 0u; /* any */
            r15_5_4_0 = 0u; /* any */
            r15_5_0_0 = 0u; /* any */
            r15_0_0 = 0u;
            goto after_5;
        }
        memcpy(r10, a2 + 5, 3);
        store32(r10 + 3, r2_7_5);
        store64(r10 + 7, r2_8_5);
        r3_05 = 0u;
        r4_04 = 0u;
        goto join_6;
    }
    case 4u: {
        if (r2_3_4 != 1u) {
            r15_5_6_2_0 = 0u; /* any */
            r15_5_5_0 = 0u; /* any */
            r15_5_4_0 = 0u; /* any */
            r15_5_0_0 = 0u; /* any */
            r15_0_0 = 0u;
            goto after_5;
        }
        r15_5_6_2_0 = 0u; /* any */
        r15_5_5_0 = 255u;
        r15_5_4_0 = bswap32(r2_7_5);
        r15_5_0_0 = 63u;
        r15_0_0 = 1u;
        goto after_5;
    }
    case 1u:
    case 2u:
    case 5u:
    case 6u: {
        if (r2_3_4 != 1u) {
            r15_5_6_2_0 = 0u; /* any */
            r15_5_5_0 = 0u; /* any */
            r15_5_4_0 = 0u; /* any */
            r15_5_0_0 = 0u; /* any */
            r15_0_0 = 0u;
            goto after_5;
        }
        frame_framed(r0, r1_0_0, r2_7_5);
        uint8_t r22_0_0 = *r0;
        uint32_t r22_2_0 = load32(r0 + 1);
        uint8_t r22_3_0 = r0[5];
        r15_5_6_2_0 = 0u; /* any */
        r15_5_5_0 = r22_3_0;
        r15_5_4_0 = r22_2_0;
        r15_5_0_0 = r22_0_0;
        r15_0_0 = 1u;
        goto after_5;
    }
    case 0u: {
        r15_5_6_2_0 = 0u; /* any */
        r15_5_5_0 = 0u; /* any */
        r15_5_4_0 = 0u; /* any */
        r15_5_0_0 = 0u; /* any */
        r15_0_0 = r1_25_0;
        goto after_5;
    }
    }
join_6: {
    uint8_t r18 = *at((uint8_t *)bytes_static_0, (uint64_t)(uint8_t)(*at(r10, r4_04) ^ (uint8_t)((uint32_t)r3_05 << 1u)));
    uint64_t r28 = r4_04 + 1u;
    if (r28 != 15u) {
        r3_05 = r18;
        r4_04 = r28;
        goto join_6;
    }
    uint32_t r1_0_0_2 = load32_aligned(r10);
    memcpy(r15_5_6_0, r10 + 5, 10);
    r15_5_6_2_0 = (uint8_t)((uint8_t)((uint32_t)r18 << 1u) | 1u);
    r15_5_5_0 = (uint8_t)(r2_7_5 >> 8u);
    r15_5_4_0 = r1_0_0_2;
    r15_5_0_0 = 63u;
    r15_0_0 = 2u;
}
after_5: {
    *a0 = r15_0_0;
    a0[1] = r15_5_0_0;
    store32(a0 + 2, r15_5_4_0);
    a0[6] = r15_5_5_0;
    memcpy(a0 + 7, r15_5_6_0, 10);
    a0[17] = r15_5_6_2_0;
}
common_ret: {
    return;
}
}

/* mmc_bus::wire::Wire::note */
static void Wire_note(uint8_t *a0, uint8_t *a1)
{
    KELIFANDRO_ROOM uint8_t r7_8[18];
    KELIFANDRO_ROOM uint8_t r7_4[6];
    uint8_t r0_0_0 = *a1;
    uint8_t r0_4_7 = a1[7];
    memcpy(r7_4, a1 + 1, 6);
    memcpy(r7_8, a1 + 8, 18);
    store64(a0 + 8, 1u);
    a0[16] = r0_0_0;
    memcpy(a0 + 17, r7_4, 6);
    a0[23] = r0_4_7;
    memcpy(a0 + 24, r7_8, 18);
    store64_aligned(a0 + 48, uadd_sat64(load64_aligned(a0 + 48), 1u));
    return;
}

/* mmc_bus::host::ask::<#1bed76fd314cf36e> */
static void host_ask(uint8_t *a0, uint8_t *a1, uint8_t a2, uint32_t a3)
{
    KELIFANDRO_ROOM uint8_t room[18];
    uint8_t *const r1 = room;
    uint8_t *const r4 = room;
    KELIFANDRO_ROOM uint8_t room_2[18];
    uint8_t *const r0 = room_2;
    uint8_t *const r2 = room_2;
    frame_framed(r4, (uint8_t)(a2 | 64u), a3);
    HostBusBus_command(r2, a1, r4, (uint8_t)((a2 == 9u) ? 2u : 1u));
    *r1 = *r2;
    memcpy(r1 + 1, r2 + 1, 17);
    host_response_in(r0, r1, a2);
    *a0 = *r0;
    a0[1] = r0[1];
    store32(a0 + 4, load32_aligned(r0 + 4));
    return;
}

/* mmc_bus::host::response_in */
static void host_response_in(uint8_t *a0, uint8_t *a1, uint8_t a2)
{
    uint32_t r2_8_0;
    uint8_t r2_4_0;
    uint8_t r2_0_0;
    uint8_t r7 = *a1;
    switch (r7) {
    default: {
        trap();
        return;
    }
    case 0u: {
        r2_8_0 = 0u; /* any */
        r2_4_0 = r7;
        r2_0_0 = 1u;
        goto join_5;
    }
    case 1u: {
        uint8_t r22 = a1[1];
        if (!(r22 < 64u)) {
            r2_8_0 = 0u; /* any */
            r2_4_0 = 1u;
            r2_0_0 = 1u;
            goto join_5;
        }
        if ((uint8_t)(a1[6] & 1u) == 0u) {
            r2_8_0 = 0u; /* any */
            r2_4_0 = 1u;
            r2_0_0 = 1u;
            goto join_5;
        }
        bool r49 = frame_is_sound_frame(a1 + 1);
        if (!((r22 == a2) && r49)) {
            r2_8_0 = 0u; /* any */
            r2_4_0 = 1u;
            r2_0_0 = 1u;
            goto join_5;
        }
        r2_8_0 = bswap32(load32(a1 + 2));
        r2_4_0 = 1u;
        r2_0_0 = 0u;
        goto join_5;
    }
    case 2u: {
        r2_8_0 = 0u; /* any */
        r2_4_0 = 1u;
        r2_0_0 = 1u;
        goto join_5;
    }
    }
join_5: {
    *a0 = r2_0_0;
    a0[1] = r2_4_0;
    store32(a0 + 4, r2_8_0);
    return;
}
}

/* mmc_identify::sd::announce::<#1bed76fd314cf36e> */
static struct of_i8_i8 sd_announce(uint8_t *a0)
{
    KELIFANDRO_ROOM uint8_t r1[8];
    host_ask(r1, a0, 55u, 0u);
    bool v0 = *r1 != 0u;
    uint8_t r6_0_0 = (uint8_t)(v0 && (r1[1] != 0u));
    uint8_t r6_4_0 = (uint8_t)(v0 != true);
    struct of_i8_i8 r18_fca_0_insert = (struct of_i8_i8){r6_0_0, 0};
    struct of_i8_i8 r18_fca_1_insert = (struct of_i8_i8){r18_fca_0_insert.f0, r6_4_0};
    return r18_fca_1_insert;
}

/* mmc_identify::sd::inquire::<#1bed76fd314cf36e> */
static void sd_inquire(uint8_t *a0, uint8_t *a1, bool a2)
{
    KELIFANDRO_ROOM uint8_t r0[12];
    KELIFANDRO_ROOM uint8_t r1[8];
    host_ask_ocr(r1, a1, 0u, a2 ? UINT32_C(0x40300000) : UINT32_C(0x300000));
    judging_inquired(r0, r1);
    *a0 = *r0;
    a0[1] = r0[1];
    store32(a0 + 4, (uint32_t)r0[4]);
    store32(a0 + 8, load32_aligned(r0 + 8));
    return;
}

/* mmc_bus::host::ask_ocr::<#1bed76fd314cf36e> */
static void host_ask_ocr(uint8_t *a0, uint8_t *a1, uint8_t a2, uint32_t a3)
{
    KELIFANDRO_ROOM uint8_t r4[18];
    KELIFANDRO_ROOM uint8_t r6[6];
    uint32_t r2_8_0;
    uint8_t r2_4_0;
    uint8_t r2_0_0;
    frame_framed(r6, (uint8_t)(((a2 & 1u) != 0) ? 65u : 105u), a3);
    HostBusBus_command(r4, a1, r6, 1u);
    uint8_t v0 = *r4;
    switch (v0) {
    default: {
        trap();
        return;
    }
    case 0u: {
        r2_8_0 = 0u; /* any */
        r2_4_0 = v0;
        r2_0_0 = 1u;
        goto mmc_bus_host_ocr_in_exit;
    }
    case 1u: {
        bool or_cond_not = (r4[1] != 63u) || (r4[6] != 255u);
        r2_8_0 = or_cond_not ? 0u : bswap32(load32(r4 + 2));
        r2_4_0 = 1u;
        r2_0_0 = (uint8_t)or_cond_not;
        goto mmc_bus_host_ocr_in_exit;
    }
    case 2u: {
        r2_8_0 = 0u; /* any */
        r2_4_0 = 1u;
        r2_0_0 = 1u;
        goto mmc_bus_host_ocr_in_exit;
    }
    }
mmc_bus_host_ocr_in_exit: {
    *a0 = r2_0_0;
    a0[1] = r2_4_0;
    store32(a0 + 4, r2_8_0);
    return;
}
}

/* mmc_identify::judging::inquired */
static void judging_inquired(uint8_t *a0, uint8_t *a1)
{
    uint64_t sink25;
    uint32_t sink;
    uint32_t v1 = load32(a1 + 4);
    if (*a1 != 0u) {
        *a0 = 1u;
        a0[1] = 0u;
        sink25 = 4u;
        sink = 0u;
        goto common_ret;
    }
    if ((v1 & UINT32_C(0x80ffffff)) == 0u) {
        *a0 = 0u;
        sink25 = 4u;
        sink = 0u;
        goto common_ret;
    }
    if (!((v1 & UINT32_C(0x300000)) == UINT32_C(0x300000))) {
        *a0 = 1u;
        a0[1] = 1u;
        sink25 = 4u;
        sink = 0u;
        goto common_ret;
    }
    *a0 = 0u;
    store32(a0 + 4, v1 >> 31u);
    sink25 = 8u;
    sink = v1;
common_ret: {
    store32(at(a0, sink25), sink);
    return;
}
}

/* mmc_bus::host::ask_register::<#1bed76fd314cf36e> */
static void host_ask_register(uint8_t *a0, uint8_t *a1, uint8_t a2, uint32_t a3)
{
    KELIFANDRO_ROOM uint8_t r2[18];
    KELIFANDRO_ROOM uint8_t room[16];
    uint8_t *const r7_6_0 = room;
    uint8_t *const r1 = room;
    uint8_t *const r4 = room;
    uint8_t r7_6_4_0;
    uint8_t r5_0_04;
    uint8_t r7_3_0;
    uint8_t r7_6_4_1;
    uint8_t r2_4_0;
    uint8_t r2_0_0;
    frame_framed(r4, (uint8_t)(a2 | 64u), a3);
    HostBusBus_command(r2, a1, r4, (uint8_t)(((uint8_t)(a2 + 253u) < 6u) ? 1u : 2u));
    uint8_t v0 = *r2;
    uint8_t r1_4_1 = r2[2];
    uint8_t r1_7_1 = r2[17];
    if (v0 != 2u) {
        r7_6_4_1 = 0u; /* any */
        r2_4_0 = v0;
        r2_0_0 = 1u;
        goto mmc_bus_host_register_in_exit;
    }
    uint8_t r1_2_1 = r2[1];
    if ((r1_2_1 != 63u) || ((uint8_t)(r1_7_1 & 1u) == 0u)) {
        r7_6_4_0 = 0u; /* any */
        r5_0_04 = 1u;
        r7_3_0 = 1u;
        goto core_result_Result_map_err_9a6c9fbc5e69f3ca_exit;
    }
    *r1 = r1_4_1;
    memcpy(r1 + 1, r2 + 3, 14);
    r1[15] = r1_7_1;
    bool r44 = register_response_check_fits(r1);
    if (!r44) {
        r7_6_4_0 = 0u; /* any */
        r5_0_04 = 1u;
        r7_3_0 = 1u;
        goto core_result_Result_map_err_9a6c9fbc5e69f3ca_exit;
    }
    memcpy(r7_6_0, r2 + 3, 14);
    r7_6_4_0 = r1_7_1;
    r5_0_04 = 0u;
    r7_3_0 = r1_4_1;
core_result_Result_map_err_9a6c9fbc5e69f3ca_exit: {
    r7_6_4_1 = r7_6_4_0;
    r2_4_0 = r7_3_0;
    r2_0_0 = r5_0_04;
}
mmc_bus_host_register_in_exit: {
    *a0 = r2_0_0;
    a0[1] = r2_4_0;
    memcpy(a0 + 2, r7_6_0, 14);
    a0[16] = r7_6_4_1;
    return;
}
}

/* mmc_bus::wait::count_polls::<#1bed76fd314cf36e> */
static void wait_count_polls(uint8_t *a0, uint8_t *a1)
{
    uint64_t r1_08;
    r1_08 = 0u;
join_5: {
    bool r12 = host_poll(a1);
    if (!r12) {
        *a0 = 0u;
        a0[1] = 3u;
        store64(a0 + 8, r1_08);
        goto common_ret;
    }
    uint64_t r27 = r1_08 + 1u;
    if (r27 != 16u) {
        r1_08 = r27;
        goto join_5;
    }
    *a0 = 1u;
    a0[1] = 3u;
}
common_ret: {
    return;
}
}

/* mmc_bus::host::poll::<#1bed76fd314cf36e> */
static bool host_poll(uint8_t *a0)
{
    KELIFANDRO_ROOM uint8_t room[32];
    uint8_t *const r17 = room;
    uint8_t *const r4 = room;
    uint8_t *const r5 = room + 8;
    bool v0;
    uint32_t r5_0;
    bool r3;
    uint32_t r1_011;
    uint32_t r9_0;
    bool r6_0_in;
    v0 = *a0 == 0u;
    switch (a0[168]) {
    default: {
        trap();
        return 0;
    }
    case 0u:
    case 1u: {
        r5_0 = 32000u;
        goto mmc_host_work_Work_micros_exit;
    }
    case 2u: {
        r5_0 = UINT32_C(0x27100);
        goto mmc_host_work_Work_micros_exit;
    }
    case 3u: {
        r5_0 = (uint32_t)umin64((uint64_t)load32(a0 + 172) * 16000u, UINT64_C(0x350c1400)) + UINT32_C(0x98d500);
        goto mmc_host_work_Work_micros_exit;
    }
    }
mmc_host_work_Work_micros_exit: {
    if (!v0) {
        r3 = (a0[22] & 1u) != 0;
        r1_011 = r5_0;
        goto join_5;
    }
    store32_aligned(r5, 0u);
    *r17 = 4u;
    store32(r17 + 1, r5_0);
    Stream_ask(a0 + 4, r17, 5u, r5, 4u);
    uint32_t v4 = load32_aligned(r5);
    r6_0_in = v4 != 0u;
    goto mmc_host_host_bus_HostBusBus_busy_d568f3fc8d51bff2_exit;
}
join_5: {
    uint32_t r6 = CRegistersRegisters_read32(a0 + 4, 36u);
    if (!((r6 & UINT32_C(0x100000)) == 0u)) {
        goto mmc_sdhci_sdhci_SdhciHost_is_busy_d002fd087b3dc1c2_exit;
    }
    if (!r3) {
        r9_0 = 10u;
        goto join_11;
    }
    r9_0 = umin32(umin32(umax32((r5_0 - r1_011) >> 2u, 10u), r1_011), 1000u);
}
join_11: {
    Stream_pause(a0 + 4, r9_0);
    uint32_t r50 = r1_011 - r9_0;
    if (r50 > 9u) {
        r1_011 = r50;
        goto join_5;
    }
    Stream_pause(a0 + 4, r50);
}
mmc_sdhci_sdhci_SdhciHost_is_busy_d002fd087b3dc1c2_exit: {
    uint8_t r8 = StoryRegistersRegisters_read8(a0 + 4, 38u);
    r6_0_in = (uint8_t)(r8 & 16u) == 0u;
}
mmc_host_host_bus_HostBusBus_busy_d568f3fc8d51bff2_exit: {
    *r4 = 3u;
    r4[1] = (uint8_t)r6_0_in;
    Wire_note(a0 + 96, r4);
    return r6_0_in;
}
}

/* mmc_bus::status::check_closing */
static struct of_i8_i8 status_check_closing(uint8_t a0, uint8_t *a1)
{
    uint8_t r0_0_0;
    uint8_t r0_3_0;
    if (*a1 != 0u) {
        r0_0_0 = 1u;
        r0_3_0 = 0u;
        goto return_5;
    }
    uint32_t r2_4_4 = load32(a1 + 4);
    bool r12 = (r2_4_4 & ((a0 == 0u) ? UINT32_C(0xfd39a000) : UINT32_C(0xfd39a080))) == 0u;
    if (((uint32_t)(r2_4_4 & 7936u) == 2304u) && r12) {
        r0_0_0 = 0u;
        r0_3_0 = 0u;
        goto return_5;
    }
    uint32_t r18 = (uint32_t)(r2_4_4 >> 9u) & 15u;
    if (!(r12 && ((r18 + UINT32_C(0xfffffffd)) < 5u))) {
        r0_0_0 = 1u;
        r0_3_0 = 2u;
        goto return_5;
    }
    bool cond_fr = ((uint32_t)(r2_4_4 & 256u) == 0u) || (r18 != 4u);
    r0_0_0 = (uint8_t)(cond_fr != true);
    r0_3_0 = (uint8_t)(cond_fr ? 1u : 2u);
return_5: {
    struct of_i8_i8 r66_fca_0_insert = (struct of_i8_i8){r0_0_0, 0};
    struct of_i8_i8 r66_fca_1_insert = (struct of_i8_i8){r66_fca_0_insert.f0, r0_3_0};
    return r66_fca_1_insert;
}
}

/* mmc_switch::sd::announce::<#1bed76fd314cf36e> */
static uint8_t sd_announce_2(uint8_t *a0, uint16_t a1)
{
    KELIFANDRO_ROOM uint8_t r2[8];
    host_ask(r2, a0, 55u, (uint32_t)a1 << 16u);
    return (uint8_t)((*r2 != 0u) || ((load32_aligned(r2 + 4) & UINT32_C(0xfd39a000)) != 0u));
}

/* mmc_bus::data::receive::<#1bed76fd314cf36e> */
static uint8_t data_receive(uint8_t *a0, uint8_t *a1, uint64_t a2)
{
    KELIFANDRO_ROOM uint8_t room[36];
    uint8_t *const r12 = room;
    uint8_t *const r9 = room;
    KELIFANDRO_ROOM uint8_t r13[36];
    uint8_t r5_0_0;
    uint8_t r0_0_0;
    if (a0[152] != a0[96]) {
        goto then_1;
    }
    if (a0[153] != a0[97]) {
        goto then_1;
    }
    if (!((a0[160] == 1u) && (a2 == (uint64_t)load16(a0 + 162)))) {
        goto then_1;
    }
    if (*a0 != 0u) {
        uint8_t r36 = SdhciHost_read_block(a0 + 4, a1, a2);
        r5_0_0 = r36;
        goto c_host_way_WayHost_read_block_b4302b8119c90b07_exit;
    }
    uint64_t r25 = io_read_full(load32_aligned(a0 + 4), a1, a2);
    r5_0_0 = (uint8_t)((r25 == a2) ? 0u : (uint8_t)((r25 == 0u) ? 2u : 1u));
    goto c_host_way_WayHost_read_block_b4302b8119c90b07_exit;
then_1: {
    a0[188] = 1u;
    r0_0_0 = 2u;
    goto mmc_bus_host_read_block_1bed76fd314cf36e_exit;
}
c_host_way_WayHost_read_block_b4302b8119c90b07_exit: {
    memcpy(r13, a0 + 152, 36);
    HostState_block_passed(r12, r13, r5_0_0 == 0u);
    memcpy(a0 + 152, r12, 36);
    r0_0_0 = r5_0_0;
}
mmc_bus_host_read_block_1bed76fd314cf36e_exit: {
    *r9 = 1u;
    store64_aligned(r9 + 8, a2);
    r9[16] = r0_0_0;
    Wire_note(a0 + 96, r9);
    return (uint8_t)(r0_0_0 != 0u);
}
}

/* mmc_sdhci::sdhci::SdhciHost::read_block::<#d002fd087b3dc1c2> */
static uint8_t SdhciHost_read_block(uint8_t *a0, uint8_t *a1, uint64_t a2)
{
    KELIFANDRO_ROOM uint8_t room[36];
    uint8_t *const r3 = room;
    uint8_t *const r11 = room;
    uint8_t *const r9 = room;
    KELIFANDRO_ROOM uint8_t r10[36];
    uint16_t r1_2_1_1;
    bool r10_0_0_shrunk;
    uint8_t r0_0_0_2;
    uint8_t r0_0_0;
    uint8_t r16 = a0[44];
    uint16_t v0 = load16(a0 + 46);
    uint16_t v1 = load16(a0 + 48);
    watching_watch(r11, a0, 0u, 0u);
    if (*r11 != 1u) {
        command_reset_data(a0);
        r0_0_0 = 2u;
        goto mmc_sdhci_data_read_block_d002fd087b3dc1c2_exit;
    }
    uint32_t r10_21_0 = load32_aligned(r11 + 8);
    if ((uint32_t)(r10_21_0 & 32768u) == 0u) {
        io_read_full(load32_aligned(a0), a1, a2);
        switch (r16) {
        default: {
            trap();
            return 0;
        }
        case 0u: {
            r10_0_0_shrunk = false;
            goto mmc_sdhci_following_following_of_exit;
        }
        case 1u: {
            r1_2_1_1 = v1;
            goto join_5_sink_split;
        }
        case 2u: {
            r1_2_1_1 = v0;
            goto join_5_sink_split;
        }
        }
    }
    command_reset_data(a0);
    r0_0_0 = (uint8_t)(((r10_21_0 & UINT32_C(0x600000)) == 0u) ? 2u : 1u);
    goto mmc_sdhci_data_read_block_d002fd087b3dc1c2_exit;
join_5_sink_split: {
    r10_0_0_shrunk = r1_2_1_1 != 1u;
}
mmc_sdhci_following_following_of_exit: {
    watching_watch(r3, a0, 1u, (uint8_t)r10_0_0_shrunk);
    if (*r3 != 1u) {
        command_reset_data(a0);
        r0_0_0_2 = 2u;
        goto mmc_sdhci_data_see_good_d002fd087b3dc1c2_exit;
    }
    uint32_t r2_21_0 = load32_aligned(r3 + 8);
    if ((uint32_t)(r2_21_0 & 32768u) == 0u) {
        r0_0_0_2 = 0u;
        goto mmc_sdhci_data_see_good_d002fd087b3dc1c2_exit;
    }
    command_reset_data(a0);
    r0_0_0_2 = (uint8_t)(((r2_21_0 & UINT32_C(0x600000)) == 0u) ? 2u : 1u);
}
mmc_sdhci_data_see_good_d002fd087b3dc1c2_exit: {
    r0_0_0 = r0_0_0_2;
}
mmc_sdhci_data_read_block_d002fd087b3dc1c2_exit: {
    memcpy(r10, a0 + 36, 36);
    HostState_block_passed(r9, r10, r0_0_0 == 0u);
    memcpy(a0 + 36, r9, 36);
    return r0_0_0;
}
}

/* mmc_sdhci::watching::watch::<#d002fd087b3dc1c2> */
static void watching_watch(uint8_t *a0, uint8_t *a1, uint8_t a2, uint8_t a3)
{
    KELIFANDRO_ROOM uint8_t room[12];
    uint8_t *const r0_2 = room;
    uint8_t *const r8 = room;
    uint8_t *const r0 = room;
    uint8_t *const r9 = room;
    uint32_t r6_0;
    uint64_t v8;
    uint32_t r49;
    if (!((a1[18] & 1u) != 0)) {
        watching_look_often(r0, a1, a2, a3, (a2 < 2u) ? 2980u : 10980u);
        store32(a0, (uint32_t)*r0);
        store64(a0 + 4, load64(r0 + 4));
        goto common_ret;
    }
    watching_look_often(r9, a1, a2, a3, 2u);
    if (*r9 == 1u) {
        uint64_t r3_0_0 = load64(r9 + 4);
        store32(a0, 1u);
        store64(a0 + 4, r3_0_0);
        goto common_ret;
    }
    Stream_write_register(a1, 4u, 48u, 48u);
    watching_look_often(r8, a1, a2, a3, 1u);
    if (*r8 == 1u) {
        v8 = load64(r8 + 4);
        r49 = 1u;
        goto mmc_sdhci_watching_wait_d002fd087b3dc1c2_exit;
    }
    switch (a2) {
    default: {
        trap();
        return;
    }
    case 0u: {
        r6_0 = 32u;
        goto mmc_sdhci_watching_Sought_interrupts_exit;
    }
    case 1u: {
        r6_0 = (a3 == 0u) ? 2u : 32u;
        goto mmc_sdhci_watching_Sought_interrupts_exit;
    }
    case 2u: {
        r6_0 = 16u;
        goto mmc_sdhci_watching_Sought_interrupts_exit;
    }
    case 3u: {
        r6_0 = (a3 == 0u) ? 2u : 16u;
        goto mmc_sdhci_watching_Sought_interrupts_exit;
    }
    }
mmc_sdhci_watching_Sought_interrupts_exit: {
    uint32_t r16 = r6_0 | UINT32_C(0x7f0000);
    bool switch_2 = a2 < 2u;
    StoryRegistersRegisters_wait(a1, r16, switch_2 ? UINT32_C(0x186a0) : UINT32_C(0x7a120));
    struct of_i8_i32 r44 = watching_look(a1, a2);
    uint8_t r45 = r44.f0;
    uint32_t r46 = r44.f1;
    bool r54 = Sought_is_over(a2, a3, r45, r46);
    if (r54) {
        r0_2[4] = r45;
        store32_aligned(r0_2 + 8, r46);
        v8 = load64(r0_2 + 4);
        r49 = 1u;
        goto mmc_sdhci_watching_wait_d002fd087b3dc1c2_exit;
    }
    if ((r46 & r16) == 0u) {
        v8 = 0u; /* any */
        r49 = 0u;
        goto mmc_sdhci_watching_wait_d002fd087b3dc1c2_exit;
    }
    watching_look_often(r0_2, a1, a2, a3, switch_2 ? 2980u : 10980u);
    v8 = load64(r0_2 + 4);
    r49 = (uint32_t)*r0_2;
}
mmc_sdhci_watching_wait_d002fd087b3dc1c2_exit: {
    store32(a0, r49);
    store64(a0 + 4, v8);
}
common_ret: {
    return;
}
}

/* mmc_sdhci::watching::look_often::<#d002fd087b3dc1c2> */
static void watching_look_often(uint8_t *a0, uint8_t *a1, uint8_t a2, uint8_t a3, uint32_t a4)
{
    uint32_t r3_09;
    r3_09 = 0u;
join_5: {
    struct of_i8_i32 r19 = watching_look(a1, a2);
    uint8_t r20 = r19.f0;
    uint32_t r21 = r19.f1;
    bool r29 = Sought_is_over(a2, a3, r20, r21);
    if (r29) {
        store32(a0, 1u);
        a0[4] = r20;
        store32(a0 + 8, r21);
        goto common_ret;
    }
    Stream_pause(a1, (r3_09 < 1000u) ? 1u : 50u);
    uint32_t r43 = r3_09 + 1u;
    if (r43 != a4) {
        r3_09 = r43;
        goto join_5;
    }
    store32(a0, 0u);
}
common_ret: {
    return;
}
}

/* mmc_sdhci::watching::look::<#d002fd087b3dc1c2> */
static struct of_i8_i32 watching_look(uint8_t *a0, uint8_t a1)
{
    uint8_t r14 = StoryRegistersRegisters_read8(a0, 37u);
    uint8_t r32 = (uint8_t)((uint8_t)(r14 & (uint8_t)((a1 < 2u) ? 8u : 4u)) != 0u);
    uint32_t r6_6 = Stream_read_register(a0, 4u, 48u);
    struct of_i8_i32 r40_fca_0_insert = (struct of_i8_i32){r32, 0};
    struct of_i8_i32 r40_fca_1_insert = (struct of_i8_i32){r40_fca_0_insert.f0, r6_6};
    return r40_fca_1_insert;
}

/* mmc_sdhci::watching::Sought::is_over */
static bool Sought_is_over(uint8_t a0, uint8_t a1, uint8_t a2, uint32_t a3)
{
    bool r5_0_in;
    if (!((uint32_t)(a3 & 32768u) == 0u)) {
        r5_0_in = true;
        goto join_3;
    }
    switch (a0) {
    default: {
        trap();
        return 0;
    }
    case 0u:
    case 2u: {
        r5_0_in = (a2 & 1u) != 0;
        goto join_3;
    }
    case 1u:
    case 3u: {
        r5_0_in = (a1 == 0u) ? ((uint32_t)(a3 & 2u) != 0u) : ((a2 & 1u) != 0);
        goto join_3;
    }
    }
join_3: {
    return r5_0_in;
}
}

/* mmc_host::told::HostState::block_passed */
static void HostState_block_passed(uint8_t *a0, uint8_t *a1, bool a2)
{
    uint8_t r1_2_0;
    uint8_t r1_3_0;
    uint16_t r1_42_0;
    uint8_t r1_83_0;
    uint32_t r1_94_0;
    uint32_t r1_10_0;
    uint32_t r1_11_0;
    uint32_t r1_12_0;
    uint8_t r4_0_0;
    uint16_t r4_5_0;
    uint16_t r4_3_2_0;
    r1_2_0 = a1[3];
    r1_3_0 = a1[4];
    r1_42_0 = load16(a1 + 6);
    uint16_t r1_6_1_0 = load16(a1 + 10);
    uint16_t v0 = load16(a1 + 12);
    r1_83_0 = a1[16];
    r1_94_0 = load32(a1 + 20);
    r1_10_0 = load32(a1 + 24);
    r1_11_0 = load32(a1 + 28);
    r1_12_0 = load32(a1 + 32);
    if (!a2) {
        r4_0_0 = 0u;
        r4_5_0 = 0u; /* any */
        r4_3_2_0 = 0u; /* any */
        goto join_3;
    }
    uint8_t r1_5_0 = a1[8];
    switch (r1_5_0) {
    default: {
        trap();
        return;
    }
    case 1u: {
        if (!(v0 > 1u)) {
            r4_0_0 = 0u;
            r4_5_0 = 0u; /* any */
            r4_3_2_0 = 0u; /* any */
            goto join_3;
        }
        r4_0_0 = 1u;
        r4_5_0 = (uint16_t)(v0 + 65535u);
        r4_3_2_0 = r1_6_1_0;
        goto join_3;
    }
    case 2u: {
        r4_0_0 = (uint8_t)((r1_6_1_0 > 1u) ? 2u : 0u);
        r4_5_0 = 0u; /* any */
        r4_3_2_0 = (uint16_t)(r1_6_1_0 + 65535u);
        goto join_3;
    }
    case 0u: {
        r4_0_0 = r1_5_0;
        r4_5_0 = 0u; /* any */
        r4_3_2_0 = 0u; /* any */
        goto join_3;
    }
    }
join_3: {
    {
        uint8_t moved[3];
        memcpy(moved, a1, 3);
        memcpy(a0, moved, 3);
    }
    a0[3] = (uint8_t)(r1_2_0 & 1u);
    a0[4] = (uint8_t)(r1_3_0 & 1u);
    store16(a0 + 6, r1_42_0);
    store16(a0 + 8, (uint16_t)r4_0_0);
    store16(a0 + 10, r4_3_2_0);
    store16(a0 + 12, r4_5_0);
    store32(a0 + 16, (uint32_t)r1_83_0);
    store32(a0 + 20, r1_94_0);
    store32(a0 + 24, r1_10_0);
    store32(a0 + 28, r1_11_0);
    store32(a0 + 32, r1_12_0);
    return;
}
}

/* mmc_switch::sd::switch_func::<#1bed76fd314cf36e> */
static void sd_switch_func(uint8_t *a0, uint8_t *a1, uint32_t a2)
{
    KELIFANDRO_ROOM uint8_t room[64];
    uint8_t *const r2 = room;
    uint8_t *const r7 = room;
    uint8_t r0_3_0_17;
    host_ask(r7, a1, 6u, a2);
    if (*r7 != 0u) {
        r0_3_0_17 = 0u;
        goto arm_2;
    }
    if (!((load32_aligned(r7 + 4) & UINT32_C(0xfd39a000)) == 0u)) {
        r0_3_0_17 = 2u;
        goto arm_2;
    }
    memset(r2, 0u, 64);
    uint8_t r41 = data_receive(a1, r2, 64u);
    if (r41 != 0u) {
        *a0 = 1u;
        a0[1] = 1u;
        goto common_ret;
    }
    uint8_t r13_0_0 = *r2;
    *a0 = 0u;
    a0[1] = r13_0_0;
    memcpy(a0 + 2, r2 + 1, 63);
    goto common_ret;
arm_2: {
    *a0 = 1u;
    a0[1] = r0_3_0_17;
}
common_ret: {
    return;
}
}

/* mmc_bus::status::confirm::<#1bed76fd314cf36e> */
static struct of_i8_i8 status_confirm(uint8_t *a0, uint8_t a1, uint16_t a2)
{
    struct of_i8_i8 r13 = status_ask_closing(a0, a1, a2);
    uint8_t r22 = r13.f1;
    bool v0 = r13.f0 == 0u;
    uint8_t spec_select = (uint8_t)(v0 ? r22 : 1u);
    uint8_t spec_select3 = (uint8_t)(v0 ? 2u : r22);
    struct of_i8_i8 r37_fca_0_insert = (struct of_i8_i8){spec_select, 0};
    struct of_i8_i8 r37_fca_1_insert = (struct of_i8_i8){r37_fca_0_insert.f0, spec_select3};
    return r37_fca_1_insert;
}

/* mmc_bus::status::ask_closing::<#1bed76fd314cf36e> */
static struct of_i8_i8 status_ask_closing(uint8_t *a0, uint8_t a1, uint16_t a2)
{
    KELIFANDRO_ROOM uint8_t r2[8];
    host_ask(r2, a0, 13u, (uint32_t)a2 << 16u);
    struct of_i8_i8 r9 = status_check_closing(a1, r2);
    return r9;
}

/* mmc_regs::csd::Csd::sectors */
static uint64_t Csd_sectors(uint8_t *a0)
{
    uint64_t r4_0;
    u128 r7_0_0 = load128(a0 + 16);
    switch (*a0) {
    default: {
        trap();
        return 0;
    }
    case 0u: {
        uint64_t r185 = (((uint64_t)((uint64_t)u128_lshr(r7_0_0, 62u).lo & 4095u) + 1u) << (((uint64_t)((uint64_t)((uint64_t)r7_0_0.lo >> 47u) & 7u) + 2u) & 63u)) << (((uint64_t)u128_lshr(r7_0_0, 80u).lo & 15u) & 63u);
        r4_0 = r185 >> 9u;
        goto join_5;
    }
    case 1u: {
        r4_0 = ((uint64_t)u128_lshr(r7_0_0, 38u).lo & UINT64_C(0xfffffc00)) + 1024u;
        goto join_5;
    }
    case 2u: {
        uint64_t r185_19 = (((uint64_t)((uint64_t)u128_lshr(r7_0_0, 62u).lo & 4095u) + 1u) << (((uint64_t)((uint64_t)((uint64_t)r7_0_0.lo >> 47u) & 7u) + 2u) & 63u)) << (((uint64_t)u128_lshr(r7_0_0, 80u).lo & 15u) & 63u);
        r4_0 = r185_19 >> 9u;
        goto join_5;
    }
    }
join_5: {
    return r4_0;
}
}

/* mmc_switch::mmc::switch::<#1bed76fd314cf36e> */
static struct of_i8_i8 mmc_switch(uint8_t *a0, uint16_t a1, uint32_t a2)
{
    KELIFANDRO_ROOM uint8_t room[16];
    uint8_t *const r6 = room;
    uint8_t *const r2 = room;
    uint64_t r24;
    uint64_t r2_05;
    uint8_t r0_0_0_2;
    uint8_t r0_4_0_pn;
    uint8_t r0_0_0;
    uint8_t r0_4_0_pn_pn;
    host_ask(r2, a0, 6u, a2);
    bool v1 = *r2 == 0u;
    uint32_t v2 = load32_aligned(r2 + 4);
    if (!(v1 && ((v2 & UINT32_C(0xfd39a080)) == 0u))) {
        r0_0_0 = 1u;
        r0_4_0_pn_pn = (uint8_t)(v1 ? 2u : 0u);
        goto return_5;
    }
    wait_count_polls(r6, a0);
    if (*r6 != 0u) {
        r0_0_0_2 = 1u;
        r0_4_0_pn = r6[1];
        goto mmc_bus_status_wait_and_confirm_1bed76fd314cf36e_exit;
    }
    uint64_t r1_4_8 = load64_aligned(r6 + 8);
    r24 = 16u - r1_4_8;
    if (r1_4_8 == 16u) {
        r0_0_0_2 = 1u;
        r0_4_0_pn = 2u;
        goto mmc_bus_status_wait_and_confirm_1bed76fd314cf36e_exit;
    }
    r2_05 = 0u;
join_5: {
    struct of_i8_i8 r19 = status_ask_closing(a0, 1u, a1);
    uint8_t r28 = r19.f1;
    if (r19.f0 != 0u) {
        r0_0_0_2 = 1u;
        r0_4_0_pn = r28;
        goto mmc_bus_status_wait_and_confirm_1bed76fd314cf36e_exit;
    }
    if (r28 == 0u) {
        r0_0_0_2 = 0u;
        r0_4_0_pn = 0u; /* any */
        goto mmc_bus_status_wait_and_confirm_1bed76fd314cf36e_exit;
    }
    uint64_t r41 = r2_05 + 1u;
    if (r41 == r24) {
        r0_0_0_2 = 1u;
        r0_4_0_pn = 2u;
        goto mmc_bus_status_wait_and_confirm_1bed76fd314cf36e_exit;
    }
    r2_05 = r41;
    goto join_5;
}
mmc_bus_status_wait_and_confirm_1bed76fd314cf36e_exit: {
    r0_0_0 = r0_0_0_2;
    r0_4_0_pn_pn = r0_4_0_pn;
}
return_5: {
    struct of_i8_i8 r33_fca_0_insert = (struct of_i8_i8){r0_0_0, 0};
    struct of_i8_i8 r33_fca_1_insert = (struct of_i8_i8){r33_fca_0_insert.f0, r0_4_0_pn_pn};
    return r33_fca_1_insert;
}
}

/* mmc_record::noted::note */
static void noted_note(uint8_t *a0, uint8_t *a1)
{
    KELIFANDRO_ROOM uint8_t r0[104];
    noted_noted(r0, a1, 1u, 0u);
    memcpy(a0, r0, 104);
    return;
}

/* mmc_record::noted::noted */
static void noted_noted(uint8_t *a0, uint8_t *a1, uint8_t a2, uint8_t a3)
{
    KELIFANDRO_ROOM uint8_t r0_14[16];
    KELIFANDRO_ROOM uint8_t r0_15[16];
    uint8_t r4_0_0 = *a1;
    uint8_t r6_0_0 = a1[1];
    uint8_t r0_0_0 = a1[145];
    uint8_t r0_2_1 = a1[146];
    uint8_t r2 = a1[144];
    uint8_t r11_0_0 = a1[131];
    uint8_t r13_0_0 = a1[132];
    uint8_t r63 = a1[112];
    uint8_t r71 = a1[129];
    uint8_t r79 = a1[130];
    uint8_t r87 = a1[128];
    uint16_t r92 = load16_aligned(a1 + 2);
    u128_to_be_bytes(r0_14, load128(a1 + 16));
    u128_to_be_bytes(r0_15, load128(a1 + 48));
    uint64_t r105 = load64_aligned(a1 + 64);
    uint64_t r109 = load64_aligned(a1 + 72);
    uint64_t r113 = load64_aligned(a1 + 80);
    uint64_t r117 = load64_aligned(a1 + 88);
    uint64_t r121 = load64_aligned(a1 + 96);
    uint64_t r125 = load64_aligned(a1 + 104);
    uint64_t r128 = load64_aligned(a1 + 120);
    *a0 = a2;
    a0[1] = r4_0_0;
    a0[2] = r6_0_0;
    a0[3] = (uint8_t)((r0_0_0 == 1u) ? r0_2_1 : 255u);
    a0[4] = r2;
    a0[5] = (uint8_t)((uint32_t)UINT32_C(0x80401) >> ((((uint32_t)r11_0_0 << 3u) & UINT32_C(0xffffff)) & 31u));
    a0[6] = r13_0_0;
    a0[7] = r63;
    a0[8] = r71;
    a0[9] = r79;
    a0[10] = r87;
    a0[11] = a3;
    store16(a0 + 12, r92);
    memcpy(a0 + 14, r0_14, 16);
    memcpy(a0 + 30, r0_15, 16);
    store64(a0 + 48, r105);
    store64(a0 + 56, r109);
    store64(a0 + 64, r113);
    store64(a0 + 72, r117);
    store64(a0 + 80, r121);
    store64(a0 + 88, r125);
    store64(a0 + 96, r128);
    return;
}

/* core::int::u128::to_be_bytes */
static void u128_to_be_bytes(uint8_t *a0, u128 a1)
{
    *a0 = (uint8_t)u128_lshr(a1, 120u).lo;
    a0[1] = (uint8_t)u128_lshr(a1, 112u).lo;
    a0[2] = (uint8_t)u128_lshr(a1, 104u).lo;
    a0[3] = (uint8_t)u128_lshr(a1, 96u).lo;
    a0[4] = (uint8_t)u128_lshr(a1, 88u).lo;
    a0[5] = (uint8_t)u128_lshr(a1, 80u).lo;
    a0[6] = (uint8_t)u128_lshr(a1, 72u).lo;
    a0[7] = (uint8_t)u128_lshr(a1, 64u).lo;
    a0[8] = (uint8_t)u128_lshr(a1, 56u).lo;
    a0[9] = (uint8_t)u128_lshr(a1, 48u).lo;
    a0[10] = (uint8_t)u128_lshr(a1, 40u).lo;
    a0[11] = (uint8_t)u128_lshr(a1, 32u).lo;
    a0[12] = (uint8_t)u128_lshr(a1, 24u).lo;
    a0[13] = (uint8_t)u128_lshr(a1, 16u).lo;
    a0[14] = (uint8_t)u128_lshr(a1, 8u).lo;
    a0[15] = (uint8_t)a1.lo;
    return;
}

/* kelifandro::hosts::end::<#fb070baa9c134c3e> */
static void hosts_end(uint8_t *a0, bool a2)
{
    KELIFANDRO_ROOM uint8_t r7[88];
    if (*a0 == 0u) {
        goto join_4;
    }
    memcpy(r7, a0 + 4, 88);
    if (!(a2 || (r7[44] != 0u))) {
        goto mmc_sdhci_sdhci_Sdhci_end_d002fd087b3dc1c2_exit;
    }
    command_lose_all(r7);
mmc_sdhci_sdhci_Sdhci_end_d002fd087b3dc1c2_exit: {
    store16_aligned(r7 + 44, 0u);
    CRegisters_give_back(r7);
}
join_4: {
    return;
}
}

/* c_host::registers::CRegisters::give_back */
static void CRegisters_give_back(uint8_t *a0)
{
    KELIFANDRO_ROOM uint8_t r3[6];
    if (a0[28] != 1u) {
        goto join_4;
    }
    uint8_t r0_0_0 = a0[30];
    uint8_t r0_2_0 = a0[31];
    uint8_t r0_3_0 = a0[32];
    uint16_t r0_41_0 = load16(a0 + 34);
    *r3 = 17u;
    r3[1] = (uint8_t)(r0_0_0 & 1u);
    r3[2] = r0_2_0;
    r3[3] = r0_3_0;
    r3[4] = (uint8_t)r0_41_0;
    r3[5] = (uint8_t)(uint16_t)((uint32_t)r0_41_0 >> 8u);
    io_write_all(load32_aligned(a0), r3, 6u);
    store16_aligned(a0 + 28, 0u);
join_4: {
    return;
}
}

/* kelifandro::requests::serve_told::<#fb070baa9c134c3e> */
static uint32_t requests_serve_told(uint8_t *a0, uint8_t *a1, uint8_t *a2, uint8_t *a3, uint8_t *a4, uint64_t a5)
{
    KELIFANDRO_ROOM uint8_t room[400];
    uint8_t *const r4_2 = room;
    uint8_t *const r15_6 = room;
    uint8_t *const r1 = room;
    uint8_t *const r24_2 = room;
    uint8_t *const r8_20 = room;
    uint8_t *const r0_17 = room;
    uint8_t *const r3 = room;
    uint8_t *const r15 = room;
    uint8_t *const r7 = room;
    uint8_t *const r20 = room + 96;
    uint8_t *const r14_15_2_9 = room + 96;
    uint8_t *const r14_15_2_20 = room + 120;
    uint8_t *const r14_15_2_5 = room + 144;
    uint8_t *const r14_15_2_18 = room + 152;
    uint8_t *const r14_15_2_26 = room + 160;
    uint8_t *const r3_31 = room + 192;
    uint8_t *const r14_2 = room + 192;
    uint8_t *const r27 = room + 192;
    uint8_t *const r31_19 = room + 192;
    uint8_t *const r11 = room + 208;
    uint8_t *const r31_17 = room + 208;
    uint8_t *const r14 = room + 208;
    uint8_t *const r7_7_6 = room + 384;
    KELIFANDRO_ROOM uint8_t room_2[192];
    uint8_t *const r14_7 = room_2;
    uint8_t *const r23_6_8_0 = room_2;
    uint8_t *const r21_15 = room_2 + 24;
    uint8_t *const r23_6_4 = room_2 + 48;
    KELIFANDRO_ROOM uint8_t r7_0[144];
    KELIFANDRO_ROOM uint8_t room_3[144];
    uint8_t *const r31_4_3 = room_3;
    uint8_t *const r4 = room_3;
    KELIFANDRO_ROOM uint8_t r7_7_0[13];
    uint8_t r9_0_0;
    uint8_t r10_0_0;
    uint64_t r33;
    uint64_t r35;
    uint16_t r37;
    uint8_t r23;
    u128 r24;
    uint8_t r1_4_16;
    uint8_t r1_5_16;
    uint32_t r3_0_0;
    uint8_t r3_2_0;
    uint8_t r3_4_0;
    uint32_t r5_4_3_0_ph;
    uint8_t r0_0_0_pn;
    uint8_t r0_2_0_pn;
    uint16_t r15_6_8_0_ph;
    uint8_t r15_6_7_0_ph;
    uint8_t r15_6_6_0_ph;
    uint8_t r15_6_9_3_0_ph;
    uint8_t r15_6_9_4_0_ph;
    uint8_t r15_6_9_14_0_ph;
    uint8_t r15_6_9_15_0_ph;
    uint32_t r15_6_9_17_0_ph;
    uint8_t r15_6_9_18_0_ph;
    uint32_t r15_6_9_20_0_ph;
    uint32_t r15_3_2_0_ph;
    bool r7_0_in;
    uint8_t r5_0_0;
    uint64_t spec_select_2;
    uint8_t r7_6_037;
    uint8_t r7_5_036;
    uint8_t r7_4_035;
    uint64_t r10_034;
    uint8_t r7_7_4_033;
    uint8_t r7_7_4_0_lcssa;
    uint8_t r7_4_0_lcssa;
    uint8_t r7_5_0_lcssa;
    uint8_t r7_6_0_lcssa;
    bool v16;
    bool v17;
    uint8_t r31_0_0;
    uint8_t r31_8_0;
    uint8_t r31_11_0;
    uint8_t r31_14_0;
    uint8_t r31_18_0;
    uint8_t r11_pn_50;
    uint32_t r11_0;
    r9_0_0 = *a3;
    r10_0_0 = a3[1];
    r33 = load64_aligned(a3 + 8);
    r35 = load64_aligned(a3 + 16);
    r37 = load16_aligned(a3 + 24);
    *r4 = r9_0_0;
    r4[1] = r10_0_0;
    store64_aligned(r4 + 8, r33);
    store64_aligned(r4 + 16, r35);
    store16_aligned(r4 + 24, r37);
    store_pointer_aligned(r4 + 32, a4);
    store64_aligned(r4 + 40, a5);
    calls_open_card(r7, a0, a1);
    if (*r7 != 1u) {
        r5_4_3_0_ph = UINT32_C(0xffffffff);
        goto kelifandro_requests_serve_by_cf572257659e7b45_exit_thread;
    }
    r23 = r7[16];
    r24 = u128_of(0u, r23);
    r1_4_16 = r7[163];
    r1_5_16 = r7[164];
    given_given_by(r14, a0);
    r3_0_0 = load32_aligned(r14 + 4);
    r3_2_0 = r14[8];
    r3_4_0 = r14[9];
    if (*r14 == 0u) {
        memcpy(r23_6_4, r14 + 10, 6);
        r0_0_0_pn = r3_2_0;
        r0_2_0_pn = r3_4_0;
        r15_6_8_0_ph = 0u; /* any */
        r15_6_7_0_ph = r3_4_0;
        r15_6_6_0_ph = r3_2_0;
        r15_6_9_3_0_ph = 0u; /* any */
        r15_6_9_4_0_ph = 0u; /* any */
        r15_6_9_14_0_ph = 0u; /* any */
        r15_6_9_15_0_ph = 0u; /* any */
        r15_6_9_17_0_ph = 0u; /* any */
        r15_6_9_18_0_ph = 0u; /* any */
        r15_6_9_20_0_ph = 0u; /* any */
        r15_3_2_0_ph = 0u;
        goto arm_5;
    }
    uint8_t r5_9_732_0 = r14[16];
    uint8_t r5_9_8_0 = r14[17];
    uint16_t r5_9_9_0 = load16_aligned(r14 + 18);
    uint8_t r5_8 = a0[15];
    uint32_t r6 = CRegistersRegisters_read32(r14 + 4, 64u);
    uint8_t r28 = StoryRegistersRegisters_read8(r14 + 4, 254u);
    uint32_t r8 = (uint32_t)(r6 >> 8u) & 255u;
    if ((r8 == 0u) || ((r28 < 2u) && (r8 > 63u))) {
        r5_4_3_0_ph = UINT32_C(0xffffffe9);
        goto kelifandro_requests_serve_by_cf572257659e7b45_exit_thread;
    }
    uint8_t spec_select = (uint8_t)((r5_8 == 1u) ? 0u : (uint8_t)(((r6 & UINT32_C(0x40000)) == 0u) ? 1u : 2u));
    uint8_t r7_0_0 = (uint8_t)((uint8_t)(r6 >> 21u) & 1u);
    memset(r21_15 + 4, 0u, 13);
    memcpy(r23_6_4, r14 + 10, 6);
    memcpy(r23_6_8_0, r14 + 20, 20);
    r0_0_0_pn = spec_select;
    r0_2_0_pn = r7_0_0;
    r15_6_8_0_ph = r5_9_9_0;
    r15_6_7_0_ph = r5_9_8_0;
    r15_6_6_0_ph = r5_9_732_0;
    r15_6_9_3_0_ph = r1_4_16;
    r15_6_9_4_0_ph = r1_5_16;
    r15_6_9_14_0_ph = spec_select;
    r15_6_9_15_0_ph = r7_0_0;
    r15_6_9_17_0_ph = r8;
    r15_6_9_18_0_ph = r28;
    r15_6_9_20_0_ph = r6;
    r15_3_2_0_ph = 1u;
    goto arm_5;
kelifandro_requests_serve_by_cf572257659e7b45_exit_thread: {
    r11_0 = r5_4_3_0_ph;
    goto kelifandro_requests_told_fb070baa9c134c3e_exit;
}
arm_5: {
    memcpy(r11 + 16, r7 + 32, 131);
    store128_aligned(r11, r24);
    r11[147] = r1_4_16;
    r11[148] = r1_5_16;
    memcpy(r11 + 149, r7 + 165, 43);
    struct of_i8_i8 r11_17 = rules_sectors_refusal(65535u, r9_0_0, r11 + 16, r10_0_0, r33, (r9_0_0 < 2u) ? a5 : r35);
    if (r11_17.f0 == 1u) {
        r11_pn_50 = r11_17.f1;
        goto arm_1_11;
    }
    if ((r11[128] & 1u) != 0) {
        if (r9_0_0 == 0u) {
            goto join_4;
        }
        r11_pn_50 = 4u;
        goto arm_1_11;
    }
    switch (r9_0_0) {
    default: {
        trap();
        return 0;
    }
    case 0u:
    case 1u: {
        goto join_4;
    }
    case 2u: {
        uint64_t r18 = load64_aligned(r11 + 136);
        uint64_t r19 = r35 + r33;
        if (r18 == 0u) {
            trap();
            return 0;
        }
        if ((r33 % r18) != 0u) {
            r11_pn_50 = (uint8_t)(((uint8_t)(r10_0_0 + 255u) < 2u) ? 5u : 7u);
            goto arm_1_11;
        }
        if ((r19 % r18) == 0u) {
            r7_0_in = false;
            goto mmc_direct_rules_refusal_exit;
        }
        uint64_t r40 = Sizes_of(r11 + 80, r10_0_0);
        r7_0_in = r19 != r40;
        goto mmc_direct_rules_refusal_exit;
    }
    case 3u: {
        bool switch_8 = (uint8_t)(r10_0_0 + 253u) < 254u;
        if (switch_8 && ((r11[145] & 1u) != 0)) {
            goto join_4;
        }
        r11_pn_50 = (uint8_t)(switch_8 ? 6u : 5u);
        goto arm_1_11;
    }
    }
}
mmc_direct_rules_refusal_exit: {
    bool switch_2 = (uint8_t)(r10_0_0 + 255u) < 2u;
    if (switch_2 || r7_0_in) {
        r11_pn_50 = (uint8_t)(switch_2 ? 5u : 7u);
        goto arm_1_11;
    }
}
join_4: {
    store32_aligned(r8_20 + 4, r3_0_0);
    r8_20[8] = r3_2_0;
    r8_20[9] = r3_4_0;
    memcpy(r8_20 + 10, r23_6_4, 6);
    r8_20[16] = r15_6_6_0_ph;
    r8_20[17] = r15_6_7_0_ph;
    store16_aligned(r8_20 + 18, r15_6_8_0_ph);
    memcpy(r8_20 + 20, r23_6_8_0, 20);
    r8_20[40] = r15_6_9_3_0_ph;
    r8_20[41] = r15_6_9_4_0_ph;
    r8_20[42] = 0u;
    r8_20[43] = 0u;
    r8_20[44] = 0u;
    store16_aligned(r8_20 + 46, 0u);
    store16_aligned(r8_20 + 48, 0u);
    store32_aligned(r8_20 + 56, 0u);
    memcpy(r8_20 + 60, r21_15, 17);
    r8_20[77] = r15_6_9_14_0_ph;
    r8_20[78] = r15_6_9_15_0_ph;
    store32_aligned(r8_20 + 80, r15_6_9_17_0_ph);
    r8_20[84] = r15_6_9_18_0_ph;
    store32_aligned(r8_20 + 88, r15_6_9_20_0_ph);
    store32_aligned(r8_20, r15_3_2_0_ph);
    switch (r1_4_16) {
    default: {
        trap();
        return 0;
    }
    case 0u: {
        goto after_2;
    }
    case 1u: {
        if (r0_0_0_pn == 0u) {
            goto after_2;
        }
        r5_0_0 = 1u;
        goto mmc_direct_going_on_go_on_d568f3fc8d51bff2_exit;
    }
    case 2u: {
        r5_0_0 = r0_0_0_pn;
        goto mmc_direct_going_on_go_on_d568f3fc8d51bff2_exit;
    }
    }
}
after_2: {
    r5_0_0 = 0u;
}
mmc_direct_going_on_go_on_d568f3fc8d51bff2_exit: {
    uint8_t a1_2 = (uint8_t)((r1_5_16 == 0u) ? 0u : r0_2_0_pn);
    *r20 = r5_0_0;
    r20[1] = a1_2;
    r20[2] = 0u;
    WayHost_set_ios(r8_20, r20);
    uint8_t r56 = *r8_20;
    memcpy(r14_7 + 4, r8_20 + 4, 88);
    memset(r0_17 + 4, 0u, 13);
    store32_aligned(r14_7, (uint32_t)r56);
    r14_7[96] = r1_4_16;
    r14_7[97] = r1_5_16;
    r14_7[98] = r0_0_0_pn;
    r14_7[99] = r0_2_0_pn;
    store64_aligned(r14_7 + 104, 0u);
    store64_aligned(r14_7 + 144, 0u);
    r14_7[152] = r5_0_0;
    r14_7[153] = a1_2;
    r14_7[154] = 0u;
    r14_7[155] = 0u;
    r14_7[156] = 0u;
    store16_aligned(r14_7 + 158, 0u);
    store16_aligned(r14_7 + 160, 0u);
    store32_aligned(r14_7 + 168, 0u);
    memcpy(r14_7 + 172, r0_17, 17);
    memcpy(r1 + 16, r11 + 16, 176);
    store128_aligned(r1, r24);
    uint16_t narrow = (uint16_t)((r37 == 0u) ? 4u : r37);
    spec_select_2 = (uint64_t)narrow;
    attempts_attempt(r14_2, r14_7, a2, r1, r4);
    if (*r14_2 == 0u) {
        uint8_t r8_2_144 = r14_2[160];
        uint8_t r8_4_145 = r14_2[161];
        uint8_t r8_6_146 = r14_2[162];
        counting_count_done(a2);
        memcpy(r31_4_3, r14_2 + 16, 144);
        v16 = true;
        v17 = false;
        r31_0_0 = 0u;
        r31_8_0 = r8_2_144;
        r31_11_0 = r8_4_145;
        r31_14_0 = r8_6_146;
        r31_18_0 = 0u; /* any */
        goto mmc_direct_retries_keep_trying_46e1a3910cf7860d_exit;
    }
    memcpy(r7_0, r14_2 + 16, 144);
    uint8_t r9_2_0 = r14_2[160];
    uint8_t r9_3_0 = r14_2[161];
    uint8_t r9_4_0 = r14_2[162];
    memcpy(r7_7_0, r14_2 + 163, 13);
    uint8_t r9_6_0 = r14_2[176];
    memcpy(r7_7_6, r14_2 + 177, 15);
    counting_count_failed(a2, r9_6_0);
    if (!(narrow > 1u)) {
        r7_7_4_0_lcssa = r9_6_0;
        r7_4_0_lcssa = r9_2_0;
        r7_5_0_lcssa = r9_3_0;
        r7_6_0_lcssa = r9_4_0;
        goto after_5;
    }
    r7_6_037 = r9_4_0;
    r7_5_036 = r9_3_0;
    r7_4_035 = r9_2_0;
    r10_034 = 1u;
    r7_7_4_033 = r9_6_0;
}
join_9: {
    store128_aligned(r27, u128_of(0u, 1u));
    memcpy(r27 + 16, r7_0, 144);
    r27[160] = r7_4_035;
    r27[161] = r7_5_036;
    r27[162] = r7_6_037;
    memcpy(r27 + 163, r7_7_0, 13);
    r27[176] = r7_7_4_033;
    memcpy(r27 + 177, r7_7_6, 15);
    attempts_attempt(r24_2, r14_7, a2, r27, r4);
    if (*r24_2 == 0u) {
        uint8_t r11_2_144 = r24_2[160];
        uint8_t r11_4_145 = r24_2[161];
        uint8_t r11_6_146 = r24_2[162];
        counting_count_done(a2);
        memcpy(r31_4_3, r24_2 + 16, 144);
        v16 = true;
        v17 = false;
        r31_0_0 = 0u;
        r31_8_0 = r11_2_144;
        r31_11_0 = r11_4_145;
        r31_14_0 = r11_6_146;
        r31_18_0 = 0u; /* any */
        goto mmc_direct_retries_keep_trying_46e1a3910cf7860d_exit;
    }
    memcpy(r7_0, r24_2 + 16, 144);
    uint8_t r12_2_0 = r24_2[160];
    uint8_t r12_3_0 = r24_2[161];
    uint8_t r12_4_0 = r24_2[162];
    memcpy(r7_7_0, r24_2 + 163, 13);
    uint8_t r12_6_0 = r24_2[176];
    memcpy(r7_7_6, r24_2 + 177, 15);
    counting_count_failed(a2, r12_6_0);
    uint64_t r99 = r10_034 + 1u;
    if (r99 == spec_select_2) {
        r7_7_4_0_lcssa = r12_6_0;
        r7_4_0_lcssa = r12_2_0;
        r7_5_0_lcssa = r12_3_0;
        r7_6_0_lcssa = r12_4_0;
        goto after_5;
    }
    r7_6_037 = r12_4_0;
    r7_5_036 = r12_3_0;
    r7_4_035 = r12_2_0;
    r10_034 = r99;
    r7_7_4_033 = r12_6_0;
    goto join_9;
}
after_5: {
    memcpy(r31_4_3, r7_0, 144);
    memcpy(r31_17, r7_7_0, 13);
    memcpy(r31_19, r7_7_6, 15);
    v16 = false;
    v17 = true;
    r31_0_0 = 1u;
    r31_8_0 = r7_4_0_lcssa;
    r31_11_0 = r7_5_0_lcssa;
    r31_14_0 = r7_6_0_lcssa;
    r31_18_0 = r7_7_4_0_lcssa;
}
mmc_direct_retries_keep_trying_46e1a3910cf7860d_exit: {
    store128_aligned(r15, u128_of(0u, r31_0_0));
    memcpy(r15 + 16, r31_4_3, 144);
    r15[160] = r31_8_0;
    r15[161] = r31_11_0;
    r15[162] = r31_14_0;
    memcpy(r15 + 163, r31_17, 13);
    r15[176] = r31_18_0;
    memcpy(r15 + 177, r31_19, 15);
    if (v16) {
        noted_note(r3_31, r15 + 16);
        goto kelifandro_requests_let_go_fb070baa9c134c3e_exit;
    }
    noted_note_broken(r3_31, r15 + 16);
}
kelifandro_requests_let_go_fb070baa9c134c3e_exit: {
    memcpy(a1, r3_31, 104);
    uint32_t r14_15_2_0_0_54 = load32_aligned(r14_7);
    uint8_t r14_15_2_3_0_55 = r14_7[4];
    uint8_t r14_15_2_4_0_56 = r14_7[5];
    memcpy(r14_15_2_5, r14_7 + 6, 6);
    uint8_t r14_15_2_6_0_57 = r14_7[12];
    uint8_t r14_15_2_7_0_58 = r14_7[13];
    uint16_t r14_15_2_8_0_59 = load16_aligned(r14_7 + 14);
    memcpy(r14_15_2_9, r14_7 + 16, 20);
    uint8_t r14_15_2_10_0_60 = r14_7[36];
    uint8_t r14_15_2_11_0_61 = r14_7[37];
    uint8_t r14_15_2_12_0_62 = r14_7[38];
    uint8_t r14_15_2_13_0_63 = r14_7[39];
    uint8_t r14_15_2_14_0_64 = r14_7[40];
    uint8_t r14_15_2_15_0_65 = r14_7[41];
    uint16_t r14_15_2_16_0_66 = load16_aligned(r14_7 + 42);
    uint16_t r14_15_2_17_0_67 = load16_aligned(r14_7 + 44);
    memcpy(r14_15_2_18, r14_7 + 46, 6);
    uint32_t r14_15_2_19_0_68 = load32_aligned(r14_7 + 52);
    memcpy(r14_15_2_20, r14_7 + 56, 17);
    uint8_t r14_15_2_21_0_69 = r14_7[73];
    uint8_t r14_15_2_22_0_70 = r14_7[74];
    uint8_t r14_15_2_23_0_71 = r14_7[75];
    uint32_t r14_15_2_24_0_72 = load32_aligned(r14_7 + 76);
    uint8_t r14_15_2_25_0_73 = r14_7[80];
    memcpy(r14_15_2_26, r14_7 + 81, 3);
    uint32_t r14_15_2_27_0_74 = load32_aligned(r14_7 + 84);
    uint32_t r14_15_2_28_0_0 = load32_aligned(r14_7 + 88);
    memcpy(r4_2 + 6, r14_15_2_5, 6);
    r4_2[4] = r14_15_2_3_0_55;
    r4_2[5] = r14_15_2_4_0_56;
    r4_2[12] = r14_15_2_6_0_57;
    r4_2[13] = r14_15_2_7_0_58;
    store16_aligned(r4_2 + 14, r14_15_2_8_0_59);
    memcpy(r4_2 + 16, r14_15_2_9, 20);
    r4_2[36] = r14_15_2_10_0_60;
    r4_2[37] = r14_15_2_11_0_61;
    r4_2[38] = r14_15_2_12_0_62;
    r4_2[39] = r14_15_2_13_0_63;
    r4_2[40] = r14_15_2_14_0_64;
    r4_2[41] = r14_15_2_15_0_65;
    store16_aligned(r4_2 + 42, r14_15_2_16_0_66);
    store16_aligned(r4_2 + 44, r14_15_2_17_0_67);
    memcpy(r4_2 + 46, r14_15_2_18, 6);
    store32_aligned(r4_2 + 52, r14_15_2_19_0_68);
    memcpy(r4_2 + 56, r14_15_2_20, 17);
    r4_2[73] = r14_15_2_21_0_69;
    r4_2[74] = r14_15_2_22_0_70;
    r4_2[75] = r14_15_2_23_0_71;
    store32_aligned(r4_2 + 76, r14_15_2_24_0_72);
    r4_2[80] = r14_15_2_25_0_73;
    memcpy(r4_2 + 81, r14_15_2_26, 3);
    store32_aligned(r4_2 + 84, r14_15_2_27_0_74);
    store32_aligned(r4_2 + 88, r14_15_2_28_0_0);
    store32_aligned(r4_2, r14_15_2_0_0_54 & 255u);
    hosts_end(r4_2, v17);
    if (v16) {
        r11_0 = 0u;
        goto kelifandro_requests_told_fb070baa9c134c3e_exit;
    }
    r11_0 = UINT32_C(0xfffffff6) - (uint32_t)r31_18_0;
    goto kelifandro_requests_told_fb070baa9c134c3e_exit;
}
arm_1_11: {
    if (r23 == 0u) {
        noted_note(r3, r11 + 16);
        goto arm_5_11;
    }
    noted_note_broken(r3, r11 + 16);
}
arm_5_11: {
    memcpy(a1, r3, 104);
    memcpy(r14_15_2_5, r23_6_4, 6);
    memcpy(r14_15_2_9, r23_6_8_0, 20);
    memcpy(r14_15_2_20, r21_15, 17);
    store32_aligned(r15_6, r15_3_2_0_ph);
    store32_aligned(r15_6 + 4, r3_0_0);
    r15_6[8] = r3_2_0;
    r15_6[9] = r3_4_0;
    memcpy(r15_6 + 10, r14_15_2_5, 6);
    r15_6[16] = r15_6_6_0_ph;
    r15_6[17] = r15_6_7_0_ph;
    store16_aligned(r15_6 + 18, r15_6_8_0_ph);
    memcpy(r15_6 + 20, r14_15_2_9, 20);
    r15_6[40] = r15_6_9_3_0_ph;
    r15_6[41] = r15_6_9_4_0_ph;
    r15_6[42] = 0u;
    r15_6[43] = 0u;
    r15_6[44] = 0u;
    store16_aligned(r15_6 + 46, 0u);
    store16_aligned(r15_6 + 48, 0u);
    memcpy(r15_6 + 50, r14_15_2_18, 6);
    store32_aligned(r15_6 + 56, 0u);
    memcpy(r15_6 + 60, r14_15_2_20, 17);
    r15_6[77] = r15_6_9_14_0_ph;
    r15_6[78] = r15_6_9_15_0_ph;
    store32_aligned(r15_6 + 80, r15_6_9_17_0_ph);
    r15_6[84] = r15_6_9_18_0_ph;
    memcpy(r15_6 + 85, r14_15_2_26, 3);
    store32_aligned(r15_6 + 88, r15_6_9_20_0_ph);
    hosts_end(r15_6, false);
    r11_0 = load32_aligned(at((uint8_t *)bytes_answers_refused_number, (uint64_t)r11_pn_50 * 4u));
}
kelifandro_requests_told_fb070baa9c134c3e_exit: {
    return r11_0;
}
}

/* mmc_record::noted::note_broken */
static void noted_note_broken(uint8_t *a0, uint8_t *a1)
{
    KELIFANDRO_ROOM uint8_t r0[104];
    noted_noted(r0, a1, (uint8_t)(a1[161] | 2u), a1[160]);
    memcpy(a0, r0, 104);
    return;
}

/* mmc_direct::attempts::attempt::<#46e1a3910cf7860d> */
static void attempts_attempt(uint8_t *a0, uint8_t *a1, uint8_t *a2, uint8_t *a3, uint8_t *a4)
{
    KELIFANDRO_ROOM uint8_t room[652];
    uint8_t *const r8_21 = room;
    uint8_t *const r0_6_23 = room;
    uint8_t *const r8_2 = room;
    uint8_t *const r0_6 = room;
    uint8_t *const r8_3 = room;
    uint8_t *const r8_3_2_11 = room;
    uint8_t *const r6 = room;
    uint8_t *const r17 = room;
    uint8_t *const r7 = room;
    uint8_t *const r12_10 = room;
    uint8_t *const r0_8_24 = room + 8;
    uint8_t *const r0_8 = room + 8;
    uint8_t *const r12_13 = room + 8;
    uint8_t *const r0_10_25 = room + 16;
    uint8_t *const r0_10 = room + 16;
    uint8_t *const r12_16 = room + 16;
    uint8_t *const r0_124_26 = room + 24;
    uint8_t *const r0_124 = room + 24;
    uint8_t *const r12_20 = room + 24;
    uint8_t *const r0_13_27 = room + 32;
    uint8_t *const r0_13 = room + 32;
    uint8_t *const r12_21 = room + 32;
    uint8_t *const r9_4 = room + 160;
    uint8_t *const r3 = room + 192;
    uint8_t *const r8 = room + 192;
    uint8_t *const r13_3_2_6 = room + 192;
    uint8_t *const r0_4_2_0 = room + 192;
    uint8_t *const r1_2 = room + 208;
    uint8_t *const r7_2_2 = room + 208;
    uint8_t *const r4 = room + 208;
    uint8_t *const r2_1 = room + 208;
    uint8_t *const r3_2 = room + 208;
    uint8_t *const r17_4 = room + 208;
    uint8_t *const r2_7 = room + 208;
    uint8_t *const r6_3 = room + 208;
    uint8_t *const r3_11 = room + 208;
    uint8_t *const r0_93 = room + 208;
    uint8_t *const r12_13_2 = room + 208;
    uint8_t *const r5_14 = room + 208;
    uint8_t *const r8_4 = room + 208;
    uint8_t *const r17_3 = room + 208;
    uint8_t *const r21 = room + 208;
    uint8_t *const r24 = room + 208;
    uint8_t *const r27_2 = room + 208;
    uint8_t *const r1_18 = room + 208;
    uint8_t *const r0_3_2_22 = room + 208;
    uint8_t *const r2_2 = room + 208;
    uint8_t *const r3_4 = room + 208;
    uint8_t *const r16_4 = room + 208;
    uint8_t *const r2_3 = room + 208;
    uint8_t *const r18_3 = room + 208;
    uint8_t *const r3_5 = room + 208;
    uint8_t *const r12_2 = room + 208;
    uint8_t *const r5_3 = room + 208;
    uint8_t *const r7_3 = room + 208;
    uint8_t *const r19_3 = room + 208;
    uint8_t *const r23_2 = room + 208;
    uint8_t *const r26 = room + 208;
    uint8_t *const r30 = room + 208;
    uint8_t *const r1_6 = room + 208;
    uint8_t *const r0_3_2 = room + 208;
    uint8_t *const r1 = room + 208;
    uint8_t *const r0_11 = room + 216;
    uint8_t *const r2_2_1_5 = room + 224;
    uint8_t *const r1_10 = room + 232;
    uint8_t *const r4_12 = room + 232;
    uint8_t *const r7_7 = room + 232;
    uint8_t *const r1_3 = room + 232;
    uint8_t *const r4_6 = room + 232;
    uint8_t *const r8_6 = room + 232;
    uint8_t *const r7_17 = room + 240;
    uint8_t *const r7_4 = room + 240;
    uint8_t *const r8_5 = room + 248;
    uint8_t *const r9_5 = room + 248;
    uint8_t *const r7_15 = room + 248;
    uint8_t *const r18_2 = room + 248;
    uint8_t *const r9_7_2 = room + 248;
    uint8_t *const r3_3 = room + 248;
    uint8_t *const r20 = room + 248;
    uint8_t *const r4_3 = room + 256;
    uint8_t *const r8_0_4 = room + 256;
    uint8_t *const r10_6 = room + 256;
    uint8_t *const r1_8 = room + 256;
    uint8_t *const r4_4 = room + 256;
    uint8_t *const r8_0 = room + 256;
    uint8_t *const r10_8 = room + 256;
    uint8_t *const r1_5 = room + 256;
    uint8_t *const r3_2_19 = room + 264;
    uint8_t *const r3_2_2 = room + 264;
    uint8_t *const r1_9 = room + 272;
    uint8_t *const r1_4 = room + 272;
    uint8_t *const r4_16 = room + 288;
    uint8_t *const r4_5 = room + 288;
    uint8_t *const r5_8 = room + 304;
    uint8_t *const r6_11 = room + 304;
    uint8_t *const r9_7 = room + 320;
    uint8_t *const r5_20 = room + 320;
    uint8_t *const r5_2 = room + 320;
    uint8_t *const r0_4_2_7 = room + 336;
    uint8_t *const r13_3_2_0 = room + 368;
    uint8_t *const r9_2_1 = room + 368;
    uint8_t *const r12_8 = room + 464;
    uint8_t *const r2_2_1_0_8 = room + 512;
    uint8_t *const r10_10 = room + 512;
    KELIFANDRO_ROOM uint8_t r10_2_1_10[140];
    uint8_t r1_6_16;
    uint8_t r1_7_16;
    uint8_t r1_8_16;
    uint8_t r2_0_0;
    struct of_i8_i8 r28_fca_1_insert_merged;
    uint8_t r71_sink_in;
    uint8_t *r13_3_2_0_sink;
    uint8_t r13_3_2_3_0_sink;
    uint8_t r13_3_2_4_0_sink;
    uint8_t r13_3_2_5_0_sink;
    uint8_t *r13_3_2_6_sink;
    bool r45_sink_off0;
    uint16_t r1_0_3_0;
    uint8_t r1_0_2_0;
    uint8_t r1_0_0_0;
    uint8_t r1_6_146;
    uint8_t r1_4_145;
    uint8_t r1_2_144;
    uint8_t *r9_sink_phi36;
    bool r129_sink;
    uint8_t *sink44_phi;
    uint8_t a3_sink;
    uint8_t *sink43_phi;
    uint8_t r31_9_2_0_sink;
    uint8_t *sink42_phi;
    uint8_t sink;
    uint8_t r8_3_2_0_0;
    uint8_t r8_3_2_7_0;
    uint16_t r8_3_2_9_0;
    uint8_t r0_4_2_6_0_17_sink_75;
    uint8_t r0_4_2_5_0_15_sink_74;
    uint8_t r0_4_2_4_0_13_sink_73;
    uint64_t r54_15;
    uint8_t *r56_16;
    bool r5_92;
    uint16_t r7_93;
    bool r8_94;
    uint32_t r16;
    uint8_t r3_0_0;
    uint8_t r0_0_0;
    uint32_t r31_118;
    uint32_t r1_0_0;
    uint8_t r27;
    uint8_t *r4_sink_99;
    uint8_t r0_0_0_122;
    uint32_t r19_123;
    bool r21_124;
    uint8_t v1;
    uint8_t r38;
    uint64_t r3_0_0_2;
    uint8_t r3_4_0;
    uint8_t r3_6_0;
    uint16_t r3_7_0;
    uint16_t r3_8_0;
    uint8_t r4_0_0_154;
    uint8_t r4_2_0_155;
    uint8_t r28_0_0;
    uint8_t r28_2_0;
    uint8_t r5_0_0_159;
    bool v57;
    bool spec_select_165;
    uint8_t r5_0_0_167;
    uint8_t a1_168;
    uint8_t r29_169;
    uint8_t r1_0_0_181;
    uint64_t r5_1417_1;
    uint8_t r5_13_1;
    uint8_t r5_1014_1;
    uint8_t r5_611_1;
    uint8_t r5_4_1;
    uint64_t r5_1417_0;
    uint8_t r5_13_0;
    uint8_t r5_1014_0;
    uint8_t r5_611_0;
    uint8_t r5_4_0;
    uint8_t r5_0_0;
    uint8_t r1_0_0_2;
    uint8_t r1_4_0_35;
    bool r4_0_0_shrunk;
    uint64_t r4_6_0;
    uint8_t r0_52_0;
    uint8_t r0_3_0;
    uint8_t *sink_phi;
    uint8_t r1_4_0_35_sink;
    uint64_t r4_6_0_sink;
    uint8_t r4_11_0_182;
    uint8_t r4_96_0;
    uint64_t r4_137_0;
    uint8_t r4_55_0;
    uint8_t r4_3_0_183;
    uint8_t r4_0_0_184;
    uint16_t r1_74_0_186;
    uint8_t r1_147_0_187;
    uint32_t r1_168_0_188;
    uint32_t r1_18_0_189;
    uint32_t r1_20_0_190;
    uint32_t r1_22_0_191;
    bool v80;
    uint16_t r8_13_0_198;
    uint16_t r8_11_0_199;
    uint16_t r8_9_0_200;
    uint8_t r8_5_0_201;
    uint8_t r8_3_0_202;
    uint8_t v83;
    uint64_t r10_33_013;
    uint8_t r10_0_012;
    uint8_t *r86_sink;
    uint8_t r13_0_0_0;
    bool r13_5_0;
    uint64_t r13_91_0;
    uint8_t r0_3_0_1619;
    uint32_t r28_148;
    uint32_t r13_5_0_ph;
    uint32_t r13_7_0_ph;
    uint8_t r4_4_0_139;
    uint8_t r4_0_0_140;
    struct of_i8_i8 r27_pn;
    uint8_t r0_0_0_101;
    uint8_t *sink53_phi;
    uint8_t r22_4_0_sink;
    uint8_t *sink52_phi;
    uint8_t r33_sink;
    uint8_t *sink51_phi;
    uint8_t sink_102;
    uint64_t r37;
    uint8_t *r39;
    bool r5;
    uint16_t r7_2;
    uint64_t r15_11;
    bool r8_not;
    uint8_t r29;
    uint8_t *r4_sink;
    uint8_t r0_0_0_2;
    uint32_t r19_2;
    bool r21_2;
    uint8_t v;
    uint8_t r34_2;
    uint8_t r4_0_0;
    uint8_t r4_2_0;
    uint8_t r24_0_0;
    uint8_t r24_2_0;
    uint8_t r5_0_0_2;
    bool v18;
    bool spec_select;
    uint8_t r5_0_0_3;
    uint8_t a1_2;
    uint8_t r29_2;
    uint64_t r4_042;
    uint64_t r6_1813_1;
    uint8_t r6_17_1;
    uint8_t r6_1410_1;
    uint8_t r6_0_1;
    uint64_t r6_1813_0;
    uint8_t r6_17_0;
    uint8_t r6_1410_0;
    uint8_t r6_87_0;
    uint8_t r6_5_0;
    uint8_t r6_0_0;
    uint64_t r4_6_0_40;
    bool r4_0_0_37_shrunk;
    uint8_t r1_4_0_3035;
    uint64_t r7_0;
    uint64_t r4_16_0;
    uint8_t r4_13_0;
    bool r4_11_0;
    uint8_t r4_6_0_2;
    uint8_t r4_3_0;
    uint8_t r4_0_0_2;
    uint16_t r1_74_0;
    uint8_t r1_147_0;
    uint32_t r1_168_0;
    uint32_t r1_18_0;
    uint32_t r1_20_0;
    uint32_t r1_22_0;
    uint16_t r8_13_0;
    uint16_t r8_11_0;
    uint16_t r8_9_0;
    uint8_t r8_5_0;
    uint8_t r8_3_0;
    uint8_t v37;
    uint64_t r10_32_08;
    uint8_t r10_0_07;
    uint8_t *r92_sink;
    uint8_t r14_0_0_0;
    bool r14_5_0;
    uint64_t r14_91_0;
    uint8_t r0_3_0_710;
    uint32_t r28_2;
    uint32_t r14_7_0_ph_ph;
    uint32_t r14_5_0_ph_ph;
    uint8_t r4_4_0;
    uint8_t r4_0_0_3;
    struct of_i8_i8 r30_pn;
    uint8_t r0_0_0_3;
    uint8_t *sink60_phi;
    uint8_t r24_4_0_sink;
    uint8_t *sink59_phi;
    uint8_t r37_sink;
    uint8_t *sink58_phi;
    uint8_t sink_2;
    u128 r87_sink;
    uint8_t *r0_4_2_0_sink;
    uint8_t r0_4_2_4_0_49_sink;
    uint8_t r0_4_2_5_0_51_sink;
    uint8_t r0_4_2_6_0_53_sink;
    uint8_t *r0_4_2_7_sink;
    uint8_t r2 = *a3;
    r1_6_16 = a3[160];
    r1_7_16 = a3[161];
    r1_8_16 = a3[162];
    r2_0_0 = a4[1];
    if (r2 == 0u) {
        memcpy(r7, a3 + 16, 144);
        r7[144] = r1_6_16;
        r1_0_3_0 = load16_aligned(r7 + 2);
        r1_0_2_0 = r7[1];
        r1_0_0_0 = *r7;
        r1_6_146 = r1_8_16;
        r1_4_145 = r1_7_16;
        r1_2_144 = r1_6_16;
        r9_sink_phi36 = r7 + 4;
        goto join_4;
    }
    memcpy(r3, a3 + 16, 144);
    r3[144] = r1_6_16;
    r3[145] = r1_7_16;
    r3[146] = r1_8_16;
    memcpy(r3 + 147, a3 + 163, 29);
    if (!((r3[161] & 1u) != 0)) {
        struct of_i8_i8 r9 = order_restore(a1, r3);
        if (!((r9.f0 == 1u) && (r9.f1 == 0u))) {
            r28_fca_1_insert_merged = r9;
            goto mmc_recovery_order_restore_with_1bed76fd314cf36e_exit;
        }
        struct of_i8_i8 r18 = order_restore(a1, r3);
        r28_fca_1_insert_merged = r18;
        goto mmc_recovery_order_restore_with_1bed76fd314cf36e_exit;
    }
    memcpy(r8, a3 + 16, 144);
    r8[144] = r1_6_16;
    r8[145] = r1_7_16;
    r8[146] = r1_8_16;
    memcpy(r8 + 147, a3 + 163, 29);
    reopening_reset(r6, a1, r8);
    r71_sink_in = *r6;
    r13_3_2_0_sink = r6 + 16;
    r13_3_2_3_0_sink = r6[160];
    r13_3_2_4_0_sink = r6[161];
    r13_3_2_5_0_sink = r6[162];
    r13_3_2_6_sink = r6 + 163;
    r45_sink_off0 = true;
    goto mmc_direct_attempts_settled_1bed76fd314cf36e_exit;
mmc_recovery_order_restore_with_1bed76fd314cf36e_exit: {
    uint8_t r45 = r28_fca_1_insert_merged.f0;
    if (r45 == 0u) {
        memcpy(r13_3_2_0, r3, 144);
        r71_sink_in = 0u;
        r13_3_2_0_sink = r13_3_2_0;
        r13_3_2_3_0_sink = r1_6_16;
        r13_3_2_4_0_sink = r1_7_16;
        r13_3_2_5_0_sink = r1_8_16;
        r13_3_2_6_sink = r13_3_2_6;
        r45_sink_off0 = false;
        goto mmc_direct_attempts_settled_1bed76fd314cf36e_exit;
    }
    reopening_reset(r17, a1, r3);
    uint8_t r64 = *r17;
    memcpy(r13_3_2_0, r17 + 16, 144);
    uint8_t r13_3_2_3_0 = r17[160];
    uint8_t r13_3_2_4_0 = r17[161];
    uint8_t r13_3_2_5_0 = r17[162];
    memcpy(r13_3_2_6, r17 + 163, 29);
    r71_sink_in = r64;
    r13_3_2_0_sink = r13_3_2_0;
    r13_3_2_3_0_sink = r13_3_2_3_0;
    r13_3_2_4_0_sink = r13_3_2_4_0;
    r13_3_2_5_0_sink = r13_3_2_5_0;
    r13_3_2_6_sink = r13_3_2_6;
    r45_sink_off0 = (r45 & 1u) != 0;
}
mmc_direct_attempts_settled_1bed76fd314cf36e_exit: {
    uint8_t r2_2_1_0_0_0 = *r13_3_2_0_sink;
    uint8_t r2_2_1_0_6_0 = r13_3_2_0_sink[1];
    uint16_t r2_2_1_0_7_0 = load16_aligned(r13_3_2_0_sink + 2);
    memcpy(r2_2_1_0_8, r13_3_2_0_sink + 4, 140);
    memcpy(r2_2_1_5, r13_3_2_6_sink, 29);
    uint64_t r8_8_0 = load64(a2 + 56);
    store64(a2 + 48, uadd_sat64(load64(a2 + 48), 1u));
    store64(a2 + 56, r45_sink_off0 ? uadd_sat64(r8_8_0, 1u) : r8_8_0);
    if (r71_sink_in == 0u) {
        *r9_4 = r2_2_1_0_0_0;
        r9_4[1] = r2_2_1_0_6_0;
        store16_aligned(r9_4 + 2, r2_2_1_0_7_0);
        memcpy(r9_4 + 4, r2_2_1_0_8, 140);
        r9_4[144] = r13_3_2_3_0_sink;
        r9_4[145] = r13_3_2_4_0_sink;
        r9_4[146] = r13_3_2_5_0_sink;
        r1_0_3_0 = r2_2_1_0_7_0;
        r1_0_2_0 = r2_2_1_0_6_0;
        r1_0_0_0 = r2_2_1_0_0_0;
        r1_6_146 = r13_3_2_5_0_sink;
        r1_4_145 = r13_3_2_4_0_sink;
        r1_2_144 = r13_3_2_3_0_sink;
        r9_sink_phi36 = r9_4 + 4;
        goto join_4;
    }
    memcpy(r10_2_1_10, r2_2_1_0_8, 140);
    memcpy(r10_10, r2_2_1_5, 29);
    memcpy(r8_3_2_11, r10_2_1_10, 140);
    r8_3_2_0_0 = r2_2_1_0_0_0;
    r8_3_2_7_0 = r2_2_1_0_6_0;
    r8_3_2_9_0 = r2_2_1_0_7_0;
    r0_4_2_6_0_17_sink_75 = r13_3_2_5_0_sink;
    r0_4_2_5_0_15_sink_74 = r13_3_2_4_0_sink;
    r0_4_2_4_0_13_sink_73 = r13_3_2_3_0_sink;
    goto arm_2;
}
join_4: {
    memcpy(r9_7, r9_sink_phi36, 140);
    if (((r1_4_145 == 1u) && (r1_6_146 == r2_0_0)) || (r1_0_0_0 == 0u)) {
        memcpy(r12_8, r9_sink_phi36, 140);
        r129_sink = true;
        sink44_phi = r12_10;
        a3_sink = r1_2_144;
        sink43_phi = r12_13;
        r31_9_2_0_sink = 1u;
        sink42_phi = r12_16;
        sink = r2_0_0;
        goto mmc_direct_attempts_prepared_1bed76fd314cf36e_exit;
    }
    struct of_i8_i8 r98 = mmc_switch(a1, r1_0_3_0, ((uint32_t)(uint8_t)((uint8_t)(r1_2_144 & 248u) | (uint8_t)((uint64_t)UINT64_C(0x7060504020100) >> ((((uint64_t)r2_0_0 << 3u) & UINT64_C(0xffffffffffffff)) & 63u))) << 8u) | UINT32_C(0x3b30000));
    bool v6 = r98.f0 == 0u;
    memcpy(r12_8, r9_7, 140);
    *r12_10 = r1_2_144;
    *r12_13 = (uint8_t)v6;
    r129_sink = v6;
    sink44_phi = r12_16;
    a3_sink = r2_0_0;
    sink43_phi = r12_20;
    r31_9_2_0_sink = (uint8_t)(v6 ? 0u : r98.f1);
    sink42_phi = r12_21;
    sink = 0u;
}
mmc_direct_attempts_prepared_1bed76fd314cf36e_exit: {
    *sink44_phi = a3_sink;
    *sink43_phi = r31_9_2_0_sink;
    *sink42_phi = sink;
    uint8_t r12_10_0_r12_10_0_r12_10_0_r12_10_0_r12_10_0_r12_10_160_r0_4_2_4_0_13 = *r12_10;
    uint8_t r12_13_0_r12_13_0_r12_13_0_r12_13_0_r12_13_0_r12_13_161_r0_4_2_5_0_15 = *r12_13;
    uint8_t r12_16_0_r12_16_0_r12_16_0_r12_16_0_r12_16_0_r12_16_162_r0_4_2_6_0_17 = *r12_16;
    memcpy(r10_2_1_10, r12_8, 140);
    r10_10[13] = *r12_20;
    r10_10[14] = *r12_21;
    memcpy(r8_3_2_11, r10_2_1_10, 140);
    if (!r129_sink) {
        r8_3_2_0_0 = r1_0_0_0;
        r8_3_2_7_0 = r1_0_2_0;
        r8_3_2_9_0 = r1_0_3_0;
        r0_4_2_6_0_17_sink_75 = r12_16_0_r12_16_0_r12_16_0_r12_16_0_r12_16_0_r12_16_162_r0_4_2_6_0_17;
        r0_4_2_5_0_15_sink_74 = r12_13_0_r12_13_0_r12_13_0_r12_13_0_r12_13_0_r12_13_161_r0_4_2_5_0_15;
        r0_4_2_4_0_13_sink_73 = r12_10_0_r12_10_0_r12_10_0_r12_10_0_r12_10_0_r12_10_160_r0_4_2_4_0_13;
        goto arm_2;
    }
    *r9_2_1 = r1_0_0_0;
    r9_2_1[1] = r1_0_2_0;
    store16_aligned(r9_2_1 + 2, r1_0_3_0);
    memcpy(r9_2_1 + 4, r10_2_1_10, 140);
    *r1 = r1_0_0_0;
    r1[1] = r1_0_2_0;
    store16_aligned(r1 + 2, r1_0_3_0);
    memcpy(r1 + 4, r10_2_1_10, 140);
    r1[144] = r12_10_0_r12_10_0_r12_10_0_r12_10_0_r12_10_0_r12_10_160_r0_4_2_4_0_13;
    r1[145] = r12_13_0_r12_13_0_r12_13_0_r12_13_0_r12_13_0_r12_13_161_r0_4_2_5_0_15;
    r1[146] = r12_16_0_r12_16_0_r12_16_0_r12_16_0_r12_16_0_r12_16_162_r0_4_2_6_0_17;
    uint64_t r34 = load64_aligned(a4 + 8);
    switch (*a4) {
    default: {
        trap();
        return;
    }
    case 0u: {
        r37 = load64_aligned(a4 + 40);
        r39 = load_pointer_aligned(a4 + 32);
        *r8_2 = r1_0_0_0;
        r8_2[1] = r1_0_2_0;
        store16_aligned(r8_2 + 2, r1_0_3_0);
        memcpy(r8_2 + 4, r10_2_1_10, 126);
        uint8_t r1_2_0 = r1[130];
        uint32_t r28 = (uint32_t)r37;
        r8_2[130] = r1_2_0;
        memcpy(r8_2 + 131, r10_2_1_10 + 127, 13);
        r8_2[144] = r12_10_0_r12_10_0_r12_10_0_r12_10_0_r12_10_0_r12_10_160_r0_4_2_4_0_13;
        r8_2[145] = r12_13_0_r12_13_0_r12_13_0_r12_13_0_r12_13_0_r12_13_161_r0_4_2_5_0_15;
        r8_2[146] = r12_16_0_r12_16_0_r12_16_0_r12_16_0_r12_16_0_r12_16_162_r0_4_2_6_0_17;
        store64_aligned(r8_2 + 160, r34);
        store32_aligned(r8_2 + 168, r28);
        r8_2[172] = 0u;
        store32_aligned(r8_2 + 176, 1u);
        store32_aligned(r8_2 + 184, (r28 > 1u) ? (uint32_t)(uint8_t)((uint8_t)(r1_2_0 & 1u) ^ 1u) : 1u);
        r5 = r37 == 0u;
        r7_2 = (uint16_t)(r5 ? 1u : (uint16_t)umin64(r37, 65535u));
        r15_11 = r37 << 9u;
        r8_not = r37 != 0u;
        goto loop_2;
    }
    case 1u: {
        r54_15 = load64_aligned(a4 + 40);
        r56_16 = load_pointer_aligned(a4 + 32);
        *r8_21 = r1_0_0_0;
        r8_21[1] = r1_0_2_0;
        store16_aligned(r8_21 + 2, r1_0_3_0);
        memcpy(r8_21 + 4, r10_2_1_10, 126);
        uint8_t r1_2_0_29 = r1[130];
        uint32_t r25 = (uint32_t)r54_15;
        r8_21[130] = r1_2_0_29;
        memcpy(r8_21 + 131, r10_2_1_10 + 127, 13);
        r8_21[144] = r12_10_0_r12_10_0_r12_10_0_r12_10_0_r12_10_0_r12_10_160_r0_4_2_4_0_13;
        r8_21[145] = r12_13_0_r12_13_0_r12_13_0_r12_13_0_r12_13_0_r12_13_161_r0_4_2_5_0_15;
        r8_21[146] = r12_16_0_r12_16_0_r12_16_0_r12_16_0_r12_16_0_r12_16_162_r0_4_2_6_0_17;
        store64_aligned(r8_21 + 160, r34);
        store32_aligned(r8_21 + 168, r25);
        r8_21[172] = 1u;
        store32_aligned(r8_21 + 176, 1u);
        store32_aligned(r8_21 + 184, (r25 > 1u) ? (uint32_t)(uint8_t)((uint8_t)(r1_2_0_29 & 1u) ^ 1u) : 1u);
        r5_92 = r54_15 == 0u;
        r7_93 = (uint16_t)(r5_92 ? 1u : (uint16_t)umin64(r54_15, 65535u));
        r8_94 = r54_15 != 0u;
        goto loop_2_95;
    }
    case 2u: {
        request_erase(r8_3, a1, r1, r34, load64_aligned(a4 + 16), 0u);
        goto kelifandro_request_CRequestRequest_run_1bed76fd314cf36e_exit;
    }
    case 3u: {
        request_erase(r8_3, a1, r1, r34, load64_aligned(a4 + 16), 1u);
        goto kelifandro_request_CRequestRequest_run_1bed76fd314cf36e_exit;
    }
    }
}
arm_2: {
    *r9_2_1 = r8_3_2_0_0;
    r9_2_1[1] = r8_3_2_7_0;
    store16_aligned(r9_2_1 + 2, r8_3_2_9_0);
    memcpy(r9_2_1 + 4, r8_3_2_11, 140);
    r87_sink = u128_of(0u, 1u);
    r0_4_2_0_sink = r9_2_1;
    r0_4_2_4_0_49_sink = r0_4_2_4_0_13_sink_73;
    r0_4_2_5_0_51_sink = r0_4_2_5_0_15_sink_74;
    r0_4_2_6_0_53_sink = r0_4_2_6_0_17_sink_75;
    r0_4_2_7_sink = r10_10;
    goto common_ret;
}
loop_2_95: {
    uint8_t r14 = r8_21[176];
    if (r14 != 1u) {
        if (r14 != 0u) {
            r27 = r8_21[184];
            goto arm_2_98;
        }
        r16 = load32_aligned(r8_21 + 180);
        uint8_t *r14_116 = at(r56_16, (uint64_t)r16 << 9u);
        if (a1[152] != a1[96]) {
            goto then_1;
        }
        if (a1[153] != a1[97]) {
            goto then_1;
        }
        if (a1[160] != 2u) {
            goto then_1;
        }
        if (*a1 != 0u) {
            uint8_t r14_19 = SdhciHost_write_block(a1 + 4, r14_116);
            r3_0_0 = r14_19;
            goto c_host_way_WayHost_write_block_b4302b8119c90b07_exit;
        }
        *r1_2 = 2u;
        r1_2[1] = 0u;
        r1_2[2] = 0u;
        r1_2[3] = 0u;
        Stream_ask(a1 + 4, r14_116, 512u, r1_2, 4u);
        uint32_t v90 = load32_aligned(r1_2);
        r3_0_0 = (uint8_t)((v90 == 0u) ? 0u : (uint8_t)((v90 == 1u) ? 1u : 2u));
        goto c_host_way_WayHost_write_block_b4302b8119c90b07_exit;
    }
    uint8_t r17_2 = r8_21[184];
    if (r17_2 != 1u) {
        r27 = r17_2;
        goto arm_2_98;
    }
    r0_0_0_122 = *r8_21;
    r19_123 = load32_aligned(r8_21 + 168);
    r21_124 = r19_123 == 1u;
    uint8_t r4_126 = r8_21[1];
    uint32_t a1_tr_127 = (uint32_t)load64_aligned(r8_21 + 160);
    v1 = (uint8_t)(r21_124 ? 24u : 25u);
    frame_framed(r5_20, (uint8_t)(v1 | 64u), (r4_126 == 0u) ? (a1_tr_127 << 9u) : a1_tr_127);
    command_read_command(r5_14, r5_20);
    if (*r5_14 != 1u) {
        goto arm_2_6_132;
    }
    r38 = r5_14[4];
    uint32_t r41 = load32_aligned(r5_14 + 8);
    memcpy(r8_4, a1 + 152, 36);
    HostState_command(r7_15, r8_4, r38, r41, r7_93);
    r3_0_0_2 = load64_aligned(r7_15);
    r3_4_0 = r7_15[9];
    r3_6_0 = r7_15[11];
    r3_7_0 = load16_aligned(r7_15 + 12);
    r3_8_0 = load16_aligned(r7_15 + 14);
    r4_0_0_154 = a1[96];
    r4_2_0_155 = a1[97];
    if ((r38 > 63u) || (r7_15[8] != 1u)) {
        goto arm_2_6_132;
    }
    if (!(((r7_15[10] == 2u) && (a1[160] == 0u)) && (r54_15 <= (uint64_t)r3_7_0))) {
        goto arm_2_6_132;
    }
    r28_0_0 = a1[98];
    r28_2_0 = a1[99];
    switch (r4_0_0_154) {
    default: {
        trap();
        return;
    }
    case 0u: {
        goto after_2_232;
    }
    case 1u: {
        if (r28_0_0 == 0u) {
            goto after_2_232;
        }
        r5_0_0_159 = 1u;
        goto mmc_host_limits_are_within_exit_158;
    }
    case 2u: {
        r5_0_0_159 = r28_0_0;
        goto mmc_host_limits_are_within_exit_158;
    }
    }
}
then_1: {
    a1[188] = 1u;
    r0_0_0 = 2u;
    goto mmc_bus_data_offer_1bed76fd314cf36e_exit;
}
c_host_way_WayHost_write_block_b4302b8119c90b07_exit: {
    memcpy(r8_5, a1 + 152, 36);
    HostState_block_passed(r7_2_2, r8_5, r3_0_0 == 0u);
    memcpy(a1 + 152, r7_2_2, 36);
    r0_0_0 = r3_0_0;
}
mmc_bus_data_offer_1bed76fd314cf36e_exit: {
    *r4 = 2u;
    r4[1] = r0_0_0;
    Wire_note(a1 + 96, r4);
    if (r0_0_0 != 0u) {
        *r2_1 = 1u;
        r2_1[1] = 1u;
        store64_aligned(r2_1 + 8, 1u);
        store32_aligned(r2_1 + 16, 1u);
        r4_sink_99 = r2_1;
        goto mmc_transfer_run_Run_write_turn_3ed3384e20182063_exit;
    }
    r31_118 = r16 + 1u;
    if (r31_118 != load32_aligned(r8_21 + 168)) {
        goto join_4_11;
    }
    if ((r16 == 0u) || ((r8_21[130] & 1u) != 0)) {
        r1_0_0 = 4u;
        goto mmc_transfer_moves_after_written_exit;
    }
}
join_4_11: {
    r1_0_0 = 2u;
}
mmc_transfer_moves_after_written_exit: {
    *r2_1 = 0u;
    store64_aligned(r2_1 + 8, 1u);
    store32_aligned(r2_1 + 16, 1u);
    store32_aligned(r2_1 + 24, r1_0_0);
    store32_aligned(r2_1 + 28, r31_118);
    memset(r2_1 + 32, 0u, 16);
    r4_sink_99 = r2_1;
    goto mmc_transfer_run_Run_write_turn_3ed3384e20182063_exit;
}
arm_2_98: {
    store32_aligned(r3_2, (uint32_t)r27);
    store32_aligned(r3_2 + 4, load32_aligned(r8_21 + 188));
    store64_aligned(r3_2 + 8, load64_aligned(r8_21 + 192));
    store64_aligned(r3_2 + 16, load64_aligned(r8_21 + 200));
    steps_step(r4_3, a1, r8_21, r3_2);
    r4_sink_99 = r4_3;
}
mmc_transfer_run_Run_write_turn_3ed3384e20182063_exit: {
    struct of_i8_i8 r38_2 = Run_stand(r8_21, r4_sink_99);
    r27_pn = r38_2;
    goto mmc_transfer_run_Run_write_on_3ed3384e20182063_exit;
}
after_2_232: {
    r5_0_0_159 = 0u;
}
mmc_host_limits_are_within_exit_158: {
    v57 = r4_2_0_155 == 0u;
    if (!((v57 || (r28_2_0 == r4_2_0_155)) && (r5_0_0_159 == r4_0_0_154))) {
        goto arm_2_6_132;
    }
    spec_select_165 = (r38 == 0u) || ((a1[155] & 1u) != 0);
    switch (r4_0_0_154) {
    default: {
        trap();
        return;
    }
    case 0u: {
        goto after_2_229;
    }
    case 1u: {
        if (r28_0_0 == 0u) {
            goto after_2_229;
        }
        r5_0_0_167 = 1u;
        goto mmc_host_limits_limited_exit_166;
    }
    case 2u: {
        r5_0_0_167 = r28_0_0;
        goto mmc_host_limits_limited_exit_166;
    }
    }
}
after_2_229: {
    r5_0_0_167 = 0u;
}
mmc_host_limits_limited_exit_166: {
    a1_168 = (uint8_t)(v57 ? 0u : r28_2_0);
    r29_169 = (uint8_t)spec_select_165;
    if (a1[154] != r29_169) {
        goto then_5_172;
    }
    if (r5_0_0_167 != a1[152]) {
        goto then_5_172;
    }
    if (a1_168 == a1[153]) {
        goto arm_1_173;
    }
}
then_5_172: {
    *r12_13_2 = r5_0_0_167;
    r12_13_2[1] = a1_168;
    r12_13_2[2] = r29_169;
    WayHost_set_ios(a1, r12_13_2);
    *r12_13_2 = r5_0_0_167;
    r12_13_2[1] = a1_168;
    r12_13_2[2] = r29_169;
    memcpy(a1 + 152, r12_13_2, 3);
}
arm_1_173: {
    store64_aligned(r4_16, r3_0_0_2);
    r4_16[8] = 1u;
    r4_16[9] = r3_4_0;
    r4_16[10] = 2u;
    r4_16[11] = r3_6_0;
    store16_aligned(r4_16 + 12, r3_7_0);
    store16_aligned(r4_16 + 14, r3_8_0);
    uint32_t v59 = (uint32_t)r3_0_0_2;
    uint8_t v61 = (uint8_t)(r3_0_0_2 >> 32u);
    uint8_t v63 = (uint8_t)(r3_0_0_2 >> 40u);
    uint32_t r1_7_0_174 = load32_aligned(r4_16 + 12);
    if (*a1 == 0u) {
        memcpy(r1_10 + 6, r4_16 + 6, 6);
        store32_aligned(r1_10, v59);
        r1_10[4] = v61;
        r1_10[5] = v63;
        store32_aligned(r1_10 + 12, r1_7_0_174);
        Stream_send_with(r3_11, a1 + 4, 11u, r1_10, r54_15);
        records_heard_by(r4_12, r1_10[8], r3_11);
        r1_0_0_2 = *r4_12;
        uint8_t r1_3_4 = r4_12[4];
        if (!((r1_0_0_2 == 0u) && (r1_3_4 == 1u))) {
            uint8_t v67 = r4_12[1];
            memcpy(r5_8, r4_12 + 5, 15);
            r0_52_0 = r1_3_4;
            r0_3_0 = v67;
            sink_phi = r0_93;
            r1_4_0_35_sink = 0u;
            r4_6_0_sink = 0u;
            goto mmc_story_host_StoryHostHost_write_with_326b3f3cedcf173d_exit;
        }
        uint8_t r48 = r3_11[18];
        switch (r48) {
        default: {
            r1_4_0_35 = 2u;
            r4_0_0_shrunk = r8_94;
            r4_6_0 = 0u;
            goto c_host_records_moved_by_b4a2e482f58b75af_exit;
        }
        case 0u: {
            r1_4_0_35 = 0u; /* any */
            r4_0_0_shrunk = false;
            r4_6_0 = umin64(r54_15, ((uint64_t)r3_11[17] << 8u) | (uint64_t)r3_11[16]);
            goto c_host_records_moved_by_b4a2e482f58b75af_exit;
        }
        case 1u: {
            r1_4_0_35 = r48;
            r4_0_0_shrunk = r8_94;
            r4_6_0 = 0u;
            goto c_host_records_moved_by_b4a2e482f58b75af_exit;
        }
        }
    }
    store32_aligned(r1_9, v59);
    r1_9[4] = v61;
    r1_9[5] = v63;
    memcpy(r1_9 + 6, r4_16 + 6, 6);
    store32_aligned(r1_9 + 12, r1_7_0_174);
    store32_aligned(r1_8, v59);
    r1_8[4] = v61;
    r1_8[5] = v63;
    memcpy(r1_8 + 6, r4_16 + 6, 6);
    store32_aligned(r1_8 + 12, r1_7_0_174);
    if ((load32_aligned(a1 + 88) & UINT32_C(0x480000)) == 0u) {
        goto arm_2_180;
    }
    if (!((r1_8[10] == 2u) && (r54_15 == (uint64_t)(r1_7_0_174 & 65535u)))) {
        goto arm_2_180;
    }
    struct of_i8_i64 r6_2 = CRegisters_lend(a1 + 4, false, r54_15);
    if (r6_2.f0 != 1u) {
        goto arm_2_180;
    }
    Sdhci_move_blocks(r6_3, a1 + 4, r1_8, r6_2.f1, r54_15);
    CRegisters_give_back(a1 + 4);
    if (*r6_3 != 1u) {
        goto arm_2_180;
    }
    uint8_t r7_3_0_0 = r6_3[8];
    uint8_t r7_3_4_0 = r6_3[9];
    uint8_t r7_3_6_0 = r6_3[12];
    uint8_t r7_3_9_0 = r6_3[32];
    uint64_t r7_3_11_0 = load64_aligned(r6_3 + 40);
    memcpy(r5_8, r6_3 + 13, 15);
    r5_1417_0 = (r7_3_9_0 == 0u) ? r7_3_11_0 : 0u;
    r5_13_0 = 2u;
    r5_1014_0 = r7_3_9_0;
    r5_611_0 = r7_3_6_0;
    r5_4_0 = r7_3_4_0;
    r5_0_0 = r7_3_0_0;
    goto mmc_sdhci_sdhci_SdhciHost_write_with_443cfe9b8d0bcf59_exit;
}
arm_2_180: {
    SdhciHost_send(r2_7, a1 + 4, r1_9);
    r1_0_0_181 = *r2_7;
    uint8_t r1_3_4_2 = r2_7[4];
    if (r5_92 || ((r1_0_0_181 != 0u) || (r1_3_4_2 != 1u))) {
        uint8_t v76 = r2_7[1];
        memcpy(r5_8, r2_7 + 5, 15);
        r5_1417_1 = 0u;
        r5_13_1 = 0u; /* any */
        r5_1014_1 = 0u;
        r5_611_1 = r1_3_4_2;
        r5_4_1 = v76;
        goto mmc_sdhci_sdhci_Sdhci_write_by_port_443cfe9b8d0bcf59_exit;
    }
    uint8_t r48_2 = SdhciHost_write_block(a1 + 4, r56_16);
    uint8_t v78 = r2_7[1];
    memcpy(r5_8, r2_7 + 5, 15);
    if (r48_2 != 0u) {
        r5_1417_1 = 0u; /* any */
        r5_13_1 = r48_2;
        r5_1014_1 = 1u;
        r5_611_1 = 1u;
        r5_4_1 = v78;
        goto mmc_sdhci_sdhci_Sdhci_write_by_port_443cfe9b8d0bcf59_exit;
    }
    r5_1417_1 = 1u;
    r5_13_1 = 0u; /* any */
    r5_1014_1 = 0u;
    r5_611_1 = 1u;
    r5_4_1 = v78;
}
mmc_sdhci_sdhci_Sdhci_write_by_port_443cfe9b8d0bcf59_exit: {
    r5_1417_0 = r5_1417_1;
    r5_13_0 = r5_13_1;
    r5_1014_0 = r5_1014_1;
    r5_611_0 = r5_611_1;
    r5_4_0 = r5_4_1;
    r5_0_0 = r1_0_0_181;
}
mmc_sdhci_sdhci_SdhciHost_write_with_443cfe9b8d0bcf59_exit: {
    r4_11_0_182 = r5_13_0;
    r4_96_0 = r5_1014_0;
    r4_137_0 = r5_1417_0;
    r4_55_0 = r5_611_0;
    r4_3_0_183 = r5_4_0;
    r4_0_0_184 = r5_0_0;
    goto c_host_way_WayHost_write_with_a85d9c08ec0965ce_exit;
}
c_host_records_moved_by_b4a2e482f58b75af_exit: {
    uint8_t v68 = r4_12[1];
    memcpy(r5_8, r4_12 + 5, 15);
    *r0_93 = (uint8_t)r4_0_0_shrunk;
    r0_52_0 = 1u;
    r0_3_0 = v68;
    sink_phi = r0_11;
    r1_4_0_35_sink = r1_4_0_35;
    r4_6_0_sink = r4_6_0;
}
mmc_story_host_StoryHostHost_write_with_326b3f3cedcf173d_exit: {
    *sink_phi = r1_4_0_35_sink;
    uint8_t r0_93_0_r0_93_0_r0_93_0_r0_93_0_r0_93_0_r0_93_0_r0_93_0_r0_93_0_r0_93_0_r0_93_0_r0_93_0_r0_93_0_r0_93_0_r0_93_0_r0_93_0_r0_93_0_r0_93_0_r0_93_0_r0_93_0_r0_93_0_r0_93_0_r0_93_0_r0_93_0_r0_93_0_r0_93_0_r0_93_0_r0_93_0_r0_93_0_r0_93_0_r0_93_0_r0_93_0_r0_93_0 = *r0_93;
    uint8_t r0_11_0_r0_11_0_r0_11_0_r0_11_0_r0_11_0_r0_11_0_r0_11_0_r0_11_0_r0_11_0_r0_11_0_r0_11_0_r0_11_0_r0_11_0_r0_11_0_r0_11_0_r0_11_0_r0_11_0_r0_11_0_r0_11_0_r0_11_0_r0_11_0_r0_11_0_r0_11_0_r0_11_0_r0_11_0_r0_11_0_r0_11_0_r0_11_0_r0_11_0_r0_11_0_r0_11_0_r0_11_0 = *r0_11;
    r4_11_0_182 = r0_11_0_r0_11_0_r0_11_0_r0_11_0_r0_11_0_r0_11_0_r0_11_0_r0_11_0_r0_11_0_r0_11_0_r0_11_0_r0_11_0_r0_11_0_r0_11_0_r0_11_0_r0_11_0_r0_11_0_r0_11_0_r0_11_0_r0_11_0_r0_11_0_r0_11_0_r0_11_0_r0_11_0_r0_11_0_r0_11_0_r0_11_0_r0_11_0_r0_11_0_r0_11_0_r0_11_0_r0_11_0;
    r4_96_0 = r0_93_0_r0_93_0_r0_93_0_r0_93_0_r0_93_0_r0_93_0_r0_93_0_r0_93_0_r0_93_0_r0_93_0_r0_93_0_r0_93_0_r0_93_0_r0_93_0_r0_93_0_r0_93_0_r0_93_0_r0_93_0_r0_93_0_r0_93_0_r0_93_0_r0_93_0_r0_93_0_r0_93_0_r0_93_0_r0_93_0_r0_93_0_r0_93_0_r0_93_0_r0_93_0_r0_93_0_r0_93_0;
    r4_137_0 = r4_6_0_sink;
    r4_55_0 = r0_52_0;
    r4_3_0_183 = r0_3_0;
    r4_0_0_184 = r1_0_0_2;
}
c_host_way_WayHost_write_with_a85d9c08ec0965ce_exit: {
    memcpy(r18_2, a1 + 152, 36);
    HostState_sent(r17_3, r18_2, r4_16, r4_0_0_184 == 0u);
    uint8_t r1_3_0_185 = r17_3[3];
    uint8_t r1_5_0_7 = r17_3[4];
    r1_74_0_186 = load16_aligned(r17_3 + 6);
    r1_147_0_187 = r17_3[16];
    r1_168_0_188 = load32_aligned(r17_3 + 20);
    r1_18_0_189 = load32_aligned(r17_3 + 24);
    r1_20_0_190 = load32_aligned(r17_3 + 28);
    r1_22_0_191 = load32_aligned(r17_3 + 32);
    v80 = r4_96_0 == 1u;
    if (v80) {
        memcpy(r8_0_4, r17_3, 3);
        r8_13_0_198 = 0u; /* any */
        r8_11_0_199 = 0u; /* any */
        r8_9_0_200 = 0u;
        r8_5_0_201 = (uint8_t)(r1_5_0_7 & 1u);
        r8_3_0_202 = (uint8_t)(r1_3_0_185 & 1u);
        goto mmc_host_told_HostState_blocks_passed_b4a2e482f58b75af_exit;
    }
    uint16_t r1_12_0_192 = load16_aligned(r17_3 + 12);
    uint16_t r1_105_0_193 = load16_aligned(r17_3 + 10);
    store16_aligned(r10_6, (uint16_t)r17_3[8]);
    store16_aligned(r10_6 + 2, r1_105_0_193);
    store16_aligned(r10_6 + 4, r1_12_0_192);
    Data_less_by(r9_5, r10_6, r4_137_0);
    memcpy(r8_0_4, r17_3, 3);
    r8_13_0_198 = load16_aligned(r9_5 + 4);
    r8_11_0_199 = load16_aligned(r9_5 + 2);
    r8_9_0_200 = (uint16_t)*r9_5;
    r8_5_0_201 = r1_5_0_7;
    r8_3_0_202 = r1_3_0_185;
}
mmc_host_told_HostState_blocks_passed_b4a2e482f58b75af_exit: {
    memcpy(a1 + 152, r8_0_4, 3);
    a1[155] = r8_3_0_202;
    a1[156] = r8_5_0_201;
    store16(a1 + 158, r1_74_0_186);
    store16(a1 + 160, r8_9_0_200);
    store16(a1 + 162, r8_11_0_199);
    store16(a1 + 164, r8_13_0_198);
    store32(a1 + 168, (uint32_t)r1_147_0_187);
    store32(a1 + 172, r1_168_0_188);
    store32(a1 + 176, r1_18_0_189);
    store32(a1 + 180, r1_20_0_190);
    store32(a1 + 184, r1_22_0_191);
    *r21 = r4_0_0_184;
    r21[1] = r4_3_0_183;
    r21[4] = r4_55_0;
    memcpy(r21 + 5, r5_8, 15);
    replies_spelled(r7_17, r4_16, r21);
    memcpy(r24 + 1, r5_20, 6);
    *r24 = 0u;
    r24[7] = 1u;
    v83 = *r7_17;
    r24[8] = v83;
    memcpy(r24 + 9, r7_17 + 1, 17);
    Wire_note(a1 + 96, r24);
    if (v80) {
        r10_33_013 = 1u;
        r10_0_012 = r4_11_0_182;
        goto then_5_205;
    }
    if (r4_137_0 == 0u) {
        goto mmc_host_noting_note_written_exit;
    }
    r10_33_013 = r4_137_0;
    r10_0_012 = 0u;
}
then_5_205: {
    uint64_t r33_206 = r10_33_013 + UINT64_C(0xffffffffffffffff);
    store64_aligned(a1 + 144, uadd_sat64(r33_206, uadd_sat64(r33_206, load64_aligned(a1 + 144))));
    *r17_4 = 2u;
    r17_4[1] = r10_0_012;
    Wire_note(a1 + 96, r17_4);
}
mmc_host_noting_note_written_exit: {
    r86_sink = r7_17 + 1;
    r13_0_0_0 = v83;
    r13_5_0 = v80;
    r13_91_0 = r4_137_0;
    goto mmc_bus_together_ask_writing_3ed3384e20182063_exit;
}
arm_2_6_132: {
    HostBusBus_begin(r27_2, a1, r5_20, 1u, r7_93);
    r86_sink = r27_2 + 1;
    r13_0_0_0 = *r27_2;
    r13_5_0 = false;
    r13_91_0 = 0u;
}
mmc_bus_together_ask_writing_3ed3384e20182063_exit: {
    memcpy(r3_2_19, r86_sink, 17);
    *r1_18 = r13_0_0_0;
    memcpy(r1_18 + 1, r3_2_19, 17);
    host_response_in(r7_7, r1_18, v1);
    uint8_t r0_0_0_5_133 = *r7_7;
    uint32_t r0_0_4_134 = load32_aligned(r7_7 + 4);
    if (r0_0_0_5_133 != 0u) {
        if (r13_5_0) {
            r4_4_0_139 = 1u;
            r4_0_0_140 = 2u;
            goto mmc_transfer_run_Run_stand_exit_138;
        }
        r0_3_0_1619 = 0u;
        goto arm_6_135;
    }
    if (r13_5_0) {
        r4_4_0_139 = 1u;
        r4_0_0_140 = 2u;
        goto mmc_transfer_run_Run_stand_exit_138;
    }
    if (!((r0_0_4_134 & ((r0_0_0_122 == 0u) ? UINT32_C(0xfdf9a000) : UINT32_C(0xfdf9a080))) == 0u)) {
        r0_3_0_1619 = 2u;
        goto arm_6_135;
    }
    r28_148 = (uint32_t)r13_91_0;
    if (r28_148 == 0u) {
        r13_5_0_ph = 0u;
        r13_7_0_ph = 0u;
        goto arm_5_152;
    }
    r13_5_0_ph = 1u;
    r13_7_0_ph = ((r19_123 == r28_148) && (r21_124 || ((r8_21[130] & 1u) != 0))) ? 4u : 2u;
    goto arm_5_152;
}
arm_6_135: {
    r4_4_0_139 = (uint8_t)((r13_91_0 == 0u) ? r0_3_0_1619 : 1u);
    r4_0_0_140 = 2u;
    goto mmc_transfer_run_Run_stand_exit_138;
}
arm_5_152: {
    store32_aligned(r8_21 + 176, r13_5_0_ph);
    store32_aligned(r8_21 + 180, 0u);
    store32_aligned(r8_21 + 184, r13_7_0_ph);
    store32_aligned(r8_21 + 188, r28_148);
    memset(r8_21 + 192, 0u, 16);
    r4_4_0_139 = 0u; /* any */
    r4_0_0_140 = 0u;
}
mmc_transfer_run_Run_stand_exit_138: {
    struct of_i8_i8 r43_fca_0_insert_141 = (struct of_i8_i8){r4_0_0_140, 0};
    struct of_i8_i8 r43_fca_1_insert_142 = (struct of_i8_i8){r43_fca_0_insert_141.f0, r4_4_0_139};
    r27_pn = r43_fca_1_insert_142;
}
mmc_transfer_run_Run_write_on_3ed3384e20182063_exit: {
    switch (r27_pn.f0) {
    default: {
        goto default_unreachable;
    }
    case 0u: {
        goto loop_2_95;
    }
    case 1u: {
        uint8_t r19_2_0 = r8_21[144];
        uint8_t r19_3_0 = r8_21[145];
        uint8_t r19_4_0 = r8_21[146];
        memcpy(r0_3_2_22, r8_21, 144);
        r0_0_0_101 = 0u;
        sink53_phi = r0_6_23;
        r22_4_0_sink = r19_2_0;
        sink52_phi = r0_8_24;
        r33_sink = r19_3_0;
        sink51_phi = r0_10_25;
        sink_102 = r19_4_0;
        goto kelifandro_request_write_1bed76fd314cf36e_exit;
    }
    case 2u: {
        uint8_t r22_2_0 = r8_21[144];
        uint8_t r22_3_0 = r8_21[145];
        uint8_t r22_4_0 = r8_21[146];
        memcpy(r0_3_2_22, r8_21, 144);
        *r0_6_23 = r22_2_0;
        *r0_8_24 = r22_3_0;
        r0_0_0_101 = 1u;
        sink53_phi = r0_10_25;
        r22_4_0_sink = r22_4_0;
        sink52_phi = r0_124_26;
        r33_sink = r27_pn.f1;
        sink51_phi = r0_13_27;
        sink_102 = 0u;
        goto kelifandro_request_write_1bed76fd314cf36e_exit;
    }
    }
}
kelifandro_request_write_1bed76fd314cf36e_exit: {
    *sink53_phi = r22_4_0_sink;
    *sink52_phi = r33_sink;
    *sink51_phi = sink_102;
    uint8_t r0_6_23_0_r0_6_23_0_r0_6_23_0_r0_6_23_0_r0_6_23_0_r0_6_23_0_r0_6_23_0_r0_6_23_0_r0_6_23_0_r0_6_0_r0_6_0_r0_6_0_r0_6_0_r0_6_16_104 = *r0_6_23;
    uint8_t r0_8_24_0_r0_8_24_0_r0_8_24_0_r0_8_24_0_r0_8_24_0_r0_8_24_0_r0_8_24_0_r0_8_24_0_r0_8_24_0_r0_8_0_r0_8_0_r0_8_0_r0_8_0_r0_8_16_105 = *r0_8_24;
    uint8_t r0_10_25_0_r0_10_25_0_r0_10_25_0_r0_10_25_0_r0_10_25_0_r0_10_25_0_r0_10_25_0_r0_10_25_0_r0_10_25_0_r0_10_0_r0_10_0_r0_10_0_r0_10_0_r0_10_16_106 = *r0_10_25;
    uint8_t r0_124_26_0_r0_124_26_0_r0_124_26_0_r0_124_26_0_r0_124_26_0_r0_124_26_0_r0_124_26_0_r0_124_26_0_r0_124_26_0_r0_124_0_r0_124_0_r0_124_0_r0_124_0_r0_124_16_107 = *r0_124_26;
    uint8_t r0_13_27_0_r0_13_27_0_r0_13_27_0_r0_13_27_0_r0_13_27_0_r0_13_27_0_r0_13_27_0_r0_13_27_0_r0_13_27_0_r0_13_0_r0_13_0_r0_13_0_r0_13_0_r0_13_16_108 = *r0_13_27;
    store128_aligned(r8_3, u128_of(0u, r0_0_0_101));
    memcpy(r8_3 + 16, r0_3_2_22, 144);
    r8_3[160] = r0_6_23_0_r0_6_23_0_r0_6_23_0_r0_6_23_0_r0_6_23_0_r0_6_23_0_r0_6_23_0_r0_6_23_0_r0_6_23_0_r0_6_0_r0_6_0_r0_6_0_r0_6_0_r0_6_16_104;
    r8_3[161] = r0_8_24_0_r0_8_24_0_r0_8_24_0_r0_8_24_0_r0_8_24_0_r0_8_24_0_r0_8_24_0_r0_8_24_0_r0_8_24_0_r0_8_0_r0_8_0_r0_8_0_r0_8_0_r0_8_16_105;
    r8_3[162] = r0_10_25_0_r0_10_25_0_r0_10_25_0_r0_10_25_0_r0_10_25_0_r0_10_25_0_r0_10_25_0_r0_10_25_0_r0_10_25_0_r0_10_0_r0_10_0_r0_10_0_r0_10_0_r0_10_16_106;
    r8_3[176] = r0_124_26_0_r0_124_26_0_r0_124_26_0_r0_124_26_0_r0_124_26_0_r0_124_26_0_r0_124_26_0_r0_124_26_0_r0_124_26_0_r0_124_0_r0_124_0_r0_124_0_r0_124_0_r0_124_16_107;
    r8_3[177] = r0_13_27_0_r0_13_27_0_r0_13_27_0_r0_13_27_0_r0_13_27_0_r0_13_27_0_r0_13_27_0_r0_13_27_0_r0_13_27_0_r0_13_0_r0_13_0_r0_13_0_r0_13_0_r0_13_16_108;
    goto kelifandro_request_CRequestRequest_run_1bed76fd314cf36e_exit;
}
loop_2: {
    uint8_t r16_2 = r8_2[176];
    if (r16_2 != 1u) {
        if (r16_2 != 0u) {
            r29 = r8_2[184];
            goto arm_2_2;
        }
        uint32_t r17_5 = load32_aligned(r8_2 + 180);
        uint8_t r23 = data_receive(a1, at(r39, (uint64_t)r17_5 << 9u), 512u);
        if (r23 != 0u) {
            *r2_2 = 1u;
            r2_2[1] = 1u;
            r4_sink = r2_2;
            goto mmc_transfer_run_Run_read_turn_2555c61120d04c34_exit;
        }
        uint32_t r38_3 = r17_5 + 1u;
        uint32_t r10 = load32_aligned(r8_2 + 168);
        bool r12 = r38_3 >= r10;
        uint8_t r16_3 = r8_2[130];
        *r2_2 = 0u;
        store64_aligned(r2_2 + 8, r12 ? ((r10 == 1u) ? 0u : (uint64_t)(uint8_t)(r16_3 ^ 1u)) : 1u);
        store32_aligned(r2_2 + 16, (uint32_t)r12);
        store32_aligned(r2_2 + 20, r38_3);
        store32_aligned(r2_2 + 24, r12 ? 3u : 0u);
        r4_sink = r2_2;
        goto mmc_transfer_run_Run_read_turn_2555c61120d04c34_exit;
    }
    uint8_t r19 = r8_2[184];
    if (r19 != 1u) {
        r29 = r19;
        goto arm_2_2;
    }
    r0_0_0_2 = *r8_2;
    r19_2 = load32_aligned(r8_2 + 168);
    r21_2 = r19_2 == 1u;
    uint8_t r4_2 = r8_2[1];
    uint32_t a1_tr = (uint32_t)load64_aligned(r8_2 + 160);
    v = (uint8_t)(r21_2 ? 17u : 18u);
    frame_framed(r5_2, (uint8_t)(v | 64u), (r4_2 == 0u) ? (a1_tr << 9u) : a1_tr);
    command_read_command(r5_3, r5_2);
    if (*r5_3 != 1u) {
        goto arm_2_6;
    }
    r34_2 = r5_3[4];
    uint32_t r37_2 = load32_aligned(r5_3 + 8);
    memcpy(r7_3, a1 + 152, 36);
    HostState_command(r3_3, r7_3, r34_2, r37_2, r7_2);
    r4_0_0 = a1[96];
    r4_2_0 = a1[97];
    if (r34_2 > 63u) {
        goto arm_2_6;
    }
    if (!((r3_3[10] == 1u) && (a1[160] == 0u))) {
        goto arm_2_6;
    }
    if (!((load16_aligned(r3_3 + 12) == 512u) && (r37 <= (uint64_t)load16_aligned(r3_3 + 14)))) {
        goto arm_2_6;
    }
    r24_0_0 = a1[98];
    r24_2_0 = a1[99];
    switch (r4_0_0) {
    default: {
        trap();
        return;
    }
    case 0u: {
        goto after_2;
    }
    case 1u: {
        if (r24_0_0 == 0u) {
            goto after_2;
        }
        r5_0_0_2 = 1u;
        goto mmc_host_limits_are_within_exit;
    }
    case 2u: {
        r5_0_0_2 = r24_0_0;
        goto mmc_host_limits_are_within_exit;
    }
    }
}
arm_2_2: {
    store32_aligned(r3_4, (uint32_t)r29);
    store32_aligned(r3_4 + 4, load32_aligned(r8_2 + 188));
    store64_aligned(r3_4 + 8, load64_aligned(r8_2 + 192));
    store64_aligned(r3_4 + 16, load64_aligned(r8_2 + 200));
    steps_step(r4_4, a1, r8_2, r3_4);
    r4_sink = r4_4;
}
mmc_transfer_run_Run_read_turn_2555c61120d04c34_exit: {
    struct of_i8_i8 r40 = Run_stand(r8_2, r4_sink);
    r30_pn = r40;
    goto mmc_transfer_run_Run_read_on_2555c61120d04c34_exit;
}
after_2: {
    r5_0_0_2 = 0u;
}
mmc_host_limits_are_within_exit: {
    v18 = r4_2_0 == 0u;
    if (!((v18 || (r24_2_0 == r4_2_0)) && (r5_0_0_2 == r4_0_0))) {
        goto arm_2_6;
    }
    spec_select = (r34_2 == 0u) || ((a1[155] & 1u) != 0);
    switch (r4_0_0) {
    default: {
        trap();
        return;
    }
    case 0u: {
        goto after_2_2;
    }
    case 1u: {
        if (r24_0_0 == 0u) {
            goto after_2_2;
        }
        r5_0_0_3 = 1u;
        goto mmc_host_limits_limited_exit;
    }
    case 2u: {
        r5_0_0_3 = r24_0_0;
        goto mmc_host_limits_limited_exit;
    }
    }
}
after_2_2: {
    r5_0_0_3 = 0u;
}
mmc_host_limits_limited_exit: {
    a1_2 = (uint8_t)(v18 ? 0u : r24_2_0);
    r29_2 = (uint8_t)spec_select;
    if (a1[154] != r29_2) {
        goto then_5;
    }
    if (r5_0_0_3 != a1[152]) {
        goto then_5;
    }
    if (a1_2 == a1[153]) {
        goto arm_1;
    }
}
then_5: {
    *r12_2 = r5_0_0_3;
    r12_2[1] = a1_2;
    r12_2[2] = r29_2;
    WayHost_set_ios(a1, r12_2);
    *r12_2 = r5_0_0_3;
    r12_2[1] = a1_2;
    r12_2[2] = r29_2;
    memcpy(a1 + 152, r12_2, 3);
}
arm_1: {
    memcpy(r4_5, r3_3, 16);
    uint32_t r1_0_0_3 = load32_aligned(r4_5);
    uint8_t r1_4_0 = r4_5[4];
    uint8_t r1_5_0 = r4_5[5];
    uint32_t r1_7_0 = load32_aligned(r4_5 + 12);
    if (*a1 == 0u) {
        memcpy(r1_3 + 6, r4_5 + 6, 6);
        store32_aligned(r1_3, r1_0_0_3);
        r1_3[4] = r1_4_0;
        r1_3[5] = r1_5_0;
        store32_aligned(r1_3 + 12, r1_7_0);
        Stream_send_with(r3_5, a1 + 4, 10u, r1_3, r37);
        records_heard_by(r4_6, r1_3[8], r3_5);
        uint8_t r37_3 = r3_5[18];
        switch (r37_3) {
        default: {
            r4_6_0_40 = 0u;
            r4_0_0_37_shrunk = r8_not;
            r1_4_0_3035 = 2u;
            r7_0 = r37;
            goto c_host_records_touched_by_exit;
        }
        case 0u: {
            uint64_t a1_a0 = umin64(r37, ((uint64_t)r3_5[17] << 8u) | (uint64_t)r3_5[16]);
            r4_6_0_40 = a1_a0;
            r4_0_0_37_shrunk = false;
            r1_4_0_3035 = 0u; /* any */
            r7_0 = a1_a0;
            goto c_host_records_touched_by_exit;
        }
        case 1u: {
            r4_6_0_40 = 0u;
            r4_0_0_37_shrunk = r8_not;
            r1_4_0_3035 = r37_3;
            r7_0 = r37;
            goto c_host_records_touched_by_exit;
        }
        }
    }
    store32_aligned(r1_4, r1_0_0_3);
    r1_4[4] = r1_4_0;
    r1_4[5] = r1_5_0;
    memcpy(r1_4 + 6, r4_5 + 6, 6);
    store32_aligned(r1_4 + 12, r1_7_0);
    store32_aligned(r1_5, r1_0_0_3);
    r1_5[4] = r1_4_0;
    r1_5[5] = r1_5_0;
    memcpy(r1_5 + 6, r4_5 + 6, 6);
    store32_aligned(r1_5 + 12, r1_7_0);
    if ((load32_aligned(a1 + 88) & UINT32_C(0x480000)) == 0u) {
        goto arm_2_3;
    }
    if (!(((r1_5[10] == 1u) && ((uint32_t)(r1_7_0 & 65535u) == 512u)) && (r37 == (uint64_t)(r1_7_0 >> 16u)))) {
        goto arm_2_3;
    }
    struct of_i8_i64 r3_6 = CRegisters_lend(a1 + 4, true, r37);
    if (r3_6.f0 != 1u) {
        goto arm_2_3;
    }
    Sdhci_move_blocks(r18_3, a1 + 4, r1_5, r3_6.f1, r37);
    if (*r18_3 != 1u) {
        CRegisters_give_back(a1 + 4);
        goto arm_2_3;
    }
    if (r5) {
        goto arm_1_2;
    }
    CRegisters_give_back(a1 + 4);
    io_read_full(load32_aligned(a1 + 4), r39, r15_11);
}
arm_1_2: {
    CRegisters_give_back(a1 + 4);
    uint8_t r3_5_4_0_0 = r18_3[8];
    uint8_t r3_5_4_2_0 = r18_3[9];
    uint8_t r3_5_4_4_0 = r18_3[12];
    memcpy(r6_11, r18_3 + 13, 15);
    uint8_t r3_5_4_7_0 = r18_3[32];
    uint8_t r3_5_4_8_0 = r18_3[33];
    uint64_t r3_5_4_10_0 = load64_aligned(r18_3 + 40);
    r6_1813_0 = r3_5_4_10_0;
    r6_17_0 = r3_5_4_8_0;
    r6_1410_0 = r3_5_4_7_0;
    r6_87_0 = r3_5_4_4_0;
    r6_5_0 = r3_5_4_2_0;
    r6_0_0 = r3_5_4_0_0;
    goto mmc_sdhci_sdhci_SdhciHost_read_with_3ddda61d839eace2_exit;
}
arm_2_3: {
    SdhciHost_send(r2_3, a1 + 4, r1_4);
    uint8_t r1_0_0_4 = *r2_3;
    if (r1_0_0_4 != 0u) {
        r6_1813_1 = 0u;
        r6_17_1 = 0u; /* any */
        r6_1410_1 = 0u;
        r6_0_1 = r1_0_0_4;
        goto mmc_sdhci_sdhci_Sdhci_read_by_port_3ddda61d839eace2_exit;
    }
    if (r5) {
        r6_1813_1 = 0u;
        r6_17_1 = 0u; /* any */
        r6_1410_1 = 0u;
        r6_0_1 = 0u;
        goto mmc_sdhci_sdhci_Sdhci_read_by_port_3ddda61d839eace2_exit;
    }
    r4_042 = 0u;
}
join_8: {
    uint8_t r59 = SdhciHost_read_block(a1 + 4, at(r39, r4_042 << 9u), 512u);
    if (r59 != 0u) {
        r6_1813_1 = r37;
        r6_17_1 = r59;
        r6_1410_1 = 1u;
        r6_0_1 = 0u;
        goto mmc_sdhci_sdhci_Sdhci_read_by_port_3ddda61d839eace2_exit;
    }
    uint64_t r82 = r4_042 + 1u;
    if (r82 == r37) {
        r6_1813_1 = r37;
        r6_17_1 = 0u;
        r6_1410_1 = 0u;
        r6_0_1 = 0u;
        goto mmc_sdhci_sdhci_Sdhci_read_by_port_3ddda61d839eace2_exit;
    }
    r4_042 = r82;
    goto join_8;
}
mmc_sdhci_sdhci_Sdhci_read_by_port_3ddda61d839eace2_exit: {
    uint8_t v31 = r2_3[1];
    uint8_t v32 = r2_3[4];
    memcpy(r6_11, r2_3 + 5, 15);
    r6_1813_0 = r6_1813_1;
    r6_17_0 = r6_17_1;
    r6_1410_0 = r6_1410_1;
    r6_87_0 = v32;
    r6_5_0 = v31;
    r6_0_0 = r6_0_1;
}
mmc_sdhci_sdhci_SdhciHost_read_with_3ddda61d839eace2_exit: {
    r4_16_0 = r6_1813_0;
    r4_13_0 = r6_17_0;
    r4_11_0 = r6_1410_0 == 1u;
    r4_6_0_2 = r6_87_0;
    r4_3_0 = r6_5_0;
    r4_0_0_2 = r6_0_0;
    goto c_host_way_WayHost_read_with_26638964995f45d7_exit;
}
c_host_records_touched_by_exit: {
    if (r7_0 == 0u) {
        goto mmc_story_host_StoryHostHost_read_with_ad85f67b87cd1a36_exit;
    }
    io_read_full(load32_aligned(a1 + 4), r39, r7_0 << 9u);
}
mmc_story_host_StoryHostHost_read_with_ad85f67b87cd1a36_exit: {
    uint8_t v21 = *r4_6;
    uint8_t v22 = r4_6[1];
    uint8_t v23 = r4_6[4];
    memcpy(r6_11, r4_6 + 5, 15);
    r4_16_0 = r4_6_0_40;
    r4_13_0 = r1_4_0_3035;
    r4_11_0 = r4_0_0_37_shrunk;
    r4_6_0_2 = v23;
    r4_3_0 = v22;
    r4_0_0_2 = v21;
}
c_host_way_WayHost_read_with_26638964995f45d7_exit: {
    memcpy(r20, a1 + 152, 36);
    HostState_sent(r19_3, r20, r4_5, r4_0_0_2 == 0u);
    uint8_t r1_3_0 = r19_3[3];
    uint8_t r1_5_0_6 = r19_3[4];
    r1_74_0 = load16_aligned(r19_3 + 6);
    r1_147_0 = r19_3[16];
    r1_168_0 = load32_aligned(r19_3 + 20);
    r1_18_0 = load32_aligned(r19_3 + 24);
    r1_20_0 = load32_aligned(r19_3 + 28);
    r1_22_0 = load32_aligned(r19_3 + 32);
    if (r4_11_0) {
        memcpy(r8_0, r19_3, 3);
        r8_13_0 = 0u; /* any */
        r8_11_0 = 0u; /* any */
        r8_9_0 = 0u;
        r8_5_0 = (uint8_t)(r1_5_0_6 & 1u);
        r8_3_0 = (uint8_t)(r1_3_0 & 1u);
        goto mmc_host_told_HostState_blocks_passed_7f0cbf1439b758da_exit;
    }
    uint16_t r1_12_0 = load16_aligned(r19_3 + 12);
    uint16_t r1_105_0 = load16_aligned(r19_3 + 10);
    store16_aligned(r10_8, (uint16_t)r19_3[8]);
    store16_aligned(r10_8 + 2, r1_105_0);
    store16_aligned(r10_8 + 4, r1_12_0);
    Data_less_by(r9_7_2, r10_8, r4_16_0);
    memcpy(r8_0, r19_3, 3);
    r8_13_0 = load16_aligned(r9_7_2 + 4);
    r8_11_0 = load16_aligned(r9_7_2 + 2);
    r8_9_0 = (uint16_t)*r9_7_2;
    r8_5_0 = r1_5_0_6;
    r8_3_0 = r1_3_0;
}
mmc_host_told_HostState_blocks_passed_7f0cbf1439b758da_exit: {
    memcpy(a1 + 152, r8_0, 3);
    a1[155] = r8_3_0;
    a1[156] = r8_5_0;
    store16(a1 + 158, r1_74_0);
    store16(a1 + 160, r8_9_0);
    store16(a1 + 162, r8_11_0);
    store16(a1 + 164, r8_13_0);
    store32(a1 + 168, (uint32_t)r1_147_0);
    store32(a1 + 172, r1_168_0);
    store32(a1 + 176, r1_18_0);
    store32(a1 + 180, r1_20_0);
    store32(a1 + 184, r1_22_0);
    *r23_2 = r4_0_0_2;
    r23_2[1] = r4_3_0;
    r23_2[4] = r4_6_0_2;
    memcpy(r23_2 + 5, r6_11, 15);
    replies_spelled(r7_4, r4_5, r23_2);
    memcpy(r26 + 1, r5_2, 6);
    *r26 = 0u;
    r26[7] = 1u;
    v37 = *r7_4;
    r26[8] = v37;
    memcpy(r26 + 9, r7_4 + 1, 17);
    Wire_note(a1 + 96, r26);
    if (r4_11_0) {
        r10_32_08 = 1u;
        r10_0_07 = r4_13_0;
        goto then_5_2;
    }
    if (r4_16_0 == 0u) {
        goto mmc_host_noting_note_blocks_exit;
    }
    r10_32_08 = r4_16_0;
    r10_0_07 = 0u;
}
then_5_2: {
    store64_aligned(a1 + 144, uadd_sat64(r10_32_08 + UINT64_C(0xffffffffffffffff), load64_aligned(a1 + 144)));
    *r16_4 = 1u;
    store64_aligned(r16_4 + 8, 512u);
    r16_4[16] = r10_0_07;
    Wire_note(a1 + 96, r16_4);
}
mmc_host_noting_note_blocks_exit: {
    r92_sink = r7_4 + 1;
    r14_0_0_0 = v37;
    r14_5_0 = r4_11_0;
    r14_91_0 = r4_16_0;
    goto mmc_bus_together_ask_reading_2555c61120d04c34_exit;
}
arm_2_6: {
    HostBusBus_begin(r30, a1, r5_2, 1u, r7_2);
    r92_sink = r30 + 1;
    r14_0_0_0 = *r30;
    r14_5_0 = false;
    r14_91_0 = 0u;
}
mmc_bus_together_ask_reading_2555c61120d04c34_exit: {
    memcpy(r3_2_2, r92_sink, 17);
    *r1_6 = r14_0_0_0;
    memcpy(r1_6 + 1, r3_2_2, 17);
    host_response_in(r8_6, r1_6, v);
    uint8_t r0_0_0_5 = *r8_6;
    uint32_t r0_0_4 = load32_aligned(r8_6 + 4);
    if (r0_0_0_5 != 0u) {
        if (r14_5_0) {
            r4_4_0 = 1u;
            r4_0_0_3 = 2u;
            goto mmc_transfer_run_Run_stand_exit;
        }
        r0_3_0_710 = 0u;
        goto arm_6;
    }
    if (r14_5_0) {
        r4_4_0 = 1u;
        r4_0_0_3 = 2u;
        goto mmc_transfer_run_Run_stand_exit;
    }
    if (!((r0_0_4 & ((r0_0_0_2 == 0u) ? UINT32_C(0xfdf9a000) : UINT32_C(0xfdf9a080))) == 0u)) {
        r0_3_0_710 = 2u;
        goto arm_6;
    }
    r28_2 = (uint32_t)r14_91_0;
    if (r19_2 > r28_2) {
        r14_7_0_ph_ph = 0u;
        r14_5_0_ph_ph = 0u;
        goto arm_5;
    }
    if (r21_2 || ((r8_2[130] & 1u) != 0)) {
        r4_4_0 = 0u; /* any */
        r4_0_0_3 = 1u;
        goto mmc_transfer_run_Run_stand_exit;
    }
    r14_7_0_ph_ph = 3u;
    r14_5_0_ph_ph = 1u;
    goto arm_5;
}
arm_6: {
    r4_4_0 = (uint8_t)((r14_91_0 == 0u) ? r0_3_0_710 : 1u);
    r4_0_0_3 = 2u;
    goto mmc_transfer_run_Run_stand_exit;
}
arm_5: {
    store32_aligned(r8_2 + 176, r14_5_0_ph_ph);
    store32_aligned(r8_2 + 180, r28_2);
    store32_aligned(r8_2 + 184, r14_7_0_ph_ph);
    r4_4_0 = 0u; /* any */
    r4_0_0_3 = 0u;
}
mmc_transfer_run_Run_stand_exit: {
    struct of_i8_i8 r43_fca_0_insert = (struct of_i8_i8){r4_0_0_3, 0};
    struct of_i8_i8 r43_fca_1_insert = (struct of_i8_i8){r43_fca_0_insert.f0, r4_4_0};
    r30_pn = r43_fca_1_insert;
}
mmc_transfer_run_Run_read_on_2555c61120d04c34_exit: {
    switch (r30_pn.f0) {
    default: {
        goto default_unreachable;
    }
    case 0u: {
        goto loop_2;
    }
    case 1u: {
        uint8_t r21_2_0 = r8_2[144];
        uint8_t r21_3_0 = r8_2[145];
        uint8_t r21_4_0 = r8_2[146];
        memcpy(r0_3_2, r8_2, 144);
        r0_0_0_3 = 0u;
        sink60_phi = r0_6;
        r24_4_0_sink = r21_2_0;
        sink59_phi = r0_8;
        r37_sink = r21_3_0;
        sink58_phi = r0_10;
        sink_2 = r21_4_0;
        goto kelifandro_request_read_1bed76fd314cf36e_exit;
    }
    case 2u: {
        uint8_t r24_2_0_2 = r8_2[144];
        uint8_t r24_3_0 = r8_2[145];
        uint8_t r24_4_0 = r8_2[146];
        memcpy(r0_3_2, r8_2, 144);
        *r0_6 = r24_2_0_2;
        *r0_8 = r24_3_0;
        r0_0_0_3 = 1u;
        sink60_phi = r0_10;
        r24_4_0_sink = r24_4_0;
        sink59_phi = r0_124;
        r37_sink = r30_pn.f1;
        sink58_phi = r0_13;
        sink_2 = 0u;
        goto kelifandro_request_read_1bed76fd314cf36e_exit;
    }
    }
}
kelifandro_request_read_1bed76fd314cf36e_exit: {
    *sink60_phi = r24_4_0_sink;
    *sink59_phi = r37_sink;
    *sink58_phi = sink_2;
    uint8_t r0_6_0_r0_6_0_r0_6_0_r0_6_0_r0_6_0_r0_6_0_r0_6_0_r0_6_0_r0_6_0_r0_6_0_r0_6_0_r0_6_0_r0_6_0_r0_6_16 = *r0_6;
    uint8_t r0_8_0_r0_8_0_r0_8_0_r0_8_0_r0_8_0_r0_8_0_r0_8_0_r0_8_0_r0_8_0_r0_8_0_r0_8_0_r0_8_0_r0_8_0_r0_8_16 = *r0_8;
    uint8_t r0_10_0_r0_10_0_r0_10_0_r0_10_0_r0_10_0_r0_10_0_r0_10_0_r0_10_0_r0_10_0_r0_10_0_r0_10_0_r0_10_0_r0_10_0_r0_10_16 = *r0_10;
    uint8_t r0_124_0_r0_124_0_r0_124_0_r0_124_0_r0_124_0_r0_124_0_r0_124_0_r0_124_0_r0_124_0_r0_124_0_r0_124_0_r0_124_0_r0_124_0_r0_124_16 = *r0_124;
    uint8_t r0_13_0_r0_13_0_r0_13_0_r0_13_0_r0_13_0_r0_13_0_r0_13_0_r0_13_0_r0_13_0_r0_13_0_r0_13_0_r0_13_0_r0_13_0_r0_13_16 = *r0_13;
    store128_aligned(r8_3, u128_of(0u, r0_0_0_3));
    memcpy(r8_3 + 16, r0_3_2, 144);
    r8_3[160] = r0_6_0_r0_6_0_r0_6_0_r0_6_0_r0_6_0_r0_6_0_r0_6_0_r0_6_0_r0_6_0_r0_6_0_r0_6_0_r0_6_0_r0_6_0_r0_6_16;
    r8_3[161] = r0_8_0_r0_8_0_r0_8_0_r0_8_0_r0_8_0_r0_8_0_r0_8_0_r0_8_0_r0_8_0_r0_8_0_r0_8_0_r0_8_0_r0_8_0_r0_8_16;
    r8_3[162] = r0_10_0_r0_10_0_r0_10_0_r0_10_0_r0_10_0_r0_10_0_r0_10_0_r0_10_0_r0_10_0_r0_10_0_r0_10_0_r0_10_0_r0_10_0_r0_10_16;
    r8_3[176] = r0_124_0_r0_124_0_r0_124_0_r0_124_0_r0_124_0_r0_124_0_r0_124_0_r0_124_0_r0_124_0_r0_124_0_r0_124_0_r0_124_0_r0_124_0_r0_124_16;
    r8_3[177] = r0_13_0_r0_13_0_r0_13_0_r0_13_0_r0_13_0_r0_13_0_r0_13_0_r0_13_0_r0_13_0_r0_13_0_r0_13_0_r0_13_0_r0_13_0_r0_13_16;
}
kelifandro_request_CRequestRequest_run_1bed76fd314cf36e_exit: {
    uint8_t r86 = *r8_3;
    memcpy(r0_4_2_0, r8_3 + 16, 144);
    uint8_t r0_4_2_4_0_49 = r8_3[160];
    uint8_t r0_4_2_5_0_51 = r8_3[161];
    uint8_t r0_4_2_6_0_53 = r8_3[162];
    memcpy(r0_4_2_7, r8_3 + 163, 29);
    r87_sink = u128_of(0u, r86);
    r0_4_2_0_sink = r0_4_2_0;
    r0_4_2_4_0_49_sink = r0_4_2_4_0_49;
    r0_4_2_5_0_51_sink = r0_4_2_5_0_51;
    r0_4_2_6_0_53_sink = r0_4_2_6_0_53;
    r0_4_2_7_sink = r0_4_2_7;
}
common_ret: {
    store128(a0, r87_sink);
    memcpy(a0 + 16, r0_4_2_0_sink, 144);
    a0[160] = r0_4_2_4_0_49_sink;
    a0[161] = r0_4_2_5_0_51_sink;
    a0[162] = r0_4_2_6_0_53_sink;
    memcpy(a0 + 163, r0_4_2_7_sink, 29);
    return;
}
default_unreachable: {
    trap();
    return;
}
}

/* mmc_recovery::order::restore::<#1bed76fd314cf36e> */
static struct of_i8_i8 order_restore(uint8_t *a0, uint8_t *a1)
{
    KELIFANDRO_ROOM uint8_t room[16];
    uint8_t *const r1_2 = room;
    uint8_t *const r1_1 = room;
    uint8_t *const r8_2 = room;
    uint8_t *const r1 = room;
    uint8_t *const r7 = room;
    uint8_t r0_4_0_ph;
    uint8_t r0_0_0_3;
    uint8_t r53_pn;
    uint8_t r0_0_0;
    uint8_t r53_pn_pn;
    uint16_t r8 = load16_aligned(a1 + 2);
    order_show_status(r7, a0, r8);
    if (*r7 != 0u) {
        r0_4_0_ph = r7[1];
        goto mmc_recovery_order_end_work_1bed76fd314cf36e_exit_thread;
    }
    uint32_t r15 = (uint32_t)(load32_aligned(r7 + 4) >> 9u) & 15u;
    if (!(r15 < 9u)) {
        r0_4_0_ph = 2u;
        goto mmc_recovery_order_end_work_1bed76fd314cf36e_exit_thread;
    }
    switch ((uint8_t)r15) {
    default: {
        trap();
        return (struct of_i8_i8){0};
    }
    case 4u: {
        goto arm_1;
    }
    case 7u: {
        goto mmc_recovery_order_end_work_1bed76fd314cf36e_exit;
    }
    case 5u:
    case 6u: {
        host_ask(r1, a0, 12u, 0u);
        uint8_t r6 = *r1;
        if (r6 == 0u) {
            goto mmc_recovery_order_end_work_1bed76fd314cf36e_exit;
        }
        r0_4_0_ph = 0u;
        goto mmc_recovery_order_end_work_1bed76fd314cf36e_exit_thread;
    }
    case 0u:
    case 1u:
    case 2u:
    case 3u:
    case 8u: {
        r0_4_0_ph = 2u;
        goto mmc_recovery_order_end_work_1bed76fd314cf36e_exit_thread;
    }
    }
mmc_recovery_order_end_work_1bed76fd314cf36e_exit_thread: {
    r0_0_0 = 1u;
    r53_pn_pn = r0_4_0_ph;
    goto return_5;
}
mmc_recovery_order_end_work_1bed76fd314cf36e_exit: {
    wait_count_polls(r1_2, a0);
    uint8_t r1_0_0_2 = *r1_2;
    uint8_t r1_2_1_4 = r1_2[1];
    if (r1_0_0_2 == 0u) {
        goto arm_1;
    }
    r0_0_0 = 1u;
    r53_pn_pn = r1_2_1_4;
    goto return_5;
}
arm_1: {
    host_ask(r1_1, a0, 16u, 512u);
    uint8_t r6_2 = *r1_1;
    if (r6_2 != 0u) {
        r0_0_0_3 = 1u;
        r53_pn = 4u;
        goto mmc_recovery_order_put_in_order_1bed76fd314cf36e_exit;
    }
    order_show_status(r8_2, a0, load16_aligned(a1 + 2));
    if (*r8_2 != 0u) {
        r0_0_0_3 = 1u;
        r53_pn = r8_2[1];
        goto mmc_recovery_order_put_in_order_1bed76fd314cf36e_exit;
    }
    struct of_i8_i8 r53 = status_confirm(a0, *a1, load16_aligned(a1 + 2));
    r0_0_0_3 = r53.f0;
    r53_pn = r53.f1;
}
mmc_recovery_order_put_in_order_1bed76fd314cf36e_exit: {
    r0_0_0 = r0_0_0_3;
    r53_pn_pn = r53_pn;
}
return_5: {
    struct of_i8_i8 r35_fca_0_insert = (struct of_i8_i8){r0_0_0, 0};
    struct of_i8_i8 r35_fca_1_insert = (struct of_i8_i8){r35_fca_0_insert.f0, r53_pn_pn};
    return r35_fca_1_insert;
}
}

/* mmc_recovery::order::show_status::<#1bed76fd314cf36e> */
static void order_show_status(uint8_t *a0, uint8_t *a1, uint16_t a2)
{
    KELIFANDRO_ROOM uint8_t r2[8];
    host_ask(r2, a1, 13u, (uint32_t)a2 << 16u);
    uint8_t r10 = *r2;
    uint32_t r12 = load32_aligned(r2 + 4);
    *a0 = r10;
    a0[1] = 0u;
    store32(a0 + 4, (r10 == 0u) ? r12 : 0u);
    return;
}

/* mmc_recovery::reopening::reset::<#1bed76fd314cf36e> */
static void reopening_reset(uint8_t *a0, uint8_t *a1, uint8_t *a2)
{
    KELIFANDRO_ROOM uint8_t r3[176];
    KELIFANDRO_ROOM uint8_t room[176];
    uint8_t *const r5 = room;
    uint8_t *const r15_3_2_0 = room;
    KELIFANDRO_ROOM uint8_t room_2[160];
    uint8_t *const r8 = room_2;
    uint8_t *const r4 = room_2;
    KELIFANDRO_ROOM uint8_t r3_2[144];
    uint8_t r15_3_2_3_0;
    uint8_t r15_3_2_5_0;
    uint8_t r15_3_2_7_0;
    uint8_t r15_0_0;
    uint64_t sink17;
    uint8_t r15_3_2_5_0_sink;
    uint64_t sink;
    uint8_t r15_3_2_7_0_sink;
    memcpy(r3, a2, 176);
    opening_initialize_in(r5, a1, 8u);
    if (*r5 != 0u) {
        uint8_t r9_2_0 = r3[144];
        store128(a0, u128_of(0u, 1u));
        memcpy(a0 + 16, r3, 144);
        sink17 = 160u;
        r15_3_2_5_0_sink = r9_2_0;
        sink = 161u;
        r15_3_2_7_0_sink = 0u;
        goto common_ret;
    }
    memcpy(r4, r5 + 16, 144);
    uint8_t v1 = r5[160];
    r4[144] = v1;
    uint8_t v2 = r5[161];
    r4[145] = v2;
    uint8_t v3 = r5[162];
    r4[146] = v3;
    Info_used_as(r3_2, r4, r3);
    uint16_t r4_0_0 = load16_aligned(r3_2);
    uint8_t r4_2_3_0 = r3_2[32];
    u128 r4_2_5_0 = load128_aligned(r3_2 + 48);
    uint8_t v4 = (uint8_t)r4_0_0;
    uint16_t v6 = load16_aligned(r3);
    uint8_t v7 = (uint8_t)v6;
    bool or_cond32 = ((r3_2[112] == r3[112]) && (load64_aligned(r3_2 + 120) == load64_aligned(r3 + 120))) && (r3_2[128] == r3[128]);
    bool or_cond36 = ((or_cond32 && (r3_2[129] == r3[129])) && (r3_2[130] == r3[130])) && ((v4 == v7) && ((uint16_t)(v6 ^ r4_0_0) < 256u));
    bool or_cond39 = ((or_cond36 && u128_eq(load128_aligned(r3_2 + 16), load128_aligned(r3 + 16))) && (r4_2_3_0 == r3[32])) && u128_eq(r4_2_5_0, load128_aligned(r3 + 48));
    bool or_cond42 = ((or_cond39 && (load64_aligned(r3_2 + 64) == load64_aligned(r3 + 64))) && (load64_aligned(r3_2 + 72) == load64_aligned(r3 + 72))) && (load64_aligned(r3_2 + 80) == load64_aligned(r3 + 80));
    bool or_cond45 = ((or_cond42 && (load64_aligned(r3_2 + 88) == load64_aligned(r3 + 88))) && (load64_aligned(r3_2 + 96) == load64_aligned(r3 + 96))) && (load64_aligned(r3_2 + 104) == load64_aligned(r3 + 104));
    bool or_cond47 = (or_cond45 && (r3_2[131] == r3[131])) && ((uint8_t)((v4 == 0u) ? 0u : r3_2[132]) == (uint8_t)((v7 == 0u) ? 0u : r3[132]));
    if (!(or_cond47 && (r4[32] == r4_2_3_0))) {
        goto else_6;
    }
    u128 r4_4_3_0_in = load128_aligned(r4 + 48);
    if (!u128_lt(u128_xor(r4_4_3_0_in, r4_2_5_0), u128_of(0u, 8192u))) {
        goto else_6;
    }
    memcpy(r8, r5 + 16, 144);
    r8[144] = v1;
    r8[145] = v2;
    r8[146] = v3;
    Info_used_as(r15_3_2_0, r8, r3);
    r15_3_2_3_0 = v1;
    r15_3_2_5_0 = v2;
    r15_3_2_7_0 = v3;
    r15_0_0 = 0u;
    goto join_7;
else_6: {
    memcpy(r15_3_2_0, r3, 144);
    r15_3_2_3_0 = r3[144];
    r15_3_2_5_0 = 0u;
    r15_3_2_7_0 = 0u; /* any */
    r15_0_0 = 1u;
}
join_7: {
    store128(a0, u128_of(0u, r15_0_0));
    memcpy(a0 + 16, r15_3_2_0, 144);
    a0[160] = r15_3_2_3_0;
    sink17 = 161u;
    r15_3_2_5_0_sink = r15_3_2_5_0;
    sink = 162u;
    r15_3_2_7_0_sink = r15_3_2_7_0;
}
common_ret: {
    *at(a0, sink17) = r15_3_2_5_0_sink;
    *at(a0, sink) = r15_3_2_7_0_sink;
    a0[176] = 4u;
    a0[177] = 1u;
    return;
}
}

/* mmc_switch::info::Info::used_as */
static void Info_used_as(uint8_t *a0, uint8_t *a1, uint8_t *a2)
{
    KELIFANDRO_ROOM uint8_t r0_4[48];
    KELIFANDRO_ROOM uint8_t r0_3[16];
    KELIFANDRO_ROOM uint8_t r0_6[16];
    KELIFANDRO_ROOM uint8_t r0_9[13];
    uint8_t r7;
    uint8_t r17;
    bool r4_0_off0;
    bool r5_0_off0;
    r7 = a2[32];
    r17 = a2[112];
    if (!((a1[129] & 1u) != 0)) {
        r4_0_off0 = false;
        goto join_3;
    }
    r4_0_off0 = (a2[129] & 1u) != 0;
join_3: {
    if (!((a1[130] & 1u) != 0)) {
        r5_0_off0 = false;
        goto join_6;
    }
    r5_0_off0 = (a2[130] & 1u) != 0;
}
join_6: {
    memcpy(r0_3, a2 + 48, 16);
    memcpy(r0_4, a1 + 64, 48);
    memcpy(r0_6, a1 + 113, 16);
    memcpy(r0_9, a1 + 131, 13);
    {
        uint8_t moved[32];
        memcpy(moved, a1, 32);
        memcpy(a0, moved, 32);
    }
    store128(a0 + 32, u128_of(0u, r7));
    memcpy(a0 + 48, r0_3, 16);
    memcpy(a0 + 64, r0_4, 48);
    a0[112] = r17;
    memcpy(a0 + 113, r0_6, 16);
    a0[129] = (uint8_t)r4_0_off0;
    a0[130] = (uint8_t)r5_0_off0;
    memcpy(a0 + 131, r0_9, 13);
    return;
}
}

/* c_host::stream::Stream::send_with */
static void Stream_send_with(uint8_t *a0, uint8_t *a1, uint8_t a2, uint8_t *a3, uint64_t a4)
{
    KELIFANDRO_ROOM uint8_t r15[24];
    KELIFANDRO_ROOM uint8_t r47[14];
    uint8_t r1_0_0;
    uint32_t r1_21_0;
    uint8_t r1_3_0;
    uint8_t r1_42_0;
    uint8_t r11_41_0_off0;
    uint8_t r11_41_0_off8;
    uint8_t r11_7_0_off0;
    uint8_t r11_7_0_off8;
    r1_0_0 = *a3;
    r1_21_0 = load32(a3 + 4);
    r1_3_0 = a3[8];
    r1_42_0 = a3[10];
    uint16_t r1_53_0 = load16(a3 + 12);
    switch (r1_42_0) {
    default: {
        trap();
        return;
    }
    case 0u: {
        r11_41_0_off0 = r1_42_0;
        r11_41_0_off8 = r1_42_0;
        r11_7_0_off0 = r1_42_0;
        r11_7_0_off8 = r1_42_0;
        goto c_host_records_command_record_exit;
    }
    case 1u: {
        uint16_t r1_6_0 = load16(a3 + 14);
        r11_41_0_off0 = (uint8_t)r1_53_0;
        r11_41_0_off8 = (uint8_t)(uint16_t)((uint32_t)r1_53_0 >> 8u);
        r11_7_0_off0 = (uint8_t)r1_6_0;
        r11_7_0_off8 = (uint8_t)(uint16_t)((uint32_t)r1_6_0 >> 8u);
        goto c_host_records_command_record_exit;
    }
    case 2u: {
        r11_41_0_off0 = 0u;
        r11_41_0_off8 = 2u;
        r11_7_0_off0 = (uint8_t)r1_53_0;
        r11_7_0_off8 = (uint8_t)(uint16_t)((uint32_t)r1_53_0 >> 8u);
        goto c_host_records_command_record_exit;
    }
    }
c_host_records_command_record_exit: {
    memset(r15, 0u, 24);
    *r47 = a2;
    r47[1] = r1_0_0;
    r47[2] = r1_3_0;
    r47[3] = r1_42_0;
    store32_aligned(r47 + 4, r1_21_0);
    r47[8] = r11_41_0_off0;
    r47[9] = r11_41_0_off8;
    r47[10] = r11_7_0_off0;
    r47[11] = r11_7_0_off8;
    r47[12] = (uint8_t)a4;
    r47[13] = (uint8_t)(a4 >> 8u);
    Stream_ask(a1, r47, 14u, r15, 24u);
    memcpy(a0, r15, 24);
    return;
}
}

/* c_host::registers::CRegisters::lend */
static struct of_i8_i64 CRegisters_lend(uint8_t *a0, bool a1, uint64_t a2)
{
    KELIFANDRO_ROOM uint8_t r1[8];
    KELIFANDRO_ROOM uint8_t r4[4];
    uint64_t v1;
    uint8_t r7_23_0;
    uint8_t r7_4_0;
    uint8_t r7_5_0;
    uint8_t sink_off0;
    uint8_t r0_0_0;
    uint64_t r0_3_2_0;
    if (!((a0[17] & 1u) != 0)) {
        r0_0_0 = 0u;
        r0_3_2_0 = 0u; /* any */
        goto return_4;
    }
    CRegisters_give_back(a0);
    store64_aligned(r1, 0u);
    store32_aligned(r4, (uint32_t)((uint32_t)a2 << 16u) | (a1 ? 270u : 14u));
    Stream_ask(a0, r4, 4u, r1, 8u);
    v1 = load64_aligned(r1);
    if (v1 == 0u) {
        r7_23_0 = 0u; /* any */
        r7_4_0 = 0u; /* any */
        r7_5_0 = 0u; /* any */
        sink_off0 = 0u;
        goto c_host_registers_lent_by_exit;
    }
    r7_23_0 = (uint8_t)a1;
    r7_4_0 = (uint8_t)a2;
    r7_5_0 = (uint8_t)(a2 >> 8u);
    sink_off0 = 1u;
c_host_registers_lent_by_exit: {
    store16(a0 + 28, (uint16_t)sink_off0);
    a0[30] = r7_23_0;
    a0[31] = r7_4_0;
    a0[32] = r7_5_0;
    store16(a0 + 34, 0u);
    if ((((v1 ^ UINT64_C(0xffffffffffffffff)) >> 9u) >= a2) && ((v1 != 0u) && ((uint64_t)(v1 & 3u) == 0u))) {
        r0_0_0 = 1u;
        r0_3_2_0 = v1;
        goto return_4;
    }
    CRegisters_give_back(a0);
    r0_0_0 = 0u;
    r0_3_2_0 = v1;
}
return_4: {
    struct of_i8_i64 r51_fca_0_insert = (struct of_i8_i64){r0_0_0, 0};
    struct of_i8_i64 r51_fca_1_insert = (struct of_i8_i64){r51_fca_0_insert.f0, r0_3_2_0};
    return r51_fca_1_insert;
}
}

/* mmc_sdhci::sdhci::Sdhci::move_blocks::<#d002fd087b3dc1c2> */
static void Sdhci_move_blocks(uint8_t *a0, uint8_t *a1, uint8_t *a2, uint64_t a3, uint64_t a4)
{
    KELIFANDRO_ROOM uint8_t room[36];
    uint8_t *const r3_4 = room;
    uint8_t *const r4_3 = room;
    uint8_t *const r2 = room;
    uint8_t *const r13 = room;
    uint8_t *const r15 = room;
    uint8_t *const r6_2 = room + 16;
    KELIFANDRO_ROOM uint8_t r16_2[36];
    KELIFANDRO_ROOM uint8_t r3[20];
    KELIFANDRO_ROOM uint8_t r1[16];
    uint32_t r27;
    uint8_t r11_0_0;
    uint8_t r11_2_0;
    bool r29;
    uint16_t v;
    uint16_t r16;
    uint64_t r11;
    uint32_t v4;
    uint64_t r1_08;
    uint64_t r30;
    bool r34;
    uint64_t v7;
    uint16_t v10;
    uint16_t v11;
    uint32_t r0_6_5_0_7;
    uint8_t r0_3_0_50;
    uint8_t r0_0_0_48;
    memcpy(r1, a2, 16);
    if (!((a1[72] & 1u) != 0)) {
        store64(a0, 0u);
        goto common_ret;
    }
    r27 = (uint32_t)a4 << 9u;
    r11_0_0 = a1[36];
    r11_2_0 = a1[37];
    uint32_t r48 = load32_aligned(a1 + 84);
    uint64_t r1_2 = (uint64_t)r27;
    if (!((r48 & UINT32_C(0x80000)) == 0u)) {
        r29 = (a3 + r1_2) > UINT64_C(0x100000000);
        if (!r29) {
            v = 8u;
            goto arm_6;
        }
        if (((uint64_t)(a3 & 7u) != 0u) || ((r48 & UINT32_C(0x10000000)) == 0u)) {
            goto then_4;
        }
        v = 12u;
        goto arm_6;
    }
    if (!((a3 < UINT64_C(0x100000000)) && ((r48 & UINT32_C(0x400000)) != 0u))) {
        goto then_4;
    }
    if (!(((a3 & UINT64_C(0x7ffff)) + r1_2) < UINT64_C(0x80001))) {
        goto then_4;
    }
    Stream_write_register(a1, 4u, 4u, 28672u);
    Stream_write_register(a1, 4u, 0u, (uint32_t)a3);
    StoryRegistersRegisters_write8(a1, 40u, (uint8_t)((uint8_t)((r11_2_0 == 0u) ? 0u : 4u) | (uint8_t)((uint32_t)UINT32_C(0x200200) >> ((((uint32_t)r11_0_0 << 3u) & UINT32_C(0xffffff)) & 31u))));
    goto join_6;
arm_6: {
    uint32_t r91 = (r27 + 32767u) >> 15u;
    r16 = (uint16_t)((uint32_t)v * (uint16_t)r91);
    if (load16_aligned(a1 + 24) < r16) {
        goto then_4;
    }
    r11 = (uint64_t)r91;
    if (r91 == 0u) {
        goto c_host_stream_Stream_lend_table_exit;
    }
    v4 = (uint32_t)a3;
    r1_08 = 0u;
}
join_5: {
    uint32_t r20 = (uint32_t)r1_08 << 15u;
    r30 = r1_08 + 1u;
    r34 = r30 == r11;
    uint64_t r47 = a3 + (uint64_t)r20;
    *r6_2 = (uint8_t)(r34 ? 35u : 33u);
    r6_2[1] = 0u;
    r6_2[2] = 0u;
    r6_2[3] = (uint8_t)(umin32(r27 - r20, 32768u) >> 8u);
    store64(r6_2 + 4, r29 ? r47 : (uint64_t)(r20 + v4));
    uint64_t r6_2_0_r6_2_0_r6_2_0_r6_2_0_r6_2_0_r6_2_0_r6_2_0_r6_2_0_r6_2_0_r6_2_0_r6_2_0_r6_2_0_r6_2_0_r6_2_0_r6_2_0_r6_2_1_r0_2_0_0 = load64_aligned(r6_2);
    if (!r29) {
        store64_aligned(r3_4, r6_2_0_r6_2_0_r6_2_0_r6_2_0_r6_2_0_r6_2_0_r6_2_0_r6_2_0_r6_2_0_r6_2_0_r6_2_0_r6_2_0_r6_2_0_r6_2_0_r6_2_0_r6_2_1_r0_2_0_0);
        io_write_all(load32_aligned(a1), r3_4, 8u);
        goto c_host_stream_Stream_tell_line_exit;
    }
    store64_aligned(r4_3, r6_2_0_r6_2_0_r6_2_0_r6_2_0_r6_2_0_r6_2_0_r6_2_0_r6_2_0_r6_2_0_r6_2_0_r6_2_0_r6_2_0_r6_2_0_r6_2_0_r6_2_0_r6_2_1_r0_2_0_0);
    store32_aligned(r4_3 + 8, (uint32_t)(r47 >> 32u));
    io_write_all(load32_aligned(a1), r4_3, 12u);
}
c_host_stream_Stream_tell_line_exit: {
    if (r34) {
        goto c_host_stream_Stream_lend_table_exit;
    }
    r1_08 = r30;
    goto join_5;
}
c_host_stream_Stream_lend_table_exit: {
    store64_aligned(r2, 0u);
    Stream_ask(a1, (uint8_t *)bytes_static_5, 1u, r2, 8u);
    v7 = load64_aligned(r2);
    if ((v7 == 0u) || (a1[28] != 1u)) {
        goto sdhci_story_registers_StoryRegistersRegisters_lend_table_52343085cde207f1_exit;
    }
    store16_aligned(a1 + 34, r16);
}
sdhci_story_registers_StoryRegistersRegisters_lend_table_52343085cde207f1_exit: {
    if (!((r29 || (v7 < UINT64_C(0x100000000))) && ((v7 != 0u) && ((uint64_t)(v7 & 7u) == 0u)))) {
        goto then_4;
    }
    StoryRegistersRegisters_write8(a1, 40u, (uint8_t)((uint8_t)((uint8_t)((r11_2_0 == 0u) ? 0u : 4u) | (uint8_t)(r29 ? 24u : 16u)) | (uint8_t)((uint32_t)UINT32_C(0x200200) >> ((((uint32_t)r11_0_0 << 3u) & UINT32_C(0xffffff)) & 31u))));
    uint32_t r6_3 = Stream_read_register(a1, 4u, 52u);
    uint32_t r14_8 = (r6_3 & 192u) | UINT32_C(0x27f0033);
    if (r6_3 == r14_8) {
        goto mmc_sdhci_moving_point_at_table_d002fd087b3dc1c2_exit;
    }
    Stream_write_register(a1, 4u, 52u, r14_8);
}
mmc_sdhci_moving_point_at_table_d002fd087b3dc1c2_exit: {
    Stream_write_register(a1, 4u, 88u, (uint32_t)v7);
    Stream_write_register(a1, 4u, 92u, (uint32_t)(v7 >> 32u));
    goto join_6;
}
then_4: {
    store64(a0, 0u);
    goto common_ret;
}
join_6: {
    store16_aligned(r13, (uint16_t)a1[44]);
    v10 = load16(a1 + 46);
    store16_aligned(r13 + 2, v10);
    v11 = load16(a1 + 48);
    store16_aligned(r13 + 4, v11);
    command_send(r3, a1, r13, r1, 1u);
    memcpy(r16_2, a1 + 36, 36);
    uint8_t r1_0_0_24 = *r3;
    bool v12 = r1_0_0_24 == 0u;
    HostState_sent(r15, r16_2, r1, v12);
    memcpy(a1 + 36, r15, 36);
    if (v12) {
        if (!((a1[18] & 1u) != 0)) {
            goto mmc_sdhci_moving_watch_moving_d002fd087b3dc1c2_exit;
        }
        struct of_i8_i32 r30_2 = moving_look(a1, 2u);
        if (r30_2.f0 == 1u) {
            r0_6_5_0_7 = r30_2.f1;
            goto arm_2;
        }
        StoryRegistersRegisters_wait(a1, UINT32_C(0x27f0002), UINT32_C(0x989680));
        uint32_t r6_7 = Stream_read_register(a1, 4u, 48u);
        if (!((uint32_t)(r6_7 & 32770u) == 0u)) {
            r0_6_5_0_7 = r6_7;
            goto arm_2;
        }
        if ((r6_7 & UINT32_C(0x27f0000)) == 0u) {
            goto arm_1;
        }
        goto mmc_sdhci_moving_watch_moving_d002fd087b3dc1c2_exit;
    }
    uint8_t v13 = r3[1];
    uint8_t v14 = r3[4];
    store64(a0, 1u);
    a0[8] = r1_0_0_24;
    a0[9] = v13;
    a0[12] = v14;
    memcpy(a0 + 13, r3 + 5, 15);
    a0[32] = 0u;
    store64(a0 + 40, 0u);
    goto common_ret;
}
mmc_sdhci_moving_watch_moving_d002fd087b3dc1c2_exit: {
    struct of_i8_i32 r24_27 = moving_look(a1, UINT32_C(0x31128));
    if (r24_27.f0 == 0u) {
        goto arm_1;
    }
    r0_6_5_0_7 = r24_27.f1;
    goto arm_2;
}
arm_1: {
    command_reset_data(a1);
    r0_3_0_50 = 2u;
    r0_0_0_48 = 1u;
    goto join_13;
}
arm_2: {
    if ((uint32_t)(r0_6_5_0_7 & 32768u) == 0u) {
        r0_3_0_50 = 0u; /* any */
        r0_0_0_48 = 0u;
        goto join_13;
    }
    command_reset_data(a1);
    r0_3_0_50 = (uint8_t)(((r0_6_5_0_7 & UINT32_C(0x600000)) == 0u) ? 2u : 1u);
    r0_0_0_48 = 1u;
}
join_13: {
    store16(a1 + 44, 0u);
    store16(a1 + 46, v10);
    store16(a1 + 48, v11);
    uint8_t v20 = r3[1];
    uint8_t v21 = r3[4];
    store64(a0, 1u);
    a0[8] = 0u;
    a0[9] = v20;
    a0[12] = v21;
    memcpy(a0 + 13, r3 + 5, 15);
    a0[32] = r0_0_0_48;
    a0[33] = r0_3_0_50;
    store64(a0 + 40, a4);
}
common_ret: {
    return;
}
}

/* mmc_sdhci::moving::look::<#d002fd087b3dc1c2> */
static struct of_i8_i32 moving_look(uint8_t *a0, uint32_t a1)
{
    uint32_t r1_05;
    uint32_t r6_4;
    uint8_t r0_0_0;
    r1_05 = 0u;
join_5: {
    r6_4 = Stream_read_register(a0, 4u, 48u);
    if (!((uint32_t)(r6_4 & 32770u) == 0u)) {
        r0_0_0 = 1u;
        goto return_9;
    }
    Stream_pause(a0, (r1_05 < 1000u) ? 1u : 50u);
    uint32_t r27 = r1_05 + 1u;
    if (r27 == a1) {
        r0_0_0 = 0u;
        goto return_9;
    }
    r1_05 = r27;
    goto join_5;
}
return_9: {
    struct of_i8_i32 r28_fca_0_insert = (struct of_i8_i32){r0_0_0, 0};
    struct of_i8_i32 r28_fca_1_insert = (struct of_i8_i32){r28_fca_0_insert.f0, r6_4};
    return r28_fca_1_insert;
}
}

/* mmc_host::data::Data::less_by */
static void Data_less_by(uint8_t *a0, uint8_t *a1, uint64_t a2)
{
    uint8_t r12_0_0_sink;
    uint16_t r12_6_5_0_sink;
    uint16_t r12_10_0_sink;
    uint8_t r2 = *a1;
    uint16_t r1_4_1_1 = load16(a1 + 2);
    uint16_t r1_9_4 = load16(a1 + 4);
    if (a2 == 0u) {
        r12_0_0_sink = r2;
        r12_6_5_0_sink = r1_4_1_1;
        r12_10_0_sink = r1_9_4;
        goto common_ret;
    }
    switch (r2) {
    default: {
        trap();
        return;
    }
    case 0u: {
        r12_0_0_sink = r2;
        r12_6_5_0_sink = r1_4_1_1;
        r12_10_0_sink = r1_9_4;
        goto common_ret;
    }
    case 1u: {
        if (!(a2 < (uint64_t)r1_9_4)) {
            r12_0_0_sink = 0u;
            r12_6_5_0_sink = 0u; /* any */
            r12_10_0_sink = 0u; /* any */
            goto common_ret;
        }
        r12_0_0_sink = 1u;
        r12_6_5_0_sink = r1_4_1_1;
        r12_10_0_sink = (uint16_t)(r1_9_4 - (uint16_t)a2);
        goto common_ret;
    }
    case 2u: {
        if (!(a2 < (uint64_t)r1_4_1_1)) {
            r12_0_0_sink = 0u;
            r12_6_5_0_sink = 0u; /* any */
            r12_10_0_sink = 0u; /* any */
            goto common_ret;
        }
        r12_0_0_sink = 2u;
        r12_6_5_0_sink = (uint16_t)(r1_4_1_1 - (uint16_t)a2);
        r12_10_0_sink = 0u; /* any */
        goto common_ret;
    }
    }
common_ret: {
    store16(a0, (uint16_t)r12_0_0_sink);
    store16(a0 + 2, r12_6_5_0_sink);
    store16(a0 + 4, r12_10_0_sink);
    return;
}
}

/* mmc_transfer::run::Run::stand */
static struct of_i8_i8 Run_stand(uint8_t *a0, uint8_t *a1)
{
    uint8_t r4_4_0;
    uint8_t r4_0_0;
    uint8_t r1_47_0 = a1[16];
    uint32_t r1_58_0 = load32(a1 + 20);
    uint8_t r1_6_0 = a1[24];
    uint32_t r1_79_0 = load32(a1 + 28);
    uint64_t r1_8_0 = load64(a1 + 32);
    uint64_t r1_9_0 = load64(a1 + 40);
    if (*a1 != 0u) {
        r4_4_0 = a1[1];
        r4_0_0 = 2u;
        goto join_4;
    }
    if (a1[8] != 1u) {
        r4_4_0 = 0u; /* any */
        r4_0_0 = 1u;
        goto join_4;
    }
    store32(a0 + 176, (uint32_t)r1_47_0);
    store32(a0 + 180, r1_58_0);
    store32(a0 + 184, (uint32_t)r1_6_0);
    store32(a0 + 188, r1_79_0);
    store64(a0 + 192, r1_8_0);
    store64(a0 + 200, r1_9_0);
    r4_4_0 = 0u; /* any */
    r4_0_0 = 0u;
join_4: {
    struct of_i8_i8 r43_fca_0_insert = (struct of_i8_i8){r4_0_0, 0};
    struct of_i8_i8 r43_fca_1_insert = (struct of_i8_i8){r43_fca_0_insert.f0, r4_4_0};
    return r43_fca_1_insert;
}
}

/* mmc_transfer::steps::step::<#1bed76fd314cf36e> */
static void steps_step(uint8_t *a0, uint8_t *a1, uint8_t *a2, uint8_t *a3)
{
    KELIFANDRO_ROOM uint8_t room[42];
    uint8_t *const r2_59 = room;
    uint8_t *const r1 = room;
    uint8_t *const r4_41 = room;
    uint8_t *const r2 = room;
    uint8_t *const r68 = room;
    uint8_t *const r0 = room + 24;
    uint8_t *const r2_2 = room + 24;
    uint8_t r0_3_0_61208;
    uint8_t r0_3_0_44201;
    uint8_t r0_3_0_194;
    uint8_t r25_7_0_shrunk;
    uint32_t r25_12_0;
    uint32_t r25_17_0;
    uint32_t r25_22_0;
    uint32_t r25_27_0;
    uint64_t r25_32_0;
    uint64_t r25_37_0;
    uint32_t r1_2_1_3 = load32(a3 + 4);
    uint64_t r1_4_8 = load64(a3 + 8);
    uint8_t r0_0_0 = *a2;
    switch (*a3) {
    default: {
        trap();
        return;
    }
    case 0u: {
        uint32_t r78 = load32_aligned(a2 + 168);
        host_ask(r2, a1, 23u, r78);
        if (*r2 != 0u) {
            r0_3_0_194 = 0u;
            goto arm_9;
        }
        uint32_t v2 = load32_aligned(r2 + 4);
        if ((v2 & ((r0_0_0 == 0u) ? UINT32_C(0xfdf9a000) : UINT32_C(0xfdf9a080))) == 0u) {
            r25_7_0_shrunk = 1u;
            r25_12_0 = 1u;
            r25_17_0 = 0u; /* any */
            r25_22_0 = 1u;
            r25_27_0 = 0u; /* any */
            r25_32_0 = 0u; /* any */
            r25_37_0 = 0u; /* any */
            goto join_7;
        }
        r0_3_0_194 = 2u;
        goto arm_9;
    }
    case 1u: {
        uint32_t r141 = load32_aligned(a2 + 168);
        bool r148 = r141 == 1u;
        uint8_t r4 = a2[1];
        uint32_t a1_tr = (uint32_t)load64_aligned(a2 + 160);
        uint8_t r2_0 = (uint8_t)((a2[172] == 0u) ? (uint8_t)(r148 ? 17u : 18u) : (uint8_t)(r148 ? 24u : 25u));
        frame_framed(r4_41, (uint8_t)(r2_0 | 64u), (r4 == 0u) ? (a1_tr << 9u) : a1_tr);
        HostBusBus_begin(r2_2, a1, r4_41, 1u, (uint16_t)r141);
        *r1 = *r2_2;
        memcpy(r1 + 1, r2_2 + 1, 17);
        host_response_in(r0, r1, r2_0);
        uint8_t v7 = *r0;
        uint32_t v8 = load32_aligned(r0 + 4);
        if (v7 != 0u) {
            r0_3_0_44201 = 0u;
            goto arm_12;
        }
        if ((v8 & ((r0_0_0 == 0u) ? UINT32_C(0xfdf9a000) : UINT32_C(0xfdf9a080))) == 0u) {
            r25_7_0_shrunk = 1u;
            r25_12_0 = 0u;
            r25_17_0 = 0u;
            r25_22_0 = 0u;
            r25_27_0 = 0u; /* any */
            r25_32_0 = 0u; /* any */
            r25_37_0 = 0u; /* any */
            goto join_7;
        }
        r0_3_0_44201 = 2u;
        goto arm_12;
    }
    case 2u: {
        bool r213 = host_poll(a1);
        if (!r213) {
            bool r276 = r1_2_1_3 == load32_aligned(a2 + 168);
            r25_7_0_shrunk = 1u;
            r25_12_0 = (uint32_t)r276;
            r25_17_0 = r1_2_1_3;
            r25_22_0 = r276 ? 3u : 0u;
            r25_27_0 = 0u; /* any */
            r25_32_0 = 0u; /* any */
            r25_37_0 = 0u; /* any */
            goto join_7;
        }
        uint64_t r6 = r1_4_8 + 1u;
        if (r6 != 16u) {
            r25_7_0_shrunk = 1u;
            r25_12_0 = 1u;
            r25_17_0 = 0u; /* any */
            r25_22_0 = 2u;
            r25_27_0 = r1_2_1_3;
            r25_32_0 = r6;
            r25_37_0 = 0u; /* any */
            goto join_7;
        }
        *a0 = 1u;
        a0[1] = 3u;
        goto common_ret;
    }
    case 3u: {
        uint8_t r7_58 = a2[172];
        host_ask(r2_59, a1, 12u, 0u);
        if (*r2_59 != 0u) {
            r0_3_0_61208 = 0u;
            goto arm_24;
        }
        bool r13_not = r7_58 == 0u;
        uint32_t r8_65 = load32_aligned(r2_59 + 4) & ((r0_0_0 == 0u) ? UINT32_C(0xfdf9a000) : UINT32_C(0xfdf9a080));
        bool r7_66 = r8_65 == 0u;
        if ((r7_66 || (r13_not != true)) ? (r13_not || r7_66) : (r8_65 == UINT32_C(0x80000000))) {
            r25_7_0_shrunk = 1u;
            r25_12_0 = 1u;
            r25_17_0 = 0u; /* any */
            r25_22_0 = 4u;
            r25_27_0 = 0u; /* any */
            r25_32_0 = 0u;
            r25_37_0 = 0u;
            goto join_7;
        }
        r0_3_0_61208 = 2u;
        goto arm_24;
    }
    case 4u: {
        Ending_step(r68, (uint8_t)r1_4_8, load64(a3 + 16), a1, a2);
        if (*r68 != 0u) {
            uint8_t r1_2_1_75 = r68[1];
            *a0 = 1u;
            a0[1] = r1_2_1_75;
            goto common_ret;
        }
        uint8_t r6_78 = r68[8];
        if (r6_78 != 1u) {
            r25_7_0_shrunk = r6_78;
            r25_12_0 = 0u;
            r25_17_0 = 0u; /* any */
            r25_22_0 = 0u;
            r25_27_0 = 0u; /* any */
            r25_32_0 = 0u; /* any */
            r25_37_0 = 0u; /* any */
            goto join_7;
        }
        r25_7_0_shrunk = 1u;
        r25_12_0 = 1u;
        r25_17_0 = 0u; /* any */
        r25_22_0 = 4u;
        r25_27_0 = 0u; /* any */
        r25_32_0 = (uint64_t)r68[16];
        r25_37_0 = load64_aligned(r68 + 24);
        goto join_7;
    }
    }
arm_24: {
    *a0 = 1u;
    a0[1] = r0_3_0_61208;
    goto common_ret;
}
arm_12: {
    *a0 = 1u;
    a0[1] = r0_3_0_44201;
    goto common_ret;
}
arm_9: {
    *a0 = 1u;
    a0[1] = r0_3_0_194;
    goto common_ret;
}
join_7: {
    *a0 = 0u;
    store64(a0 + 8, (uint64_t)r25_7_0_shrunk);
    store32(a0 + 16, r25_12_0);
    store32(a0 + 20, r25_17_0);
    store32(a0 + 24, r25_22_0);
    store32(a0 + 28, r25_27_0);
    store64(a0 + 32, r25_32_0);
    store64(a0 + 40, r25_37_0);
}
common_ret: {
    return;
}
}

/* mmc_switch::ending::Ending::step::<#1bed76fd314cf36e> */
static void Ending_step(uint8_t *a0, uint8_t a1, uint64_t a2, uint8_t *a3, uint8_t *a4)
{
    uint8_t r11_0_0;
    uint64_t r11_6_0;
    uint64_t r11_926_0;
    uint64_t r11_12_2_0;
    if (a1 == 0u) {
        bool r41 = host_poll(a3);
        if (!r41) {
            r11_0_0 = 0u;
            r11_6_0 = 1u;
            r11_926_0 = 1u;
            r11_12_2_0 = a2;
            goto join_4;
        }
        uint64_t r6 = a2 + 1u;
        if (r6 != 16u) {
            r11_0_0 = 0u;
            r11_6_0 = 1u;
            r11_926_0 = 0u;
            r11_12_2_0 = r6;
            goto join_4;
        }
        *a0 = 1u;
        a0[1] = 3u;
        memset(a0 + 8, 0u, 16);
        goto common_ret;
    }
    struct of_i8_i8 r116 = status_ask_closing(a3, *a4, load16_aligned(a4 + 2));
    uint8_t r125 = r116.f1;
    if (r116.f0 != 0u) {
        *a0 = 1u;
        a0[1] = r125;
        memset(a0 + 8, 0u, 16);
        goto common_ret;
    }
    bool v2 = r125 != 0u;
    uint64_t r154 = a2 + 1u;
    uint64_t v3 = (uint64_t)v2;
    r11_0_0 = (uint8_t)(v2 && (r154 > 15u));
    r11_6_0 = v3;
    r11_926_0 = v3;
    r11_12_2_0 = v2 ? r154 : 0u;
join_4: {
    *a0 = r11_0_0;
    a0[1] = 2u;
    store64(a0 + 8, r11_6_0);
    store64(a0 + 16, r11_926_0);
    store64(a0 + 24, r11_12_2_0);
}
common_ret: {
    return;
}
}

/* mmc_sdhci::sdhci::SdhciHost::write_block::<#d002fd087b3dc1c2> */
static uint8_t SdhciHost_write_block(uint8_t *a0, uint8_t *a1)
{
    KELIFANDRO_ROOM uint8_t room[36];
    uint8_t *const r3 = room;
    uint8_t *const r2 = room;
    uint8_t *const r5 = room;
    KELIFANDRO_ROOM uint8_t r6[36];
    uint16_t r1_2_1_1;
    bool r10_0_0_shrunk;
    uint8_t r0_0_0_2;
    uint8_t r0_0_0;
    uint8_t r12 = a0[44];
    uint16_t v0 = load16(a0 + 46);
    uint16_t v1 = load16(a0 + 48);
    watching_watch(r2, a0, 2u, 0u);
    if (*r2 != 1u) {
        goto mmc_sdhci_data_find_room_d002fd087b3dc1c2_exit;
    }
    if (!((uint32_t)(load32_aligned(r2 + 8) & 32768u) == 0u)) {
        goto mmc_sdhci_data_find_room_d002fd087b3dc1c2_exit;
    }
    io_write_all(load32_aligned(a0), a1, 512u);
    switch (r12) {
    default: {
        trap();
        return 0;
    }
    case 0u: {
        r10_0_0_shrunk = false;
        goto mmc_sdhci_following_following_of_exit;
    }
    case 1u: {
        r1_2_1_1 = v1;
        goto join_5_sink_split;
    }
    case 2u: {
        r1_2_1_1 = v0;
        goto join_5_sink_split;
    }
    }
mmc_sdhci_data_find_room_d002fd087b3dc1c2_exit: {
    command_reset_data(a0);
    r0_0_0 = 2u;
    goto mmc_sdhci_data_write_block_d002fd087b3dc1c2_exit;
}
join_5_sink_split: {
    r10_0_0_shrunk = r1_2_1_1 != 1u;
}
mmc_sdhci_following_following_of_exit: {
    watching_watch(r3, a0, 3u, (uint8_t)r10_0_0_shrunk);
    if (*r3 != 1u) {
        goto return_5_sink_split;
    }
    if ((uint32_t)(load32_aligned(r3 + 8) & 32768u) == 0u) {
        r0_0_0_2 = 0u;
        goto mmc_sdhci_data_see_gone_d002fd087b3dc1c2_exit;
    }
}
return_5_sink_split: {
    command_reset_data(a0);
    r0_0_0_2 = 2u;
}
mmc_sdhci_data_see_gone_d002fd087b3dc1c2_exit: {
    r0_0_0 = r0_0_0_2;
}
mmc_sdhci_data_write_block_d002fd087b3dc1c2_exit: {
    memcpy(r6, a0 + 36, 36);
    HostState_block_passed(r5, r6, r0_0_0 == 0u);
    memcpy(a0 + 36, r5, 36);
    return r0_0_0;
}
}

/* kelifandro::request::erase::<#1bed76fd314cf36e> */
static void request_erase(uint8_t *a0, uint8_t *a1, uint8_t *a2, uint64_t a4, uint64_t a5, uint8_t a6)
{
    KELIFANDRO_ROOM uint8_t room[224];
    uint8_t *const r9 = room;
    uint8_t *const r0_6 = room;
    uint8_t *const r0_8 = room + 8;
    uint8_t *const r0_10 = room + 16;
    uint8_t *const r0_124 = room + 24;
    uint8_t *const r0_13 = room + 32;
    KELIFANDRO_ROOM uint8_t room_2[144];
    uint8_t *const r2_71 = room_2;
    uint8_t *const r2_54 = room_2;
    uint8_t *const r2 = room_2;
    uint8_t *const r50 = room_2;
    uint8_t *const r0_3_2 = room_2;
    uint8_t v0;
    uint8_t v1;
    uint8_t v2;
    uint32_t v;
    uint32_t v78;
    uint32_t r1_0_53;
    uint8_t v55;
    uint32_t r1_0;
    uint8_t v_2;
    uint8_t r11;
    uint8_t r7_1;
    uint64_t r11_11_1_7_load25;
    uint8_t r1_6_0_ph;
    uint8_t r0_0_0;
    uint8_t *sink48_phi;
    uint8_t sink47;
    uint8_t *sink46_phi;
    uint8_t r1_6_0_ph_sink;
    uint8_t *sink45_phi;
    uint8_t sink;
    uint64_t r18_1122_0_ph;
    uint64_t r15_44;
    uint64_t r11_43;
    uint64_t r18_21_4_0_42;
    memcpy(r9, a2, 144);
    v0 = a2[144];
    v1 = a2[145];
    v2 = a2[146];
    r9[144] = v0;
    r9[145] = v1;
    r9[146] = v2;
    store64_aligned(r9 + 160, a4);
    store64_aligned(r9 + 168, a5);
    r9[176] = a6;
    memset(r9 + 192, 0u, 16);
    v = (uint32_t)a6;
    bool v3 = *r9 == 0u;
    v78 = v3 ? UINT32_C(0xfdf9a000) : UINT32_C(0xfdf9a080);
    bool v4 = r9[1] == 0u;
    uint32_t a1_tr_51 = (uint32_t)(a5 + a4) + UINT32_C(0xffffffff);
    r1_0_53 = v4 ? (a1_tr_51 << 9u) : a1_tr_51;
    v55 = (uint8_t)(v3 ? 33u : 36u);
    uint32_t a1_tr = (uint32_t)a4;
    r1_0 = v4 ? (a1_tr << 9u) : a1_tr;
    v_2 = (uint8_t)(v3 ? 32u : 35u);
    r11 = 0u;
    r7_1 = 0u;
    r11_11_1_7_load25 = 0u; /* any */
loop_2: {
    switch (r7_1) {
    default: {
        trap();
        return;
    }
    case 0u: {
        host_ask(r2, a1, v_2, r1_0);
        if (*r2 != 0u) {
            r1_6_0_ph = 0u;
            goto arm_5;
        }
        uint32_t v10 = load32_aligned(r2 + 4);
        if ((v10 & v78) == 0u) {
            r18_1122_0_ph = 1u;
            goto arm_1_3_thread;
        }
        r1_6_0_ph = 2u;
        goto arm_5;
    }
    case 1u: {
        host_ask(r2_54, a1, v55, r1_0_53);
        if (*r2_54 != 0u) {
            r1_6_0_ph = 0u;
            goto arm_5;
        }
        uint32_t v13 = load32_aligned(r2_54 + 4);
        if ((v13 & v78) == 0u) {
            r18_1122_0_ph = 2u;
            goto arm_1_3_thread;
        }
        r1_6_0_ph = 2u;
        goto arm_5;
    }
    case 2u: {
        host_ask(r2_71, a1, 38u, v);
        if (*r2_71 != 0u) {
            r1_6_0_ph = 0u;
            goto arm_5;
        }
        uint32_t v16 = load32_aligned(r2_71 + 4);
        if ((v16 & v78) == 0u) {
            r18_1122_0_ph = 3u;
            goto arm_1_3_thread;
        }
        r1_6_0_ph = 2u;
        goto arm_5;
    }
    case 3u: {
        Ending_step(r50, r11, r11_11_1_7_load25, a1, r9);
        if (*r50 != 0u) {
            r1_6_0_ph = r50[1];
            goto arm_5;
        }
        uint64_t r1_8_1_7 = load64_aligned(r50 + 24);
        uint8_t r10 = r50[16];
        bool v18 = r50[8] == 1u;
        if (v18) {
            r15_44 = (uint64_t)(uint8_t)(v18 ? r10 : 0u);
            r11_43 = 3u;
            r18_21_4_0_42 = r1_8_1_7;
            goto loop_2thread_pre_split;
        }
        memcpy(r0_3_2, r9, 144);
        r0_0_0 = 0u;
        sink48_phi = r0_6;
        sink47 = v0;
        sink46_phi = r0_8;
        r1_6_0_ph_sink = v1;
        sink45_phi = r0_10;
        sink = v2;
        goto mmc_direct_erasing_ErasingRequest_run_1bed76fd314cf36e_exit;
    }
    }
}
arm_5: {
    memcpy(r0_3_2, r9, 144);
    *r0_6 = v0;
    *r0_8 = v1;
    r0_0_0 = 1u;
    sink48_phi = r0_10;
    sink47 = v2;
    sink46_phi = r0_124;
    r1_6_0_ph_sink = r1_6_0_ph;
    sink45_phi = r0_13;
    sink = 0u;
}
mmc_direct_erasing_ErasingRequest_run_1bed76fd314cf36e_exit: {
    *sink48_phi = sink47;
    *sink46_phi = r1_6_0_ph_sink;
    *sink45_phi = sink;
    uint8_t r0_6_0_r0_6_0_r0_6_0_r0_6_0_r0_6_0_r0_6_0_r0_6_0_r0_6_0_r0_6_0_r0_6_16 = *r0_6;
    uint8_t r0_8_0_r0_8_0_r0_8_0_r0_8_0_r0_8_0_r0_8_0_r0_8_0_r0_8_0_r0_8_0_r0_8_16 = *r0_8;
    uint8_t r0_10_0_r0_10_0_r0_10_0_r0_10_0_r0_10_0_r0_10_0_r0_10_0_r0_10_0_r0_10_0_r0_10_16 = *r0_10;
    uint8_t r0_124_0_r0_124_0_r0_124_0_r0_124_0_r0_124_0_r0_124_0_r0_124_0_r0_124_0_r0_124_0_r0_124_16 = *r0_124;
    uint8_t r0_13_0_r0_13_0_r0_13_0_r0_13_0_r0_13_0_r0_13_0_r0_13_0_r0_13_0_r0_13_0_r0_13_16 = *r0_13;
    store128(a0, u128_of(0u, r0_0_0));
    memcpy(a0 + 16, r0_3_2, 144);
    a0[160] = r0_6_0_r0_6_0_r0_6_0_r0_6_0_r0_6_0_r0_6_0_r0_6_0_r0_6_0_r0_6_0_r0_6_16;
    a0[161] = r0_8_0_r0_8_0_r0_8_0_r0_8_0_r0_8_0_r0_8_0_r0_8_0_r0_8_0_r0_8_0_r0_8_16;
    a0[162] = r0_10_0_r0_10_0_r0_10_0_r0_10_0_r0_10_0_r0_10_0_r0_10_0_r0_10_0_r0_10_0_r0_10_16;
    a0[176] = r0_124_0_r0_124_0_r0_124_0_r0_124_0_r0_124_0_r0_124_0_r0_124_0_r0_124_0_r0_124_0_r0_124_16;
    a0[177] = r0_13_0_r0_13_0_r0_13_0_r0_13_0_r0_13_0_r0_13_0_r0_13_0_r0_13_0_r0_13_0_r0_13_16;
    return;
}
arm_1_3_thread: {
    r15_44 = 0u;
    r11_43 = r18_1122_0_ph;
    r18_21_4_0_42 = 0u;
}
loop_2thread_pre_split: {
    store64_aligned(r9 + 192, r11_43);
    store64_aligned(r9 + 200, r15_44);
    store64_aligned(r9 + 208, r18_21_4_0_42);
    r11 = (uint8_t)r15_44;
    r7_1 = (uint8_t)r11_43;
    r11_11_1_7_load25 = r18_21_4_0_42;
    goto loop_2;
}
}

/* mmc_direct::counting::count_done */
static KELIFANDRO_APART void counting_count_done(uint8_t *a0)
{
    store64(a0, uadd_sat64(load64(a0), 1u));
    return;
}

/* mmc_direct::counting::count_failed */
static KELIFANDRO_APART void counting_count_failed(uint8_t *a0, uint8_t a1)
{
    uint64_t r3_0_0;
    uint64_t r3_6_0_2;
    uint64_t r3_11_0;
    uint64_t r3_16_0;
    uint64_t r3_21_0;
    uint64_t r3_26_0;
    r3_0_0 = load64(a0);
    uint64_t r3_2_0 = load64(a0 + 8);
    uint64_t r3_3_0 = load64(a0 + 16);
    uint64_t r3_4_0 = load64(a0 + 24);
    uint64_t r3_5_0 = load64(a0 + 32);
    uint64_t r3_6_0 = load64(a0 + 40);
    switch (a1) {
    default: {
        trap();
        return;
    }
    case 0u: {
        r3_6_0_2 = uadd_sat64(r3_2_0, 1u);
        r3_11_0 = r3_3_0;
        r3_16_0 = r3_4_0;
        r3_21_0 = r3_5_0;
        r3_26_0 = r3_6_0;
        goto mmc_recovery_healed_Healed_met_exit;
    }
    case 1u: {
        r3_6_0_2 = r3_2_0;
        r3_11_0 = uadd_sat64(r3_3_0, 1u);
        r3_16_0 = r3_4_0;
        r3_21_0 = r3_5_0;
        r3_26_0 = r3_6_0;
        goto mmc_recovery_healed_Healed_met_exit;
    }
    case 2u: {
        r3_6_0_2 = r3_2_0;
        r3_11_0 = r3_3_0;
        r3_16_0 = uadd_sat64(r3_4_0, 1u);
        r3_21_0 = r3_5_0;
        r3_26_0 = r3_6_0;
        goto mmc_recovery_healed_Healed_met_exit;
    }
    case 3u: {
        r3_6_0_2 = r3_2_0;
        r3_11_0 = r3_3_0;
        r3_16_0 = r3_4_0;
        r3_21_0 = uadd_sat64(r3_5_0, 1u);
        r3_26_0 = r3_6_0;
        goto mmc_recovery_healed_Healed_met_exit;
    }
    case 4u: {
        r3_6_0_2 = r3_2_0;
        r3_11_0 = r3_3_0;
        r3_16_0 = r3_4_0;
        r3_21_0 = r3_5_0;
        r3_26_0 = uadd_sat64(r3_6_0, 1u);
        goto mmc_recovery_healed_Healed_met_exit;
    }
    }
mmc_recovery_healed_Healed_met_exit: {
    store64(a0, uadd_sat64(r3_0_0, 1u));
    store64(a0 + 8, r3_6_0_2);
    store64(a0 + 16, r3_11_0);
    store64(a0 + 24, r3_16_0);
    store64(a0 + 32, r3_21_0);
    store64(a0 + 40, r3_26_0);
    return;
}
}

/* kelifandro::longs::may_begin */
static KELIFANDRO_APART struct of_i8_i32 longs_may_begin(uint8_t *a0, uint8_t *a1, uint8_t *a2)
{
    KELIFANDRO_ROOM uint8_t r3[208];
    KELIFANDRO_ROOM uint8_t r1[192];
    uint8_t r0_0_0;
    uint32_t r0_3_0;
    calls_open_card(r3, a0, a1);
    if (*r3 != 1u) {
        r0_0_0 = 1u;
        r0_3_0 = UINT32_C(0xffffffff);
        goto return_5;
    }
    store128_aligned(r1, u128_of(0u, r3[16]));
    memcpy(r1 + 16, r3 + 32, 176);
    struct of_i8_i8 r32 = rules_sectors_refusal(UINT64_C(0xffffffffffffffff), *a2, r1 + 16, a2[1], load64_aligned(a2 + 8), load64_aligned(a2 + 16));
    uint8_t r33 = r32.f0;
    if (r33 != 1u) {
        r0_0_0 = r33;
        r0_3_0 = 0u; /* any */
        goto return_5;
    }
    r0_0_0 = 1u;
    r0_3_0 = load32_aligned(at((uint8_t *)bytes_answers_refused_number, (uint64_t)r32.f1 * 4u));
return_5: {
    struct of_i8_i32 r45_fca_0_insert = (struct of_i8_i32){r0_0_0, 0};
    struct of_i8_i32 r45_fca_1_insert = (struct of_i8_i32){r45_fca_0_insert.f0, r0_3_0};
    return r45_fca_1_insert;
}
}

/* kelifandro_sectors_by */
uint64_t kelifandro_sectors_by(const void *way, const void *card, uint32_t part)
{
    KELIFANDRO_ROOM uint8_t r4[208];
    KELIFANDRO_ROOM uint8_t r2[192];
    uint64_t r5_0;
    uint8_t *way_bytes = (uint8_t *)way;
    uint8_t *card_bytes = (uint8_t *)card;
    uint8_t r16 = (uint8_t)part;
    calls_open_card(r4, way_bytes, card_bytes);
    if (!(((part < 256u) && (r16 < 7u)) && (*r4 == 1u))) {
        r5_0 = 0u;
        goto kelifandro_exports_kelifandro_sectors_by_exit;
    }
    store128_aligned(r2, u128_of(0u, r4[16]));
    memcpy(r2 + 16, r4 + 32, 176);
    uint64_t r27 = Sizes_of(r2 + 80, r16);
    r5_0 = r27;
kelifandro_exports_kelifandro_sectors_by_exit: {
    return r5_0;
}
}

/* kelifandro_close_by */
void kelifandro_close_by(const void *way)
{
    uint8_t *way_bytes = (uint8_t *)way;
    hosts_switch_off(way_bytes);
    return;
}

/* kelifandro_open_by */
int32_t kelifandro_open_by(const void *way, void *card, void *healed)
{
    uint32_t common_ret_op;
    uint8_t *way_bytes = (uint8_t *)way;
    uint8_t *card_bytes = (uint8_t *)card;
    uint8_t *healed_bytes = (uint8_t *)healed;
    hosts_switch_on(way_bytes);
    uint32_t r15 = opening_open_once(way_bytes, card_bytes, healed_bytes);
    if (r15 != UINT32_C(0xffffffec)) {
        common_ret_op = r15;
        goto kelifandro_exports_kelifandro_open_by_exit;
    }
    if (way_bytes[21] == 0u) {
        common_ret_op = UINT32_C(0xffffffec);
        goto kelifandro_exports_kelifandro_open_by_exit;
    }
    hosts_switch_off(way_bytes);
    hosts_switch_on(way_bytes);
    uint32_t r37 = opening_open_once(way_bytes, card_bytes, healed_bytes);
    common_ret_op = r37;
kelifandro_exports_kelifandro_open_by_exit: {
    return signed32(common_ret_op);
}
}

/* kelifandro_serve_by */
int32_t kelifandro_serve_by(const void *way, void *card, void *healed, const void *asked, void *blocks, uint64_t count)
{
    KELIFANDRO_ROOM uint8_t r3[32];
    uint32_t r5_0;
    uint8_t *way_bytes = (uint8_t *)way;
    uint8_t *card_bytes = (uint8_t *)card;
    uint8_t *healed_bytes = (uint8_t *)healed;
    uint8_t *asked_bytes = (uint8_t *)asked;
    uint8_t *blocks_bytes = (uint8_t *)blocks;
    uint32_t r12 = load32_aligned(asked_bytes + 16);
    uint8_t r16 = (uint8_t)r12;
    if (!((r12 < 256u) && (r16 < 7u))) {
        r5_0 = UINT32_C(0xfffffffe);
        goto kelifandro_exports_kelifandro_serve_by_exit;
    }
    uint64_t r10 = load64_aligned(asked_bytes);
    uint64_t r12_2 = load64_aligned(asked_bytes + 8);
    uint16_t r34 = load16_aligned(asked_bytes + 22);
    *r3 = (uint8_t)umin16(load16_aligned(asked_bytes + 20), 3u);
    r3[1] = r16;
    store64_aligned(r3 + 8, r10);
    store64_aligned(r3 + 16, r12_2);
    store16_aligned(r3 + 24, r34);
    uint32_t r28 = requests_serve_told(way_bytes, card_bytes, healed_bytes, r3, at(blocks_bytes, (blocks_bytes == (uint8_t *)0) ? 4096u : 0u), count);
    r5_0 = r28;
kelifandro_exports_kelifandro_serve_by_exit: {
    return signed32(r5_0);
}
}

/* kelifandro_serve_long_by */
int32_t kelifandro_serve_long_by(const void *way, void *card, void *healed, const void *asked, void *blocks, uint64_t count, void *done)
{
    KELIFANDRO_ROOM uint8_t room[32];
    uint8_t *const r7_1 = room;
    uint8_t *const r3 = room;
    KELIFANDRO_ROOM uint8_t r15_22[5];
    uint8_t *r4;
    uint64_t r10;
    uint16_t r34;
    uint64_t r1;
    uint64_t r18_0_0_insert_insert;
    uint64_t r4026;
    uint64_t r18_0_025;
    uint32_t common_ret_op;
    uint32_t r13_0;
    uint32_t r5_0;
    uint8_t *way_bytes = (uint8_t *)way;
    uint8_t *card_bytes = (uint8_t *)card;
    uint8_t *healed_bytes = (uint8_t *)healed;
    uint8_t *asked_bytes = (uint8_t *)asked;
    uint8_t *blocks_bytes = (uint8_t *)blocks;
    uint8_t *done_bytes = (uint8_t *)done;
    r4 = at(blocks_bytes, (blocks_bytes == (uint8_t *)0) ? 4096u : 0u);
    uint32_t r12 = load32_aligned(asked_bytes + 16);
    uint8_t r16 = (uint8_t)r12;
    if (!((r12 < 256u) && (r16 < 7u))) {
        store64_aligned(done_bytes, 0u);
        r5_0 = UINT32_C(0xfffffffe);
        goto kelifandro_exports_kelifandro_serve_long_by_exit;
    }
    uint16_t r1_0_01 = umin16(load16_aligned(asked_bytes + 20), 3u);
    r10 = load64_aligned(asked_bytes);
    r34 = load16_aligned(asked_bytes + 22);
    store64_aligned(done_bytes, 0u);
    *r3 = (uint8_t)r1_0_01;
    r3[1] = r16;
    store64_aligned(r3 + 8, r10);
    store64_aligned(r3 + 16, count);
    struct of_i8_i32 r33_2 = longs_may_begin(way_bytes, card_bytes, r3);
    if (r33_2.f0 == 1u) {
        r13_0 = r33_2.f1;
        goto kelifandro_longs_serve_long_fb070baa9c134c3e_exit;
    }
    if (count == 0u) {
        common_ret_op = 0u;
        goto kelifandro_longs_serve_parts_fb070baa9c134c3e_exit;
    }
    uint16_t r10_2 = load16_aligned(way_bytes + 12);
    r1 = ((way_bytes[19] == 0u) || ((uint16_t)(r10_2 + 53248u) < 53260u)) ? 65535u : ((uint64_t)(uint16_t)(r10_2 / 12u) << 6u);
    r18_0_0_insert_insert = (uint64_t)((r12 << 8u) | (uint32_t)r1_0_01);
    r4026 = 0u;
    r18_0_025 = 0u; /* any */
join_5: {
    uint64_t a1_a0 = umin64(r1, count - r4026);
    uint64_t r18_0_1_insert_insert = (r18_0_025 & UINT64_C(0xffffffffffff0000)) | r18_0_0_insert_insert;
    store64_aligned(r7_1, r18_0_1_insert_insert);
    store64_aligned(r7_1 + 8, uadd_sat64(r4026, r10));
    store64_aligned(r7_1 + 16, a1_a0);
    store16_aligned(r7_1 + 24, r34);
    uint32_t r107 = requests_serve_told(way_bytes, card_bytes, healed_bytes, r7_1, at(r4, r4026 << 9u), a1_a0);
    if (r107 != 0u) {
        common_ret_op = r107;
        goto kelifandro_longs_serve_parts_fb070baa9c134c3e_exit;
    }
    store64_aligned(done_bytes, load64_aligned(done_bytes) + a1_a0);
    uint32_t r122 = load32_aligned(way_bytes);
    *r15_22 = 12u;
    store32(r15_22 + 1, (uint32_t)a1_a0);
    io_write_all(r122, r15_22, 5u);
    uint64_t r40 = load64_aligned(done_bytes);
    if (r40 < count) {
        r4026 = r40;
        r18_0_025 = r18_0_1_insert_insert;
        goto join_5;
    }
    common_ret_op = 0u;
}
kelifandro_longs_serve_parts_fb070baa9c134c3e_exit: {
    r13_0 = common_ret_op;
}
kelifandro_longs_serve_long_fb070baa9c134c3e_exit: {
    r5_0 = r13_0;
}
kelifandro_exports_kelifandro_serve_long_by_exit: {
    return signed32(r5_0);
}
}
