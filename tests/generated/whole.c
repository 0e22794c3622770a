/* The library and kelifandro.c as one unit, of which only what kelifandro.h names is seen from outside: so that a compiler knows of each
   function of the library who calls it, and of each array who reads it. tests/generated/mutants compares what compilers make of it. */
#include <stddef.h>
#include <stdint.h>

static int64_t kelifandro_put(int32_t stream, const uint8_t *bytes, uint64_t n);
static int64_t kelifandro_get(int32_t stream, uint8_t *bytes, uint64_t n);
static int32_t kelifandro_open_by(const void *way, void *card, void *healed);
static int32_t kelifandro_serve_by(const void *way, void *card, void *healed, const void *asked, void *blocks, uint64_t count);
static int32_t kelifandro_serve_long_by(const void *way, void *card, void *healed, const void *asked, void *blocks, uint64_t count,
                                        void *done);
static uint64_t kelifandro_sectors_by(const void *way, const void *card, uint32_t part);
static void kelifandro_close_by(const void *way);

#include "kelifandro.c"
#include "kelifandro_core.c"
