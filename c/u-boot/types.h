/* What the library's two C files find of stdint.h in U-Boot, whose own has no types. */
#ifndef KELIFANDRO_TYPES_H
#define KELIFANDRO_TYPES_H
#include <linux/types.h>

#ifndef UINT64_MAX
#define UINT64_MAX (~(uint64_t)0)
#endif
#ifndef UINT64_C
#define UINT32_C(number) number##u
#define UINT64_C(number) number##ull
#endif
#endif
