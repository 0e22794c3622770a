/* What c/fatfs/diskio.c uses of FatFs's own ff.h. */
#ifndef FF_DEFINED
#define FF_DEFINED 86604
#include <stdint.h>
typedef unsigned int UINT;
typedef unsigned char BYTE;
typedef uint16_t WORD;
typedef uint32_t DWORD;
#endif
