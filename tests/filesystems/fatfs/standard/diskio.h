/* FatFs's disk functions, as its own diskio.h has them; the copy that is tried takes a pointer for a drive (adapter.c). */
#ifndef DISKIO_H
#define DISKIO_H
typedef BYTE DSTATUS;
typedef enum { RES_OK, RES_ERROR, RES_WRPRT, RES_NOTRDY, RES_PARERR } DRESULT;
enum { STA_NOINIT = 1, STA_NODISK = 2, STA_PROTECT = 4 };
enum { CTRL_SYNC, GET_SECTOR_COUNT, GET_SECTOR_SIZE, GET_BLOCK_SIZE, CTRL_TRIM };
#endif
