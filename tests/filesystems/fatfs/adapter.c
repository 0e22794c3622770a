/* The copy of FatFs in MicroPython's source takes a pointer for a drive, and has two more words for disk_ioctl: here they come to the
   functions of c/fatfs/diskio.c, which are called fatfs_disk_.. in this test. */
#include "ff.h"
#include "diskio.h"

DSTATUS fatfs_disk_initialize(BYTE drive);
DSTATUS fatfs_disk_status(BYTE drive);
DRESULT fatfs_disk_read(BYTE drive, BYTE *bytes, DWORD sector, UINT count);
DRESULT fatfs_disk_write(BYTE drive, const BYTE *bytes, DWORD sector, UINT count);
DRESULT fatfs_disk_ioctl(BYTE drive, BYTE command, void *buffer);

DRESULT disk_read(void *drive, BYTE *bytes, DWORD sector, UINT count)
{
    (void)drive;
    return fatfs_disk_read(0, bytes, sector, count);
}

DRESULT disk_write(void *drive, const BYTE *bytes, DWORD sector, UINT count)
{
    (void)drive;
    return fatfs_disk_write(0, bytes, sector, count);
}

DRESULT disk_ioctl(void *drive, BYTE command, void *buffer)
{
    (void)drive;
    if (command == IOCTL_INIT || command == IOCTL_STATUS) {
        *(DSTATUS *)buffer = command == IOCTL_INIT ? fatfs_disk_initialize(0) : fatfs_disk_status(0);
        return RES_OK;
    }
    return fatfs_disk_ioctl(0, command, buffer);
}
