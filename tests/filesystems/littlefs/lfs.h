/* MicroPython's copy of littlefs says `lfs2` where littlefs says `lfs`. */
#include "lfs2.h"
#define lfs_config lfs2_config
#define lfs_block_t lfs2_block_t
#define lfs_off_t lfs2_off_t
#define lfs_size_t lfs2_size_t
#define lfs_ssize_t lfs2_ssize_t
#define lfs_t lfs2_t
#define lfs_file_t lfs2_file_t
#define lfs_format lfs2_format
#define lfs_mount lfs2_mount
#define lfs_unmount lfs2_unmount
#define lfs_file_open lfs2_file_open
#define lfs_file_read lfs2_file_read
#define lfs_file_write lfs2_file_write
#define lfs_file_close lfs2_file_close
#define LFS_O_RDONLY LFS2_O_RDONLY
#define LFS_O_WRONLY LFS2_O_WRONLY
#define LFS_O_CREAT LFS2_O_CREAT
#define LFS_O_TRUNC LFS2_O_TRUNC
#define LFS_ERR_OK LFS2_ERR_OK
#define LFS_ERR_INVAL LFS2_ERR_INVAL
#define LFS_ERR_IO LFS2_ERR_IO
