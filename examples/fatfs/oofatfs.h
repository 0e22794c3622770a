/* MicroPython's copy of FatFs, which Debian has, gives each call the volume in place of a path: here FatFs's own calls come to it. */
#define f_mkfs(path, ...) f_mkfs(&volume, __VA_ARGS__)
#define f_mount(fs, path, now) f_mount(fs)
#define f_open(file, ...) f_open(&volume, file, __VA_ARGS__)
