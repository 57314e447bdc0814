/* Preloaded (LD_PRELOAD), ends the program with status 99 if a read has an empty buffer or a write has no bytes. */
#define _GNU_SOURCE
#include <dlfcn.h>
#include <sys/types.h>
#include <unistd.h>

enum { STATUS = 99 };

ssize_t read(int file, void *bytes, size_t size)
{
    ssize_t (*system_read)(int, void *, size_t);
    *(void **)&system_read = dlsym(RTLD_NEXT, "read");
    if (size == 0)
        _exit(STATUS);
    return system_read(file, bytes, size);
}

ssize_t write(int file, const void *bytes, size_t size)
{
    ssize_t (*system_write)(int, const void *, size_t);
    *(void **)&system_write = dlsym(RTLD_NEXT, "write");
    if (size == 0)
        _exit(STATUS);
    return system_write(file, bytes, size);
}
