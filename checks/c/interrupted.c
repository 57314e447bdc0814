/* Preloaded (LD_PRELOAD), interrupts one call of the program: the read or the write, as INTERRUPT
 * says, with the number INTERRUPT_CALL, counted from 1. The call after it is made as ever. */
#define _GNU_SOURCE
#include <dlfcn.h>
#include <errno.h>
#include <stdlib.h>
#include <string.h>
#include <sys/types.h>

/* Whether this call of that name is the one to interrupt. */
static int is_interrupted(const char *name)
{
    static unsigned long calls;
    const char *which = getenv("INTERRUPT"), *number = getenv("INTERRUPT_CALL");
    if (which == NULL || number == NULL || strcmp(which, name) != 0 || ++calls != strtoul(number, NULL, 10))
        return 0;
    errno = EINTR;
    return 1;
}

ssize_t read(int file, void *bytes, size_t size)
{
    ssize_t (*system_read)(int, void *, size_t);
    *(void **)&system_read = dlsym(RTLD_NEXT, "read");
    return is_interrupted("read") ? -1 : system_read(file, bytes, size);
}

ssize_t write(int file, const void *bytes, size_t size)
{
    ssize_t (*system_write)(int, const void *, size_t);
    *(void **)&system_write = dlsym(RTLD_NEXT, "write");
    return is_interrupted("write") ? -1 : system_write(file, bytes, size);
}
