/* Preloaded (LD_PRELOAD), refuses allocations of the program.
 *
 * An allocation is a request to the C library for memory: malloc, calloc, realloc or one of their aligned kin. The
 * program tells where they are counted by asking for BEGIN bytes, and where no longer by asking for END; such a
 * request is itself never counted.
 *
 *   REFUSE=n           the n-th allocation that is counted is refused; 0 or nothing: none is
 *   REFUSE_LATER=1     all later ones are refused too
 *   REFUSE_FROM_START=1  allocations are counted from the start of the program on, whatever it asks for
 *   REFUSE_TOLD=FILE   a byte is written to the file for each allocation that is refused, `x`, and where counting begins, `b`
 */
#include <errno.h>
#include <fcntl.h>
#include <stdlib.h>
#include <unistd.h>

enum { BEGIN = 1000003, END = 1000033 };

extern void *__libc_malloc(size_t);
extern void *__libc_calloc(size_t, size_t);
extern void *__libc_realloc(void *, size_t);
extern void *__libc_memalign(size_t, size_t);

static int is_ready, is_counting, refuses_later, told = -1;
static unsigned long refused_number, count;

__attribute__((constructor)) static void get_ready(void)
{
    const char *number = getenv("REFUSE"), *file = getenv("REFUSE_TOLD");
    refused_number = number ? strtoul(number, NULL, 10) : 0;
    refuses_later = getenv("REFUSE_LATER") != NULL;
    is_counting = getenv("REFUSE_FROM_START") != NULL;
    if (file)
        told = open(file, O_WRONLY | O_CREAT | O_APPEND | O_CLOEXEC, 0600);
    is_ready = 1;
}

static void tell(const char *what)
{
    if (told >= 0 && write(told, what, 1) != 1)
        abort();
}

/* Whether an allocation of this many bytes is refused. */
static int is_refused(size_t size)
{
    if (!is_ready)
        return 0;
    if (size == BEGIN || size == END) {
        if (size == BEGIN)
            tell("b");
        is_counting = size == BEGIN || getenv("REFUSE_FROM_START") != NULL;
        return 0;
    }
    if (!is_counting)
        return 0;
    count++;
    if (refused_number == 0 || count < refused_number || (count > refused_number && !refuses_later))
        return 0;
    tell("x");
    errno = ENOMEM;
    return 1;
}

void *malloc(size_t size)
{
    return is_refused(size) ? NULL : __libc_malloc(size);
}

void *calloc(size_t n, size_t size)
{
    return is_refused(n * size) ? NULL : __libc_calloc(n, size);
}

void *realloc(void *old, size_t size)
{
    return is_refused(size) ? NULL : __libc_realloc(old, size);
}

void *memalign(size_t alignment, size_t size)
{
    return is_refused(size) ? NULL : __libc_memalign(alignment, size);
}

void *aligned_alloc(size_t alignment, size_t size)
{
    return memalign(alignment, size);
}

int posix_memalign(void **to, size_t alignment, size_t size)
{
    void *room = memalign(alignment, size);
    if (room == NULL)
        return ENOMEM;
    *to = room;
    return 0;
}
