/* The heap of the library for C on 64-bit ARM: the kit has one for x86-64 only. By it lbk_read and
 * lbk_read_published take memory, as malloc gives it. This file is tested and not proved. */
#include <stdint.h>
#include <stdlib.h>

typedef struct block {
    uint64_t is_given;
    void *start;
} block;

static char nothing;

static block given(void *start)
{
    return start == NULL ? (block){0, &nothing} : (block){1, start};
}

/* An empty block gets as many bytes as its alignment, so that its address is unique. */
block rattle_alloc(size_t size, size_t align)
{
    return given(malloc(size == 0 ? align : size));
}

block rattle_realloc(void *start, size_t old_size, size_t size, size_t align)
{
    (void)old_size;
    return given(realloc(start, size == 0 ? align : size));
}

void rattle_dealloc(void *start)
{
    free(start);
}
