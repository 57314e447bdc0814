/* What the programs that test the library with random bytes share: random numbers and texts, and memory between
 * guard pages. */
#ifndef HARNESS_H
#define HARNESS_H

#include "example.h"

#include <string.h>
#include <sys/mman.h>
#include <unistd.h>

enum { MOST_TEXT = 200, MOST_ROOM = 40 };

static unsigned long passed, failed;
static uint64_t seed;

static inline void report(const char *what, int holds)
{
    if (holds) {
        passed++;
    } else if (failed++ < 20) {
        printf("FAILED  %s\n", what);
    }
}

/* A number below `most` (xorshift64*, which is enough here). */
static inline uint64_t below(uint64_t most)
{
    seed ^= seed >> 12;
    seed ^= seed << 25;
    seed ^= seed >> 27;
    return most == 0 ? 0 : (seed * 0x2545F4914F6CDD1DULL >> 11) % most;
}

static inline void fill_random(void *to, size_t size)
{
    unsigned char *byte = to;
    for (size_t k = 0; k < size; k++)
        byte[k] = (unsigned char)below(256);
}

/* Pages that may be used, between two guard pages. */
typedef struct fenced {
    unsigned char *from, *to;
} fenced;

static inline fenced fence(size_t size)
{
    size_t page = (size_t)sysconf(_SC_PAGESIZE), whole = (size + page - 1) / page * page;
    unsigned char *all = mmap(NULL, whole + 2 * page, PROT_NONE, MAP_PRIVATE | MAP_ANONYMOUS, -1, 0);
    if (all == MAP_FAILED || mprotect(all + page, whole, PROT_READ | PROT_WRITE) != 0)
        abort();
    return (fenced){all + page, all + page + whole};
}

/* Room for so many bytes at the end or the start of the pages. */
static inline void *place(fenced pages, size_t size)
{
    return below(2) == 0 ? (void *)pages.from : (void *)(pages.to - size);
}

/* Up to `longest` bytes that resemble text: random ones, scalars of each size, and truncated ones. */
static inline size_t random_text_of(char *to, size_t longest)
{
    static const char *const parts[] = {"a", " ", "\n", "\r\n", "(", "\"", "\xC2\xAB", "\xC2\xBB", "\xCC\x81",
        "\xE2\x80\x8D",
        "\xE4\xB8\x80", "\xEA\xB0\x80", "\xF0\x9F\x87\xA6", "\xF0\x9F\x98\x80", "\xF0\x9F\x8F\xBB", "\xE2\x80\x8B", "1",
        ",", "%", "-", "\xD7\x90", "\xE0", "\xF0\x9F", "\xC3", "\xED\xA0\x80", "\xF4\x90", "\xEF\xBF\xBD", "\xC2\xA0"};
    size_t size = 0, most = below(longest + 1);
    unsigned mix = (unsigned)below(3);
    while (size < most) {
        const char *part = parts[below(sizeof parts / sizeof *parts)];
        size_t length = strlen(part);
        if (mix == 0 || (mix == 1 && below(4) == 0) || size + length > most)
            to[size++] = (char)below(256);
        else {
            memcpy(to + size, part, length);
            size += length;
        }
    }
    return size;
}

static inline size_t random_text(char *to)
{
    return random_text_of(to, MOST_TEXT);
}

#endif
