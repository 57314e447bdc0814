/* The breaks of one text in UTF-8, UTF-16 and UTF-32, compared with ICU's line iterator and libunibreak over the
 * same units of 16 bits.
 *
 *     units TEXT..
 *
 * Each TEXT is UTF-8, of which the first million bytes are taken. A line has millions of scalars a second of processor time, the best of 25 runs. Each is asked for all breaks, and a sum of
 * their places is kept.
 */
#define _GNU_SOURCE
#include "../examples/example.h"

#include <linebreak.h>
#include <string.h>
#include <time.h>
#include <unicode/ubrk.h>

enum { ROOM = 256, RUNS = 25, CALLS = 5, MILLION = 1000000 };

static lbk_table table;
static UBreakIterator *iterator;
static char *marks;
static size_t total;

typedef struct text {
    const char *utf8;
    const uint16_t *utf16;
    const uint32_t *utf32;
    size_t bytes, units, scalars;
} text;

static double now(void)
{
    struct timespec time;
    clock_gettime(CLOCK_PROCESS_CPUTIME_ID, &time);
    return (double)time.tv_sec + (double)time.tv_nsec / 1e9;
}

#define OURS(name, call, units, size)                                    \
    static void name(const text *of)                                     \
    {                                                                    \
        lbk_state state = {0};                                           \
        lbk_break block[ROOM];                                           \
        size_t count;                                                    \
        do {                                                             \
            count = call(&table, &state, of->units, of->size, block, ROOM); \
            for (size_t k = 0; k < count; k++)                           \
                total += block[k].at;                                    \
        } while (count == ROOM);                                         \
    }

OURS(ours_utf8, lbk_breaks, utf8, bytes)
OURS(ours_utf16, lbk_breaks_utf16, utf16, units)
OURS(ours_utf32, lbk_breaks_utf32, utf32, scalars)

static void icu(const text *of)
{
    UErrorCode error = U_ZERO_ERROR;
    ubrk_setText(iterator, (const UChar *)of->utf16, (int32_t)of->units, &error);
    if (U_FAILURE(error))
        abort();
    for (int32_t at = ubrk_next(iterator); at != UBRK_DONE; at = ubrk_next(iterator))
        total += (size_t)at;
}

static void unibreak(const text *of)
{
    set_linebreaks_utf16(of->utf16, of->units, "", marks);
    for (size_t k = 0; k < of->units; k++)
        if (marks[k] == LINEBREAK_ALLOWBREAK || marks[k] == LINEBREAK_MUSTBREAK)
            total += k + 1;
}

/* The least time of each call, which take turns, so that a busy machine is busy for all of them. */
static void measure(const text *of, double *least)
{
    static void (*const calls[CALLS])(const text *) = {ours_utf8, ours_utf16, ours_utf32, icu, unibreak};
    for (int k = 0; k < CALLS; k++)
        least[k] = 1e9;
    for (int run = 0; run < RUNS; run++)
        for (int k = 0; k < CALLS; k++) {
            double from = now();
            calls[k](of);
            double took = now() - from;
            if (took < least[k])
                least[k] = took;
        }
}

static text read_text(const char *name)
{
    bytes file = load(name);
    text of = {0};
    size_t most = file.size < MILLION ? file.size : MILLION;
    while (most > 0 && most < file.size && ((unsigned char)file.at[most] & 0xC0) == 0x80)
        most--;
    uint16_t *units = malloc((most + 1) * sizeof *units);
    uint32_t *wide = malloc((most + 1) * sizeof *wide);
    if (units == NULL || wide == NULL)
        abort();
    const unsigned char *byte = (const unsigned char *)file.at, *end = byte + most;
    while (byte < end) {
        size_t more = *byte < 0x80 ? 0 : *byte < 0xE0 ? 1 : *byte < 0xF0 ? 2 : 3;
        uint32_t code = more == 0 ? *byte : *byte & (0x3FU >> more);
        for (byte++; more > 0; more--)
            code = code << 6 | (*byte++ & 0x3FU);
        wide[of.scalars++] = code;
        if (code >= 0x10000)
            units[of.units++] = (uint16_t)(0xD7C0 + (code >> 10));
        units[of.units++] = (uint16_t)(code < 0x10000 ? code : 0xDC00 | (code & 0x3FF));
    }
    of.utf8 = file.at;
    of.bytes = most;
    of.utf16 = units;
    of.utf32 = wide;
    return of;
}

int main(int count, char **word)
{
    if (count < 2) {
        fprintf(stderr, "usage: units TEXT..\n");
        return 2;
    }
    lbk_unicode(&table);
    UErrorCode error = U_ZERO_ERROR;
    iterator = ubrk_open(UBRK_LINE, "en", NULL, 0, &error);
    marks = malloc(MILLION + 1);
    if (U_FAILURE(error) || marks == NULL)
        return 1;
    init_linebreak();
    printf("%-12s %8s %8s %8s %8s %s\n", "text", "UTF-8", "UTF-16", "UTF-32", "ICU", "libunibreak");
    for (int k = 1; k < count; k++) {
        text of = read_text(word[k]);
        const char *name = strrchr(word[k], '/');
        double least[CALLS];
        measure(&of, least);
        printf("%-12s", name == NULL ? word[k] : name + 1);
        for (int call = 0; call < CALLS; call++)
            printf(" %8.1f", (double)of.scalars / least[call] / 1e6);
        printf("\n");
    }
    fprintf(stderr, "sum of places: %zu\n", total);
    return 0;
}
