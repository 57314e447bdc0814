/* How fast lbk_words finds the words of a text, compared with unicode-segmentation's `unicode_words` (shim/), ICU's
 * word iterator and, where OLDER is defined, an older lbk_words.
 *
 *     words TEXT..
 *
 * Prints lines `TEXT words WAY RATE MB/s`, with tabs, over the first million bytes of each text: processor time, the
 * best of 15 runs in turn, blocks of 256 words. ICU iterates over the text as UTF-8.
 */
#define _GNU_SOURCE
#include <lbk.h>
#include <stdio.h>
#include <stdlib.h>
#include <string.h>
#include <time.h>
#include <unicode/ubrk.h>

enum { MOST = 1000000, ROOM = 256, RUNS = 15 };

typedef size_t (*finder)(const char *text, size_t size);

static size_t with_lbk(const char *text, size_t size)
{
    lbk_word_state state = {0};
    lbk_word block[ROOM];
    size_t sum = 0, count;
    do
        sum += count = lbk_words(&state, text, size, block, ROOM);
    while (count == ROOM);
    return sum;
}

#ifdef OLDER
size_t older_lbk_words(lbk_word_state *state, const char *text, size_t size, lbk_word *block, size_t room);

static size_t with_older(const char *text, size_t size)
{
    lbk_word_state state = {0};
    lbk_word block[ROOM];
    size_t sum = 0, count;
    do
        sum += count = older_lbk_words(&state, text, size, block, ROOM);
    while (count == ROOM);
    return sum;
}
#endif

size_t segmentation_words(const char *text, size_t size, size_t *total);

static size_t with_segmentation(const char *text, size_t size)
{
    static size_t total;
    return segmentation_words(text, size, &total);
}

static UBreakIterator *iterator;

static size_t with_icu(const char *text, size_t size)
{
    UErrorCode error = U_ZERO_ERROR;
    UText *whole = utext_openUTF8(NULL, text, (int64_t)size, &error);
    size_t sum = 0;
    ubrk_setUText(iterator, whole, &error);
    while (U_SUCCESS(error) && ubrk_next(iterator) != UBRK_DONE)
        sum += ubrk_getRuleStatus(iterator) >= UBRK_WORD_NONE_LIMIT;
    utext_close(whole);
    return sum;
}

static const struct {
    const char *name;
    finder find;
} ways[] = {
    {"lbk", with_lbk},
#ifdef OLDER
    {"older", with_older},
#endif
    {"unicode-segmentation", with_segmentation},
    {"ICU", with_icu},
};
enum { WAYS = sizeof ways / sizeof *ways };

static double seconds(void)
{
    struct timespec now;
    clock_gettime(CLOCK_PROCESS_CPUTIME_ID, &now);
    return (double)now.tv_sec + 1e-9 * (double)now.tv_nsec;
}

static void measure(const char *name, const char *text, size_t size)
{
    const char *base = strrchr(name, '/');
    double best[WAYS];
    static volatile size_t sum;
    for (int way = 0; way < WAYS; way++)
        best[way] = 1e9;
    for (int run = 0; run < RUNS; run++)
        for (int way = 0; way < WAYS; way++) {
            double start = seconds();
            sum += ways[way].find(text, size);
            double took = seconds() - start;
            if (took < best[way])
                best[way] = took;
        }
    for (int way = 0; way < WAYS; way++)
        printf("%s\twords\t%s\t%.0f MB/s\n", base ? base + 1 : name, ways[way].name, (double)size / best[way] / 1e6);
}

/* The bytes up to the last scalar that may be cut. */
static size_t whole_scalars(const char *text, size_t size)
{
    while (size && ((unsigned char)text[size - 1] & 0xC0) == 0x80)
        size--;
    return size && (unsigned char)text[size - 1] >= 0xC0 ? size - 1 : size;
}

int main(int count, char **names)
{
    UErrorCode error = U_ZERO_ERROR;
    char *text = malloc(MOST);
    iterator = ubrk_open(UBRK_WORD, "en", NULL, 0, &error);
    if (!text || U_FAILURE(error))
        return 1;
    for (int at = 1; at < count; at++) {
        FILE *file = fopen(names[at], "rb");
        size_t size = file ? fread(text, 1, MOST, file) : 0;
        if (file)
            fclose(file);
        size = whole_scalars(text, size);
        if (size)
            measure(names[at], text, size);
    }
    ubrk_close(iterator);
    free(text);
    return 0;
}
