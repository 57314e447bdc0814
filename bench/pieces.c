/* Times lbk_feed over pieces of a text against lbk_breaks over the whole, in one process.
 *
 *     pieces SIZE TEXT..
 *
 * SIZE is that of a piece, in bytes. Writes for the first two million bytes of each text, in each profile, the best
 * of several runs of each in millions of bytes a second of processor time, and what the pieces reach of the whole.
 */
#define _DEFAULT_SOURCE
#include "../examples/example.h"

#include <string.h>
#include <time.h>

enum { ROOM = 256, RUNS = 41, MOST = 2000000 };

static lbk_table table;
static lbk_break block[ROOM];

static double now(void)
{
    struct timespec at;
    clock_gettime(CLOCK_PROCESS_CPUTIME_ID, &at);
    return (double)at.tv_sec + (double)at.tv_nsec * 1e-9;
}

/* The breaks of the whole: their number, and the sum of their places. */
static uint64_t go_over_whole(uint8_t profile, const bytes *text)
{
    lbk_state state = {0};
    uint64_t sum = 0;
    size_t count;
    state.profile = profile;
    do {
        count = lbk_breaks(&table, &state, text->at, text->size, block, ROOM);
        for (size_t k = 0; k < count; k++)
            sum += block[k].at + block[k].rule + 1;
    } while (count == ROOM);
    return sum;
}

/* The same of the pieces. */
static uint64_t go_over_pieces(uint8_t profile, const bytes *text, size_t most)
{
    lbk_stream stream = {0};
    uint64_t sum = 0;
    size_t from = 0;
    bool last;
    stream.profile = profile;
    do {
        size_t size = text->size - from < most ? text->size - from : most;
        last = from + size == text->size;
        const char *piece = text->at + from;
        from += size;
        lbk_fed fed;
        do {
            fed = lbk_feed(&table, &stream, piece, size, last, block, ROOM);
            piece += fed.taken;
            size -= fed.taken;
            for (size_t k = 0; k < fed.count; k++)
                sum += block[k].at + block[k].rule + 1;
        } while (fed.count == ROOM);
    } while (!last);
    return sum;
}

int main(int words, char **word)
{
    if (words < 3) {
        fprintf(stderr, "usage: pieces SIZE TEXT..\n");
        return 2;
    }
    size_t most = strtoul(word[1], NULL, 10);
    lbk_unicode(&table);
    for (int k = 2; k < words; k++) {
        bytes text = load(word[k]);
        text.size = text.size < MOST ? text.size : MOST;
        for (uint8_t profile = 0; profile < 2; profile++) {
            double whole = 1e9, pieces = 1e9;
            for (int run = 0; run < RUNS; run++) {
                double start = now();
                uint64_t a = go_over_whole(profile, &text);
                double middle = now();
                uint64_t b = go_over_pieces(profile, &text, most);
                double end = now();
                if (a != b) {
                    printf("%s, profile %d: the breaks differ\n", word[k], profile + 1);
                    return 1;
                }
                whole = middle - start < whole ? middle - start : whole;
                pieces = end - middle < pieces ? end - middle : pieces;
            }
            double size = (double)text.size * 1e-6;
            printf("%s, profile %d: whole %.0f MB/s, pieces %.0f MB/s, %.2f of it\n", word[k], profile + 1,
                size / whole, size / pieces, whole / pieces);
        }
        free(text.at);
    }
    return 0;
}
