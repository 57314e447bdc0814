/* Goes over one text in many threads at once, which share a table: its breaks, those of it as a stream, and its
 * words. Each thread has to find what one finds by itself. The last line is `N passed, M failed`.
 */
#define _DEFAULT_SOURCE
#include "../../examples/harness.h"
#include <pthread.h>

enum { THREADS = 8, TURNS = 50, SIZE = 20000, ROOM = 64 };

static lbk_table table;
static char text[SIZE];
static size_t size;

/* What a thread found: sums of all that came. */
typedef struct sums {
    uint64_t breaks, stream, words;
} sums;

static sums wanted;

static uint64_t with_break(uint64_t sum, lbk_break one)
{
    return (sum ^ (one.at * 65536 + one.kind * 256 + one.rule)) * 1099511628211ULL;
}

static uint64_t sum_of_breaks(void)
{
    lbk_state state = {0};
    lbk_break block[ROOM];
    uint64_t sum = 0;
    size_t count;
    do {
        count = lbk_breaks(&table, &state, text, size, block, ROOM);
        for (size_t k = 0; k < count; k++)
            sum = with_break(sum, block[k]);
    } while (count == ROOM);
    return sum;
}

static uint64_t sum_of_stream(size_t piece)
{
    lbk_stream stream = {0};
    lbk_break block[ROOM];
    uint64_t sum = 0;
    for (size_t from = 0; from <= size && !stream.ended;) {
        size_t length = size - from < piece ? size - from : piece;
        lbk_fed fed = lbk_feed(&table, &stream, text + from, length, from + length == size, block, ROOM);
        for (size_t k = 0; k < fed.count; k++)
            sum = with_break(sum, block[k]);
        from += fed.taken;
    }
    return sum;
}

static uint64_t sum_of_words(void)
{
    lbk_word_state state = {0};
    lbk_word block[ROOM];
    uint64_t sum = 0;
    size_t count;
    do {
        count = lbk_words(&state, text, size, block, ROOM);
        for (size_t k = 0; k < count; k++)
            sum = (sum ^ (block[k].start * 65536 + block[k].end)) * 1099511628211ULL;
    } while (count == ROOM);
    return sum;
}

/* Goes over the text some times, in pieces of sizes of the thread's own. Counts what differs into what it is given. */
static void *go_over(void *given)
{
    sums *differ = given;
    size_t piece = 1 + differ->stream;
    differ->stream = 0;
    for (unsigned turn = 0; turn < TURNS; turn++) {
        differ->breaks += sum_of_breaks() != wanted.breaks;
        differ->stream += sum_of_stream(piece + turn) != wanted.breaks;
        differ->words += sum_of_words() != wanted.words;
    }
    return NULL;
}

int main(void)
{
    pthread_t threads[THREADS];
    sums differ[THREADS];
    seed = 1;
    lbk_unicode(&table);
    while (size < SIZE / 2)
        size += random_text_of(text + size, SIZE - size);
    wanted = (sums){sum_of_breaks(), 0, sum_of_words()};
    for (unsigned k = 0; k < THREADS; k++) {
        differ[k] = (sums){0, k, 0};
        if (pthread_create(&threads[k], NULL, go_over, &differ[k]) != 0)
            abort();
    }
    for (unsigned k = 0; k < THREADS; k++) {
        pthread_join(threads[k], NULL);
        report("breaks in a thread", differ[k].breaks == 0);
        report("a stream in a thread", differ[k].stream == 0);
        report("words in a thread", differ[k].words == 0);
    }
    printf("%lu passed, %lu failed\n", passed, failed);
    return failed != 0;
}
