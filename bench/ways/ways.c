/* What the calls of lbk.h give: each function goes through all breaks, words or chunks of a text, adds up their
 * places and kinds, and returns how many there are. bench/speeds and bench/doors call them. */
#include <lbk.h>

enum { ROOM = 256, PIECE = 4096, MOST = 500 };

static size_t sum(const lbk_break *block, size_t count, size_t *total)
{
    for (size_t k = 0; k < count; k++)
        *total += block[k].at + block[k].kind;
    return count;
}

/* The text in pieces of so many bytes, each a text of its own. */
size_t c_texts(const lbk_table *table, const char *text, size_t size, size_t piece, size_t *total)
{
    lbk_break block[ROOM];
    size_t found = 0;
    for (size_t from = 0; from < size; from += piece) {
        size_t length = size - from < piece ? size - from : piece, count;
        lbk_state state = {0};
        do {
            count = lbk_breaks(table, &state, text + from, length, block, ROOM);
            found += sum(block, count, total);
        } while (count == ROOM);
    }
    return found;
}

/* The text as a stream in pieces of 4 KB. */
size_t c_stream(const lbk_table *table, const char *text, size_t size, size_t unused, size_t *total)
{
    lbk_break block[ROOM];
    lbk_stream stream = {0};
    size_t found = 0, from = 0;
    (void)unused;
    do {
        size_t length = size - from < PIECE ? size - from : PIECE, end = from + length;
        lbk_fed fed;
        do {
            fed = lbk_feed(table, &stream, text + from, end - from, end == size, block, ROOM);
            from += fed.taken;
            found += sum(block, fed.count, total);
        } while (fed.count == ROOM);
    } while (from < size);
    return found;
}

/* The words of the text. */
size_t c_words(const lbk_table *unused, const char *text, size_t size, size_t none, size_t *total)
{
    lbk_word block[ROOM];
    lbk_word_state state = {0};
    size_t found = 0, count;
    (void)unused;
    (void)none;
    do {
        count = lbk_words(&state, text, size, block, ROOM);
        for (size_t k = 0; k < count; k++)
            *total += block[k].end;
        found += count;
    } while (count == ROOM);
    return found;
}

/* The chunks of the text, with an overlap of so many bytes. */
size_t c_chunks(const lbk_table *table, const char *text, size_t size, size_t overlap, size_t *total)
{
    lbk_chunk block[ROOM];
    lbk_chunk_state state = {0};
    const lbk_limits limits = {.most = MOST, .least = MOST / 2, .overlap = overlap};
    size_t found = 0, count;
    do {
        count = lbk_chunks(table, &limits, &state, text, size, block, ROOM);
        for (size_t k = 0; k < count; k++)
            *total += block[k].end;
        found += count;
    } while (count == ROOM);
    return found;
}
