/* Tests lbk_feed_utf16: cuts texts in UTF-16 into pieces in all ways and at random, also inside surrogate pairs, and
 * compares the breaks with those of lbk_breaks_utf16 over the whole text.
 *
 *     streams_utf16 ROUNDS SEED
 *
 * Each piece, block and stream lies at a guard page, so an access out of bounds ends the program by a signal. The
 * last line is `N passed, M failed`.
 */
#define _DEFAULT_SOURCE
#include "harness.h"

/* (the two profiles, each with LBK_GOES_ON and without) */
enum { MOST_BREAKS = 2 * MOST_TEXT + 2, MOST_FEED_ROOM = 9, PROFILES = 4, MOST_SHORT = 5 };

static lbk_table table;
static fenced pieces, blocks, streams;

typedef struct found {
    size_t count;
    lbk_break at[MOST_BREAKS];
} found;

/* The breaks of the part of a text from a unit on. */
static found breaks_of_whole(uint8_t profile, const uint16_t *text, size_t start, size_t size)
{
    found all;
    lbk_state state = {0};
    state.at = start;
    state.profile = profile;
    all.count = lbk_breaks_utf16(&table, &state, text, size, all.at, MOST_BREAKS);
    return all;
}

static int same_breaks(const found *a, const found *b)
{
    if (a->count != b->count)
        return 0;
    for (size_t k = 0; k < a->count; k++)
        if (a->at[k].at != b->at[k].at || a->at[k].kind != b->at[k].kind || a->at[k].rule != b->at[k].rule)
            return 0;
    return 1;
}

/* What a stream shows if the block was not full: all units were taken, and at most the first half of a pair waits. */
static int is_settled(const lbk_stream *stream, uint64_t seen)
{
    return stream->at + stream->cut_size == seen
        && (stream->cut_size == 0 || (stream->cut_size == 1 && (stream->cut[1] & 0xFC) == 0xD8));
}

/* Passes a piece to the library until it is taken, in blocks of at most this size. Returns whether every condition
 * held. */
static int feed(lbk_stream *at, const uint16_t *piece, size_t size, bool last, size_t room, found *got)
{
    uint16_t *copy = place(pieces, size * sizeof *copy);
    lbk_stream *stream = place(streams, sizeof *stream);
    memcpy(copy, piece, size * sizeof *copy);
    *stream = *at;
    size_t from = 0;
    lbk_fed fed;
    int holds = 1;
    do {
        lbk_break *block = place(blocks, room * sizeof *block);
        fed = lbk_feed_utf16(&table, stream, copy + from, size - from, last, block, room);
        holds &= fed.count <= room && fed.taken <= size - from && got->count + fed.count <= MOST_BREAKS;
        if (!holds)
            break;
        memcpy(got->at + got->count, block, fed.count * sizeof *block);
        got->count += fed.count;
        from += fed.taken;
    } while (fed.count == room);
    holds &= from == size && memcmp(copy, piece, size * sizeof *copy) == 0;
    *at = *stream;
    return holds;
}

/* After the end nothing is returned, and the stream is unchanged. */
static int is_over(lbk_stream *stream)
{
    static const uint16_t more[] = {'a', ' ', 'b'};
    lbk_break one;
    lbk_stream old = *stream;
    lbk_fed fed = lbk_feed_utf16(&table, stream, more, 3, true, &one, 1);
    return fed.count == 0 && fed.taken == 3 && stream->ended != 0 && memcmp(stream, &old, sizeof old) == 0;
}

/* The part of a text from a unit on, in pieces that end at these offsets; the last offset is the text's size. */
static int agrees(uint8_t profile, const uint16_t *text, size_t start, const size_t *ends, size_t count, size_t room)
{
    found all = breaks_of_whole(profile, text, start, ends[count - 1]), got;
    lbk_stream stream = {0};
    stream.at = start;
    stream.profile = profile;
    got.count = 0;
    size_t from = start;
    int holds = 1;
    for (size_t k = 0; k < count; k++) {
        bool last = k + 1 == count;
        holds &= feed(&stream, text + from, ends[k] - from, last, room, &got);
        from = ends[k];
        holds &= last ? stream.ended != 0 : is_settled(&stream, from);
    }
    return holds && same_breaks(&got, &all) && is_over(&stream);
}

/* Every cutting of a short text, by a bit for each offset between two units, with `last` set at the last piece or
 * after it. */
static void try_all_cuttings(const uint16_t *text, size_t size)
{
    for (unsigned cuts = 0; cuts < 1U << (size == 0 ? 0 : size - 1); cuts++)
        for (unsigned after = 0; after < 2; after++) {
            size_t ends[MOST_SHORT + 1], count = 0;
            for (size_t k = 1; k < size; k++)
                if (cuts >> (k - 1) & 1)
                    ends[count++] = k;
            ends[count++] = size;
            if (after)
                ends[count++] = size;
            uint8_t profile = (uint8_t)below(PROFILES);
            for (size_t room = 1; room <= 2; room++)
                report("a short text in all ways", agrees(profile, text, 0, ends, count, room));
        }
}

/* Letters, spaces, line ends, quotation marks, and surrogates: lone, paired, and in the wrong order. */
static void try_short_texts(void)
{
    static const uint16_t parts[] = {'a', ' ', '\r', '\n', 0xBB, 0x301, 0xD83D, 0xDE00, 0xDBFF, 0xDC00};
    enum { PARTS = sizeof parts / sizeof *parts };
    uint16_t text[MOST_SHORT];
    for (size_t size = 0, many = 1; size <= MOST_SHORT; size++, many *= PARTS)
        for (size_t k = 0; k < many; k++) {
            for (size_t unit = 0, number = k; unit < size; unit++, number /= PARTS)
                text[unit] = parts[number % PARTS];
            try_all_cuttings(text, size);
        }
}

static size_t random_units(uint16_t *to)
{
    char text[2 * MOST_TEXT];
    size_t size = random_text_of(text, MOST_TEXT);
    for (size_t k = 0; k < size; k++)
        to[k] = (uint16_t)(below(3) != 0 ? (unsigned char)text[k] : below(4) == 0 ? below(0x10000) : 0xD800
            + below(0x800));
    return size;
}

/* A random part of a random text in random pieces. */
static void try_random_cutting(void)
{
    uint16_t text[2 * MOST_TEXT];
    size_t size = random_units(text), start = below(2) == 0 ? 0 : below(size + 1), ends[MOST_TEXT + 2], count = 0,
        from = start;
    while (from < size && count < MOST_TEXT) {
        from += below(9);
        ends[count++] = from = from < size ? from : size;
    }
    ends[count++] = size;
    report("a text in random pieces", agrees((uint8_t)below(PROFILES), text, start, ends, count,
        1 + below(MOST_FEED_ROOM)));
}

/* With any bytes as stream and table the calls return, and report no more than they took. */
static void try_any_stream(const lbk_table *any)
{
    uint16_t text[2 * MOST_TEXT];
    size_t size = random_units(text), from = 0, room = 1 + below(MOST_FEED_ROOM);
    lbk_stream stream;
    fill_random(&stream, sizeof stream);
    uint8_t profile = stream.profile;
    size_t cut = stream.cut_size < 2 ? stream.cut_size : 2, sum = 0;
    size_t most = size + cut + (stream.held_code != 0) + (stream.ended == 0);
    lbk_fed fed;
    do {
        lbk_break *block = place(blocks, room * sizeof *block);
        fed = lbk_feed_utf16(any, &stream, text + from, size - from, true, block, room);
        int holds = fed.count <= room && fed.taken <= size - from && stream.profile == profile;
        for (size_t k = 0; holds && k < fed.count; k++)
            holds &= block[k].kind >= LBK_MAY && block[k].kind <= LBK_MUST && lbk_label(block[k].rule).text[0] != 0;
        report("breaks of any table and any stream", holds);
        if (!holds)
            return;
        from += fed.taken;
        sum += fed.count;
    } while (fed.count == room);
    report("no more breaks than units, and two", from == size && sum <= most);
}

int main(int count, char **word)
{
    static lbk_table any;
    if (count != 3) {
        fprintf(stderr, "usage: streams_utf16 ROUNDS SEED\n");
        return 2;
    }
    unsigned long rounds = strtoul(word[1], NULL, 10);
    seed = strtoul(word[2], NULL, 10) * 2 + 1;
    lbk_unicode(&table);
    fill_random(&any, sizeof any);
    pieces = fence(2 * MOST_TEXT * sizeof(uint16_t));
    blocks = fence(MOST_FEED_ROOM * sizeof(lbk_break));
    streams = fence(sizeof(lbk_stream));

    try_short_texts();
    for (unsigned long round = 0; round < rounds; round++) {
        try_random_cutting();
        if (round % 10 == 0)
            try_any_stream(round % 20 == 0 ? &table : &any);
    }
    printf("%lu passed, %lu failed\n", passed, failed);
    return failed != 0;
}
