/* Tests lbk_feed: cuts texts and parts of texts into pieces in all ways and at random, and compares the breaks with
 * those of the whole text.
 *
 *     streams ROUNDS SEED
 *
 * Each piece, block and stream lies at a guard page, so an access out of bounds ends the program by a signal. The
 * last line is `N passed, M failed`.
 */
#define _DEFAULT_SOURCE
#include "harness.h"

/* (the two profiles, each with LBK_GOES_ON and without) */
enum { MOST_BREAKS = 2 * MOST_TEXT + 2, MOST_FEED_ROOM = 9, PROFILES = 4 };

static lbk_table table;
static fenced pieces, blocks, streams;

/* The breaks of a text, from a state or a stream. */
typedef struct found {
    size_t count;
    lbk_break at[MOST_BREAKS];
} found;

/* The breaks of the part of a text from a byte on, in a profile with or without LBK_GOES_ON. */
static found breaks_of_whole(uint8_t profile, const char *text, size_t start, size_t size)
{
    found all;
    lbk_state state = {0};
    state.at = start;
    state.profile = profile;
    all.count = lbk_breaks(&table, &state, text, size, all.at, MOST_BREAKS);
    return all;
}

static int same_breaks(const found *a, const found *b)
{
    if (a->count != b->count)
        return 0;
    for (size_t k = 0; k < a->count; k++)
        if (a->at[k].at != b->at[k].at || a->at[k].kind != b->at[k].kind || a->at[k].rule != b->at[k].rule)
            return 0;
    return 1;
}

/* Whether these bytes are one scalar: its shortest form, no surrogate, not above 10FFFF. */
static int is_scalar(const unsigned char *byte, size_t size)
{
    static const uint32_t least[] = {0, 0, 0x80, 0x800, 0x10000};
    size_t wanted = byte[0] < 0x80 ? 1 : byte[0] < 0xC0 ? 0 : byte[0] < 0xE0 ? 2 : byte[0] < 0xF0 ? 3 : byte[0] < 0xF8
        ? 4 : 0;
    if (wanted != size)
        return 0;
    uint32_t code = size == 1 ? byte[0] : byte[0] & (0x7FU >> size);
    for (size_t k = 1; k < size; k++) {
        if ((byte[k] & 0xC0) != 0x80)
            return 0;
        code = code << 6 | (byte[k] & 0x3F);
    }
    return code >= least[size] && code <= 0x10FFFF && (code < 0xD800 || code > 0xDFFF);
}

/* Whether more bytes can complete these to one scalar, or there are none. */
static int is_open(const uint8_t *front, size_t size)
{
    static const char *const ends[] = {"\x80", "\xA0", "\x90", "\x80\x80", "\xA0\x80", "\x90\x80", "\x80\x80\x80",
        "\x90\x80\x80"};
    unsigned char text[8];
    memcpy(text, front, size);
    for (size_t k = 0; size > 0 && k < sizeof ends / sizeof *ends; k++) {
        size_t more = strlen(ends[k]);
        memcpy(text + size, ends[k], more);
        if (is_scalar(text, size + more))
            return 1;
    }
    return size == 0;
}

/* What a stream shows if the block was not full: all bytes were taken, and at most one scalar and one position are
 * open. */
static int is_settled(const lbk_stream *stream, uint64_t seen, const found *got, const found *all)
{
    if (stream->at + stream->cut_size != seen || stream->cut_size > 3 || !is_open(stream->cut, stream->cut_size))
        return 0;
    if (stream->held_code != 0 && ((stream->profile & LBK_SECOND) == 0 || stream->held_at >= stream->at))
        return 0;
    for (size_t k = got->count; k < all->count; k++)
        if (all->at[k].at < stream->at && (stream->held_code == 0 || all->at[k].at != stream->held_at))
            return 0;
    return 1;
}

/* Passes a piece to the library until it is taken, in blocks of at most this size. Returns whether every condition
 * held. */
static int feed(lbk_stream *at, const char *piece, size_t size, bool last, size_t room, found *got)
{
    char *copy = place(pieces, size);
    lbk_stream *stream = place(streams, sizeof *stream);
    memcpy(copy, piece, size);
    *stream = *at;
    size_t from = 0;
    lbk_fed fed;
    int holds = 1;
    do {
        lbk_break *block = place(blocks, room * sizeof *block);
        fed = lbk_feed(&table, stream, copy + from, size - from, last, block, room);
        holds &= fed.count <= room && fed.taken <= size - from && got->count + fed.count <= MOST_BREAKS;
        if (!holds)
            break;
        memcpy(got->at + got->count, block, fed.count * sizeof *block);
        got->count += fed.count;
        from += fed.taken;
    } while (fed.count == room);
    holds &= from == size && memcmp(copy, piece, size) == 0;
    *at = *stream;
    return holds;
}

/* After the end nothing is returned, and the stream is unchanged. */
static int is_over(lbk_stream *stream)
{
    lbk_break one;
    lbk_stream old = *stream;
    lbk_fed fed = lbk_feed(&table, stream, "a b", 3, true, &one, 1);
    return fed.count == 0 && fed.taken == 3 && stream->ended != 0 && stream->at == old.at;
}

/* The part of a text from a byte on, in pieces that end at these offsets; the last offset is the text's size. */
static int agrees(uint8_t profile,
    const char *text, size_t start, const size_t *ends, size_t count, size_t room, const found *all)
{
    lbk_stream stream = {0};
    found got;
    stream.at = start;
    stream.profile = profile;
    got.count = 0;
    size_t from = start;
    int holds = 1;
    for (size_t k = 0; k < count; k++) {
        bool last = k + 1 == count;
        holds &= feed(&stream, text + from, ends[k] - from, last, room, &got);
        from = ends[k];
        holds &= last ? stream.ended != 0 : is_settled(&stream, from, &got, all);
    }
    return holds && same_breaks(&got, all) && is_over(&stream);
}

/* All ways to cut a text into up to four pieces, also empty ones, with `last` set at the last piece or after it, if
 * the text ends there and if it goes on. */
static void try_all_cuttings(const char *text, size_t size)
{
    for (unsigned profile = 0; profile < PROFILES; profile++) {
        found all = breaks_of_whole((uint8_t)profile, text, 0, size);
        for (size_t i = 0; i <= size; i++)
            for (size_t j = i; j <= size; j++)
                for (size_t k = j; k <= size; k++)
                    for (size_t room = 1; room <= 3; room++) {
                        size_t ends[] = {i, j, k, size, size};
                        report("a text in four pieces", agrees((uint8_t)profile, text, 0, ends, 4 + (i + j + k) % 2,
                            room, &all));
                    }
    }
}

/* Texts for cuts: scalars of each size and parts of them, marks, and quotation marks. */
static void try_short_texts(void)
{
    static const char *const texts[] = {"", "a", "a b\r\nc", "a\r\n\r\nb", "\xF0\x9F\x98\x80 \xF0\x9F\x98\x80",
        "\xE2\x82\xAC \xC3\xA9",
        "\xE2\x82 \xF0\x9F\x98" "a\xF0\x9F", "\xC0\xAF\xE0\x80\xBF\xF0\x81\x82", "\xED\xA0\x80\xF4\x90\x80\xFF",
        "\x80\xBF\xE1\x80\xE2",
        "a \xC2\xBB", "a \xC2\xBB" "b", "a \xC2\xBB\xCC\x81\xCC\x81" "b c", "a \xC2\xBB\xCC\x81 b",
        "\xC2\xAB a \xC2\xBB a \xC2\xBB" "b",
        "a \xE2\x80\x99\xE2\x80\x99" "b", "a \xE2\x80\x99\xE2\x80\x8D\xE4\xB8\x80", "a \xC2\xBB\xE4\xB8\xFF",
        "\xF0\x9F\x87\xA6\xF0\x9F\x87\xA6\xF0\x9F\x87\xA6"};
    for (size_t k = 0; k < sizeof texts / sizeof *texts; k++)
        try_all_cuttings(texts[k], strlen(texts[k]));
    try_all_cuttings("a\0b \0", 5);
}

/* The ends of random pieces of a text from a byte of it on. Returns how many. */
static size_t random_ends(size_t start, size_t size, size_t *ends)
{
    size_t count = 0, most = below(3) == 0 ? size + 1 : 1 + below(9);
    for (size_t from = start; from < size && count < MOST_TEXT; ends[count++] = from) {
        from += below(most + 1);
        if (from > size)
            from = size;
    }
    ends[count++] = size;
    return count;
}

/* A random part of a random text in random pieces; and the stream that a piece left, continued over another text. */
static void try_random_cutting(void)
{
    char text[2 * MOST_TEXT];
    size_t size = random_text(text), ends[MOST_TEXT + 2], room = 1 + below(MOST_FEED_ROOM);
    size_t start = below(2) == 0 ? 0 : below(size + 1), count = random_ends(start, size, ends);
    uint8_t profile = (uint8_t)below(PROFILES);
    found all = breaks_of_whole(profile, text, start, size);
    report("a text in random pieces", agrees(profile, text, start, ends, count, room, &all));

    lbk_stream stream = {0};
    found got;
    size_t front = below(size + 1);
    stream.profile = profile;
    got.count = 0;
    int holds = feed(&stream, text, front, false, room, &got);
    size = front + random_text(text + front);
    all = breaks_of_whole(profile, text, 0, size);
    holds &= is_settled(&stream, front, &got, &all);
    holds &= feed(&stream, text + front, size - front, true, room, &got);
    report("a stream gone on with over another text", holds && same_breaks(&got, &all));
}

/* A text in parts that begin at cuts of lbk_cut, each a stream in random pieces: their breaks, joined, are those of
 * the text. */
static void try_parts(void)
{
    char text[MOST_TEXT];
    size_t size = random_text(text), ends[MOST_TEXT + 2], room = 1 + below(MOST_FEED_ROOM);
    uint8_t profile = (uint8_t)below(2);
    found all = breaks_of_whole(profile, text, 0, size), got;
    int holds = 1;
    got.count = 0;
    for (size_t from = 0, to; from < size; from = to) {
        to = lbk_cut(&table, text, size, from + 1 + below(size - from));
        lbk_stream stream = {0};
        stream.at = from;
        stream.profile = (uint8_t)(profile + (to < size ? LBK_GOES_ON : 0));
        size_t count = random_ends(from, to, ends);
        for (size_t k = 0, start = from; k < count; start = ends[k++])
            holds &= feed(&stream, text + start, ends[k] - start, k + 1 == count, room, &got);
    }
    report("a text in parts, each a stream", holds && same_breaks(&got, &all));
}

/* A text a byte at a time, with room for one break. */
static void try_bytes(void)
{
    char text[MOST_TEXT];
    size_t size = random_text(text), ends[MOST_TEXT + 1];
    uint8_t profile = (uint8_t)below(PROFILES);
    for (size_t k = 0; k <= size; k++)
        ends[k] = k;
    found all = breaks_of_whole(profile, text, 0, size);
    report("a text a byte at a time", agrees(profile, text, 0, ends, size + 1, 1, &all));
}

/* With any bytes as stream and table the calls return, and report no more than they took. */
static void try_any_bytes(const lbk_table *any)
{
    char text[MOST_TEXT];
    size_t size = random_text(text), from = 0, room = below(MOST_FEED_ROOM + 1);
    lbk_stream *stream = place(streams, sizeof *stream);
    char *piece = place(pieces, size);
    memcpy(piece, text, size);
    fill_random(stream, sizeof *stream);
    if (below(4) != 0) {
        stream->profile %= PROFILES;
        stream->ended = 0;
    }
    size_t cut = stream->cut_size < sizeof stream->cut ? stream->cut_size : sizeof stream->cut, sum = 0;
    size_t most = size + cut + (stream->held_code != 0) + (stream->ended == 0);
    for (unsigned calls = 0; calls < 4 * MOST_TEXT; calls++) {
        lbk_break *block = place(blocks, room * sizeof *block);
        lbk_stream old = *stream;
        lbk_fed fed = lbk_feed(any, stream, piece + from, size - from, below(2) == 0, block, room);
        report("no more than there is room for", fed.count <= room && fed.taken <= size - from);
        report("the profile stays", stream->profile == old.profile);
        report("no room: nothing is taken", room > 0 || (fed.taken == 0 && memcmp(stream, &old, sizeof old) == 0));
        report("room is left: all is taken", fed.count == room || fed.taken == size - from);
        for (size_t k = 0; k < fed.count; k++)
            report("a break is a kind by a rule",
                 (block[k].kind == LBK_MAY || block[k].kind == LBK_MUST) && lbk_label(block[k].rule).text[0] != 0);
        sum += fed.count;
        report("an ended stream stays", old.ended == 0 || room == 0
            || (fed.count == 0 && memcmp(stream, &old, sizeof old) == 0));
        from += fed.taken;
        if (fed.count < room || room == 0)
            break;
    }
    report("at most a break for each byte, one that waited and the end", sum <= most);
    report("the piece is as it was", memcmp(piece, text, size) == 0);
}

int main(int words, char **word)
{
    static lbk_table any;
    if (words != 3) {
        fprintf(stderr, "usage: streams ROUNDS SEED\n");
        return 2;
    }
    unsigned long rounds = strtoul(word[1], NULL, 10);
    seed = strtoul(word[2], NULL, 10) * 2 + 1;
    lbk_unicode(&table);
    fill_random(&any, sizeof any);
    pieces = fence(2 * MOST_TEXT);
    blocks = fence(MOST_ROOM * sizeof(lbk_break));
    streams = fence(sizeof(lbk_stream));

    try_short_texts();
    for (unsigned long round = 0; round < rounds; round++) {
        try_random_cutting();
        if (round % 10 == 0)
            try_bytes();
        if (round % 10 == 1)
            try_any_bytes(round % 3 == 0 ? &table : &any);
        if (round % 10 == 2)
            try_parts();
    }
    printf("%lu passed, %lu failed\n", passed, failed);
    return failed != 0;
}
