/* Times the calls of the library over texts of letters of one, two and three bytes, and over others, against a loop
 * that takes a byte a step through a small table, as any machine does at its own speed.
 *
 *     speed CALLS LINE_BREAK EAST_ASIAN CATEGORY EMOJI TEXT..
 *
 * CALLS are names of calls, each between two spaces, or `all`. Writes for each text lines `TEXT CALL RATIO`: how
 * many times as fast as the loop a call goes over its bytes, by the best of RUNS runs of each in processor time.
 */
#define _DEFAULT_SOURCE
#include "../../examples/example.h"

#include <string.h>
#include <time.h>

#ifndef RUNS
#define RUNS 40
#endif

enum { ROOM = 256, SHORT = 8, LINE = 60, PIECE = 4096, MOST_LINES = 1 << 20, MOST_UNITS = 1 << 20 };

static lbk_table table;
static lbk_break block[ROOM];
static lbk_word words[ROOM];
static size_t line_ends[MOST_LINES];
static size_t lines;
static uint16_t units_16[2 * MOST_UNITS];
static uint32_t units_32[MOST_UNITS];
static size_t size_16, size_32;
static uint8_t small[256][4];
static volatile uint64_t kept;

static double now(void)
{
    struct timespec at;
    clock_gettime(CLOCK_PROCESS_CPUTIME_ID, &at);
    return (double)at.tv_sec + (double)at.tv_nsec * 1e-9;
}

/* (not inlined: valgrind tells the instructions of a call from those before it by this name) */
static __attribute__((noinline)) uint64_t go_byte_by_byte(const char *text, size_t size)
{
    unsigned state = 0;
    uint64_t sum = 0;
    for (size_t k = 0; k < size; k++) {
        state = small[(unsigned char)text[k]][state];
        sum += state;
    }
    return sum;
}

static uint64_t breaks_of(const char *text, size_t size, uint8_t profile)
{
    lbk_state state = {0};
    uint64_t sum = 0;
    size_t count;
    state.profile = profile;
    do {
        count = lbk_breaks(&table, &state, text, size, block, ROOM);
        sum += count;
    } while (count == ROOM);
    return sum;
}

static uint64_t go_first(const char *text, size_t size)
{
    return breaks_of(text, size, LBK_FIRST);
}

static uint64_t go_second(const char *text, size_t size)
{
    return breaks_of(text, size, LBK_SECOND);
}

/* A call for each eight bytes, as for cells of a table. */
static uint64_t go_short(const char *text, size_t size)
{
    uint64_t sum = 0;
    for (size_t at = 0; at + SHORT <= size; at += SHORT)
        sum += breaks_of(text + at, SHORT, LBK_FIRST);
    return sum;
}

/* A call for each line of at most 60 bytes. The lines are found before. */
static uint64_t go_lines(const char *text, size_t size)
{
    uint64_t sum = 0;
    size_t start = 0;
    for (size_t k = 0; k < lines && start < size; k++) {
        sum += breaks_of(text + start, line_ends[k] - start, LBK_FIRST);
        start = line_ends[k];
    }
    return sum;
}

/* Where a line ends that begins here: behind LF, or before the scalar of its 61st byte. */
static size_t line_end(const bytes *text, size_t start)
{
    size_t end = text->size - start < LINE ? text->size : start + LINE;
    for (size_t at = start; at < end; at++)
        if (text->at[at] == '\n')
            return at + 1;
    while (end < text->size && start + 1 < end && (text->at[end] & 0xC0) == 0x80)
        end--;
    return end;
}

static void find_lines(const bytes *text)
{
    lines = 0;
    for (size_t start = 0; start < text->size && lines < MOST_LINES;)
        line_ends[lines++] = start = line_end(text, start);
}

static uint64_t go_positions(const char *text, size_t size)
{
    lbk_state state = {0};
    uint64_t sum = 0;
    size_t count;
    do {
        count = lbk_positions(&table, &state, text, size, block, ROOM);
        sum += count;
    } while (count == ROOM);
    return sum;
}

/* Each word is looked at, as a caller would. */
static uint64_t marks_of(const char *text, size_t size, size_t room)
{
    lbk_state state = {0};
    uint64_t bits[ROOM], sum = 0;
    size_t count;
    do {
        count = lbk_marks(&table, &state, text, size, bits, room);
        for (size_t k = 0; k < room; k++)
            sum += bits[k];
    } while (count == 64 * room);
    return sum;
}

static uint64_t go_marks(const char *text, size_t size)
{
    return marks_of(text, size, ROOM);
}

/* A call for each word. */
static uint64_t go_marks_singly(const char *text, size_t size)
{
    return marks_of(text, size, 1);
}

static uint64_t chunks_of(const char *text, size_t size, size_t overlap)
{
    lbk_limits limits = {.most = 500, .least = 250, .overlap = overlap};
    lbk_chunk_state state = {0};
    static lbk_chunk chunks[ROOM];
    uint64_t sum = 0;
    size_t count;
    do {
        count = lbk_chunks(&table, &limits, &state, text, size, chunks, ROOM);
        sum += count;
    } while (count == ROOM);
    return sum;
}

static uint64_t go_chunks(const char *text, size_t size)
{
    return chunks_of(text, size, 0);
}

static uint64_t go_overlaps(const char *text, size_t size)
{
    return chunks_of(text, size, 100);
}

static uint64_t feed_of(const char *text, size_t size, size_t most)
{
    lbk_stream stream = {0};
    uint64_t sum = 0;
    for (size_t from = 0; from < size;) {
        size_t piece = size - from < most ? size - from : most;
        lbk_fed fed = lbk_feed(&table, &stream, text + from, piece, from + piece == size, block, ROOM);
        from += fed.taken;
        sum += fed.count;
    }
    return sum;
}

static uint64_t go_feed(const char *text, size_t size)
{
    return feed_of(text, size, PIECE);
}

static uint64_t go_feed_short(const char *text, size_t size)
{
    return feed_of(text, size, SHORT);
}

static uint64_t go_words(const char *text, size_t size)
{
    lbk_word_state state = {0};
    uint64_t sum = 0;
    size_t count;
    do {
        count = lbk_words(&state, text, size, words, ROOM);
        sum += count;
    } while (count == ROOM);
    return sum;
}

/* A call for each PIECE bytes, which must find a cut nearby and read no more. */
static uint64_t go_cuts(const char *text, size_t size)
{
    uint64_t sum = 0;
    for (size_t at = 0; at < size; at += PIECE)
        sum += lbk_cut(&table, text, size, at);
    return sum;
}

static uint64_t go_cuts_before(const char *text, size_t size)
{
    uint64_t sum = 0;
    for (size_t at = 0; at < size; at += PIECE)
        sum += lbk_cut_before(&table, text, size, at);
    return sum;
}

/* The scalars of a well-formed text as units of 32 and of 16 bits, made before. */
static void find_units(const bytes *text)
{
    const unsigned char *at = (const unsigned char *)text->at, *end = at + text->size;
    size_32 = size_16 = 0;
    while (at < end && size_32 < MOST_UNITS) {
        unsigned more = *at < 0xC0 ? 0 : *at < 0xE0 ? 1 : *at < 0xF0 ? 2 : 3;
        uint32_t scalar = more ? *at & (0x3Fu >> more) : *at;
        at++;
        for (; more && at < end; more--)
            scalar = scalar << 6 | (*at++ & 0x3F);
        units_32[size_32++] = scalar;
        if (scalar > 0xFFFF) {
            units_16[size_16++] = (uint16_t)(0xD7C0 + (scalar >> 10));
            units_16[size_16++] = (uint16_t)(0xDC00 | (scalar & 0x3FF));
        } else {
            units_16[size_16++] = (uint16_t)scalar;
        }
    }
}

#define GO_UNITS(name, call, units, size_of)                                           \
    static uint64_t name(const char *text, size_t size)                               \
    {                                                                                 \
        lbk_state state = {0};                                                        \
        uint64_t sum = 0;                                                             \
        size_t count;                                                                 \
        (void)text;                                                                   \
        (void)size;                                                                   \
        do {                                                                          \
            count = call(&table, &state, units, size_of, block, ROOM);                \
            sum += count;                                                             \
        } while (count == ROOM);                                                      \
        return sum;                                                                   \
    }

GO_UNITS(go_breaks_16, lbk_breaks_utf16, units_16, size_16)
GO_UNITS(go_breaks_32, lbk_breaks_utf32, units_32, size_32)
GO_UNITS(go_positions_16, lbk_positions_utf16, units_16, size_16)
GO_UNITS(go_positions_32, lbk_positions_utf32, units_32, size_32)

static uint64_t go_feed_16(const char *text, size_t size)
{
    lbk_stream stream = {0};
    uint64_t sum = 0;
    (void)text;
    (void)size;
    for (size_t from = 0; from < size_16;) {
        size_t piece = size_16 - from < PIECE ? size_16 - from : PIECE;
        lbk_fed fed = lbk_feed_utf16(&table, &stream, units_16 + from, piece, from + piece == size_16, block, ROOM);
        from += fed.taken;
        sum += fed.count;
    }
    return sum;
}

static uint64_t go_cuts_16(const char *text, size_t size)
{
    uint64_t sum = 0;
    (void)text;
    (void)size;
    for (size_t at = 0; at < size_16; at += PIECE)
        sum += lbk_cut_utf16(&table, units_16, size_16, at);
    return sum;
}

static uint64_t go_cuts_before_16(const char *text, size_t size)
{
    uint64_t sum = 0;
    (void)text;
    (void)size;
    for (size_t at = 0; at < size_16; at += PIECE)
        sum += lbk_cut_before_utf16(&table, units_16, size_16, at);
    return sum;
}

static double seconds_of(uint64_t (*go)(const char *, size_t), const bytes *text)
{
    double start = now();
    kept += go(text->at, text->size);
    return now() - start;
}

/* How many times as fast as the loop a call is, by runs of each in turn. */
static double ratio_of(uint64_t (*go)(const char *, size_t), const bytes *text)
{
    double loop = 1e9, call = 1e9;
    for (int run = 0; run < RUNS; run++) {
        double took = seconds_of(go_byte_by_byte, text);
        loop = took < loop ? took : loop;
        took = seconds_of(go, text);
        call = took < call ? took : call;
    }
    return loop / call;
}

static int is_named(const char *call, const char *names)
{
    char name[32];
    snprintf(name, sizeof name, " %s ", call);
    return strcmp(names, "all") == 0 || strstr(names, name) != NULL;
}

int main(int count, char **word)
{
    static const struct {
        const char *name;
        uint64_t (*go)(const char *, size_t);
    } calls[] = {
        {"lbk_chunks", go_chunks},  {"lbk_chunks-100", go_overlaps},
        {"lbk_breaks", go_first},   {"lbk_breaks-2", go_second}, {"lbk_breaks-8", go_short},
        {"lbk_breaks-60", go_lines},
        {"lbk_feed", go_feed},      {"lbk_feed-8", go_feed_short}, {"lbk_positions", go_positions},
        {"lbk_marks", go_marks},
        {"lbk_words", go_words},    {"lbk_cut", go_cuts},        {"lbk_cut_before", go_cuts_before},
        {"lbk_breaks_utf16", go_breaks_16}, {"lbk_breaks_utf32", go_breaks_32},
        {"lbk_positions_utf16", go_positions_16}, {"lbk_positions_utf32", go_positions_32},
        {"lbk_cut_utf16", go_cuts_16}, {"lbk_cut_before_utf16", go_cuts_before_16}, {"lbk_marks-1", go_marks_singly},
        {"lbk_feed_utf16", go_feed_16},
    };
    if (count < 7) {
        fprintf(stderr, "usage: speed CALLS LINE_BREAK EAST_ASIAN CATEGORY EMOJI TEXT..\n");
        return 2;
    }
    read_table(&table, word + 2);
    for (unsigned k = 0; k < sizeof small; k++)
        small[k / 4][k % 4] = (uint8_t)((k * 7 + 1) % 4);
    for (int k = 6; k < count; k++) {
        bytes text = load(word[k]);
        find_lines(&text);
        find_units(&text);
        for (size_t call = 0; call < sizeof calls / sizeof *calls; call++)
            if (is_named(calls[call].name, word[1]))
                printf("%s %s %.4f\n", word[k], calls[call].name, ratio_of(calls[call].go, &text));
        free(text.at);
    }
    return 0;
}
