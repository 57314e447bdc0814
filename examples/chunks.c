/* Tests lbk_chunks: compares it with its definition, applied to the library's breaks and words, over texts and
 * random bytes, in both profiles, with random limits and block sizes. With tables and states of random bytes each
 * chunk must start at or before the end of the one before it, and end after that and within the text.
 *
 *     chunks ROUNDS SEED TEXT..
 *
 * The last line is `N passed, M failed`.
 */
#define _DEFAULT_SOURCE
#include "harness.h"

enum { MOST_CHUNKS = 7, ROUNDS_WITH_A_TABLE = 500 };

static lbk_table real;
static fenced texts, blocks, states;

/* A break outside words, and how many words are before it. */
typedef struct cut {
    size_t at, words;
    uint8_t kind, rule;
} cut;

typedef struct cuts {
    cut *all;
    size_t count;
} cuts;

static cuts cuts_of(const char *text, size_t size, uint8_t profile)
{
    lbk_word *words = malloc((size + 1) * sizeof *words);
    lbk_break *breaks = malloc((size + 2) * sizeof *breaks);
    cuts found = {malloc((size + 2) * sizeof *found.all), 0};
    lbk_word_state of_words = {0};
    lbk_state of_breaks = {.profile = profile};
    if (words == NULL || breaks == NULL || found.all == NULL)
        abort();
    size_t many = lbk_words(&of_words, text, size, words, size + 1), behind = 0;
    size_t count = lbk_breaks(&real, &of_breaks, text, size, breaks, size + 2);
    for (size_t k = 0; k < count; k++) {
        while (behind < many && words[behind].end <= breaks[k].at)
            behind++;
        if (behind == many || breaks[k].at <= words[behind].start)
            found.all[found.count++] = (cut){breaks[k].at, behind, breaks[k].kind, breaks[k].rule};
    }
    free(words);
    free(breaks);
    return found;
}

static int fits(const lbk_limits *limits, cut start, cut end)
{
    return end.at - start.at <= limits->most && (limits->words == 0 || end.words - start.words <= limits->words);
}

/* Where a chunk ends: the index of a cut. The cuts from `first` on are ahead. */
static size_t end_of(const lbk_limits *limits, cuts of, cut start, size_t told, size_t first)
{
    size_t fitting = first;
    while (fitting < of.count && fits(limits, start, of.all[fitting]))
        fitting++;
    if (fitting == first)
        return first;
    for (size_t k = fitting; fitting < of.count && k > first; k--)
        if (of.all[k - 1].kind == LBK_MUST && of.all[k - 1].at - told >= limits->least)
            return k - 1;
    return fitting - 1;
}

/* Where the next chunk starts. */
static cut start_behind(const lbk_limits *limits, cuts of, cut start, size_t end)
{
    cut at = of.all[end];
    for (size_t k = 0; end + 1 < of.count && k < end; k++) {
        size_t twice = at.at - of.all[k].at;
        if (of.all[k].at > start.at && twice <= limits->overlap && 2 * twice <= at.at - start.at
            && fits(limits, of.all[k], of.all[end + 1]))
            return of.all[k];
    }
    return at;
}

/* Whether a call's chunks are the first ones of the definition. */
static int has_its_chunks(const char *text, size_t size, uint8_t profile, lbk_limits limits)
{
    cuts of = cuts_of(text, size, profile);
    lbk_chunk_state *state = place(states, sizeof *state);
    lbk_chunk *block = NULL;
    cut start = {0, 0, 0, 0};
    size_t told = 0, first = 0, room = 0, count = 0, next = 0;
    int same = 1;
    memset(state, 0, sizeof *state);
    state->breaks.profile = profile;
    while (same && first < of.count) {
        if (next == count) {
            room = 1 + below(MOST_CHUNKS);
            block = place(blocks, room * sizeof *block);
            count = lbk_chunks(&real, &limits, state, text, size, block, room);
            next = 0;
            if (count == 0)
                break;
        }
        size_t end = end_of(&limits, of, start, told, first);
        cut at = of.all[end];
        lbk_chunk it = block[next++];
        same = it.start == start.at && it.end == at.at && it.words == at.words - start.words && it.kind == at.kind
               && it.rule == at.rule && it.alone == !fits(&limits, start, at);
        start = start_behind(&limits, of, start, end);
        told = at.at;
        first = end + 1;
    }
    same = same && first == of.count && next == count && (size == 0 || told == size);
    same = same && lbk_chunks(&real, &limits, state, text, size, place(blocks, sizeof *block), 1) == 0;
    free(of.all);
    return same;
}

static lbk_limits random_limits(void)
{
    static const size_t most[] = {1, 2, 5, 12, 40, 100, SIZE_MAX};
    lbk_limits limits = {.most = most[below(sizeof most / sizeof *most)]};
    limits.words = below(2) == 0 ? 0 : 1 + below(9);
    limits.least = below(limits.most < 300 ? limits.most + 1 : 300);
    limits.overlap = below(limits.most / 2 < 120 ? limits.most / 2 + 1 : 120);
    return limits;
}

static void try_random_text(void)
{
    static char made[MOST_TEXT];
    size_t size = random_text(made);
    char *text = place(texts, size);
    memcpy(text, made, size);
    report("random bytes have the chunks of the definition",
        has_its_chunks(text, size, (uint8_t)below(2), random_limits()));
}

/* With limits out of range there is no chunk. */
static void try_bad_limits(void)
{
    static const lbk_limits bad[] = {{0, 0, 0, 0}, {5, 0, 6, 0}, {5, 0, 0, 3}, {1, 0, 0, 1},
        {SIZE_MAX, 0, 0, SIZE_MAX}};
    for (size_t k = 0; k < sizeof bad / sizeof *bad; k++) {
        lbk_chunk_state state = {0};
        lbk_chunk block[4];
        report("limits out of range", lbk_chunks(&real, &bad[k], &state, "ab cd", 5, block, 4) == 0 && state.told == 0);
    }
}

/* The chunks that docs/library.md shows. */
static void try_shown(void)
{
    static const char text[] = "one two. three\nfour five six";
    static const struct {
        lbk_limits limits;
        size_t count, places[8];
    } shown[] = {
        {{.most = 12, .least = 12}, 3, {0, 9, 9, 20, 20, 28}},
        {{.most = 12, .least = 6}, 4, {0, 9, 9, 15, 15, 25, 25, 28}},
        {{.most = 12, .least = 12, .overlap = 5}, 4, {0, 9, 9, 20, 15, 25, 20, 28}},
    };
    for (size_t k = 0; k < sizeof shown / sizeof *shown; k++) {
        lbk_chunk_state state = {0};
        lbk_chunk block[MOST_CHUNKS];
        size_t count = lbk_chunks(&real, &shown[k].limits, &state, text, sizeof text - 1, block, MOST_CHUNKS);
        int same = count == shown[k].count;
        for (size_t i = 0; same && i < count; i++)
            same = block[i].start == shown[k].places[2 * i] && block[i].end == shown[k].places[2 * i + 1];
        report("the chunks of the page", same);
    }
}

/* With any table, limits and state the call returns, and the chunks go through the text. */
static void try_any_table(const lbk_table *any)
{
    static char made[MOST_TEXT];
    size_t size = random_text(made), room = below(MOST_CHUNKS + 1);
    char *text = place(texts, size);
    lbk_chunk *block = place(blocks, room * sizeof *block);
    lbk_chunk_state *state = place(states, sizeof *state), old;
    lbk_limits limits = random_limits();
    memcpy(text, made, size);
    fill_random(state, sizeof *state);
    if (below(8) != 0) {
        *state = (lbk_chunk_state){.breaks = {.at = below(size + 2), .row = (uint16_t)below(65536),
            .profile = (uint8_t)below(4)}, .from = below(size + 2), .start = below(size + 2), .told = below(size + 2)};
    }
    old = *state;
    size_t count = lbk_chunks(any, &limits, state, text, size, block, room), from = old.told;
    int goes = count <= room;
    for (size_t k = 0; goes && k < count; k++) {
        goes = block[k].start <= from && from < block[k].end && block[k].end <= size;
        from = block[k].end;
    }
    report("any table: chunks go through the text", goes && state->told == from);
    report("any table: a state from which nothing comes stays", count != 0 || memcmp(&old, state, sizeof old) == 0);
}

static void try_file(const char *name)
{
    static const lbk_limits some[] = {{500, 0, 250, 0}, {500, 0, 250, 100}, {2000, 0, 1000, 0}, {SIZE_MAX, 100, 0, 200},
        {1, 0, 0, 0}};
    bytes text = load(name);
    size_t size = text.size < 20000 ? text.size : 20000;
    for (uint8_t profile = 0; profile < 2; profile++)
        for (size_t k = 0; k < sizeof some / sizeof *some; k++)
            report(name, has_its_chunks(text.at, size, profile, some[k]));
    free(text.at);
}

int main(int words, char **word)
{
    static lbk_table any;
    if (words < 3) {
        fprintf(stderr, "usage: chunks ROUNDS SEED TEXT..\n");
        return 2;
    }
    unsigned long rounds = strtoul(word[1], NULL, 10);
    seed = strtoul(word[2], NULL, 10) * 2 + 1;
    lbk_unicode(&real);
    texts = fence(MOST_TEXT);
    blocks = fence(MOST_CHUNKS * sizeof(lbk_chunk));
    states = fence(sizeof(lbk_chunk_state));
    try_bad_limits();
    try_shown();
    for (int k = 3; k < words; k++)
        try_file(word[k]);
    for (unsigned long round = 0; round < rounds; round++) {
        if (round % ROUNDS_WITH_A_TABLE == 0) {
            any = real;
            fill_random((char *)&any + below(sizeof any / 2), below(3) == 0 ? sizeof any / 2 : below(1000));
        }
        try_random_text();
        try_any_table(&any);
    }
    printf("%lu passed, %lu failed\n", passed, failed);
    return failed != 0;
}
