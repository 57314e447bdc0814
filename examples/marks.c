/* Tests lbk_marks: over texts, parts and random bytes, in both profiles, with random numbers of words, exactly the
 * bits of lbk_breaks must be set. With tables and states of random bytes no bit after the covered ones may be set.
 *
 *     marks ROUNDS SEED TEXT..
 *
 * Each text, state and block of words lies at a guard page. The last
 * line is `N passed, M failed`.
 */
#define _DEFAULT_SOURCE
#include "harness.h"

enum { MOST_WORDS = 20, MOST_LONG = 3000, ROUNDS_WITH_A_TABLE = 500 };

static lbk_table real;
static fenced texts, blocks, states;

static int is_set(const uint64_t *words, size_t i)
{
    return (int)(words[i / 64] >> (i % 64) & 1);
}

/* Whether no bit is set from this one on. */
static int are_clear(const uint64_t *words, size_t count, size_t from)
{
    for (size_t i = from; i < 64 * count; i++)
        if (is_set(words, i))
            return 0;
    return 1;
}

/* Whether some words have a bit for each wanted offset from `from` on, and no other. If `places` is null, none is
 * wanted. */
static int agree(const uint64_t *words, size_t count, size_t from, const unsigned char *wanted, size_t size)
{
    for (size_t i = 0; i < 64 * count; i++)
        if (is_set(words, i) != (wanted != NULL && from + i <= size && wanted[from + i]))
            return 0;
    return 1;
}

/* Where a text has breaks from a state on: a byte for each offset, and one for the end. */
static unsigned char *breaks_of(const char *text, size_t size, lbk_state state)
{
    unsigned char *wanted = calloc(size + 1, 1);
    lbk_break block[256];
    size_t count;
    if (wanted == NULL)
        abort();
    do {
        count = lbk_breaks(&real, &state, text, size, block, 256);
        for (size_t k = 0; k < count; k++)
            wanted[block[k].at] = 1;
    } while (count == 256);
    return wanted;
}

/* Where the scalars of a text begin from a byte on, and where it ends: a byte for each offset. */
static unsigned char *scalars_of(const char *text, size_t size, size_t start)
{
    unsigned char *begins = calloc(size + 1, 1);
    lbk_state state = {0};
    lbk_break block[256];
    size_t count;
    if (begins == NULL)
        abort();
    state.at = start;
    do {
        count = lbk_positions(&real, &state, text, size, block, 256);
        for (size_t k = 0; k < count; k++)
            begins[block[k].at] = 1;
    } while (count == 256);
    return begins;
}

/* Where the first scalar at or after a byte begins, or the end. */
static size_t next_scalar(const unsigned char *begins, size_t size, size_t at)
{
    while (at < size && !begins[at])
        at++;
    return at;
}

/* Gets the bits of a text from a state on, this many words a call, or a random number if it is 0. */
static int has_its_breaks(const char *text, size_t size, lbk_state start, size_t many)
{
    unsigned char *wanted = breaks_of(text, size, start), *begins = scalars_of(text, size, start.at);
    lbk_state *state = place(states, sizeof *state);
    size_t count, told_of, from;
    int same = 1, ended = 0;
    *state = start;
    do {
        count = many == 0 ? below(MOST_WORDS + 1) : many;
        uint64_t *words = place(blocks, count * sizeof *words);
        fill_random(words, count * sizeof *words);
        from = state->at;
        told_of = lbk_marks(&real, state, text, size, words, count);
        size_t left = ended ? 0 : size + 1 - from;
        same = same && told_of == (64 * count < left ? 64 * count : left)
               && agree(words, count, from, ended ? NULL : wanted, size)
               && (told_of == left ? state->at == size && state->ended
                                   : state->at == next_scalar(begins, size, from + told_of) && !state->ended);
        ended = state->ended;
    } while (same && told_of == 64 * count);
    uint64_t word = UINT64_MAX;
    same = same && lbk_marks(&real, state, text, size, &word, 1) == 0 && word == 0;
    free(wanted);
    free(begins);
    return same;
}

/* A random text, from its start or from a byte on, which ends or goes on. */
static void try_random_text(size_t longest)
{
    static char made[MOST_LONG];
    size_t size = random_text_of(made, longest);
    char *text = place(texts, size);
    lbk_state start = {0};
    memcpy(text, made, size);
    start.profile = (uint8_t)below(4);
    start.at = below(2) == 0 ? 0 : below(size + 1);
    report("random bytes have the bits of their breaks",
        has_its_breaks(text, size, start, below(3) == 0 ? 1 + below(MOST_WORDS) : 0));
}

/* With any table and state the call returns, and sets no bit after the covered ones. */
static void try_any_table(const lbk_table *any)
{
    static char made[MOST_LONG];
    size_t size = random_text_of(made, MOST_LONG), count = below(MOST_WORDS + 1);
    char *text = place(texts, size);
    uint64_t *words = place(blocks, count * sizeof *words);
    lbk_state *state = place(states, sizeof *state), old;
    memcpy(text, made, size);
    fill_random(words, count * sizeof *words);
    fill_random(state, sizeof *state);
    if (below(8) != 0) {
        state->at = below(size + 2);
        state->profile &= 3;
        state->ended = 0;
    }
    old = *state;
    size_t told_of = lbk_marks(any, state, text, size, words, count);
    int goes = old.at <= size && old.profile < 4 && !old.ended;
    report("any table: as many places as there are",
         told_of == (!goes ? 0 : 64 * count < size + 1 - old.at ? 64 * count : size + 1 - old.at));
    report("any table: no bit behind them", are_clear(words, count, told_of));
    report("any table: the state goes on", state->profile == old.profile && state->at >= old.at
        && (state->at <= size || !goes));
    report("any table: a state from which nothing comes stays",
         told_of != 0 || (state->at == old.at && state->row == old.row && state->ended == old.ended));
}

/* A whole text by different numbers of words, and its parts. */
static void try_file(const char *name)
{
    static const size_t many[] = {1, 7, MOST_WORDS};
    bytes text = load(name);
    for (unsigned profile = 0; profile < 4; profile++)
        for (size_t k = 0; k < sizeof many / sizeof *many; k++) {
            lbk_state start = {0};
            start.profile = (uint8_t)profile;
            report(name, has_its_breaks(text.at, text.size, start, many[k]));
        }
    free(text.at);
}

int main(int words, char **word)
{
    static lbk_table any;
    if (words < 3) {
        fprintf(stderr, "usage: marks ROUNDS SEED TEXT..\n");
        return 2;
    }
    unsigned long rounds = strtoul(word[1], NULL, 10);
    seed = strtoul(word[2], NULL, 10) * 2 + 1;
    lbk_unicode(&real);
    texts = fence(MOST_LONG);
    blocks = fence(MOST_WORDS * sizeof(uint64_t));
    states = fence(sizeof(lbk_state));
    for (int k = 3; k < words; k++)
        try_file(word[k]);
    for (unsigned long round = 0; round < rounds; round++) {
        if (round % ROUNDS_WITH_A_TABLE == 0) {
            any = real;
            fill_random((char *)&any + below(sizeof any / 2), below(3) == 0 ? sizeof any / 2 : below(1000));
        }
        try_random_text(round % 10 == 0 ? MOST_LONG : MOST_TEXT);
        try_any_table(&any);
    }
    printf("%lu passed, %lu failed\n", passed, failed);
    return failed != 0;
}
