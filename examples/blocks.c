/* Tests lbk_words: gets the words of texts in blocks of every size and of random sizes, and compares them with the
 * words of the whole text.
 *
 *     blocks ROUNDS SEED
 *
 * Between two blocks the bytes before the state's offset may change, and from a word boundary on a text counts as a
 * whole text. Each text, block and state lies at a guard page, so an access out of bounds ends the program by a
 * signal. The last line is `N passed, M failed`.
 */
#define _DEFAULT_SOURCE
#include "harness.h"

static fenced texts, blocks, states;

/* The words of a text. */
typedef struct found {
    size_t count;
    lbk_word at[MOST_TEXT];
} found;

static found words_of_whole(const char *text, size_t size, size_t start)
{
    found all;
    lbk_word_state state = {start};
    all.count = lbk_words(&state, text, size, all.at, MOST_TEXT);
    return all;
}

/* Whether these are the words of `all` from one of them on, each moved by the same number of bytes. */
static int are_those(const lbk_word *word, size_t count, const found *all, size_t from, size_t moved)
{
    if (from + count > all->count)
        return 0;
    for (size_t k = 0; k < count; k++)
        if (word[k].start + moved != all->at[from + k].start || word[k].end + moved != all->at[from + k].end)
            return 0;
    return 1;
}

/* Gets the words in blocks of these sizes, and then of the last size, which is not 0, until none is left. With
 * `turns` the bytes before the state change after each block. Returns whether every condition held. */
static int agrees(const char *made, size_t size, const size_t *rooms, size_t count, int turns, const found *all)
{
    char *text = place(texts, size);
    lbk_word_state *state = place(states, sizeof *state);
    size_t got = 0, k = 0, room, came;
    memcpy(text, made, size);
    *state = (lbk_word_state){0};
    do {
        room = rooms[k < count ? k : count - 1];
        k++;
        lbk_word *block = place(blocks, room * sizeof *block);
        lbk_word_state old = *state;
        came = lbk_words(state, text, size, block, room);
        if (came > room || !are_those(block, came, all, got, 0) || state->at < old.at || state->at > size)
            return 0;
        if (room == 0 && state->at != old.at)
            return 0;
        got += came;
        if (turns)
            fill_random(text, state->at);
    } while (came == room);
    return got == all->count && state->at == size && lbk_words(state, text, size, place(blocks, sizeof(lbk_word)),
        1) == 0;
}

/* From the offset of a state on, the text counts as a whole text: its words are those that were left. */
static int has_the_rest(const char *made, size_t size, size_t room, const found *all)
{
    lbk_word_state state = {0};
    lbk_word *block = place(blocks, room * sizeof *block);
    size_t count = lbk_words(&state, made, size, block, room);
    char *rest = place(texts, size - state.at);
    memcpy(rest, made + state.at, size - state.at);
    found left = words_of_whole(rest, size - state.at, 0);
    return left.count == all->count - count && are_those(left.at, left.count, all, count, state.at);
}

/* All ways to take the words of a text in up to four blocks. */
static void try_all_rooms(const char *text, size_t size)
{
    found all = words_of_whole(text, size, 0);
    for (size_t i = 0; i <= all.count; i++)
        for (size_t j = 0; i + j <= all.count; j++)
            for (size_t k = 0; i + j + k <= all.count; k++) {
                size_t rooms[] = {i, j, k, all.count - i - j - k + 1};
                report("a text in four blocks", agrees(text, size, rooms, 4, (i + j + k) % 2 == 1, &all));
            }
    for (size_t room = 0; room <= all.count; room++)
        report("the rest of a text as one of its own", has_the_rest(text, size, room, &all));
}

/* Texts for the end of a block: words that a rule keeps together over two scalars, marks, flags, and cut scalars. */
static void try_short_texts(void)
{
    static const char *const short_texts[] = {"", "a", " ", "a b\r\nc", "can't stop", "3.5, 4,000.1 x", "a.b.c a..b",
        "e\xCC\x81\xCC\x81" "e f",
        "a_b __ c", "\xF0\x9F\x87\xA6\xF0\x9F\x87\xA6\xF0\x9F\x87\xA6 a", "\xD7\x90\"\xD7\x90\" '\xD7\x90'",
        "a\xE2\x80\x8D" "b \xE2\x80\x8D c",
        "\xE3\x82\xAB\xE3\x82\xBF\xE4\xB8\x80\xE4\xB8\x80 1", "a\xFF" "b\xE4\xB8 c\xF0\x9F",
        "\xC2 a'\xC2" "b'c \xED\xA0\x80" "d"};
    for (size_t k = 0; k < sizeof short_texts / sizeof *short_texts; k++)
        try_all_rooms(short_texts[k], strlen(short_texts[k]));
    try_all_rooms("a\0b'\0c", 6);
}

/* A random text in blocks of random rooms. */
static void try_random_rooms(void)
{
    enum { MOST_ROOMS = 12 };
    char text[MOST_TEXT];
    size_t size = random_text(text), rooms[MOST_ROOMS], count = 1 + below(MOST_ROOMS);
    for (size_t k = 0; k < count; k++)
        rooms[k] = below(below(4) == 0 ? MOST_ROOM + 1 : 4);
    rooms[count - 1] += rooms[count - 1] == 0;
    found all = words_of_whole(text, size, 0);
    report("a text in random blocks", agrees(text, size, rooms, count, below(2) == 0, &all));
    report("the rest of a random text as one of its own", has_the_rest(text, size, below(MOST_ROOM + 1), &all));
}

int main(int words, char **word)
{
    if (words != 3) {
        fprintf(stderr, "usage: blocks ROUNDS SEED\n");
        return 2;
    }
    unsigned long rounds = strtoul(word[1], NULL, 10);
    seed = strtoul(word[2], NULL, 10) * 2 + 1;
    texts = fence(MOST_TEXT);
    blocks = fence((MOST_ROOM + 1) * sizeof(lbk_word));
    states = fence(sizeof(lbk_word_state));

    try_short_texts();
    for (unsigned long round = 0; round < rounds; round++)
        try_random_rooms();
    printf("%lu passed, %lu failed\n", passed, failed);
    return failed != 0;
}
