/* Calls the library with random bytes as files, table, states and text, many times over.
 *
 *     fuzz ROUNDS SEED LINE_BREAK EAST_ASIAN CATEGORY EMOJI
 *
 * The arguments of a call lie at guard pages, so an access out of bounds ends the program by a signal, even if no
 * sanitizer instrumented the library's code. The last line is `N passed, M failed`.
 */
#define _DEFAULT_SOURCE
#include "harness.h"

/* Most texts are short, so that there are many; some are longer than any block that the library could hold. */
enum { MOST_LONG_TEXT = 20000, MOST_LONG_ROOM = 3000, LONG_EACH = 50 };

static uint64_t digest(const void *of, size_t size)
{
    const unsigned char *byte = of;
    uint64_t sum = 14695981039346656037ULL;
    for (size_t k = 0; k < size; k++)
        sum = (sum ^ byte[k]) * 1099511628211ULL;
    return sum;
}

/* Whether each break has a valid kind and rule, and is after the one before it, none before `from`. */
static int are_in_order(const lbk_break *block, size_t count, size_t from, size_t to)
{
    for (size_t k = 0; k < count; from = block[k++].at + 1)
        if ((block[k].kind != LBK_MAY && block[k].kind != LBK_MUST) || lbk_label(block[k].rule).text[0] == 0
            || block[k].at < from
            || block[k].at >= to)
            return 0;
    return 1;
}

/* Whether each position has a valid kind and rule, and is after the one before it, none before `from`. */
static int are_positions(const lbk_break *block, size_t count, size_t from, size_t to)
{
    for (size_t k = 0; k < count; from = block[k++].at + 1)
        if (block[k].kind > LBK_MUST || lbk_label(block[k].rule).text[0] == 0 || block[k].at < from
            || block[k].at >= to)
            return 0;
    return 1;
}

/* The same for positions: they rise, and the state goes on with them. */
static void go_over_positions(const lbk_table *table, const char *text, size_t size, lbk_state *state, fenced blocks,
                              lbk_state from, size_t most_room)
{
    *state = from;
    for (unsigned calls = 0; calls < 4 * MOST_LONG_TEXT; calls++) {
        size_t room = below(most_room + 1);
        lbk_break *block = place(blocks, room * sizeof *block);
        lbk_state old = *state;
        size_t count = lbk_positions(table, state, text, size, block, room);
        report("no more positions than there is room for", count <= room);
        report("positions: the profile stays, the place goes on within the text",
             state->profile == from.profile && state->at >= old.at && (state->at <= size || state->at == old.at));
        report("positions in order, between the places",
            are_positions(block, count, old.at, state->ended ? size + 1 : state->at));
        if (count < room)
            break;
    }
}

/* The segments from a state on: each is within the text, with a valid kind and rule, if the state's start is before
 * its offset. */
static void go_over_segments(const lbk_table *table, const char *text, size_t size, fenced blocks, lbk_state from, size_t most_room)
{
    const size_t start = below(4) == 0 ? below(from.at + 1) : from.at;
    lbk_segment_state state = {.breaks = from, .start = below(8) == 0 ? below(SIZE_MAX) : start};
    const int is_sound = state.start <= from.at && from.at <= size;
    for (unsigned calls = 0; calls < 4 * MOST_LONG_TEXT; calls++) {
        size_t room = below(most_room + 1);
        lbk_segment *block = place(blocks, room * sizeof *block);
        size_t next = state.start, count = lbk_segments(table, &state, text, size, block, room);
        report("no more segments than there is room for", count <= room);
        for (size_t k = 0; k < count; next = block[k++].end)
            report("segments one after another, each by a kind and a rule",
                 block[k].start == next && (!is_sound || (next <= block[k].end && block[k].end <= size))
                     && (block[k].kind == LBK_MAY || block[k].kind == LBK_MUST)
                     && lbk_label(block[k].rule).text[0] != 0);
        report("segments: the profile stays, and the next starts where the last ends",
            state.breaks.profile == from.profile && state.start == next);
        if (count < room)
            break;
    }
}

/* The first offset at which a stream may still return a break. */
static size_t next_place(const lbk_stream *stream)
{
    return stream->held_code == 0 ? stream->at : stream->held_at;
}

/* The text as a stream in pieces, from a stream of random bytes or from the start. */
static void go_over_pieces(const lbk_table *table, const char *text, size_t size, fenced blocks, size_t most_room)
{
    lbk_stream stream = {0};
    if (below(2) == 0)
        fill_random(&stream, sizeof stream);
    uint8_t profile = stream.profile;
    int is_sound = (stream.held_code == 0 || stream.held_at < stream.at) && stream.at < SIZE_MAX / 2;
    size_t from = 0;
    for (unsigned calls = 0; from < size && calls < 4 * MOST_LONG_TEXT; calls++) {
        size_t room = 1 + below(most_room), piece = below(size - from) + 1, next = next_place(&stream);
        lbk_break *block = place(blocks, room * sizeof *block);
        lbk_fed fed = lbk_feed(table, &stream, text + from, piece, from + piece == size, block, room);
        report("no more of a piece is taken than it has, and no more breaks given than there is room for",
             fed.taken <= piece && fed.count <= room && (fed.count == room || fed.taken == piece));
        report("pieces: the profile stays", stream.profile == profile);
        for (size_t k = 0; k < fed.count; k++)
            report("pieces: each break is a kind by a rule",
                 (block[k].kind == LBK_MAY || block[k].kind == LBK_MUST) && lbk_label(block[k].rule).text[0] != 0);
        report("pieces: breaks in order, between the places",
             !is_sound || are_in_order(block, fed.count, next, stream.ended ? stream.at + 1 : next_place(&stream)));
        from += fed.taken;
    }
}

/* Cuts at a random offset: they are on the right side of it, within the text. */
static void go_over_cuts(const lbk_table *table, const char *text, size_t size)
{
    size_t at = below(size + 2), next = lbk_cut(table, text, size, at), last = lbk_cut_before(table, text, size, at);
    report("a cut at or after a place", next <= size && (at >= size ? next == size : next >= at));
    report("a cut at or before a place", last <= size && (at >= size ? last == size : last <= at));
    size_t safe = lbk_safe_break(table, (uint8_t)below(3), text, size);
    report("a safe break before the end, and at the last cut or after it", size == 0 ? safe == 0 : safe < size
        && safe >= lbk_cut_before(table, text, size, size - 1));
}

/* Gets breaks until there are none, in blocks of all sizes. What holds for any table, state and text holds here. */
static void go_over(const lbk_table *table, fenced texts, fenced states, fenced blocks, lbk_state from, int is_long)
{
    static char made[MOST_LONG_TEXT];
    size_t size = random_text_of(made, is_long ? MOST_LONG_TEXT : MOST_TEXT), most_room = is_long ? MOST_LONG_ROOM
        : MOST_ROOM;
    char *text = place(texts, size);
    memcpy(text, made, size);
    lbk_state *state = place(states, sizeof *state);
    *state = from;
    size_t sum = 0;
    for (unsigned calls = 0; calls < 4 * MOST_LONG_TEXT; calls++) {
        size_t room = below(most_room + 1);
        lbk_break *block = place(blocks, room * sizeof *block);
        lbk_state old = *state;
        size_t count = lbk_breaks(table, state, text, size, block, room);
        report("no more than there is room for", count <= room);
        report("the profile stays", state->profile == from.profile);
        report("the place is in the text", state->at <= size || state->at == old.at);
        report("the place does not go back", state->at >= old.at);
        report("breaks in order, between the places",
            are_in_order(block, count, old.at, state->ended ? size + 1 : state->at));
        report("breaks take the state on", count == 0 || state->at > old.at || state->ended);
        report("at its end a state is at the text's", old.ended || !state->ended || state->at == size);
        sum += count;
        if (count < room)
            break;
    }
    report("no more breaks than places", sum <= size + 1);
    report("the text is as it was", memcmp(text, made, size) == 0);
    go_over_positions(table, text, size, state, blocks, from, most_room);
    go_over_segments(table, text, size, blocks, from, most_room);
    go_over_pieces(table, text, size, blocks, most_room);
    go_over_cuts(table, text, size);
}

static lbk_state random_state(void)
{
    lbk_state state = {0};
    switch (below(4)) {
    case 0:
        fill_random(&state, sizeof state);
        break;
    case 1:
        state.at = below(MOST_TEXT + 2);
        state.row = (uint16_t)below(65536);
        state.profile = (uint8_t)below(5);
        break;
    default:
        state.profile = (uint8_t)below(4);
    }
    return state;
}

/* With the real table: blocks of any sizes have the breaks of one large block. */
static void compare_rooms(const lbk_table *table)
{
    char text[MOST_TEXT];
    lbk_break whole[MOST_TEXT + 1], part[MOST_TEXT + 1];
    size_t size = random_text(text);
    lbk_state start = {0}, state;
    start.profile = (uint8_t)below(2);
    state = start;
    size_t all = lbk_breaks(table, &state, text, size, whole, MOST_TEXT + 1), got = 0, count, room;
    state = start;
    do {
        room = 1 + below(4);
        count = lbk_breaks(table, &state, text, size, part + got, got + room > MOST_TEXT + 1 ? MOST_TEXT + 1 - got
            : room);
        got += count;
    } while (count == room && got <= MOST_TEXT);
    int same = got == all && (size == 0 || (all > 0 && whole[all - 1].at == size));
    for (size_t k = 0; same && k < all; k++)
        same = whole[k].at == part[k].at && whole[k].kind == part[k].kind && whole[k].rule == part[k].rule;
    same = same && are_in_order(whole, all, 0, size + 1);
    report("blocks of any rooms have the same breaks", same);
}

/* Gets the words of a text, from any byte on, in blocks of all sizes: they rise, and are those of one large block. */
static void go_over_words(fenced texts, fenced states, fenced blocks)
{
    char made[MOST_TEXT];
    lbk_word whole[MOST_TEXT];
    size_t size = random_text(made), got = 0, last = 0, start = below(4) == 0 ? below(MOST_TEXT + 2) : 0;
    char *text = place(texts, size);
    memcpy(text, made, size);
    lbk_word_state *state = place(states, sizeof *state);
    state->at = start;
    size_t all = lbk_words(state, text, size, whole, MOST_TEXT);
    report("all words: the state is at the end", state->at == size || (start > size && state->at == start));
    state->at = start;
    for (unsigned calls = 0; calls < 4 * MOST_TEXT; calls++) {
        size_t room = below(MOST_ROOM + 1);
        lbk_word *block = place(blocks, room * sizeof *block);
        lbk_word_state old = *state;
        size_t count = lbk_words(state, text, size, block, room);
        report("no more words than there is room for", count <= room && got + count <= all);
        report("the place of words does not go back", state->at >= old.at
            && (state->at <= size || state->at == old.at));
        for (size_t k = 0; k < count && got < all; k++, got++) {
            report("blocks of any rooms have the same words", block[k].start == whole[got].start
                && block[k].end == whole[got].end);
            report("words rise", last <= block[k].start && block[k].start < block[k].end && block[k].end <= size);
            last = block[k].end;
        }
        if (count < room)
            break;
        report("a full block of words takes the state on", room == 0 || state->at > old.at);
    }
    report("each word came", got == all);
    report("the text of words is as it was", memcmp(text, made, size) == 0);
}

/* Files with a few bytes changed: after a fault the table is unchanged, and the fault has a file, a line and a
 * cause. */
static void read_changed(lbk_table *table, const bytes *files)
{
    bytes changed[4];
    for (int k = 0; k < 4; k++) {
        changed[k].size = below(8) == 0 ? below(files[k].size + 1) : files[k].size;
        changed[k].at = malloc(changed[k].size + 1);
        if (changed[k].at == NULL)
            abort();
        memcpy(changed[k].at, files[k].at, changed[k].size);
        for (uint64_t times = below(4); times > 0 && changed[k].size > 0; times--)
            changed[k].at[below(changed[k].size)] = (char)below(256);
    }
    uint64_t old = digest(table, sizeof *table);
    lbk_fault fault = lbk_read(table, changed[0].at, changed[0].size, changed[1].at, changed[1].size, changed[2].at,
                               changed[2].size, changed[3].at, changed[3].size);
    if (fault.cause == LBK_CAUSE_NONE) {
        report("no fault: a whole table", lbk_check(table) && fault.file == LBK_NO_FILE && fault.line == 0);
    } else {
        report("a fault: the table is as it was", digest(table, sizeof *table) == old);
        report("a fault: one of a file",
             fault.cause <= LBK_CAUSE_TOO_MANY_ROWS && fault.file >= LBK_LINE_BREAK && fault.file <= LBK_EMOJI);
    }
    for (int k = 0; k < 4; k++)
        free(changed[k].at);
}

/* A table of random bytes, the real one with some bytes changed, or the real one. */
static lbk_table *random_table(fenced tables, const lbk_table *real)
{
    lbk_table *table = place(tables, sizeof *table);
    unsigned kind = (unsigned)below(3);
    memcpy(table, real, sizeof *table);
    if (kind == 0)
        fill_random(table, sizeof *table);
    else if (kind == 1)
        for (uint64_t times = 1 + below(1000); times > 0; times--)
            ((unsigned char *)table)[below(sizeof *table)] = (unsigned char)below(256);
    report("a table is whole where it is the real one", lbk_check(table) == (memcmp(table, real, sizeof *table) == 0));
    return table;
}

int main(int words, char **word)
{
    enum { ROUNDS_WITH_A_TABLE = 500 };
    static lbk_table real;
    if (words != 7) {
        fprintf(stderr, "usage: fuzz ROUNDS SEED LINE_BREAK EAST_ASIAN CATEGORY EMOJI\n");
        return 2;
    }
    unsigned long rounds = strtoul(word[1], NULL, 10);
    seed = strtoul(word[2], NULL, 10) * 2 + 1;
    read_table(&real, word + 3);
    bytes files[4];
    for (int k = 0; k < 4; k++)
        files[k] = load(word[3 + k]);

    fenced tables = fence(sizeof(lbk_table)), texts = fence(MOST_LONG_TEXT), states = fence(sizeof(lbk_state));
    fenced blocks = fence(MOST_LONG_ROOM * sizeof(lbk_segment));
    for (unsigned long round = 0; round < rounds; round += ROUNDS_WITH_A_TABLE) {
        lbk_table *table = random_table(tables, &real);
        uint64_t old = digest(table, sizeof *table);
        for (unsigned times = 0; times < ROUNDS_WITH_A_TABLE; times++) {
            go_over(table, texts, states, blocks, random_state(), times % LONG_EACH == 0);
            compare_rooms(&real);
            go_over_words(texts, states, blocks);
        }
        report("the table is as it was", digest(table, sizeof *table) == old);
        read_changed(table, files);
    }
    for (int k = 0; k < 4; k++)
        free(files[k].at);
    printf("%lu passed, %lu failed\n", passed, failed);
    return failed != 0;
}
