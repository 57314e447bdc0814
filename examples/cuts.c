/* Tests lbk_cut and lbk_cut_before at each offset of random texts with ill-formed bytes: compares them with the
 * breaks of the whole text and of its parts, also with tables that have unusual line ends.
 *
 *     cuts ROUNDS SEED
 *
 * A text lies at a guard page. The last line is `N passed, M failed`.
 */
#define _DEFAULT_SOURCE
#include "harness.h"

/* In these files LF, or U+FFFD for ill-formed bytes, is a letter, a line end, or the first or second half of one. */
static const char *const others[] = {
    "000A;AL\n000D;CR\n0061..0062;AL\n",
    "000A;CR\n000D;LF\nFFFD;BK\n",
    "000A;LF\nFFFD;CR\n4E00;NL\n0301;CM\n",
    "000D;CR\nFFFD;LF\n1F600;BK\n00AB;CR\n00BB;LF\n",
};
enum { TABLES = 1 + sizeof others / sizeof *others };
static lbk_table tables[TABLES];

/* The breaks of a text, or of a part of one. */
typedef struct broken {
    size_t count;
    lbk_break at[MOST_TEXT];
} broken;

/* The breaks from a byte on, in a profile with or without LBK_GOES_ON, in blocks of any size. */
static void break_all(const lbk_table *table, unsigned profile, const char *text, size_t from, size_t size, broken *all)
{
    lbk_state state = {from, 0, (uint8_t)profile, 0};
    size_t room, count;
    all->count = 0;
    do {
        size_t most = MOST_TEXT - all->count;
        room = below(2) == 0 ? most : below(most) % 4 + 1;
        count = lbk_breaks(table, &state, text, size, all->at + all->count, room);
        all->count += count;
    } while (count == room && all->count < MOST_TEXT);
}

/* Whether a line must end before this byte, and the text goes on there. */
static int ends_at(const broken *whole, size_t size, size_t at)
{
    for (size_t k = 0; k < whole->count; k++)
        if (whole->at[k].at == at)
            return at < size && whole->at[k].kind == LBK_MUST;
    return 0;
}

/* Whether the breaks of both parts, one after the other, are those of the whole. */
static int joins(const lbk_table *table, unsigned profile, const char *text, size_t size, const broken *whole, size_t cut)
{
    broken first, second;
    break_all(table, profile + LBK_GOES_ON, text, 0, cut, &first);
    break_all(table, profile, text, cut, size, &second);
    if (first.count + second.count != whole->count)
        return 0;
    for (size_t k = 0; k < whole->count; k++) {
        lbk_break part = k < first.count ? first.at[k] : second.at[k - first.count], all = whole->at[k];
        if (part.at != all.at || part.kind != all.kind || part.rule != all.rule)
            return 0;
    }
    return 1;
}

/* Whether both cuts stay the same if the bytes up to four before them change, and those after the scalar at their
 * end. */
static int look_near(const lbk_table *table, const char *text, size_t size, size_t at)
{
    char other[MOST_TEXT];
    size_t next = lbk_cut(table, text, size, at), last = lbk_cut_before(table, text, size, at);
    fill_random(other, size);
    for (size_t k = at < 4 ? 0 : at - 4; k < size && k < next + 4; k++)
        other[k] = text[k];
    int same = lbk_cut(table, other, size, at) == next;
    fill_random(other, size);
    for (size_t k = last < 4 ? 0 : last - 4; k < size && k < at + 4; k++)
        other[k] = text[k];
    return same && lbk_cut_before(table, other, size, at) == last;
}

static void try_text(const lbk_table *table, unsigned profile, const char *text, size_t size)
{
    broken whole;
    size_t before[MOST_TEXT + 1], behind[MOST_TEXT + 1];
    break_all(table, profile, text, 0, size, &whole);
    for (size_t at = 0; at <= size; at++) {
        int safe = at == 0 || at == size || ends_at(&whole, size, at);
        before[at] = safe ? at : before[at - 1];
        if (safe && at != 0 && at != size)
            report("the breaks of two parts are those of the whole", joins(table, profile, text, size, &whole, at));
    }
    for (size_t at = size + 1; at-- > 0;)
        behind[at] = before[at] == at ? at : behind[at + 1];
    for (size_t at = 0; at <= size; at++) {
        report("the first cut at or after a byte", lbk_cut(table, text, size, at) == behind[at]);
        report("the last cut at or before a byte", lbk_cut_before(table, text, size, at) == before[at]);
        report("only bytes near a place are looked at", look_near(table, text, size, at));
    }
    for (unsigned times = 0; times < 2; times++) {
        size_t past = times == 0 ? size + 1 + below(9) : SIZE_MAX - below(2);
        report("past the end", lbk_cut(table, text, size, past) == size && lbk_cut_before(table, text, size,
            past) == size);
    }
}

/* Successive cuts give parts that are not empty, and that together have the bytes of the text. */
static void try_parts(const lbk_table *table, const char *text, size_t size)
{
    size_t from = 0, to, parts = 0, step = 1 + below(20);
    for (; from < size; from = to, parts++) {
        to = lbk_cut(table, text, size, from + step);
        if (to <= from || to > size)
            break;
    }
    report("the parts are the text", from == size && parts <= size);
}

/* With a table of random bytes each cut is within the text, and not where none may be. */
static void try_any_table(lbk_table *any, const char *text, size_t size)
{
    size_t at = below(size + 2), end = at < size ? at : size;
    size_t first = lbk_cut(any, text, size, at), last = lbk_cut_before(any, text, size, at);
    report("any table: the first cut", first >= end && first <= size);
    report("any table: the last cut", last <= end);
}

int main(int words, char **word)
{
    char made[MOST_TEXT];
    if (words != 3) {
        fprintf(stderr, "usage: cuts ROUNDS SEED\n");
        return 2;
    }
    unsigned long rounds = strtoul(word[1], NULL, 10);
    seed = strtoul(word[2], NULL, 10) * 2 + 1;
    lbk_unicode(&tables[0]);
    for (size_t k = 1; k < TABLES; k++) {
        const char *lines = others[k - 1];
        lbk_fault fault = lbk_read(&tables[k], lines, strlen(lines), NULL, 0, NULL, 0, NULL, 0);
        report("a table of other line ends", fault.cause == LBK_CAUSE_NONE);
    }
    fenced texts = fence(MOST_TEXT), any = fence(sizeof(lbk_table));
    fill_random(any.from, sizeof(lbk_table));
    for (unsigned long round = 0; round < rounds; round++) {
        const lbk_table *table = &tables[round % 2 == 0 ? 0 : below(TABLES)];
        size_t size = random_text(made);
        char *text = place(texts, size);
        memcpy(text, made, size);
        try_text(table, (unsigned)below(2), text, size);
        try_parts(table, text, size);
        try_any_table((lbk_table *)(void *)any.from, text, size);
    }
    printf("%lu passed, %lu failed\n", passed, failed);
    return failed != 0;
}
