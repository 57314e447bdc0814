/* Tests the calls for UTF-16 and UTF-32: compares their breaks and positions of random units with those of the UTF-8
 * text of the same scalars, in blocks of any size, also if the text goes on. Tests lbk_cut_utf16 and
 * lbk_cut_before_utf16 at each offset of a text: compares them with its required breaks, and the parts with the
 * whole text.
 *
 *     units ROUNDS SEED [TEXT]
 *
 * TEXT is a file of UTF-8; each of its lines is tested, too. Each text and block lies at a guard page, so an access
 * out of bounds ends the program by a signal. The last line is `N passed, M failed`.
 */
#define _DEFAULT_SOURCE
#include "harness.h"

enum { MOST_UNITS = 4096, MOST_UNIT_ROOM = 9 };

static lbk_table table;
static fenced texts, blocks;

/* A text of scalars, and where each begins in each encoding; the offset after the last one is the text's length. */
typedef struct scalars {
    size_t count;
    uint32_t code[MOST_UNITS];
    size_t in_utf8[MOST_UNITS + 1], in_units[MOST_UNITS + 1];
    size_t size;
    unsigned char utf8[4 * MOST_UNITS];
} scalars;

/* Adds a scalar of this many units, or U+FFFD if the code is not a scalar. */
static void add(scalars *to, uint32_t code, size_t units)
{
    if (code > 0x10FFFF || (code >= 0xD800 && code <= 0xDFFF))
        code = 0xFFFD;
    unsigned char *byte = to->utf8 + to->size;
    size_t size = code < 0x80 ? 1 : code < 0x800 ? 2 : code < 0x10000 ? 3 : 4;
    static const unsigned char first[] = {0, 0, 0xC0, 0xE0, 0xF0};
    for (size_t k = size; k-- > 1; code >>= 6)
        byte[k] = (unsigned char)(0x80 | (code & 0x3F));
    byte[0] = (unsigned char)(first[size] | code);
    to->size += size;
    to->count++;
    to->in_utf8[to->count] = to->size;
    to->in_units[to->count] = to->in_units[to->count - 1] + units;
}

static void start(scalars *to)
{
    to->count = 0;
    to->size = 0;
    to->in_utf8[0] = to->in_units[0] = 0;
}

static int is_high(uint32_t unit) { return (unit & ~0x3FFU) == 0xD800; }
static int is_low(uint32_t unit) { return (unit & ~0x3FFU) == 0xDC00; }

static void read_utf16(scalars *to, const uint16_t *units, size_t size)
{
    start(to);
    for (size_t k = 0; k < size; k++) {
        if (k + 1 < size && is_high(units[k]) && is_low(units[k + 1])) {
            add(to, 0x10000 + ((units[k] & 0x3FFU) << 10 | (units[k + 1] & 0x3FFU)), 2);
            k++;
        } else {
            add(to, units[k], 1);
        }
    }
}

static void read_utf32(scalars *to, const uint32_t *units, size_t size)
{
    start(to);
    for (size_t k = 0; k < size; k++)
        add(to, units[k], 1);
}

/* The next breaks, or positions if `all` is set, of a text in units of either size. */
static size_t next(int all, int wide, lbk_state *state, const void *units, size_t size, lbk_break *block, size_t room)
{
    if (all)
        return wide ? lbk_positions_utf32(&table, state, units, size, block, room)
                    : lbk_positions_utf16(&table, state, units, size, block, room);
    return wide ? lbk_breaks_utf32(&table, state, units, size, block, room)
                : lbk_breaks_utf16(&table, state, units, size, block, room);
}

/* The breaks or positions of the scalars as UTF-8. Positions of a part after which the text goes on are all except
 * the last one, and then the break at the end, if there is one. */
static size_t wanted_of(int all, uint8_t profile, const scalars *read, lbk_break *to)
{
    lbk_state state = {0}, over = {0};
    state.profile = all ? profile % LBK_GOES_ON : profile;
    over.profile = profile;
    const char *text = (const char *)read->utf8;
    size_t count = (all ? lbk_positions : lbk_breaks)(&table, &state, text, read->size, to, 4 * MOST_UNITS);
    if (!all || profile < LBK_GOES_ON)
        return count;
    static lbk_break breaks[4 * MOST_UNITS];
    size_t others = lbk_breaks(&table, &over, text, read->size, breaks, 4 * MOST_UNITS);
    count--;
    if (others > 0 && breaks[others - 1].at == read->size)
        to[count++] = breaks[others - 1];
    return count;
}

/* The results for units, in blocks of this size, must be those for the scalars that are read in them. */
static int agrees(int all, int wide, uint8_t profile, const void *units, size_t size, size_t room, const scalars *read)
{
    static lbk_break wanted[4 * MOST_UNITS];
    size_t whole = size * (wide ? sizeof(uint32_t) : sizeof(uint16_t));
    lbk_state state = {0};
    state.profile = profile;
    size_t count = wanted_of(all, profile, read, wanted);
    size_t given = 0, scalar = 0, got;
    void *text = place(texts, whole);
    memcpy(text, units, whole);
    int holds = read->in_units[read->count] == size;
    do {
        lbk_break *block = place(blocks, room * sizeof *block);
        size_t at = state.at;
        got = next(all, wide, &state, text, size, block, room);
        holds &= got <= room && given + got <= count && state.at >= at && state.at <= size && state.profile == profile;
        for (size_t k = 0; holds && k < got; k++, given++) {
            while (scalar < read->count && read->in_utf8[scalar] < wanted[given].at)
                scalar++;
            holds &= block[k].at == read->in_units[scalar] && block[k].kind == wanted[given].kind
                && block[k].rule == wanted[given].rule;
        }
    } while (holds && got == room);
    holds &= given == count && state.ended != 0 && state.at == size && memcmp(text, units, whole) == 0;
    holds &= !all || profile >= LBK_GOES_ON || count == read->count + 1;
    lbk_state old = state;
    lbk_break one;
    holds &= next(all, wide, &state, text, size, &one, 1) == 0 && memcmp(&state, &old, sizeof old) == 0;
    return holds;
}

/* Scalars of all widths that rules ask for, and any others. */
static uint32_t random_scalar(void)
{
    static const uint32_t codes[] = {'a', ' ', '\n', '\r', '(', '"', '1', ',', '%', '-', 0xA0, 0xAB, 0xBB, 0x301, 0x5D0,
        0x200B,
        0x200D, 0x2019, 0x201D, 0x4E00, 0xAC00, 0xD7FF, 0xE000, 0xFFFD, 0xFFFF, 0x10000, 0x1D165, 0x1F1E6, 0x1F3FB,
        0x1F600, 0x20000, 0xE0100, 0x10FFFF};
    if (below(8) != 0)
        return codes[below(sizeof codes / sizeof *codes)];
    uint32_t code = (uint32_t)below(0x110000 - 0x800);
    return code < 0xD800 ? code : code + 0x800;
}

static size_t random_utf16(uint16_t *to)
{
    size_t size = 0, most = below(MOST_TEXT + 1);
    unsigned ill = (unsigned)below(3);
    while (size < most) {
        uint32_t code = random_scalar();
        if (ill != 0 && below(ill == 1 ? 8 : 2) == 0)
            to[size++] = (uint16_t)(below(3) == 0 ? below(0x10000) : 0xD800 + below(0x800));
        else if (code < 0x10000)
            to[size++] = (uint16_t)code;
        else {
            to[size++] = (uint16_t)(0xD7C0 + (code >> 10));
            to[size++] = (uint16_t)(0xDC00 | (code & 0x3FF));
        }
    }
    return size;
}

static size_t random_utf32(uint32_t *to)
{
    static const uint32_t none[] = {0xD800, 0xDBFF, 0xDC00, 0xDFFF, 0x110000, 0x110041, 0x200041, 0x80000041,
        0xFFFF0020, 0xFFFFFFFF};
    size_t size = 0, most = below(MOST_TEXT + 1);
    unsigned ill = (unsigned)below(3);
    while (size < most) {
        if (ill != 0 && below(ill == 1 ? 8 : 2) == 0)
            to[size++] = below(3) == 0 ? (uint32_t)below(1ULL << 32) : none[below(sizeof none / sizeof *none)];
        else
            to[size++] = random_scalar();
    }
    return size;
}

/* Positions of UTF-8, where the text goes on. */
static void try_going_on(uint8_t profile, const scalars *read)
{
    static lbk_break wanted[4 * MOST_UNITS], given[4 * MOST_UNITS];
    lbk_state state = {0};
    state.profile = profile;
    size_t count = wanted_of(1, profile, read, wanted);
    int holds = lbk_positions(&table, &state, (const char *)read->utf8, read->size, given, 4 * MOST_UNITS) == count;
    for (size_t k = 0; holds && k < count; k++)
        holds &= given[k].at == wanted[k].at && given[k].kind == wanted[k].kind && given[k].rule == wanted[k].rule;
    report("positions of UTF-8 that goes on", holds);
}

/* The breaks or positions of the part of a text from a unit on. */
static size_t part_of(int all, uint8_t profile, const uint16_t *units, size_t from, size_t size, lbk_break *to)
{
    lbk_state state = {from, 0, profile, 0};
    return (all ? lbk_positions_utf16 : lbk_breaks_utf16)(&table, &state, units, size, to, MOST_UNITS);
}

/* Whether the results for both parts, joined, are those for the whole text. The second part begins with a position
 * that the first has, too. */
static int joins(int all, uint8_t profile, const uint16_t *units, size_t size, size_t cut)
{
    static lbk_break whole[MOST_UNITS], first[MOST_UNITS], second[MOST_UNITS];
    size_t count = part_of(all, profile, units, 0, size, whole);
    size_t one = part_of(all, profile + LBK_GOES_ON, units, 0, cut, first);
    size_t other = part_of(all, profile, units, cut, size, second), skipped = all ? 1 : 0;
    int holds = one + other == count + skipped;
    for (size_t k = 0; holds && k < count; k++) {
        const lbk_break *part = k < one ? &first[k] : &second[k - one + skipped];
        holds &= part->at == whole[k].at && part->kind == whole[k].kind && part->rule == whole[k].rule;
    }
    return holds;
}

/* Both cuts at each offset, compared with the required breaks of the whole text. */
static void try_cuts(uint8_t profile, const uint16_t *units, size_t size)
{
    static lbk_break whole[MOST_UNITS];
    static size_t before[MOST_UNITS + 1];
    size_t count = part_of(0, profile, units, 0, size, whole), next = 0, behind = size;
    uint16_t *text = place(texts, size * sizeof *text);
    memcpy(text, units, size * sizeof *text);
    for (size_t at = 0; at <= size; at++) {
        while (next < count && whole[next].at < at)
            next++;
        int safe = at == 0 || at == size || (next < count && whole[next].at == at && whole[next].kind == LBK_MUST);
        before[at] = safe ? at : before[at - 1];
        if (safe && at != 0 && at != size)
            report("what is given of two parts in UTF-16 is what is given of the whole",
                 joins(0, profile, units, size, at) && joins(1, profile, units, size, at));
    }
    for (size_t at = size + 1; at-- > 0;) {
        behind = before[at] == at ? at : behind;
        report("the first cut at or after a unit", lbk_cut_utf16(&table, text, size, at) == behind);
        report("the last cut at or before a unit", lbk_cut_before_utf16(&table, text, size, at) == before[at]);
    }
    report("cuts past the end", lbk_cut_utf16(&table, text, size, size + 1 + below(9)) == size
        && lbk_cut_before_utf16(&table, text, size, SIZE_MAX) == size);
}

static void try_utf16(const uint16_t *units, size_t size, size_t room)
{
    static scalars read;
    read_utf16(&read, units, size);
    if (below(10) == 0)
        try_cuts((uint8_t)below(2), units, size);
    for (uint8_t profile = 0; profile < 4; profile++) {
        if (profile >= LBK_GOES_ON)
            try_going_on(profile, &read);
        report("breaks of units of 16 bits", agrees(0, 0, profile, units, size, room, &read));
        report("positions of units of 16 bits", agrees(1, 0, profile, units, size, room, &read));
    }
}

static void try_utf32(const uint32_t *units, size_t size, size_t room)
{
    static scalars read;
    read_utf32(&read, units, size);
    for (uint8_t profile = 0; profile < 4; profile++) {
        report("breaks of units of 32 bits", agrees(0, 1, profile, units, size, room, &read));
        report("positions of units of 32 bits", agrees(1, 1, profile, units, size, room, &read));
    }
}

/* Short lists of units that a wrong decoder would misread, in blocks of each size. */
static void try_short_units(void)
{
    static const uint16_t parts[] = {'a', ' ', '\n', 0xD83D, 0xDE00, 0xD7FF, 0xE000, 0xDBFF, 0xDC00, 0xBB};
    enum { PARTS = sizeof parts / sizeof *parts };
    uint16_t units[4];
    uint32_t wide[4];
    for (size_t k = 0; k < PARTS * PARTS * PARTS * PARTS; k++)
        for (size_t size = 0, number = k; size <= 4; size++) {
            for (size_t room = 1; room <= 3; room++) {
                try_utf16(units, size, room);
                try_utf32(wide, size, room);
            }
            if (size < 4) {
                units[size] = parts[number % PARTS];
                wide[size] = parts[number % PARTS] == 0xDBFF ? 0x110000 : parts[number % PARTS];
                number /= PARTS;
            }
        }
}

/* Bytes that look like text, as if they were units. */
static void try_bytes(void)
{
    char text[MOST_TEXT];
    uint16_t units[MOST_TEXT / 2];
    uint32_t wide[MOST_TEXT / 4];
    size_t size = random_text(text);
    memcpy(units, text, size / 2 * 2);
    memcpy(wide, text, size / 4 * 4);
    try_utf16(units, size / 2, 1 + below(MOST_UNIT_ROOM));
    try_utf32(wide, size / 4, 1 + below(MOST_UNIT_ROOM));
}

/* With any table and state the calls return, and the breaks, or positions if `all` is set, are in order. */
static void try_any_table(const lbk_table *any, int all)
{
    uint16_t units[MOST_TEXT + 2];
    size_t size = random_utf16(units), room = below(MOST_UNIT_ROOM + 1);
    lbk_state state;
    fill_random(&state, sizeof state);
    if (below(4) != 0) {
        state.profile %= 4;
        state.ended = 0;
        state.at = below(size + 1);
    }
    uint16_t *text = place(texts, size * sizeof *text);
    memcpy(text, units, size * sizeof *text);
    lbk_break *block = place(blocks, room * sizeof *block);
    lbk_state old = state;
    size_t count = (all ? lbk_positions_utf16 : lbk_breaks_utf16)(any, &state, text, size, block, room);
    int holds = count <= room && state.at >= old.at && state.profile == old.profile;
    for (size_t k = 0; k < count; k++)
        holds &= block[k].at >= old.at && block[k].at <= size && (k == 0 || block[k].at > block[k - 1].at)
            && block[k].kind >= (all ? LBK_NO : LBK_MAY) && block[k].kind <= LBK_MUST
            && lbk_label(block[k].rule).text[0] != 0;
    holds &= count > 0 || room > 0 || memcmp(&state, &old, sizeof old) == 0;
    report(all ? "positions of any table and any state" : "breaks of any table and any state", holds);
}

/* Each line of a well-formed text in UTF-8. */
static void try_lines(bytes text)
{
    static uint16_t units[MOST_UNITS];
    static uint32_t wide[MOST_UNITS];
    const unsigned char *byte = (const unsigned char *)text.at, *end = byte + text.size;
    while (byte < end) {
        size_t size = 0, codes = 0;
        int over = 0;
        while (byte < end && !over && codes < MOST_TEXT) {
            size_t more = *byte < 0x80 ? 0 : *byte < 0xE0 ? 1 : *byte < 0xF0 ? 2 : 3;
            uint32_t code = more == 0 ? *byte : *byte & (0x3FU >> more);
            for (byte++; more > 0; more--)
                code = code << 6 | (*byte++ & 0x3FU);
            wide[codes++] = code;
            if (code >= 0x10000)
                units[size++] = (uint16_t)(0xD7C0 + (code >> 10));
            units[size++] = (uint16_t)(code < 0x10000 ? code : 0xDC00 | (code & 0x3FF));
            over = code == '\n';
        }
        for (size_t room = 1; room <= MOST_UNIT_ROOM; room += 4) {
            try_utf16(units, size, room);
            try_utf32(wide, codes, room);
        }
    }
}

int main(int count, char **word)
{
    static lbk_table any;
    if (count != 3 && count != 4) {
        fprintf(stderr, "usage: units ROUNDS SEED [TEXT]\n");
        return 2;
    }
    unsigned long rounds = strtoul(word[1], NULL, 10);
    seed = strtoul(word[2], NULL, 10) * 2 + 1;
    lbk_unicode(&table);
    fill_random(&any, sizeof any);
    texts = fence(MOST_UNITS * sizeof(uint32_t));
    blocks = fence(MOST_ROOM * sizeof(lbk_break));

    try_short_units();
    for (unsigned long round = 0; round < rounds; round++) {
        uint16_t units[MOST_TEXT + 2];
        uint32_t wide[MOST_TEXT + 2];
        try_utf16(units, random_utf16(units), 1 + round % MOST_UNIT_ROOM);
        try_utf32(wide, random_utf32(wide), 1 + round % MOST_UNIT_ROOM);
        if (round % 10 == 1)
            try_bytes();
        if (round % 10 == 0)
            try_any_table(round % 20 == 0 ? &table : &any, round % 40 < 20);
    }
    if (count == 4) {
        bytes text = load(word[3]);
        try_lines(text);
        free(text.at);
    }
    printf("%lu passed, %lu failed\n", passed, failed);
    return failed != 0;
}
