/* Tests the calls at their limits: null with length 0, blocks of 0 and 1 entries, states that have ended, that are
 * past the end or have no known profile, ill-formed and truncated bytes, files with faults, and corrupt tables. It
 * needs no files, and prints what failed. The last line is `N passed, M failed`.
 */
#include <lbk.h>
#include <stdint.h>
#include <stdio.h>
#include <string.h>

enum { ROOM = 64 };

static unsigned passed, failed;

static void report(const char *what, int holds)
{
    if (holds) {
        passed++;
    } else {
        failed++;
        printf("FAILED  %s\n", what);
    }
}

/* Small files: a and b are letters, U+FFFD is an ideograph, with a break on either side. */
static const char LINE_BREAKS[] =
    "000A;LF\n000D;CR\n0020;SP\n0022;QU\n0028;OP\n0061..0062;AL\n0085;NL\n00AB;QU\n00BB;QU\n0301;CM\n2029;BK\n"
                                  "4E00;ID\n1F600;ID\nFFFD;ID\n";
static const char CATEGORIES[] = "00AB;Pi\n00BB;Pf\n0301;Mn\n";

static lbk_table table, before;

static lbk_fault read_lines(lbk_table *to, const char *line_break, const char *category)
{
    return lbk_read(to, line_break, strlen(line_break), NULL, 0, category, strlen(category), NULL, 0);
}

static int same(lbk_state a, lbk_state b)
{
    return a.at == b.at && a.row == b.row && a.profile == b.profile && a.ended == b.ended;
}

/* Whether the text has its breaks at exactly these bytes, in the order of `places`, which ends with 0. */
static int has_breaks(uint8_t profile, const char *text, size_t size, const size_t *places)
{
    lbk_state state = {0};
    lbk_break block[ROOM];
    state.profile = profile;
    size_t count = lbk_breaks(&table, &state, text, size, block, ROOM);
    for (size_t k = 0; k < count; k++)
        if (places[k] == 0 || block[k].at != places[k])
            return 0;
    return places[count] == 0;
}

#define PLACES(...) (const size_t[]){__VA_ARGS__, 0}

static void try_nothing(void)
{
    lbk_state state = {0}, start = {0};
    lbk_break block[1];
    lbk_fault fault = lbk_read(&before, NULL, 0, NULL, 0, NULL, 0, NULL, 0);
    report("four empty files have no fault", fault.cause == LBK_CAUSE_NONE && fault.file == LBK_NO_FILE
        && fault.line == 0);
    report("the table of four empty files is whole", lbk_check(&before));
    report("an empty text has no break", lbk_breaks(&table, &state, NULL, 0, block, 1) == 0);
    state = start;
    report("an empty text, no room", lbk_breaks(&table, &state, NULL, 0, NULL, 0) == 0);
    state = start;
    report("an empty text that is not null", lbk_breaks(&table, &state, "", 0, block, 1) == 0);
}

/* A table depends only on its files, not on what its memory held before. */
static void try_memory(void)
{
    static lbk_table used, clear;
    memset(&used, 0xA5, sizeof used);
    int both = read_lines(&used, LINE_BREAKS, CATEGORIES).cause == LBK_CAUSE_NONE
               && read_lines(&clear, LINE_BREAKS, CATEGORIES).cause == LBK_CAUSE_NONE;
    report("no byte of a table is one that its memory held", both && memcmp(&used, &clear, sizeof used) == 0);
}

/* The built-in table, too. It goes by the properties of all characters. */
static void try_unicode(void)
{
    static lbk_table used, clear;
    memset(&used, 0xA5, sizeof used);
    lbk_unicode(&used);
    lbk_unicode(&clear);
    report("no byte of the built-in table is one that its memory held", memcmp(&used, &clear, sizeof used) == 0);
    report("the built-in table is whole", lbk_check(&used) && used.layout == LBK_LAYOUT);
    lbk_state state = {0};
    lbk_break block[ROOM];
    const char text[] = "\xE0\xB8\x81\xE0\xB8\x81 \xF0\x9F\x98\x80\xF0\xA0\x80\x80";
    size_t count = lbk_breaks(&used, &state, text, sizeof text - 1, block, ROOM);
    report("breaks by the built-in table", count == 3 && block[0].at == 7 && block[0].rule == LBK_RULE_18
        && block[1].at == 11 && block[1].rule == LBK_RULE_31 && block[2].at == 15);
}

static void try_rooms(void)
{
    const char text[] = "a b (a) \xE4\xB8\x80\n\"b\" a";
    size_t size = sizeof text - 1;
    lbk_state state = {0}, start = {0};
    lbk_break whole[ROOM], one;
    size_t all = lbk_breaks(&table, &state, text, size, whole, ROOM);
    report("a text with breaks", all == 6);
    report("the last break is the end, by rule 3",
         all > 0 && whole[all - 1].at == size && whole[all - 1].kind == LBK_MUST && whole[all - 1].rule == LBK_RULE_3);
    lbk_state spent = state;
    report("a spent state answers 0", lbk_breaks(&table, &state, text, size, whole + all, ROOM - all) == 0);
    report("a spent state stays", same(state, spent));

    state = start;
    report("no room: 0", lbk_breaks(&table, &state, text, size, NULL, 0) == 0);
    report("no room: the state stays", same(state, start));
    for (size_t k = 0; k < all; k++) {
        lbk_state back = state;
        size_t count = lbk_breaks(&table, &state, text, size, &one, 1);
        report("room for one: the next break", count == 1 && one.at == whole[k].at && one.kind == whole[k].kind
            && one.rule == whole[k].rule);
        count = lbk_breaks(&table, &back, text, size, &one, 1);
        report("a copy of a state answers the same", count == 1 && one.at == whole[k].at && same(back, state));
    }
    report("room for one: no more", lbk_breaks(&table, &state, text, size, &one, 1) == 0);

    state = start;
    report("a full block", lbk_breaks(&table, &state, text, size, whole, all) == all);
    report("a full block: no more", lbk_breaks(&table, &state, text, size, &one, 1) == 0);
}

static void try_states(void)
{
    lbk_break one;
    lbk_state state = {4, 0, LBK_FIRST, 0}, kept = state;
    report("past the end: 0", lbk_breaks(&table, &state, "a b", 3, &one, 1) == 0);
    report("past the end: the state stays", same(state, kept));
    state.at = SIZE_MAX;
    kept = state;
    report("far past the end: 0", lbk_breaks(&table, &state, "a b", 3, &one, 1) == 0);
    report("far past the end: the state stays", same(state, kept));
    for (unsigned profile = 4; profile <= UINT8_MAX; profile++) {
        state = (lbk_state){0, 0, (uint8_t)profile, 0};
        kept = state;
        report("no such profile: no position", lbk_positions(&table, &state, "a b", 3, &one, 1) == 0);
        report("no such profile: the state stays", same(state, kept));
        report("no such profile: 0", lbk_breaks(&table, &state, "a b", 3, &one, 1) == 0);
        report("no such profile: the state stays", same(state, kept));
    }
    for (unsigned ended = 1; ended <= UINT8_MAX; ended++) {
        state = (lbk_state){0, 0, LBK_SECOND, (uint8_t)ended};
        kept = state;
        report("a state that has ended: 0", lbk_breaks(&table, &state, "a b", 3, &one, 1) == 0);
        report("a state that has ended: it stays", same(state, kept));
    }
}

static void try_profiles(void)
{
    const char text[] = "a \xC2\xAB b \xC2\xBB a";
    report("quotation marks, first profile", has_breaks(LBK_FIRST, text, 11, PLACES(2, 5, 7, 10, 11)));
    report("quotation marks, second profile", has_breaks(LBK_SECOND, text, 11, PLACES(2, 10, 11)));
    report("a closing mark that stays open", has_breaks(LBK_SECOND, "b \xC2\xBB" "a", 5, PLACES(2, 5)));
    report("a closing mark at the end", has_breaks(LBK_SECOND, "b \xC2\xBB\xCC\x81", 6, PLACES(6)));
}

/* Whether the end of a part after which the text goes on is this break, or no break (rule 0). */
static int ends_part(const char *part, size_t size, uint8_t rule)
{
    lbk_state state = {0, 0, LBK_SECOND + LBK_GOES_ON, 0};
    lbk_break block[ROOM];
    size_t count = lbk_breaks(&table, &state, part, size, block, ROOM);
    if (rule == 0)
        return count == 0 || block[count - 1].at < size;
    return count > 0 && block[count - 1].at == size && block[count - 1].kind == LBK_MUST
        && block[count - 1].rule == rule;
}

static void try_parts(void)
{
    lbk_break one;
    report("an empty part has no end", ends_part("", 0, 0));
    report("a part ends at no letter", ends_part("a b", 3, 0));
    report("a part ends at no space", ends_part("a ", 2, 0));
    report("a part ends at LF", ends_part("a\n", 2, LBK_RULE_5));
    report("a part ends at CR", ends_part("a\r", 2, LBK_RULE_5));
    report("a part ends at NEL", ends_part("a\xC2\x85", 3, LBK_RULE_5));
    report("a part ends at PS", ends_part("a\xE2\x80\xA9", 4, LBK_RULE_4));
    lbk_state state = {2, 0, LBK_FIRST, 0};
    report("a part from a byte on: places from the text's start", lbk_breaks(&table, &state, "\nab", 3, &one, 1) == 1
        && one.at == 3);
    state = (lbk_state){3, 0, LBK_FIRST, 0};
    report("an empty part at the text's end has no break", lbk_breaks(&table, &state, "\nab", 3, &one, 1) == 0);
    state = (lbk_state){0, 0, LBK_FIRST + LBK_GOES_ON, 0};
    report("a block that is full at a part's last scalar", lbk_breaks(&table, &state, "a \n", 3, &one, 1) == 1
        && one.at == 3);
    report("nothing is left then", lbk_breaks(&table, &state, "a \n", 3, &one, 1) == 0);
    state = (lbk_state){0, 0, LBK_FIRST + LBK_GOES_ON, 0};
    report("a block that is full before a part's last scalar", lbk_breaks(&table, &state, "a\n\n", 3, &one, 1) == 1
        && one.at == 2);
    report("the end is left", lbk_breaks(&table, &state, "a\n\n", 3, &one, 1) == 1 && one.at == 3
        && one.rule == LBK_RULE_5);
}

/* Whether the segments of a text, in blocks of this size, are those between its breaks. */
static int has_segments(const char *text, size_t size, uint8_t profile, size_t room)
{
    lbk_state state = {.profile = profile};
    lbk_segment_state of_segments = {.breaks = {.profile = profile}};
    lbk_break breaks[4 * ROOM];
    lbk_segment block[4 * ROOM];
    const size_t all = lbk_breaks(&table, &state, text, size, breaks, 4 * ROOM);
    size_t from = 0, count, start = 0;
    do {
        count = lbk_segments(&table, &of_segments, text, size, block, room);
        for (size_t k = 0; k < count; start = block[k++].end, from++)
            if (from >= all || block[k].start != start || block[k].end != breaks[from].at
                || block[k].kind != breaks[from].kind
                || block[k].rule != breaks[from].rule)
                return 0;
    } while (count == room);
    return from == all && same(state, of_segments.breaks) && of_segments.start == start;
}

/* Whether the safe break is the last one before the end, and the breaks after it are those of the text that begins
 * there. */
static int has_safe_break(const char *text, size_t size, uint8_t profile, size_t *safe)
{
    lbk_state state = {.profile = profile}, fresh = {.profile = profile};
    lbk_break whole[4 * ROOM], rest[4 * ROOM];
    *safe = lbk_safe_break(&table, profile, text, size);
    size_t all = lbk_breaks(&table, &state, text, size, whole, 4 * ROOM);
    size_t left = lbk_breaks(&table, &fresh, text + *safe, size - *safe, rest, 4 * ROOM);
    for (size_t k = 1; k <= left; k++)
        if (k > all || whole[all - k].at != *safe + rest[left - k].at || whole[all - k].kind != rest[left - k].kind
            || whole[all - k].rule != rest[left - k].rule)
            return 0;
    return *safe == (all < 2 ? 0 : whole[all - 2].at);
}

static void try_safe_breaks(void)
{
    static const char many[] = "ab c\r\n\xE4\xB8\x80" "d\n\r\n a\r \xC2\xAB b \xC2\xBB c (d";
    static const struct {
        const char *text;
        size_t safe;
    } rows[] = {{"ab c d", 5}, {"ab\ncd", 3}, {"ab\n", 0}, {"ab", 0}, {"", 0}, {"a\nb c", 4}};
    size_t safe;
    for (size_t k = 0; k < sizeof rows / sizeof rows[0]; k++)
        report("a safe break", has_safe_break(rows[k].text, strlen(rows[k].text), LBK_FIRST, &safe)
            && safe == rows[k].safe);
    for (uint8_t profile = LBK_FIRST; profile <= LBK_SECOND; profile++)
        for (size_t size = 0; size < sizeof many; size++)
            report("after a safe break the breaks are those of the text from there on",
                has_safe_break(many, size, profile, &safe));
    report("no text has no safe break", lbk_safe_break(&table, LBK_FIRST, NULL, 0) == 0);
}

static void try_segments(void)
{
    char many[3 * ROOM];
    for (size_t k = 0; k < sizeof many; k++)
        many[k] = k % 2 == 0 ? 'a' : k % 10 == 1 ? '\n' : ' ';
    for (uint8_t profile = LBK_FIRST; profile <= LBK_SECOND + LBK_GOES_ON; profile++)
        for (size_t size = 0; size <= sizeof many; size += size < 12 ? 1 : 9)
            for (size_t room = 1; room <= 3 * ROOM + 1; room += room < 3 ? 1 : room < ROOM - 1 ? ROOM - 1 - room
                : room < ROOM + 1 ? 1 : ROOM)
                report("segments in blocks of any size", has_segments(many, size, profile, room));
    lbk_segment one;
    lbk_segment_state state = {.breaks = {.at = 2}, .start = 2}, old = state;
    report("segments without room: 0", lbk_segments(&table, &state, "a\nb", 3, NULL, 0) == 0
        && same(state.breaks, old.breaks) && state.start == 2);
    report("a segment of a part", lbk_segments(&table, &state, "a\nb", 3, &one, 1) == 1 && one.start == 2
        && one.end == 3
        && one.rule == LBK_RULE_3);
    report("no segment is left", lbk_segments(&table, &state, "a\nb", 3, &one, 1) == 0 && state.start == 3);
    state = (lbk_segment_state){.breaks = {.profile = 4}};
    report("segments of no profile: 0", lbk_segments(&table, &state, "a", 1, &one, 1) == 0 && state.start == 0);
    state = (lbk_segment_state){.breaks = {.at = 2}};
    report("segments from a place past the text: 0", lbk_segments(&table, &state, "a", 1, &one, 1) == 0
        && state.breaks.at == 2);
}

/* The examples of the Unicode Standard, section 3.9, tables 3-8 to 3-11, and cases that they leave out. */
static void try_ill_formed(void)
{
    report("non-shortest forms", has_breaks(0, "\xC0\xAF\xE0\x80\xBF\xF0\x81\x82\x41", 9,
        PLACES(1, 2, 3, 4, 5, 6, 7, 8, 9)));
    report("surrogates", has_breaks(0, "\xED\xA0\x80\xED\xBF\xBF\xED\xAF\x41", 9, PLACES(1, 2, 3, 4, 5, 6, 7, 8, 9)));
    report("other ill-formed bytes", has_breaks(0, "\xF4\x91\x92\x93\xFF\x61\x80\xBF\x62", 9,
        PLACES(1, 2, 3, 4, 5, 6, 7, 8, 9)));
    report("cut scalars", has_breaks(0, "\xE1\x80\xE2\xF0\x91\x92\xF1\xBF\x61", 9, PLACES(2, 3, 6, 8, 9)));
    report("a cut scalar of two bytes", has_breaks(0, "a\xC3", 2, PLACES(1, 2)));
    report("a cut scalar of three bytes, one there", has_breaks(0, "a\xE4", 2, PLACES(1, 2)));
    report("a cut scalar of three bytes, two there", has_breaks(0, "a\xE4\xB8", 3, PLACES(1, 3)));
    report("a cut scalar of four bytes, one there", has_breaks(0, "a\xF0", 2, PLACES(1, 2)));
    report("a cut scalar of four bytes, two there", has_breaks(0, "a\xF0\x9F", 3, PLACES(1, 3)));
    report("a cut scalar of four bytes, three there", has_breaks(0, "a\xF0\x9F\x98", 4, PLACES(1, 4)));
    report("the whole scalar", has_breaks(0, "a\xF0\x9F\x98\x80", 5, PLACES(1, 5)));
    report("a byte of continuation", has_breaks(0, "\x80", 1, PLACES(1)));
    report("a zero byte is a scalar", has_breaks(0, "a\0 a", 4, PLACES(3, 4)));
    for (unsigned byte = 0x80; byte <= UINT8_MAX; byte++) {
        char text[] = {(char)byte, 'a'};
        report("a byte of no scalar", has_breaks(0, text, 2, PLACES(1, 2)));
    }
}

static void try_faults(void)
{
    static char long_line[1100];
    memset(long_line, '#', sizeof long_line - 1);
    memset(&before, 0x5A, sizeof before);
    static lbk_table read;
    read = before;
    const struct {
        const char *line_break, *category;
        uint32_t file, line, cause;
    } rows[] = {
        {"0061;AL\nno row\n", "", LBK_LINE_BREAK, 2, LBK_CAUSE_ROW_SYNTAX},
        {"", "0061;Ll\n0062;Xx\n", LBK_CATEGORY, 2, LBK_CAUSE_UNKNOWN_VALUE},
        {"0061..0060;AL\n", "no row\n", LBK_LINE_BREAK, 1, LBK_CAUSE_RANGE},
        {"110000;AL\n", "", LBK_LINE_BREAK, 1, LBK_CAUSE_RANGE},
        {"0061..0065;AL\n\n0063;SP\n", "", LBK_LINE_BREAK, 3, LBK_CAUSE_OVERLAP},
        {"\n", long_line, LBK_CATEGORY, 1, LBK_CAUSE_LINE_TOO_LONG},
    };
    for (size_t k = 0; k < sizeof rows / sizeof *rows; k++) {
        lbk_fault fault = read_lines(&read, rows[k].line_break, rows[k].category);
        report("the first fault", fault.file == rows[k].file && fault.line == rows[k].line
            && fault.cause == rows[k].cause);
        report("at a fault the table is as it was", memcmp(&read, &before, sizeof read) == 0);
    }
}

/* Files of the largest sizes, and larger ones. */
static void try_sizes(void)
{
    enum { MOST_BYTES = 8388608, MOST_ROWS = 65536 };
    static char file[MOST_BYTES + 1];
    static lbk_table read;
    memset(file, '\n', sizeof file);
    lbk_fault fault = lbk_read(&read, NULL, 0, NULL, 0, NULL, 0, file, MOST_BYTES);
    report("a file of the greatest size", fault.cause == LBK_CAUSE_NONE);
    fault = lbk_read(&read, NULL, 0, NULL, 0, NULL, 0, file, MOST_BYTES + 1);
    report("a file past it", fault.file == LBK_EMOJI && fault.line == 0 && fault.cause == LBK_CAUSE_FILE_TOO_LONG);
    size_t size = 0, most = 0;
    for (unsigned code = 0; code <= MOST_ROWS; code++) {
        most = size;
        size += (size_t)snprintf(file + size, sizeof file - size, "%04X;W\n", code);
    }
    fault = lbk_read(&read, NULL, 0, file, most, NULL, 0, NULL, 0);
    report("the greatest number of rows", fault.cause == LBK_CAUSE_NONE);
    fault = lbk_read(&read, NULL, 0, file, size, NULL, 0, NULL, 0);
    report("a row past it", fault.file == LBK_EAST_ASIAN && fault.line == MOST_ROWS + 1
        && fault.cause == LBK_CAUSE_TOO_MANY_ROWS);
}

static void try_tables(void)
{
    static lbk_table copy;
    copy = table;
    report("a table that was read is whole", lbk_check(&table));
    report("its layout is the header's", table.layout == LBK_LAYOUT);
    report("a copy is whole", lbk_check(&copy));
    report("a table can be read again", read_lines(&copy, LINE_BREAKS, CATEGORIES).cause == LBK_CAUSE_NONE
        && memcmp(&copy, &table, sizeof table) == 0);
    unsigned char *bytes = (unsigned char *)&copy;
    size_t wrong = 0;
    for (size_t k = 0; k < sizeof copy; k += k < 4096 ? 1 : 40009) {
        bytes[k] ^= 1;
        wrong += lbk_check(&copy);
        bytes[k] ^= 1;
    }
    bytes[sizeof copy - 1] ^= 0x80;
    wrong += lbk_check(&copy);
    report("a table with one other bit is not whole", wrong == 0);
    memset(&copy, 0, sizeof copy);
    report("zeros are no table", !lbk_check(&copy));
    memset(&copy, 0xFF, sizeof copy);
    report("ones are no table", !lbk_check(&copy));
}

static void try_labels(void)
{
    static const char *const labels[UINT8_MAX + 1] = {
        [LBK_RULE_2] = "2", [LBK_RULE_3] = "3", [LBK_RULE_4] = "4", [LBK_RULE_5] = "5", [LBK_RULE_6] = "6",
        [LBK_RULE_7] = "7", [LBK_RULE_8] = "8", [LBK_RULE_8A] = "8a", [LBK_RULE_9] = "9", [LBK_RULE_11] = "11",
        [LBK_RULE_12] = "12", [LBK_RULE_12A] = "12a", [LBK_RULE_13] = "13", [LBK_RULE_14] = "14", [LBK_RULE_15] = "15",
        [LBK_RULE_15A] = "15a", [LBK_RULE_15B] = "15b", [LBK_RULE_16] = "16", [LBK_RULE_17] = "17",
        [LBK_RULE_18] = "18",
        [LBK_RULE_19] = "19", [LBK_RULE_20] = "20", [LBK_RULE_21] = "21", [LBK_RULE_21A] = "21a",
        [LBK_RULE_21B] = "21b",
        [LBK_RULE_22] = "22", [LBK_RULE_23] = "23", [LBK_RULE_23A] = "23a", [LBK_RULE_24] = "24", [LBK_RULE_25] = "25",
        [LBK_RULE_26] = "26", [LBK_RULE_27] = "27", [LBK_RULE_28] = "28", [LBK_RULE_29] = "29", [LBK_RULE_30] = "30",
        [LBK_RULE_30A] = "30a", [LBK_RULE_30B] = "30b", [LBK_RULE_31] = "31"
    };
    for (unsigned rule = 0; rule <= UINT8_MAX; rule++) {
        lbk_rule_label label = lbk_label((uint8_t)rule), wanted = {{0}};
        if (labels[rule] != NULL)
            strcpy(wanted.text, labels[rule]);
        report("a rule's label", memcmp(label.text, wanted.text, sizeof wanted.text) == 0);
    }
}

static void try_rule_texts(void)
{
    report("what a rule says", strcmp(lbk_rule_text(LBK_RULE_18).text, "A break is allowed after spaces.") == 0);
    for (unsigned rule = 0; rule <= UINT8_MAX; rule++) {
        const lbk_text text = lbk_rule_text((uint8_t)rule);
        const char *end = memchr(text.text, 0, sizeof text.text);
        report("a rule that has a label says something",
            (text.text[0] != 0) == (lbk_label((uint8_t)rule).text[0] != 0));
        report("zeros follow what it says", end != NULL && text.text[sizeof text.text - 1] == 0);
    }
}

/* Whether the packed bytes are refused with this cause. After LBK_CAUSE_DAMAGED the table is corrupt, after another
 * cause unchanged. */
static int is_refused(const char *packed, size_t size, uint32_t cause)
{
    static lbk_table other;
    other = table;
    const uint32_t found = lbk_unpack(&other, packed, size);
    return found == cause && (cause == LBK_CAUSE_DAMAGED ? !lbk_check(&other) : memcmp(&other, &table, sizeof table)
        == 0);
}

static void try_packing(void)
{
    static lbk_table unpacked;
    static char packed[1 << 16], again[1 << 16];
    const size_t size = lbk_pack(&table, packed, sizeof packed);
    report("a table is packed into few bytes", size > 12 && size < sizeof packed && memcmp(packed, "lbk", 3) == 0
        && packed[3] == LBK_LAYOUT);
    report("what is packed is unpacked", lbk_unpack(&unpacked, packed, size) == LBK_CAUSE_NONE
        && memcmp(&unpacked, &table, sizeof table) == 0);
    memset(again, 1, sizeof again);
    report("without room: the size", lbk_pack(&table, NULL, 0) == size && lbk_pack(&table, again, size - 1) == size);
    report("without room nothing is written", again[0] == 1 && memchr(again, packed[0], size) == NULL);
    report("just enough room", lbk_pack(&table, again, size) == size && memcmp(packed, again, size) == 0
        && again[size] == 1);
    for (size_t cut = 0; cut < size; cut += cut < 16 ? 1 : 977)
        report("packed bytes that were cut", is_refused(packed, cut, cut < 4 ? LBK_CAUSE_NOT_PACKED
            : LBK_CAUSE_DAMAGED));
    for (size_t at = 0; at < size; at += at < 16 ? 1 : 977) {
        packed[at] ^= 1;
        report("packed bytes that were changed",
             is_refused(packed, size, at < 3 ? LBK_CAUSE_NOT_PACKED : at == 3 ? LBK_CAUSE_OTHER_LAYOUT
                 : LBK_CAUSE_DAMAGED));
        packed[at] ^= 1;
    }
    report("more than the packed bytes", is_refused(packed, size + 1, LBK_CAUSE_DAMAGED));
    report("a table is no packed table", is_refused((const char *)&table, sizeof table, LBK_CAUSE_NOT_PACKED));
    unpacked.kinds[65] ^= 1;
    report("a corrupt table is not packed", lbk_pack(&unpacked, again, sizeof again) == 0
        && memcmp(packed, again, size) == 0);
}

static void try_classes(void)
{
    static const struct {
        uint32_t scalar;
        const char *name;
    } rows[] = {
        {'a', "AL"}, {' ', "SP"}, {'\n', "LF"}, {'"', "QU"}, {'(', "OP"}, {0x0301, "CM"}, {0x4E00, "ID"},
        {0x1F600, "ID"}, {0x10FFFF, "AL"}, {0xD800, ""}, {0xDFFF, ""}, {0x110000, ""}, {UINT32_MAX, ""},
    };
    for (size_t k = 0; k < sizeof rows / sizeof rows[0]; k++) {
        lbk_class_label label = lbk_class(&table, rows[k].scalar), wanted = {{0}};
        strcpy(wanted.text, rows[k].name);
        report("a scalar's class", memcmp(label.text, wanted.text, sizeof wanted.text) == 0);
    }
}

/* Whether the text has exactly these words, each as its start and its end, in the order of `places`, which ends with
 * two zeros. */
static int has_words(const char *text, size_t size, const size_t *places)
{
    lbk_word_state state = {0};
    lbk_word block[ROOM];
    size_t count = lbk_words(&state, text, size, block, ROOM);
    for (size_t k = 0; k < count; k++)
        if (block[k].start != places[2 * k] || block[k].end != places[2 * k + 1])
            return 0;
    return places[2 * count] == 0 && places[2 * count + 1] == 0 && state.at == size;
}

#define WORDS(...) (const size_t[]){__VA_ARGS__, 0, 0}

static void try_words(void)
{
    lbk_word_state state = {0};
    lbk_word one;
    report("an empty text has no word", has_words(NULL, 0, WORDS(0, 0)));
    report("no room for a word: 0", lbk_words(&state, "a b", 3, NULL, 0) == 0 && state.at == 0);
    for (size_t at = 3; at != 0; at = at == 3 ? SIZE_MAX : 0) {
        state.at = at;
        report("words at the end and past it: 0", lbk_words(&state, "a b", 3, &one, 1) == 0 && state.at == at);
    }
    state.at = 0;
    for (size_t k = 0; k < 2; k++)
        report("room for one word", lbk_words(&state, "a b", 3, &one, 1) == 1 && one.start == 2 * k && one.end == 2 * k
            + 1);
    report("room for one word: no more", lbk_words(&state, "a b", 3, &one, 1) == 0);
    state.at = 1;
    report("a text that is taken from a byte on", lbk_words(&state, "ab", 2, &one, 1) == 1 && one.start == 1
        && one.end == 2);

    report("words and no words", has_words("can't, 3.5 - \xE4\xB8\x80!", 17, WORDS(0, 5, 7, 10, 13, 16)));
    report("a mid letter without a letter behind it", has_words("a' b.", 5, WORDS(0, 1, 3, 4)));
    report("a mark belongs to its letter", has_words("e\xCC\x81" "e", 4, WORDS(0, 4)));
    report("a word across the end of a line", has_words("ab\r\ncd", 6, WORDS(0, 2, 4, 6)));
    report("no letter, no word", has_words("\xF0\x9F\x87\xA6\xF0\x9F\x87\xA6 --", 11, WORDS(0, 0)));
    report("ill-formed bytes between words", has_words("a\xFF" "b", 3, WORDS(0, 1, 2, 3)));
    report("a cut scalar between words", has_words("a\xE4\xB8" "b", 4, WORDS(0, 1, 3, 4)));
    report("a cut scalar behind a word", has_words("a\xF0\x9F\x98", 4, WORDS(0, 1)));
    report("ill-formed bytes in a mark's run", has_words("'a\x80\xCC\x81" "b", 6, WORDS(1, 2, 5, 6)));
    for (unsigned byte = 0x80; byte <= UINT8_MAX; byte++) {
        char text[] = {(char)byte, 'a'};
        report("a byte of no scalar is in no word", has_words(text, 2, WORDS(1, 2)));
    }
}

/* Whether a text is these characters, and zeros. */
static int is_text(lbk_text text, const char *wanted)
{
    lbk_text other = {{0}};
    strcpy(other.text, wanted);
    return memcmp(text.text, other.text, sizeof other.text) == 0;
}

static void try_cut_files(void)
{
    static const struct {
        const char *file;
        bool is_cut;
    } rows[] = {
        {"", false}, {"0061;AL\n", false}, {"# EOF", false}, {"# LineBreak-15.0.0.txt", true},
        {"# LineBreak-15.0.0.txt\n# EOF", false},
        {"# LineBreak-15.0.0.txt\r\n# EOF \r\n\n", false}, {"# LineBreak-15.0.0.txt\n# EOF\n0061;AL\n", true},
        {"# EastAsianWidth-14.0.0.txt\n#EOF\n", false}, {"# DerivedGeneralCategory-15.0.0.txt\n# EO", true},
        {"# emoji-data.txt\n # EOF", true}, {"# Linebreak-15.0.0.txt\n", false}, {"\n# LineBreak-15.0.0.txt\n", false},
    };
    for (size_t k = 0; k < sizeof rows / sizeof rows[0]; k++)
        report("a file was cut, or not", lbk_is_cut(rows[k].file, strlen(rows[k].file)) == rows[k].is_cut);
    report("no file was not cut", !lbk_is_cut(NULL, 0));
}

static void try_claims(void)
{
    static const struct {
        uint32_t file;
        const char *contents, *says;
    } rows[] = {
        {LBK_LINE_BREAK, "# LineBreak-14.0.0.txt\n", "this is Unicode 14.0.0, and lbk needs 15.0.0"},
        {LBK_EAST_ASIAN, "# EastAsianWidth-15.1.txt\n", "this is Unicode 15.1.0, and lbk needs 15.0.0"},
        {LBK_EMOJI, "# emoji-data.txt\n# Used with Emoji Version 14.0 and", "this is Emoji 14.0, and lbk needs 15.0"},
        {LBK_EMOJI, "# emoji-data\n# Used with Emoji Version 5.0.1", "this is Emoji 5.0.1, and lbk needs 15.0.0"},
        {LBK_EMOJI, "# emoji-data-15.0\n", "this is not emoji-data.txt of the Unicode Character Database"},
        {LBK_CATEGORY, "# DerivedGeneralCategory-15.0.0.txt\n",
         "the file was changed or truncated: it differs from Unicode 15.0.0's DerivedGeneralCategory.txt"},
        {LBK_CATEGORY, "# LineBreak-14.0.0.txt\n",
            "this is not DerivedGeneralCategory.txt of the Unicode Character Database"},
        {LBK_LINE_BREAK, "# LineBreak-4294967295.4294967295.4294967295",
            "this is Unicode 4294967295.4294967295.4294967295, and lbk needs 15.0.0"},
        {LBK_LINE_BREAK, "# LineBreak-4294967296.0", "this is not LineBreak.txt of the Unicode Character Database"},
        {LBK_LINE_BREAK, "", "this is not LineBreak.txt of the Unicode Character Database"},
        {LBK_NO_FILE, "# LineBreak-14.0.0.txt\n", ""}, {5, "# LineBreak-14.0.0.txt\n", ""},
    };
    for (size_t k = 0; k < sizeof rows / sizeof rows[0]; k++)
        report("what a file claims", is_text(lbk_claim_text(rows[k].file, rows[k].contents, strlen(rows[k].contents)),
            rows[k].says));
    report("where the files are", strstr(lbk_remedy_text().text, "15.0.0/ucd/UCD.zip") != NULL
        && lbk_remedy_text().text[95] == 0);
}

static void try_texts(void)
{
    static const char *const names[] = {"the four files", "LineBreak.txt", "EastAsianWidth.txt",
        "DerivedGeneralCategory.txt", "emoji-data.txt"};
    report("the version", is_text(lbk_version(), LBK_VERSION));
    for (uint32_t k = 0; k < 5; k++)
        report("the name of a file", is_text(lbk_file_name(k), names[k]));
    for (uint32_t k = 0; k <= LBK_CAUSE_CUT; k++)
        report("a cause has a text", (lbk_cause_text(k).text[0] == 0) == (k == 9) && lbk_cause_text(k).text[95] == 0);
    report("a cause's text", is_text(lbk_cause_text(LBK_CAUSE_OUT_OF_MEMORY), "out of memory"));
    for (uint32_t k = 1; k != 0; k <<= 1) {
        report("a number of no file", k < 5 || is_text(lbk_file_name(k), ""));
        report("a number of no cause", k <= LBK_CAUSE_CUT || is_text(lbk_cause_text(k), ""));
    }
    report("the numbers behind the last", is_text(lbk_file_name(5), "") && is_text(lbk_cause_text(15), ""));
}

int main(void)
{
    report("the small files are read", read_lines(&table, LINE_BREAKS, CATEGORIES).cause == LBK_CAUSE_NONE);
    try_nothing();
    try_memory();
    try_unicode();
    try_rooms();
    try_states();
    try_profiles();
    try_parts();
    try_segments();
    try_safe_breaks();
    try_ill_formed();
    try_faults();
    try_sizes();
    try_tables();
    try_labels();
    try_rule_texts();
    try_cut_files();
    try_claims();
    try_packing();
    try_classes();
    try_words();
    try_texts();
    printf("%u passed, %u failed\n", passed, failed);
    return failed != 0;
}
