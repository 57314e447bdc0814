/* libunibreak's calls for line breaks, over liblbk. */
#define _POSIX_C_SOURCE 200809L
#include "linebreak.h"

#include <lbk.h>
#include <pthread.h>
#include <string.h>

enum { ROOM = 256 };

static pthread_once_t once = PTHREAD_ONCE_INIT;
static lbk_table table;

static void fill_table(void) { lbk_unicode(&table); }

void init_linebreak(void) { pthread_once(&once, fill_table); }

static void set_marks(const lbk_break *block, size_t count, char *brks)
{
    static const char marks[] = {
        [LBK_NO] = LINEBREAK_NOBREAK, [LBK_MAY] = LINEBREAK_ALLOWBREAK, [LBK_MUST] = LINEBREAK_MUSTBREAK};
    for (size_t k = 0; k < count; k++)
        if (block[k].at > 0)
            brks[block[k].at - 1] = marks[block[k].kind];
}

/* Sets the marks at the offsets that a call returns, and all others to `others`. */
#define SET_LINEBREAKS(name, unit, others, call, number)                          \
    void name(const unit *s, size_t len, const char *lang, char *brks)            \
    {                                                                             \
        lbk_state state = {0};                                                    \
        lbk_break block[ROOM];                                                    \
        size_t count;                                                             \
        (void)lang;                                                               \
        if (len == 0)                                                             \
            return;                                                               \
        init_linebreak();                                                         \
        memset(brks, others, len);                                                \
        do {                                                                      \
            count = call(&table, &state, (const number *)s, len, block, ROOM);    \
            set_marks(block, count, brks);                                        \
        } while (count == ROOM);                                                  \
    }

/* UTF-8 and UTF-16 have offsets inside scalars, too; in UTF-32 each offset is a position. */
SET_LINEBREAKS(set_linebreaks_utf8, utf8_t, LINEBREAK_INSIDEACHAR, lbk_positions, char)
SET_LINEBREAKS(set_linebreaks_utf16, utf16_t, LINEBREAK_INSIDEACHAR, lbk_positions_utf16, uint16_t)
SET_LINEBREAKS(set_linebreaks_utf32, utf32_t, LINEBREAK_NOBREAK, lbk_breaks_utf32, uint32_t)

int is_line_breakable(utf32_t char1, utf32_t char2, const char *lang)
{
    utf32_t both[] = {char1, char2};
    char brks[2];
    set_linebreaks_utf32(both, 2, lang, brks);
    return brks[0];
}
