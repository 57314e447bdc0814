/* An older library, to compare with this one in peers.c: only this file includes its header, and bench/run renames
 * its calls. */
#include <lbk.h>
#include <stddef.h>

enum { ROOM = 256 };

static lbk_table table;

int older_read(const char *const *at, const size_t *size)
{
    return lbk_read(&table, at[0], size[0], at[1], size[1], at[2], size[2], at[3], size[3]).cause == LBK_CAUSE_NONE;
}

size_t older_count(uint8_t profile, const char *text, size_t size, size_t *total)
{
    lbk_state state = {0};
    lbk_break block[ROOM];
    size_t sum = 0, count;
    state.profile = profile;
    do {
        count = lbk_breaks(&table, &state, text, size, block, ROOM);
        for (size_t k = 0; k < count; k++)
            *total += block[k].at + block[k].kind;
        sum += count;
    } while (count == ROOM);
    return sum;
}
