/* Writes the segments of a text between its breaks, as `lbk segment` does: `S start end kind rule` for each.
 *
 *     breaks [PROFILE] < TEXT
 */
#include "example.h"

static void write_segments(const lbk_table *table, uint8_t profile, const char *text, size_t size)
{
    enum { ROOM = 256 };
    static const char *const kinds[] = {"No", "May", "Must"};
    lbk_state state = {0};
    lbk_break block[ROOM];
    size_t start = 0, count;
    state.profile = profile;
    do {
        count = lbk_breaks(table, &state, text, size, block, ROOM);
        for (size_t k = 0; k < count; k++) {
            printf("S %zu %zu %s %s\n", start, block[k].at, kinds[block[k].kind], lbk_label(block[k].rule).text);
            start = block[k].at;
        }
    } while (count == ROOM);
}

int main(int words, char **word)
{
    static lbk_table table;
    lbk_unicode(&table);
    bytes text = read_all(stdin);
    if (text.at == NULL) {
        fprintf(stderr, "standard input cannot be read\n");
        return 1;
    }
    write_segments(&table, words > 1 && word[1][0] == '2' ? LBK_SECOND : LBK_FIRST, text.at, text.size);
    free(text.at);
    return fflush(stdout) == 0 ? 0 : 1;
}
