/* Writes each position of a text with its kind and rule:
 *
 *     positions PROFILE [breaks] < TEXT
 *
 * PROFILE is 1 or 2. A line has the byte offset, the kind (0 no, 1 may, 2 must) and the rule. With `breaks` it writes
 * only the breaks, by lbk_breaks.
 */
#include "example.h"

#include <string.h>

enum { ROOM = 1024 };

typedef size_t (*call)(const lbk_table *, lbk_state *, const char *, size_t, lbk_break *, size_t);

static void write_all(call next, const lbk_table *table, uint8_t profile, bytes text)
{
    lbk_state state = {.profile = profile};
    lbk_break block[ROOM];
    size_t count;
    do {
        count = next(table, &state, text.at, text.size, block, ROOM);
        for (size_t k = 0; k < count; k++)
            printf("%zu %u %s\n", block[k].at, (unsigned)block[k].kind, lbk_label(block[k].rule).text);
    } while (count == ROOM);
}

int main(int words, char **word)
{
    static lbk_table table;
    if (words != 2 && !(words == 3 && strcmp(word[2], "breaks") == 0)) {
        fprintf(stderr, "usage: positions PROFILE [breaks] < TEXT\n");
        return 2;
    }
    lbk_unicode(&table);
    bytes text = read_all(stdin);
    if (text.at == NULL) {
        fprintf(stderr, "standard input cannot be read\n");
        return 1;
    }
    uint8_t profile = strcmp(word[1], "2") == 0 ? LBK_SECOND : LBK_FIRST;
    write_all(words == 3 ? lbk_breaks : lbk_positions, &table, profile, text);
    free(text.at);
    return 0;
}
