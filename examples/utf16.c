/* Writes each break of a text in UTF-16: its offset in units of 16 bits, its kind (1 may, 2 must) and its rule.
 *
 *     iconv -f UTF-8 -t UTF-16LE TEXT | utf16
 *
 * The units are in the machine's byte order, which is UTF-16LE on x86-64.
 */
#include "example.h"

enum { ROOM = 256 };

int main(void)
{
    static lbk_table table;
    lbk_unicode(&table);
    bytes text = read_all(stdin);
    if (text.at == NULL || text.size % sizeof(uint16_t) != 0) {
        fprintf(stderr, "standard input cannot be read, or ends within a unit\n");
        return 1;
    }
    /* (memory of malloc suits units of any size) */
    const uint16_t *units = (const void *)text.at;
    lbk_state state = {0};
    lbk_break block[ROOM];
    size_t got;
    do {
        got = lbk_breaks_utf16(&table, &state, units, text.size / sizeof *units, block, ROOM);
        for (size_t k = 0; k < got; k++)
            printf("%zu %u %s\n", block[k].at, (unsigned)block[k].kind, lbk_label(block[k].rule).text);
    } while (got == ROOM);
    free(text.at);
    return 0;
}
