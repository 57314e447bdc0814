/* Makes one call of the library, for valgrind to count the instructions of it.
 *
 *     instructions CALL SIZE LINE_BREAK EAST_ASIAN CATEGORY EMOJI
 *
 * CALL is lbk_unicode, lbk_read or lbk_read_published; or lbk_cut or lbk_cut_before, of a text of SIZE bytes near its start or
 * near its end.
 */
#include "../../examples/example.h"

#include <string.h>

enum { LINES = 65536, LINE = 100, NEAR = 4000 };

static lbk_table table;

/* Lines of letters. */
static void put_lines(char *to)
{
    memset(to, 'a', LINES);
    for (size_t at = LINE; at < LINES; at += LINE)
        to[at] = '\n';
}

/* A cut of a text with lines at both ends, and without a line end between them. Its other pages are never touched. */
static int cut(const char *call, size_t size)
{
    char *text = calloc(size, 1);
    if (text == NULL || size < 2 * LINES)
        return 1;
    put_lines(text);
    put_lines(text + size - LINES);
    size_t near_the_end = size - NEAR;
    size_t at = strcmp(call, "lbk_cut") == 0 ? lbk_cut(&table, text, size, NEAR) : lbk_cut_before(&table, text, size,
        near_the_end);
    free(text);
    return 2 * NEAR < at && at < near_the_end - NEAR;
}

static int read_once(const char *call, char **names)
{
    bytes files[4];
    for (int k = 0; k < 4; k++)
        files[k] = load(names[k]);
    lbk_fault fault = (strcmp(call, "lbk_read") == 0 ? lbk_read : lbk_read_published)(
        &table, files[0].at, files[0].size, files[1].at, files[1].size, files[2].at, files[2].size, files[3].at,
        files[3].size);
    for (int k = 0; k < 4; k++)
        free(files[k].at);
    return fault.cause != LBK_CAUSE_NONE;
}

int main(int count, char **word)
{
    if (count != 7) {
        fprintf(stderr, "usage: instructions CALL SIZE LINE_BREAK EAST_ASIAN CATEGORY EMOJI\n");
        return 2;
    }
    if (strcmp(word[1], "lbk_unicode") == 0) {
        lbk_unicode(&table);
        return table.layout != LBK_LAYOUT;
    }
    if (strncmp(word[1], "lbk_read", 8) == 0)
        return read_once(word[1], word + 3);
    read_table(&table, word + 3);
    return cut(word[1], strtoull(word[2], NULL, 10));
}
