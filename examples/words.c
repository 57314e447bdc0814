/* Writes the words of a text, as `lbk segment` does: `W start end` for each.
 *
 *     words [ROOM] < TEXT
 *
 * ROOM is the number of words for each call, at most 256.
 */
#include "example.h"

static void write_words(const char *text, size_t size, size_t room)
{
    lbk_word_state state = {0};
    lbk_word block[256];
    size_t count;
    do {
        count = lbk_words(&state, text, size, block, room);
        for (size_t k = 0; k < count; k++)
            printf("W %zu %zu\n", block[k].start, block[k].end);
    } while (count == room);
}

int main(int words, char **word)
{
    size_t room = words > 1 ? strtoul(word[1], NULL, 10) : 256;
    if (words > 2 || room == 0 || room > 256) {
        fprintf(stderr, "usage: words [ROOM] < TEXT\n");
        return 2;
    }
    bytes text = read_all(stdin);
    if (text.at == NULL) {
        fprintf(stderr, "standard input cannot be read\n");
        return 1;
    }
    write_words(text.at, text.size, room);
    free(text.at);
    return fflush(stdout) == 0 ? 0 : 1;
}
