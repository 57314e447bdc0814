/* Saves a table of files of your own, so that other processes can map it instead of reading the four files again.
 *
 *     save_table TABLE LINE_BREAK EAST_ASIAN CATEGORY EMOJI     writes the table of the four files into the file TABLE
 *     save_table TABLE < TEXT                                   maps the file TABLE, and writes how many breaks the text has
 *
 * The second checks that the mapped bytes are an intact table of this version.
 */
#define _POSIX_C_SOURCE 200809L
#include "example.h"

#include <fcntl.h>
#include <sys/mman.h>
#include <sys/stat.h>
#include <unistd.h>

static int save(const char *name, char **files)
{
    static lbk_table table;
    read_table(&table, files);
    FILE *file = fopen(name, "wb");
    if (file == NULL || fwrite(&table, sizeof table, 1, file) != 1 || fclose(file) != 0) {
        fprintf(stderr, "%s cannot be written\n", name);
        return 1;
    }
    return 0;
}

/* The mapped table of a file; NULL if the file is not an intact table of this version. */
static const lbk_table *map_table(const char *name)
{
    struct stat status;
    void *mapped = MAP_FAILED;
    int file = open(name, O_RDONLY);
    if (file >= 0 && fstat(file, &status) == 0 && status.st_size == (off_t)sizeof(lbk_table))
        mapped = mmap(NULL, sizeof(lbk_table), PROT_READ, MAP_SHARED, file, 0);
    if (file >= 0)
        close(file);
    return mapped != MAP_FAILED && lbk_check(mapped) ? mapped : NULL;
}

static size_t count_breaks(const lbk_table *table, const char *text, size_t size)
{
    enum { ROOM = 256 };
    lbk_state state = {0};
    lbk_break block[ROOM];
    size_t sum = 0, count;
    do {
        count = lbk_breaks(table, &state, text, size, block, ROOM);
        sum += count;
    } while (count == ROOM);
    return sum;
}

int main(int words, char **word)
{
    if (words == 6)
        return save(word[1], word + 2);
    if (words != 2) {
        fprintf(stderr, "usage: save_table TABLE LINE_BREAK EAST_ASIAN CATEGORY EMOJI, or: save_table TABLE < TEXT\n");
        return 2;
    }
    const lbk_table *table = map_table(word[1]);
    if (table == NULL) {
        fprintf(stderr, "%s is not an intact table of version %s\n", word[1], LBK_VERSION);
        return 1;
    }
    bytes text = read_all(stdin);
    if (text.at == NULL) {
        fprintf(stderr, "standard input cannot be read\n");
        return 1;
    }
    printf("%zu breaks\n", count_breaks(table, text.at, text.size));
    free(text.at);
    return 0;
}
