/* What the examples in C share: whole files, and a table of four files of your own. */
#ifndef EXAMPLE_H
#define EXAMPLE_H

#include <lbk.h>
#include <stdio.h>
#include <stdlib.h>

typedef struct bytes {
    char *at;
    size_t size;
} bytes;

/* All that a stream has; at is NULL if it cannot be read. */
static inline bytes read_all(FILE *file)
{
    bytes all = {NULL, 0};
    size_t room = 0, count;
    do {
        if (all.size == room) {
            char *more = realloc(all.at, room = 2 * room + 65536);
            if (more == NULL)
                abort();
            all.at = more;
        }
        count = fread(all.at + all.size, 1, room - all.size, file);
        all.size += count;
    } while (count > 0);
    return ferror(file) ? (bytes){NULL, 0} : all;
}

/* The bytes of the file with this name. Ends the program if it cannot be read. */
static inline bytes load(const char *name)
{
    FILE *file = fopen(name, "rb");
    bytes all = {NULL, 0};
    if (file != NULL) {
        all = read_all(file);
        fclose(file);
    }
    if (all.at == NULL) {
        fprintf(stderr, "%s cannot be read\n", name);
        exit(1);
    }
    return all;
}

/* Fills a table from the four files with these names. Ends the program if they are refused. */
static inline void read_table(lbk_table *table, char **names)
{
    bytes files[4];
    for (int k = 0; k < 4; k++)
        files[k] = load(names[k]);
    lbk_fault fault = lbk_read(table, files[0].at, files[0].size, files[1].at, files[1].size, files[2].at,
        files[2].size, files[3].at, files[3].size);
    if (fault.cause != LBK_CAUSE_NONE) {
        const char *name = fault.file == LBK_NO_FILE ? "the four files" : names[fault.file - 1];
        fprintf(stderr, "%s:%u: %s\n", name, (unsigned)fault.line, lbk_cause_text(fault.cause).text);
        exit(1);
    }
    for (int k = 0; k < 4; k++)
        free(files[k].at);
}

#endif
