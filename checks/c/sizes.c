/* Calls lbk_read with files of each size up to 16,384 bytes, of the sizes that are given, and of sizes that are drawn
 * at random, with ample memory: it must take them all, and say of those that have a row twice at which line.
 *
 *     sizes SECONDS SEED SIZE..
 *
 * Each of the four files is an empty one, or has one row and comments up to a size of at most 8,388,608 bytes: a
 * power of two or a neighbour of one, one between two powers, or any. The last line is `N passed, M failed`.
 */
#define _DEFAULT_SOURCE
#include "../../examples/harness.h"

#include <time.h>

enum { SMALL_FILE = 16384, MOST_FILE = 8388608, POWERS = 24, COMMENT = 1000 };

static const char *const rows[4] = {"0061;ID\n", "0028;W\n", "0E31;Mn\n", "1FAFF;Extended_Pictographic\n"};

static double now(void)
{
    struct timespec at;
    clock_gettime(CLOCK_MONOTONIC, &at);
    return (double)at.tv_sec + (double)at.tv_nsec * 1e-9;
}

static size_t drawn(void)
{
    size_t power = (size_t)1 << below(POWERS), size;
    switch (below(6)) {
    case 0:
        size = power;
        break;
    case 1:
        size = power - 1 + 2 * below(2);
        break;
    case 2:
    case 3:
        size = below(MOST_FILE + 1);
        break;
    default:
        size = power + below(power);
    }
    return size < MOST_FILE ? size : MOST_FILE;
}

/* A file of so many bytes, or of its rows where these have more: comments, and the row last, so many times. */
static bytes file_of(const char *row, size_t times, size_t size)
{
    size_t length = strlen(row), least = times * length;
    bytes file = {NULL, size < least ? least : size};
    file.at = malloc(file.size);
    if (file.at == NULL)
        abort();
    memset(file.at, '#', file.size);
    size_t end = file.size - least;
    for (size_t at = COMMENT; at < end; at += COMMENT)
        file.at[at - 1] = '\n';
    if (end > 0)
        file.at[end - 1] = '\n';
    for (size_t k = 0; k < times; k++)
        memcpy(file.at + end + k * length, row, length);
    return file;
}

static uint32_t lines_of(bytes file)
{
    uint32_t lines = 0;
    for (size_t k = 0; k < file.size; k++)
        lines += file.at[k] == '\n';
    return lines;
}

static lbk_table table;

static lbk_fault read_files(const bytes *files)
{
    return lbk_read(&table, files[0].at, files[0].size, files[1].at, files[1].size, files[2].at, files[2].size,
        files[3].at, files[3].size);
}

static void free_files(bytes *files)
{
    for (int k = 0; k < 4; k++)
        free(files[k].at);
}

/* All four files of a size. */
static void read_files_of(size_t size)
{
    bytes files[4];
    for (int k = 0; k < 4; k++)
        files[k] = file_of(rows[k], 1, size);
    int is_read = read_files(files).cause == LBK_CAUSE_NONE;
    if (!is_read)
        printf("files of %zu bytes\n", size);
    report("files of each size up to 16,384 bytes, and of the given sizes, are taken", is_read);
    free_files(files);
}

int main(int count, char **word)
{
    if (count < 3) {
        fprintf(stderr, "usage: sizes SECONDS SEED SIZE..\n");
        return 2;
    }
    for (size_t size = 0; size <= SMALL_FILE; size++)
        read_files_of(size);
    for (int k = 3; k < count; k++)
        read_files_of(strtoul(word[k], NULL, 10));
    double end = now() + strtod(word[1], NULL);
    seed = strtoul(word[2], NULL, 10) * 2 + 1;
    while (now() < end) {
        bytes files[4];
        int twice = below(3) == 0 ? (int)below(4) : -1;
        uint32_t file = (uint32_t)twice + 1;
        for (int k = 0; k < 4; k++)
            files[k] = file_of(rows[k], k == twice ? 2 : 1, below(3) == 0 ? 0 : drawn());
        lbk_fault fault = read_files(files);
        int is_right;
        if (twice < 0)
            is_right = fault.cause == LBK_CAUSE_NONE && lbk_check(&table);
        else
            is_right = fault.cause == LBK_CAUSE_OVERLAP && fault.file == file && fault.line == lines_of(files[twice]);
        if (!is_right)
            printf("files of %zu, %zu, %zu and %zu bytes, of which file %u has a row twice: file %u, line %u: %s\n",
                files[0].size,
                   files[1].size, files[2].size, files[3].size, file, fault.file, fault.line,
                   lbk_cause_text(fault.cause).text);
        report("files of drawn sizes are taken, and a row that comes twice is refused at its line", is_right);
        free_files(files);
    }
    printf("%lu passed, %lu failed\n", passed, failed);
    return failed != 0;
}
