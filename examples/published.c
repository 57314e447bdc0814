/* Tests lbk_unicode and lbk_read_published by the files that Unicode 15.0.0 published: lbk_unicode fills the table that
 * lbk_read fills from them. lbk_read_published does so, too, with LF or CR LF at line ends. It refuses each file with one bit changed, a row less, a byte more or less, or
 * another file in its place, and leaves the table unchanged. The arguments name the four published files. The last
 * line is `N passed, M failed`.
 */
#include "example.h"
#include <string.h>

static unsigned passed, failed;

static void report(const char *what, int file, int holds)
{
    if (holds) {
        passed++;
    } else {
        failed++;
        printf("FAILED  file %d: %s\n", file, what);
    }
}

static lbk_table table, wanted;

static lbk_fault read_published(const bytes *files)
{
    return lbk_read_published(&table, files[0].at, files[0].size, files[1].at, files[1].size, files[2].at,
        files[2].size, files[3].at, files[3].size);
}

/* The files must be accepted. */
static void taken(const char *what, int file, const bytes *files)
{
    memset(&table, 0, sizeof table);
    report(what, file, read_published(files).cause == LBK_CAUSE_NONE && memcmp(&table, &wanted, sizeof table) == 0);
}

/* They must be refused at this file. */
static void refused(const char *what, int file, const bytes *files)
{
    table = wanted;
    lbk_fault fault = read_published(files);
    report(what, file, fault.cause == LBK_CAUSE_NOT_PUBLISHED && fault.file == (uint32_t)file + 1 && fault.line == 0);
    report("the table stays", file, memcmp(&table, &wanted, sizeof table) == 0);
}

/* A file with CR LF for each LF. */
static bytes with_carriage_returns(bytes file)
{
    bytes other = {malloc(2 * file.size), 0};
    for (size_t k = 0; k < file.size; k++) {
        if (file.at[k] == '\n')
            other.at[other.size++] = '\r';
        other.at[other.size++] = file.at[k];
    }
    return other;
}

static void try_file(int file, bytes *files)
{
    bytes whole = files[file];
    for (size_t k = 0; k < 64; k++) {
        size_t at = k * (whole.size - 1) / 63;
        whole.at[at] ^= (char)(1 << k % 8);
        refused("one other bit", file, files);
        whole.at[at] ^= (char)(1 << k % 8);
    }
    files[file].size--;
    refused("a byte less", file, files);
    files[file].size = 0;
    refused("nothing", file, files);
    files[file] = files[(file + 1) % 4];
    refused("another file", file, files);
    files[file] = with_carriage_returns(whole);
    taken("CR LF", file, files);
    memmove(files[file].at + 1, files[file].at, files[file].size++);
    files[file].at[0] = '\r';
    refused("a CR alone", file, files);
    free(files[file].at);
    files[file] = whole;
}

int main(int count, char **words)
{
    if (count != 5) {
        fprintf(stderr, "usage: published LINE_BREAK EAST_ASIAN CATEGORY EMOJI\n");
        return 2;
    }
    bytes files[4];
    for (int k = 0; k < 4; k++)
        files[k] = load(words[k + 1]);
    lbk_read(&wanted, files[0].at, files[0].size, files[1].at, files[1].size, files[2].at, files[2].size, files[3].at,
             files[3].size);
    memset(&table, 0xA5, sizeof table);
    lbk_unicode(&table);
    report("the built-in table is that of the files", 0, memcmp(&table, &wanted, sizeof table) == 0);
    taken("the published files", 0, files);
    for (int k = 0; k < 4; k++)
        try_file(k, files);
    for (int k = 0; k < 4; k++)
        free(files[k].at);
    printf("%u passed, %u failed\n", passed, failed);
    return failed != 0;
}
