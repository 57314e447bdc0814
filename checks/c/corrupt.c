/* Made-up tables: makes each call over a text of SIZE bytes, however the kinds and the neighbours of its table are
 * set, for valgrind to count the instructions of `try_all`. They may grow no faster than the text.
 *
 *     corrupt SIZE LINE-BREAK EAST-ASIAN CATEGORY EMOJI
 */
#include <lbk.h>
#include <stdio.h>
#include <stdlib.h>
#include <string.h>

enum { MOST = 8192, ROOM = 256, TABLES = 40 };

static lbk_table real, table;
static char text[MOST + 4];
static uint16_t units[MOST];
static lbk_break block[ROOM];
static uint64_t words[ROOM];
static size_t size;
static uint64_t seed = 88172645463325252u;

static uint64_t next_random(void)
{
    seed ^= seed << 13, seed ^= seed >> 7, seed ^= seed << 17;
    return seed;
}

static void fill_random(void *at, size_t count)
{
    for (size_t k = 0; k < count; k++)
        ((uint8_t *)at)[k] = (uint8_t)(next_random() >> 32);
}

static void breaks_of(uint8_t profile)
{
    lbk_state state = {.profile = profile};
    while (lbk_breaks(&table, &state, text, size, block, ROOM) == ROOM)
        continue;
}

static void units_of(uint8_t profile)
{
    lbk_state state = {.profile = profile};
    while (lbk_breaks_utf16(&table, &state, units, size, block, ROOM) == ROOM)
        continue;
}

static void positions_of(uint8_t profile)
{
    lbk_state state = {.profile = profile};
    while (lbk_positions(&table, &state, text, size, block, ROOM) == ROOM)
        continue;
}

static void marks_of(uint8_t profile)
{
    lbk_state state = {.profile = profile};
    while (lbk_marks(&table, &state, text, size, words, ROOM) == 64 * ROOM)
        continue;
}

static void stream_of(uint8_t profile)
{
    lbk_stream stream = {.profile = profile};
    lbk_fed fed;
    for (size_t from = 0;; from += fed.taken) {
        fed = lbk_feed(&table, &stream, text + from, size - from, true, block, ROOM);
        if (fed.count < ROOM)
            break;
    }
}

/* (not inlined, since its instructions are counted by its name) */
static __attribute__((noinline)) void try_all(void)
{
    for (uint8_t profile = 0; profile < 2; profile++) {
        breaks_of(profile);
        units_of(profile);
        positions_of(profile);
        marks_of(profile);
        stream_of(profile);
    }
}

/* A quotation mark, and then a mark again and again. */
static void marks_behind(void)
{
    memcpy(text, "\xE2\x80\x9D", 3);
    for (size_t k = 3; k + 1 < sizeof text; k += 2)
        memcpy(text + k, "\xCC\x81", 2);
    units[0] = 0x201D;
    for (size_t k = 1; k < MOST; k++)
        units[k] = 0x301;
}

static void letters(void)
{
    for (size_t k = 0; k < sizeof text; k++)
        text[k] = "some words, \"and\" (others); "[k % 28];
    for (size_t k = 0; k < MOST; k++)
        units[k] = (uint8_t)text[k];
}

static char *whole(const char *name, size_t *found)
{
    FILE *file = fopen(name, "rb");
    char *bytes = malloc(8 << 20);
    if (file == NULL || bytes == NULL)
        perror(name), exit(2);
    *found = fread(bytes, 1, 8 << 20, file);
    fclose(file);
    return bytes;
}

int main(int count, char **word)
{
    char *file[4];
    size_t sizes[4];
    size = count == 6 ? strtoul(word[1], NULL, 10) : 0;
    if (size == 0 || size > MOST)
        return fprintf(stderr, "usage: corrupt SIZE LINE_BREAK EAST_ASIAN CATEGORY EMOJI\n"), 2;
    for (int k = 0; k < 4; k++)
        file[k] = whole(word[2 + k], sizes + k);
    if (lbk_read(&real, file[0], sizes[0], file[1], sizes[1], file[2], sizes[2], file[3], sizes[3]).cause
        != LBK_CAUSE_NONE)
        return 1;
    table = real;
    marks_behind();
    for (int kind = 0; kind < 256; kind++) {
        table.kinds[0x301] = (uint8_t)kind;
        try_all();
    }
    for (int k = 0; k < TABLES; k++) {
        table = real;
        if (k % 3 != 0)
            fill_random(table.kinds, sizeof table.kinds);
        if (k % 3 != 1)
            fill_random(&table.pairs, sizeof table.pairs);
        if (k % 2 == 0)
            letters();
        else
            fill_random(text, sizeof text), fill_random(units, sizeof units);
        try_all();
    }
    return 0;
}
