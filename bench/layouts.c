/* What a table in two stages and smaller breaks would gain: the loop of the library for C, modelled in C over its
 * table and its steps (crates/lbk_rules/src/row_steps.rt), with kinds read flat or by pages, and breaks of 16 bytes,
 * in columns of 4 + 1 + 1 bytes, or of 2 bytes (the distance from the break before, and the number of the rule).
 * Texts are taken as well-formed and held positions as no breaks, in every form alike.
 *
 *     layouts ROW-STEPS LINE-BREAK EAST-ASIAN CATEGORY EMOJI TEXT..
 */
#include <lbk.h>
#include <stdio.h>
#include <stdlib.h>
#include <string.h>
#include <time.h>

enum { ROOM = 256, RUNS = 31, MOST = 1000000, PAGE = 64 };

static lbk_table table;
static struct { uint16_t shown, next; } steps[128 * 128];
static uint16_t starts[LBK_CODES / PAGE];
static uint8_t pages[LBK_CODES];

typedef struct { size_t at; uint8_t kind, rule; } wide;
static wide wides[ROOM + 1];
static uint32_t places[ROOM + 1];
static uint8_t kinds_out[ROOM + 1], rules_out[ROOM + 1];
static uint16_t narrows[ROOM + 1];

static size_t make_pages(void)
{
    size_t count = 0;
    for (size_t k = 0; k < LBK_CODES / PAGE; k++) {
        size_t p = 0;
        while (p < count && memcmp(pages + p * PAGE, table.kinds + k * PAGE, PAGE) != 0)
            p++;
        if (p == count)
            memcpy(pages + count++ * PAGE, table.kinds + k * PAGE, PAGE);
        starts[k] = (uint16_t)p;
    }
    return count * PAGE + sizeof starts;
}

#define FLAT(c) table.kinds[c]
#define PAGED(c) pages[(size_t)starts[(c) / PAGE] * PAGE + (c) % PAGE]
#define AS_WIDE (wides[count].at = at, wides[count].kind = (uint8_t)shown, wides[count].rule = (uint8_t)(shown >> 8))
#define AS_COLUMNS (places[count] = (uint32_t)at, kinds_out[count] = (uint8_t)shown, rules_out[count] = (uint8_t)(shown >> 8))
#define AS_NARROW (narrows[count] = (uint16_t)((at - last) << 8 | shown >> 8), last = (shown & 255) ? at : last)

#define FORM(name, KIND, PUT)                                                                  \
    static size_t name(const uint8_t *text, size_t size)                                       \
    {                                                                                          \
        size_t at = 0, total = 0, count = 0, last = 0;                                         \
        uint16_t row = 0;                                                                      \
        while (at < size) {                                                                    \
            while (at < size && count < ROOM && text[at] < 0x80) {                             \
                size_t step = row + KIND(text[at]);                                            \
                uint16_t shown = steps[step].shown;                                            \
                PUT, count += (shown & 255) != 0, row = steps[step].next, at++;                \
            }                                                                                  \
            while (at + 1 < size && count < ROOM && text[at] >= 0xC0 && text[at] < 0xE0) {     \
                uint32_t c = (uint32_t)(text[at] & 31) << 6 | (text[at + 1] & 63);             \
                size_t step = row + KIND(c);                                                   \
                uint16_t shown = steps[step].shown;                                            \
                PUT, count += (shown & 255) != 0, row = steps[step].next, at += 2;             \
            }                                                                                  \
            while (at + 2 < size && count < ROOM && text[at] >= 0xE0 && text[at] < 0xF0) {     \
                uint32_t c = (uint32_t)(text[at] & 15) << 12 | (uint32_t)(text[at + 1] & 63) << 6 | (text[at + 2] & 63); \
                size_t step = row + KIND(c);                                                   \
                uint16_t shown = steps[step].shown;                                            \
                PUT, count += (shown & 255) != 0, row = steps[step].next, at += 3;             \
            }                                                                                  \
            if (count == ROOM)                                                                 \
                total += count, count = 0;                                                     \
            else if (at < size && text[at] >= 0xF0)                                            \
                at += 4;                                                                       \
            else if (at < size && text[at] >= 0x80 && text[at] < 0xC0)                         \
                at++;                                                                          \
            else if (at + 3 > size)                                                            \
                at = size;                                                                     \
        }                                                                                      \
        return total + count;                                                                  \
    }

FORM(flat_wide, FLAT, AS_WIDE)
FORM(paged_wide, PAGED, AS_WIDE)
FORM(flat_columns, FLAT, AS_COLUMNS)
FORM(flat_narrow, FLAT, AS_NARROW)

static const struct { const char *name; size_t (*run)(const uint8_t *, size_t); } FORMS[] = {
    {"flat, 16 bytes", flat_wide}, {"pages, 16 bytes", paged_wide}, {"flat, columns", flat_columns},
    {"flat, 2 bytes", flat_narrow}};
enum { COUNT = sizeof FORMS / sizeof *FORMS };

static double now(void)
{
    struct timespec t;
    clock_gettime(CLOCK_PROCESS_CPUTIME_ID, &t);
    return (double)t.tv_sec + 1e-9 * (double)t.tv_nsec;
}

static uint8_t *whole(const char *name, size_t *size)
{
    FILE *file = fopen(name, "rb");
    uint8_t *bytes = malloc(8 << 20);
    if (file == NULL || bytes == NULL)
        perror(name), exit(1);
    *size = fread(bytes, 1, 8 << 20, file);
    fclose(file);
    return bytes;
}

/* Reads the steps of the first profile. */
static void read_steps(const char *name)
{
    FILE *file = fopen(name, "r");
    size_t count = 0;
    unsigned shown, next;
    if (file == NULL)
        perror(name), exit(1);
    for (int c; count < 128 * 128 && (c = getc(file)) != EOF;)
        if (c == '{' && fscanf(file, "shown:%u,next:%u", &shown, &next) == 2)
            steps[count].shown = (uint16_t)shown, steps[count++].next = (uint16_t)next;
    fclose(file);
}

int main(int argc, char **argv)
{
    if (argc < 7)
        return fprintf(stderr, "usage: layouts ROW-STEPS FOUR-FILES TEXT..\n"), 2;
    read_steps(*++argv), argc--;
    uint8_t *files[4];
    size_t sizes[4];
    for (int k = 0; k < 4; k++)
        files[k] = whole(argv[1 + k], sizes + k);
    lbk_fault fault = lbk_read(&table, files[0], sizes[0], files[1], sizes[1], files[2], sizes[2], files[3], sizes[3]);
    if (fault.cause != LBK_CAUSE_NONE)
        return 1;
    printf("kinds flat %d bytes, by pages of %d %zu\n", LBK_CODES, PAGE, make_pages());
    for (int k = 5; k < argc; k++) {
        size_t size;
        uint8_t *text = whole(argv[k], &size);
        size = size < MOST ? size : MOST;
        double best[COUNT] = {0};
        size_t breaks[COUNT];
        for (int run = 0; run < RUNS; run++)
            for (int form = 0; form < COUNT; form++) {
                double start = now();
                breaks[form] = FORMS[form].run(text, size);
                double speed = (double)size / (now() - start) / 1e6;
                best[form] = speed > best[form] ? speed : best[form];
            }
        const char *name = strrchr(argv[k], '/');
        printf("%-12s", name ? name + 1 : argv[k]);
        for (int form = 0; form < COUNT; form++)
            printf("  %s %.0f MB/s (%.2f)%s", FORMS[form].name, best[form], best[form] / best[0],
                breaks[form] == breaks[0] ? "" : " DIFFERS");
        putchar('\n');
        free(text);
    }
    return 0;
}
