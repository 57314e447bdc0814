/* Compares this library with others that a C program can link: ICU, libunibreak, and through a shim xi-unicode and
 * unicode-linebreak.
 *
 *     peers speed FILES.. TEXT..   millions of bytes a second of processor time, over the first million bytes of each text
 *     peers first FILES.. TABLE    microseconds of the first use in this process; TABLE is a file for a saved table
 *     peers answers PEER SIZES     each break that a peer finds in standard input, as `at kind`. The text is cut into pieces
 *                                  of the sizes that the file SIZES has, a number a line, and each is a text of its own
 *
 * FILES are the four property files. All texts are UTF-8. bench/run builds it and runs it.
 */
#define _GNU_SOURCE
#include "../examples/example.h"

#include <fcntl.h>
#include <linebreak.h>
#include <string.h>
#include <sys/mman.h>
#include <time.h>
#include <unicode/ubrk.h>
#include <unicode/ustring.h>
#include <unistd.h>

typedef void (*found)(size_t at, uint8_t kind);

size_t xi_count(const char *text, size_t size, size_t *total);
size_t linebreak_count(const char *text, size_t size, size_t *total);
void xi_each(const char *text, size_t size, found tell);
void linebreak_each(const char *text, size_t size, found tell);
#ifdef OLDER
int older_read(const char *const *at, const size_t *size);
size_t older_count(uint8_t profile, const char *text, size_t size, size_t *total);
#endif

/* A text, in UTF-8 and UTF-16, and the pieces that it is cut into, each for a separate call. */
typedef struct cut_text {
    const char *text;
    const UChar *wide;
    size_t pieces;
    const size_t *ends, *wide_ends;
} cut_text;

enum { ROOM = 256, RUNS = 31, MILLION = 1000000 };

static lbk_table table;
static UBreakIterator *iterator;
static UText *utf8;
static char *marks;
/* What is found is added up here, so that all of it is computed. */
static size_t total;

static void must(int holds, const char *what)
{
    if (!holds) {
        fprintf(stderr, "peers: %s\n", what);
        exit(1);
    }
}

static size_t ours(uint8_t profile, const char *text, size_t size)
{
    lbk_state state = {0};
    lbk_break block[ROOM];
    size_t sum = 0, count;
    state.profile = profile;
    do {
        count = lbk_breaks(&table, &state, text, size, block, ROOM);
        for (size_t k = 0; k < count; k++)
            total += block[k].at + block[k].kind;
        sum += count;
    } while (count == ROOM);
    return sum;
}

static size_t start_of(const size_t *ends, size_t piece) { return piece == 0 ? 0 : ends[piece - 1]; }

static size_t ours_1(const cut_text *text, size_t piece)
{
    size_t start = start_of(text->ends, piece);
    return ours(LBK_FIRST, text->text + start, text->ends[piece] - start);
}

static size_t ours_2(const cut_text *text, size_t piece)
{
    size_t start = start_of(text->ends, piece);
    return ours(LBK_SECOND, text->text + start, text->ends[piece] - start);
}

static size_t icu_breaks(void)
{
    size_t sum = 0;
    ubrk_first(iterator);
    for (int32_t at = ubrk_next(iterator); at != UBRK_DONE; at = ubrk_next(iterator)) {
        total += (size_t)at + (ubrk_getRuleStatus(iterator) >= UBRK_LINE_HARD);
        sum++;
    }
    return sum;
}

static size_t icu_utf16(const cut_text *text, size_t piece)
{
    UErrorCode status = U_ZERO_ERROR;
    size_t start = start_of(text->wide_ends, piece);
    ubrk_setText(iterator, text->wide + start, (int32_t)(text->wide_ends[piece] - start), &status);
    return icu_breaks();
}

static size_t icu_utf8(const cut_text *text, size_t piece)
{
    UErrorCode status = U_ZERO_ERROR;
    size_t start = start_of(text->ends, piece);
    utf8 = utext_openUTF8(utf8, text->text + start, (int64_t)(text->ends[piece] - start), &status);
    ubrk_setUText(iterator, utf8, &status);
    return icu_breaks();
}

static size_t unibreak(const cut_text *text, size_t piece)
{
    size_t start = start_of(text->ends, piece), size = text->ends[piece] - start, sum = 0;
    set_linebreaks_utf8((const utf8_t *)text->text + start, size, NULL, marks);
    for (size_t k = 0; k < size; k++)
        sum += marks[k] <= LINEBREAK_ALLOWBREAK;
    return sum;
}

static size_t xi(const cut_text *text, size_t piece)
{
    size_t start = start_of(text->ends, piece);
    return xi_count(text->text + start, text->ends[piece] - start, &total);
}

static size_t linebreak(const cut_text *text, size_t piece)
{
    size_t start = start_of(text->ends, piece);
    return linebreak_count(text->text + start, text->ends[piece] - start, &total);
}

#ifdef OLDER
static size_t older_1(const cut_text *text, size_t piece)
{
    size_t start = start_of(text->ends, piece);
    return older_count(LBK_FIRST, text->text + start, text->ends[piece] - start, &total);
}

static size_t older_2(const cut_text *text, size_t piece)
{
    size_t start = start_of(text->ends, piece);
    return older_count(LBK_SECOND, text->text + start, text->ends[piece] - start, &total);
}
#endif

static const struct {
    const char *name;
    size_t (*count)(const cut_text *text, size_t piece);
} peers[] = {
    {"lbk, profile 1", ours_1}, {"lbk, profile 2", ours_2}, {"xi-unicode", xi}, {"unicode-linebreak", linebreak},
    {"ICU, UTF-16", icu_utf16}, {"ICU, UTF-8", icu_utf8}, {"libunibreak", unibreak},
#ifdef OLDER
    {"older lbk, profile 1", older_1}, {"older lbk, profile 2", older_2},
#endif
};

enum { PEERS = sizeof peers / sizeof *peers, XI = 2, OLD = 7 };

static double seconds(clockid_t clock)
{
    struct timespec now;
    clock_gettime(clock, &now);
    return (double)now.tv_sec + (double)now.tv_nsec * 1e-9;
}

static void *room_for(size_t count, size_t size)
{
    void *at = calloc(count + 1, size);
    must(at != NULL, "out of memory");
    return at;
}

/* The front of a text, up to the end of a scalar, in both forms. */
static cut_text front(bytes all, size_t most)
{
    size_t size = all.size < most ? all.size : most;
    while (size > 0 && size < all.size && ((unsigned char)all.at[size] & 0xC0) == 0x80)
        size--;
    UChar *wide = room_for(size, sizeof *wide);
    size_t *ends = room_for(size, sizeof *ends), *wide_ends = room_for(size, sizeof *wide_ends);
    UErrorCode status = U_ZERO_ERROR;
    int32_t length;
    u_strFromUTF8(wide, (int32_t)size, &length, all.at, (int32_t)size, &status);
    must(U_SUCCESS(status), "a text is not UTF-8");
    ends[0] = size;
    wide_ends[0] = (size_t)length;
    return (cut_text){all.at, wide, 1, ends, wide_ends};
}

/* The same text in pieces of at most so many bytes, which end behind each LF too where it is asked for. */
static cut_text cut(cut_text whole, size_t most, int is_by_line)
{
    size_t size = whole.ends[0], at = 0, wide_at = 0, pieces = 0;
    size_t *ends = room_for(size, sizeof *ends), *wide_ends = room_for(size, sizeof *wide_ends);
    while (at < size) {
        size_t end = at, wide_end = wide_at;
        while (end < size) {
            unsigned char byte = (unsigned char)whole.text[end];
            size_t length = byte < 0x80 ? 1 : byte < 0xE0 ? 2 : byte < 0xF0 ? 3 : 4;
            if (end + length > at + most)
                break;
            end += length;
            wide_end += length == 4 ? 2 : 1;
            if (is_by_line && byte == '\n')
                break;
        }
        ends[pieces] = at = end;
        wide_ends[pieces++] = wide_at = wide_end;
    }
    return (cut_text){whole.text, whole.wide, pieces, ends, wide_ends};
}

static void compare(const char *name, cut_text text)
{
    double best[PEERS];
    size_t found_by[PEERS];
    for (int run = 0; run < RUNS; run++)
        for (int k = 0; k < PEERS; k++) {
            double start = seconds(CLOCK_PROCESS_CPUTIME_ID);
            size_t sum = 0;
            for (size_t piece = 0; piece < text.pieces; piece++)
                sum += peers[k].count(&text, piece);
            double took = seconds(CLOCK_PROCESS_CPUTIME_ID) - start;
            best[k] = run == 0 || took < best[k] ? took : best[k];
            found_by[k] = sum;
        }
    double size = (double)text.ends[text.pieces - 1];
    for (int k = 0; k < PEERS; k++) {
        printf("%s\t%s\t%.0f MB/s\t%.2f of xi-unicode\t%.0f ns a call\t%zu breaks", name, peers[k].name,
            size / best[k] * 1e-6, best[XI] / best[k], best[k] / (double)text.pieces * 1e9, found_by[k]);
        if (k < XI && OLD + k < PEERS)
            printf("\t%.2f of older lbk", best[OLD + k] / best[k]);
        putchar('\n');
    }
    fflush(stdout);
}

static void open_peers(void)
{
    UErrorCode status = U_ZERO_ERROR;
    iterator = ubrk_open(UBRK_LINE, "", NULL, 0, &status);
    must(U_SUCCESS(status), "ICU has no line breaks");
    init_linebreak();
}

#ifdef OLDER
static void read_older(char **files)
{
    const char *at[4];
    size_t size[4];
    for (int k = 0; k < 4; k++) {
        bytes file = load(files[k]);
        at[k] = file.at;
        size[k] = file.size;
    }
    must(older_read(at, size), "the older library refuses the four files");
}
#endif

static void speed(char **names)
{
    open_peers();
    for (; *names != NULL; names++) {
        const char *slash = strrchr(*names, '/');
        char name[300];
        cut_text whole = front(load(*names), MILLION);
        marks = room_for(whole.ends[0], 1);
        const char *text = slash == NULL ? *names : slash + 1;
        snprintf(name, sizeof name, "%s\twhole", text);
        compare(name, whole);
        snprintf(name, sizeof name, "%s\tlines of at most 60 bytes", text);
        compare(name, cut(whole, 60, 1));
        snprintf(name, sizeof name, "%s\t8 bytes a call", text);
        compare(name, cut(whole, 8, 0));
    }
}

static double last;

static void step(const char *what)
{
    double now = seconds(CLOCK_MONOTONIC);
    printf("%s\t%.0f microseconds\n", what, (now - last) * 1e6);
    last = seconds(CLOCK_MONOTONIC);
}

static void first(char **files, const char *name)
{
    static const char line[] = "The quick brown fox jumps over the lazy dog, and off it goes.";
    bytes property[4];
    UErrorCode status = U_ZERO_ERROR;
    UChar wide[100];
    int32_t length;
    for (int k = 0; k < 4; k++)
        property[k] = load(files[k]);
    marks = room_for(sizeof line, 1);
    u_strFromUTF8(wide, 100, &length, line, sizeof line - 1, &status);
    last = seconds(CLOCK_MONOTONIC);
    for (int run = 0; run < 3; run++) {
        lbk_fault fault = lbk_read(&table, property[0].at, property[0].size, property[1].at, property[1].size,
            property[2].at, property[2].size, property[3].at, property[3].size);
        must(fault.cause == LBK_CAUSE_NONE, "the four files are refused");
        step(run == 0 ? "lbk_read, the first time" : "lbk_read again");
    }
    FILE *file = fopen(name, "wb");
    must(file != NULL && fwrite(&table, sizeof table, 1, file) == 1 && fclose(file) == 0, "no table can be saved");
    last = seconds(CLOCK_MONOTONIC);
    int opened = open(name, O_RDONLY);
    const lbk_table *mapped = mmap(NULL, sizeof table, PROT_READ, MAP_SHARED, opened, 0);
    must(mapped != MAP_FAILED, "the table cannot be mapped");
    lbk_state state = {0};
    lbk_break block[ROOM];
    total += lbk_breaks(mapped, &state, line, sizeof line - 1, block, ROOM);
    step("a mapped table, and the first line's breaks");
    must(lbk_check(mapped), "the mapped table is not whole");
    step("lbk_check of the mapped table");
    must(lbk_check(mapped), "the mapped table is not whole");
    step("lbk_check again");
    iterator = ubrk_open(UBRK_LINE, "", wide, length, &status);
    must(U_SUCCESS(status), "ICU has no line breaks");
    total += icu_breaks();
    step("ubrk_open, and the first line's breaks");
    iterator = ubrk_open(UBRK_LINE, "", wide, length, &status);
    total += icu_breaks();
    step("ubrk_open again, and the line's breaks");
    init_linebreak();
    set_linebreaks_utf8((const utf8_t *)line, sizeof line - 1, NULL, marks);
    step("init_linebreak, and the first line's breaks");
    total += xi_count(line, sizeof line - 1, &total);
    step("xi-unicode, the first line's breaks");
    total += linebreak_count(line, sizeof line - 1, &total);
    step("unicode-linebreak, the first line's breaks");
}

/* Where the piece begins that is being looked at. */
static size_t base;

static void tell(size_t at, uint8_t kind) { printf("%zu %u\n", base + at, kind); }

static void icu_each(const char *text, size_t size)
{
    UErrorCode status = U_ZERO_ERROR;
    utf8 = utext_openUTF8(utf8, text, (int64_t)size, &status);
    ubrk_setUText(iterator, utf8, &status);
    ubrk_first(iterator);
    for (int32_t at = ubrk_next(iterator); at != UBRK_DONE; at = ubrk_next(iterator))
        tell((size_t)at, ubrk_getRuleStatus(iterator) >= UBRK_LINE_HARD ? 2 : 1);
}

static void unibreak_each(const char *text, size_t size)
{
    set_linebreaks_utf8((const utf8_t *)text, size, NULL, marks);
    for (size_t k = 0; k < size; k++)
        if (marks[k] <= LINEBREAK_ALLOWBREAK)
            tell(k + 1, marks[k] == LINEBREAK_MUSTBREAK ? 2 : 1);
}

static void answers(const char *peer, const char *name)
{
    bytes text = read_all(stdin);
    FILE *sizes = fopen(name, "r");
    size_t size;
    must(text.at != NULL && sizes != NULL, "an input cannot be read");
    marks = room_for(text.size, 1);
    open_peers();
    while (fscanf(sizes, "%zu", &size) == 1) {
        must(size <= text.size - base, "the sizes come to more than the text");
        if (strcmp(peer, "xi-unicode") == 0)
            xi_each(text.at + base, size, tell);
        else if (strcmp(peer, "unicode-linebreak") == 0)
            linebreak_each(text.at + base, size, tell);
        else if (strcmp(peer, "ICU") == 0)
            icu_each(text.at + base, size);
        else
            unibreak_each(text.at + base, size);
        base += size;
    }
}

int main(int words, char **word)
{
    if (words >= 7 && strcmp(word[1], "speed") == 0) {
        read_table(&table, word + 2);
#ifdef OLDER
        read_older(word + 2);
#endif
        speed(word + 6);
    } else if (words == 7 && strcmp(word[1], "first") == 0) {
        first(word + 2, word[6]);
    } else if (words == 4 && strcmp(word[1], "answers") == 0) {
        answers(word[2], word[3]);
    } else {
        fprintf(stderr,
            "usage: peers speed FILES.. TEXT.., peers first FILES.. TABLE, or peers answers PEER SIZES < TEXT\n");
        return 2;
    }
    return total == 1;
}
