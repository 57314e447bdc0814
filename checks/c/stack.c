/* Runs each call of the library in a thread with so many bytes of stack, below which memory may not be used, and
 * says how many of these it used. A call that needs more ends the program by a signal.
 *
 *     stack LARGE SMALL LINE_BREAK EAST_ASIAN CATEGORY EMOJI TEXT..
 *
 * LARGE bytes are for lbk_read, lbk_read_published and lbk_chunks, SMALL for the others. They are all that the
 * thread has: its own data, which the C library puts there, count too. The last line is `N passed, M failed`.
 */
#define _DEFAULT_SOURCE
#include "../../examples/example.h"

#include <pthread.h>
#include <string.h>
#include <sys/mman.h>
#include <unistd.h>

enum { ROOM = 64, PATTERN = 0xA5, PIECE = 100 };

static unsigned passed, failed;
/* The bytes of stack of the threads: many for the calls that need them, few for the others. */
static size_t large, small, stack_size, used_idle;
static bytes files[4], text;
static lbk_table table;
static lbk_break block[ROOM];
static lbk_segment segments[ROOM];
static lbk_word words[ROOM];
static uint64_t bits[ROOM];
static lbk_fault fault;
static size_t total;
static uint8_t profile;

static void report(const char *what, int holds)
{
    if (holds) {
        passed++;
    } else {
        failed++;
        printf("FAILED  %s\n", what);
    }
}

static void *do_nothing(void *none)
{
    return none;
}

static void *do_read(void *none)
{
    fault = lbk_read(&table, files[0].at, files[0].size, files[1].at, files[1].size, files[2].at, files[2].size,
        files[3].at, files[3].size);
    return none;
}

static void *do_read_published(void *none)
{
    fault = lbk_read_published(&table, files[0].at, files[0].size, files[1].at, files[1].size, files[2].at,
        files[2].size, files[3].at, files[3].size);
    return none;
}

/* The names of all rules, classes, causes and files, as far as there are some. */
static void *do_names(void *none)
{
    for (uint32_t k = 0; k < 256; k++)
        total += (lbk_label((uint8_t)k).text[0] != 0) + (lbk_rule_text((uint8_t)k).text[0] != 0);
    for (uint32_t scalar = 0; scalar < LBK_CODES; scalar += 7)
        total += lbk_class(&table, scalar).text[0] != 0;
    for (uint32_t k = 0; k < 256; k++)
        total += (lbk_cause_text(k).text[0] != 0) + (lbk_file_name(k).text[0] != 0)
            + (lbk_claim_text(k, files[0].at, files[0].size).text[0] != 0);
    total += lbk_remedy_text().text[0] != 0;
    total += lbk_version().text[0] != 0;
    return none;
}

static void *do_unicode(void *none)
{
    static lbk_table other;
    lbk_unicode(&other);
    total = lbk_check(&other) ? 1 : 0;
    return none;
}

static void *do_check(void *none)
{
    total = lbk_check(&table) ? 1 : 0;
    return none;
}

static void *do_pack(void *none)
{
    static char packed[12 + 2 * LBK_CODES];
    static lbk_table other;
    total = lbk_pack(&table, packed, sizeof packed);
    total = total <= sizeof packed && lbk_unpack(&other, packed, total) == LBK_CAUSE_NONE && lbk_check(&other);
    return none;
}

static void *do_breaks(void *none)
{
    lbk_state state = {0};
    size_t count;
    state.profile = profile;
    do {
        count = lbk_breaks(&table, &state, text.at, text.size, block, ROOM);
        total += count;
    } while (count == ROOM);
    return none;
}

static void *do_segments(void *none)
{
    lbk_segment_state state = {.breaks = {.profile = profile}};
    size_t count;
    do {
        count = lbk_segments(&table, &state, text.at, text.size, segments, ROOM);
        total += count;
    } while (count == ROOM);
    return none;
}

static void *do_positions(void *none)
{
    lbk_state state = {0};
    size_t count;
    state.profile = profile;
    do {
        count = lbk_positions(&table, &state, text.at, text.size, block, ROOM);
        total += count;
    } while (count == ROOM);
    return none;
}

/* Each bit that is set counts as a break. */
static void *do_marks(void *none)
{
    lbk_state state = {0};
    size_t told_of;
    state.profile = profile;
    do {
        told_of = lbk_marks(&table, &state, text.at, text.size, bits, ROOM);
        for (size_t k = 0; k < 64 * ROOM; k++)
            total += bits[k / 64] >> (k % 64) & 1;
    } while (told_of == 64 * ROOM);
    return none;
}

/* The bytes of the text as if they were units of 16 and of 32 bits, which may be any. */
static void *do_units(void *none)
{
    const uint16_t *units = (const void *)text.at;
    const uint32_t *wide = (const void *)text.at;
    lbk_state state[4] = {{.profile = profile}, {.profile = profile}, {.profile = profile}, {.profile = profile}};
    bool more;
    do {
        size_t counts[4] = {
            lbk_breaks_utf16(&table, &state[0], units, text.size / 2, block, ROOM),
            lbk_breaks_utf32(&table, &state[1], wide, text.size / 4, block, ROOM),
            lbk_positions_utf16(&table, &state[2], units, text.size / 2, block, ROOM),
            lbk_positions_utf32(&table, &state[3], wide, text.size / 4, block, ROOM),
        };
        more = false;
        for (int k = 0; k < 4; k++) {
            total += counts[k];
            more |= counts[k] == ROOM;
        }
    } while (more);
    return none;
}

static void *do_feed(void *none)
{
    lbk_stream stream = {0};
    size_t from = 0;
    bool last;
    stream.profile = profile;
    do {
        size_t size = text.size - from < PIECE ? text.size - from : PIECE;
        last = from + size == text.size;
        lbk_fed fed;
        do {
            fed = lbk_feed(&table, &stream, text.at + from, size, last, block, ROOM);
            from += fed.taken;
            size -= fed.taken;
            total += fed.count;
        } while (fed.count == ROOM);
    } while (!last);
    return none;
}

static void *do_words(void *none)
{
    lbk_word_state state = {0};
    size_t count;
    do {
        count = lbk_words(&state, text.at, text.size, words, ROOM);
        total += count;
    } while (count == ROOM);
    return none;
}

static void *do_chunks(void *none)
{
    static const lbk_limits limits = {.most = 500, .words = 60, .least = 250, .overlap = 100};
    static lbk_chunk chunks[ROOM];
    lbk_chunk_state state = {.breaks = {.profile = profile}};
    size_t count;
    do {
        count = lbk_chunks(&table, &limits, &state, text.at, text.size, chunks, ROOM);
        total += count;
    } while (count == ROOM);
    return none;
}

static void *do_cuts(void *none)
{
    for (size_t from = 0; from < text.size; from = lbk_cut(&table, text.at, text.size, from + 1))
        total++;
    total += lbk_cut_before(&table, text.at, text.size, text.size / 2) > 0;
    total += lbk_safe_break(&table, LBK_FIRST, text.at, text.size) > 0;
    return none;
}

/* How many bytes of the stack were used by a thread that makes the call: those above the lowest one that differs. */
static size_t used_by(void *(*call)(void *))
{
    size_t page = (size_t)sysconf(_SC_PAGESIZE);
    unsigned char *all = mmap(NULL, stack_size + page, PROT_NONE, MAP_PRIVATE | MAP_ANONYMOUS, -1, 0);
    if (all == MAP_FAILED || mprotect(all + page, stack_size, PROT_READ | PROT_WRITE) != 0)
        abort();
    memset(all + page, PATTERN, stack_size);
    pthread_attr_t how;
    pthread_t thread;
    if (pthread_attr_init(&how) != 0 || pthread_attr_setstack(&how, all + page, stack_size) != 0) {
        fprintf(stderr, "no thread may have a stack of %zu bytes here\n", stack_size);
        exit(2);
    }
    total = 0;
    if (pthread_create(&thread, &how, call, NULL) != 0 || pthread_join(thread, NULL) != 0)
        abort();
    size_t unused = 0;
    while (unused < stack_size && all[page + unused] == PATTERN)
        unused++;
    pthread_attr_destroy(&how);
    munmap(all, stack_size + page);
    return stack_size - unused;
}

/* Makes the call, and returns how much stack it used, without what each thread uses. */
static void run_in_thread(const char *what, void *(*call)(void *))
{
    size_t used = used_by(call);
    printf("%-14s %6zu bytes of stack in a thread of %zu\n", what, used - used_idle, stack_size);
    fflush(stdout);
}

/* The calls over a text, in both profiles. */
/* The bytes of the text in pieces, as if they were units of 16 bits. */
static void *do_unit_feed(void *none)
{
    const uint16_t *units = (const void *)text.at;
    lbk_stream stream = {0};
    size_t from = 0, whole = text.size / 2;
    bool last;
    stream.profile = profile;
    do {
        size_t size = whole - from < PIECE ? whole - from : PIECE;
        last = from + size == whole;
        lbk_fed fed;
        do {
            fed = lbk_feed_utf16(&table, &stream, units + from, size, last, block, ROOM);
            from += fed.taken;
            size -= fed.taken;
            total += fed.count;
        } while (fed.count == ROOM);
    } while (!last);
    return none;
}

static void *do_unit_breaks(void *none)
{
    lbk_state state = {0};
    size_t count;
    state.profile = profile;
    do {
        count = lbk_breaks_utf16(&table, &state, (const void *)text.at, text.size / 2, block, ROOM);
        total += count;
    } while (count == ROOM);
    return none;
}

static void try_text(void)
{
    for (profile = 0; profile < 2; profile++) {
        run_in_thread("lbk_breaks", do_breaks);
        size_t breaks = total;
        report("lbk_breaks gives breaks", breaks > 0 || text.size == 0);
        run_in_thread("lbk_segments", do_segments);
        report("lbk_segments gives as many segments as lbk_breaks gives breaks", total == breaks);
        run_in_thread("lbk_feed", do_feed);
        report("lbk_feed gives as many breaks as lbk_breaks", total == breaks);
        run_in_thread("lbk_marks", do_marks);
        report("lbk_marks sets as many bits as lbk_breaks gives breaks", total == breaks);
        stack_size = large;
        run_in_thread("lbk_chunks", do_chunks);
        stack_size = small;
        report("lbk_chunks gives chunks", total > 0 || text.size == 0);
        run_in_thread("lbk_positions", do_positions);
        report("lbk_positions gives positions", total > breaks);
        run_in_thread("UTF-16, UTF-32", do_units);
        report("each unit of 32 bits has a position, and the end", total > text.size / 4);
        run_in_thread("lbk_breaks_utf16", do_unit_breaks);
        breaks = total;
        run_in_thread("lbk_feed_utf16", do_unit_feed);
        report("lbk_feed_utf16 gives as many breaks as lbk_breaks_utf16", total == breaks);
    }
    run_in_thread("lbk_words", do_words);
    report("lbk_words gives words", total > 0 || text.size == 0);
    run_in_thread("lbk_cut", do_cuts);
    report("lbk_cut gives parts", total > 0 || text.size == 0);
}

int main(int count, char **word)
{
    if (count < 8) {
        fprintf(stderr, "usage: stack LARGE SMALL LINE_BREAK EAST_ASIAN CATEGORY EMOJI TEXT..\n");
        return 2;
    }
    large = strtoul(word[1], NULL, 10);
    small = strtoul(word[2], NULL, 10);
    stack_size = large;
    for (int k = 0; k < 4; k++)
        files[k] = load(word[3 + k]);
    used_idle = used_by(do_nothing);
    run_in_thread("lbk_read", do_read);
    report("lbk_read takes the files", fault.cause == LBK_CAUSE_NONE);
    run_in_thread("lbk_read_published", do_read_published);
    report("lbk_read_published takes them too, or not", fault.cause == LBK_CAUSE_NONE
        || fault.cause == LBK_CAUSE_NOT_PUBLISHED);
    stack_size = small;
    run_in_thread("lbk_unicode", do_unicode);
    report("lbk_unicode fills a table", total == 1);
    run_in_thread("lbk_check", do_check);
    report("lbk_check holds of the table", total == 1);
    run_in_thread("lbk_pack", do_pack);
    report("a table is packed and unpacked", total == 1);
    run_in_thread("names", do_names);
    report("there are names", total > 38 + LBK_CODES / 8);
    for (int k = 7; k < count; k++) {
        text = load(word[k]);
        try_text();
        free(text.at);
    }
    printf("%u passed, %u failed\n", passed, failed);
    return failed != 0;
}
