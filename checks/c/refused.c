/* Refuses each allocation of lbk_read in turn, alone and with all later ones. The call must return out of memory,
 * leave the table unchanged and free all that it allocated; it is called again until no allocation is refused. The
 * other calls must not allocate. Needs glibc. The arguments name the four files; the last line is `N passed, M
 * failed`.
 */
#include "../../examples/example.h"
#include <string.h>

extern void *__libc_malloc(size_t);
extern void *__libc_calloc(size_t, size_t);
extern void *__libc_realloc(void *, size_t);
extern void *__libc_memalign(size_t, size_t);
extern void __libc_free(void *);

static unsigned long allocations, refused_number, refusals;
static long held;
static int is_counting, refuses_later;

/* Whether this allocation is refused. */
static int is_refused(void)
{
    if (!is_counting)
        return 0;
    allocations++;
    if (allocations < refused_number || (allocations > refused_number && !refuses_later))
        return 0;
    refusals++;
    return 1;
}

/* Counts what is held. */
static void *kept(void *room)
{
    if (is_counting && room != NULL)
        held++;
    return room;
}

void *malloc(size_t size)
{
    return is_refused() ? NULL : kept(__libc_malloc(size));
}

void *calloc(size_t n, size_t size)
{
    return is_refused() ? NULL : kept(__libc_calloc(n, size));
}

void *realloc(void *old, size_t size)
{
    if (is_refused())
        return NULL;
    return old == NULL ? kept(__libc_realloc(old, size)) : __libc_realloc(old, size);
}

void *memalign(size_t alignment, size_t size)
{
    return is_refused() ? NULL : kept(__libc_memalign(alignment, size));
}

void *aligned_alloc(size_t alignment, size_t size)
{
    return memalign(alignment, size);
}

int posix_memalign(void **to, size_t alignment, size_t size)
{
    void *room = memalign(alignment, size);
    if (room != NULL)
        *to = room;
    return room == NULL;
}

void free(void *old)
{
    if (is_counting && old != NULL)
        held--;
    __libc_free(old);
}

static unsigned passed, failed;

static void report(const char *what, unsigned long number, int holds)
{
    if (holds) {
        passed++;
    } else {
        failed++;
        printf("FAILED  allocation %lu: %s\n", number, what);
    }
}

static lbk_table table, before;

/* Reads the files, allocation `number` refused, and returns whether one was. */
static int try_allocation(const bytes *files, unsigned long number)
{
    memset(&table, 0xA5, sizeof table);
    allocations = refusals = 0, held = 0, refused_number = number, is_counting = 1;
    lbk_fault fault = lbk_read(&table, files[0].at, files[0].size, files[1].at, files[1].size, files[2].at,
        files[2].size, files[3].at, files[3].size);
    is_counting = 0;
    report("all memory is given back", number, held == 0);
    if (refusals == 0) {
        report("no fault where nothing was refused", number, fault.cause == LBK_CAUSE_NONE && lbk_check(&table));
        return 0;
    }
    report("out of memory", number, fault.cause == LBK_CAUSE_OUT_OF_MEMORY);
    report("the table as it was", number, memcmp(&table, &before, sizeof table) == 0);
    return 1;
}

/* The calls that take no memory: each is made with all allocations refused. */
static void try_others(void)
{
    static const char text[] = "ab cd\n(e) \xE4\xB8\x80\xFF";
    static const uint16_t units[] = {'a', ' ', 0xD83D, 0xDE00};
    static const uint32_t scalars[] = {'a', ' ', 0x1F600};
    size_t size = sizeof text - 1;
    lbk_state state = {0}, of_positions = {0}, of_units = {0}, of_scalars = {0}, of_marks = {0};
    lbk_state of_unit_positions = {0}, of_scalar_positions = {0};
    lbk_stream stream = {0};
    lbk_word_state of_words = {0};
    lbk_break block[4], others[4];
    lbk_segment_state of_segments = {0};
    lbk_segment segments[4];
    lbk_word words[4];
    uint64_t bits[1];
    lbk_chunk_state of_chunks = {0};
    lbk_limits limits = {.most = size};
    lbk_chunk chunks[4];
    allocations = 0, refused_number = 1, refuses_later = 1, is_counting = 1;
    size_t count = lbk_breaks(&table, &state, text, size, block, 4);
    size_t cut_into = lbk_segments(&table, &of_segments, text, size, segments, 4);
    lbk_fed fed = lbk_feed(&table, &stream, text, size, true, others, 4);
    size_t positions = lbk_positions(&table, &of_positions, text, size, others, 4);
    size_t in_units = lbk_breaks_utf16(&table, &of_units, units, 4, others, 4);
    size_t in_scalars = lbk_breaks_utf32(&table, &of_scalars, scalars, 3, others, 4);
    size_t at_units = lbk_positions_utf16(&table, &of_unit_positions, units, 4, others, 4);
    size_t at_scalars = lbk_positions_utf32(&table, &of_scalar_positions, scalars, 3, others, 4);
    size_t places = lbk_marks(&table, &of_marks, text, size, bits, 1);
    size_t of_text = lbk_words(&of_words, text, size, words, 4);
    size_t pieces = lbk_chunks(&table, &limits, &of_chunks, text, size, chunks, 4);
    size_t cut = lbk_cut(&table, text, size, 1), cut_before = lbk_cut_before(&table, text, size, size - 1);
    size_t safe = lbk_safe_break(&table, LBK_FIRST, text, size);
    lbk_rule_label label = lbk_label(block[0].rule);
    lbk_class_label class = lbk_class(&table, 'a');
    static char packed[12 + 2 * LBK_CODES];
    static lbk_table other;
    size_t packed_size = lbk_pack(&table, packed, sizeof packed);
    uint32_t unpacked = lbk_unpack(&other, packed, packed_size);
    static lbk_table built_in;
    lbk_unicode(&built_in);
    lbk_text says = lbk_rule_text(block[0].rule);
    bool is_cut = lbk_is_cut("# LineBreak-", 12);
    lbk_text claim = lbk_claim_text(LBK_LINE_BREAK, "# LineBreak-", 12), remedy = lbk_remedy_text();
    lbk_text cause = lbk_cause_text(LBK_CAUSE_RANGE), file = lbk_file_name(LBK_EMOJI), version = lbk_version();
    int whole = lbk_check(&table);
    is_counting = 0;
    report("the other calls take no memory", 0, allocations == 0);
    report("they give what they give", 0,
         count == 4 && cut_into == 4 && claim.text[0] != 0 && remedy.text[0] != 0 && fed.count == 4 && positions == 4
             && in_units == 2 && in_scalars == 2 && at_units == 4 && at_scalars == 4 && places == size + 1
             && of_text == 4 && pieces == 1 && cut == 6 && cut_before == 6 && safe >= cut_before
             && packed_size > 0 && unpacked == LBK_CAUSE_NONE && built_in.layout == LBK_LAYOUT && says.text[0] != 0 && is_cut
             && label.text[0] != 0 && class.text[0] != 0 && cause.text[0] != 0 && file.text[0] != 0
             && version.text[0] != 0 && whole);
}

int main(int count, char **words)
{
    if (count != 5) {
        fprintf(stderr, "usage: refused LINE_BREAK EAST_ASIAN CATEGORY EMOJI\n");
        return 2;
    }
    bytes files[4];
    for (int k = 0; k < 4; k++)
        files[k] = load(words[k + 1]);
    memset(&before, 0xA5, sizeof before);
    unsigned long most = 0;
    for (refuses_later = 0; refuses_later < 2; refuses_later++) {
        unsigned long number = 1;
        while (try_allocation(files, number))
            number++;
        most = number - 1;
    }
    report("there are allocations to refuse", most, most > 0);
    try_others();
    printf("%u passed, %u failed\n", passed, failed);
    return failed != 0;
}
