/* Tries the marks: those of UTF-8, UTF-16 and UTF-32 have to agree, and say what the rules say of known texts. The last
 * line is `N passed, M failed`.
 */
#include "linebreak.h"

#include <stdio.h>
#include <string.h>

enum { MOST = 400 };

static unsigned passed, failed;

static void report(const char *what, int holds)
{
    if (holds) {
        passed++;
    } else {
        failed++;
        printf("FAILED  %s\n", what);
    }
}

static size_t encode_utf8(utf8_t *to, utf32_t code)
{
    static const unsigned char first[] = {0, 0, 0xC0, 0xE0, 0xF0};
    size_t size = code < 0x80 ? 1 : code < 0x800 ? 2 : code < 0x10000 ? 3 : 4;
    for (size_t k = size; k-- > 1; code >>= 6)
        to[k] = (utf8_t)(0x80 | (code & 0x3F));
    to[0] = (utf8_t)(first[size] | code);
    return size;
}

static size_t encode_utf16(utf16_t *to, utf32_t code)
{
    if (code < 0x10000) {
        to[0] = (utf16_t)code;
        return 1;
    }
    to[0] = (utf16_t)(0xD7C0 + (code >> 10));
    to[1] = (utf16_t)(0xDC00 | (code & 0x3FF));
    return 2;
}

/* The last unit of each scalar has its mark, and the units before it say that they are inside of one. */
static int agrees(const char *marks, const char *wide, const size_t *ends, size_t count)
{
    size_t at = 0;
    for (size_t k = 0; k < count; k++)
        for (; at < ends[k]; at++)
            if (marks[at] != (at + 1 == ends[k] ? wide[k] : LINEBREAK_INSIDEACHAR))
                return 0;
    return 1;
}

static void try_scalars(const utf32_t *code, size_t count, const char *wanted)
{
    utf8_t bytes[4 * MOST];
    utf16_t units[2 * MOST];
    size_t byte_ends[MOST], unit_ends[MOST], size = 0, length = 0;
    char marks[4 * MOST + 1], wide[MOST + 1];
    for (size_t k = 0; k < count; k++) {
        byte_ends[k] = size += encode_utf8(bytes + size, code[k]);
        unit_ends[k] = length += encode_utf16(units + length, code[k]);
    }
    memset(wide, 9, sizeof wide);
    set_linebreaks_utf32(code, count, "en", wide);
    report("the marks of a text", wanted == NULL || memcmp(wide, wanted, count) == 0);
    report("no mark too many", wide[count] == 9);
    memset(marks, 9, sizeof marks);
    set_linebreaks_utf8(bytes, size, NULL, marks);
    report("UTF-8 as UTF-32", agrees(marks, wide, byte_ends, count) && marks[size] == 9);
    memset(marks, 9, sizeof marks);
    set_linebreaks_utf16(units, length, "", marks);
    report("UTF-16 as UTF-32", agrees(marks, wide, unit_ends, count) && marks[length] == 9);
}

static void try_marks(void)
{
    static const utf32_t text[] = {'a', 'b', ' ', 'c', '\r', '\n', 0x4E00, 0x1F600, 'd'},
    codes[] = {'a', ' ', '\n', '\r', 0x4E00,
        0x1F600, 0xAB, 0xBB, '(', ')', 0x301, 0x200D, '1', ',', 0x1F1E6, 0x5D0, '-'};
    try_scalars(text, 9, "\2\2\1\2\2\0\1\1\0");
    try_scalars(text, 0, NULL);
    unsigned seed = 1;
    for (unsigned round = 0; round < 20000; round++) {
        utf32_t some[MOST];
        size_t count = round % MOST;
        for (size_t k = 0; k < count; k++) {
            seed = seed * 1664525u + 1013904223u;
            some[k] = codes[(seed >> 16) % (sizeof codes / sizeof *codes)];
        }
        try_scalars(some, count, NULL);
    }
    static const utf16_t ill[] = {'a', ' ', 0xD83D, ' ', 0xDE00};
    char marks[5];
    set_linebreaks_utf16(ill, 5, "", marks);
    report("surrogates that stand alone", memcmp(marks, "\2\1\2\1\0", 5) == 0);
    report("two scalars", is_line_breakable('a', 'b', "") == LINEBREAK_NOBREAK
                            && is_line_breakable(0x4E00, 0x4E00, "") == LINEBREAK_ALLOWBREAK
                            && is_line_breakable('\n', 'b', "") == LINEBREAK_MUSTBREAK);
}

int main(void)
{
    try_marks();
    printf("%u passed, %u failed\n", passed, failed);
    return failed != 0;
}
