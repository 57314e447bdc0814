#include "places.h"

#include <string.h>

bool start_of_text(PyObject *profile, cursor *start)
{
    long number = PyLong_AsLong(profile);
    if (number != 1 && number != 2) {
        if (!PyErr_Occurred())
            PyErr_Format(PyExc_ValueError, "profile must be 1 or 2, not %R", profile);
        return false;
    }
    memset(start, 0, sizeof *start);
    start->state.profile = number == 1 ? LBK_FIRST : LBK_SECOND;
    return true;
}

size_t code_points(const char *bytes, size_t size, size_t readable)
{
    const uint64_t ones = UINT64_C(0x0101010101010101);
    size_t count = 0;
    while (size != 0 && readable >= 8) {
        uint64_t eight;
        size_t taken = size < 8 ? size : 8;
        memcpy(&eight, bytes, 8);
        uint64_t begins = ((~eight >> 7) | (eight >> 6)) & ones & (UINT64_MAX >> (64 - 8 * taken));
        count += begins * ones >> 56;
        bytes += taken;
        size -= taken;
        readable -= taken;
    }
    for (; size != 0; size--)
        count += ((unsigned char)*bytes++ & 0xc0) != 0x80;
    return count;
}

size_t to_unit(cursor *from, const utf8_text *text, size_t at)
{
    if (!text->in_code_points)
        return at;
    from->given += code_points(text->bytes + from->counted, at - from->counted, text->size - from->counted);
    from->counted = at;
    return from->given;
}

size_t next_breaks(break_call *call,
    const lbk_table *table, cursor *from, const utf8_text *text, lbk_break *block, size_t room)
{
    size_t count = call(table, &from->state, text->bytes, text->size, block, room);
    for (size_t k = 0; text->in_code_points && k < count; k++)
        block[k].at = to_unit(from, text, block[k].at);
    return count;
}

size_t next_words(cursor *from, const utf8_text *text, lbk_word *block, size_t room)
{
    size_t count = lbk_words(&from->words, text->bytes, text->size, block, room);
    for (size_t k = 0; text->in_code_points && k < count; k++) {
        block[k].start = to_unit(from, text, block[k].start);
        block[k].end = to_unit(from, text, block[k].end);
    }
    return count;
}

/* The byte offset after so many code points, or the size of the text if it has fewer. */
static size_t byte_of(const utf8_text *text, size_t points)
{
    size_t at = 0;
    for (; at < text->size; at++)
        if (((unsigned char)text->bytes[at] & 0xc0) != 0x80 && points-- == 0)
            break;
    return at;
}

size_t find_cut(cut_call *call, const lbk_table *table, const utf8_text *text, size_t at)
{
    if (!text->in_code_points)
        return call(table, text->bytes, text->size, at);
    size_t cut = call(table, text->bytes, text->size, byte_of(text, at));
    return code_points(text->bytes, cut, text->size);
}

size_t find_safe_break(const lbk_table *table, const utf8_text *text, uint8_t profile)
{
    size_t safe = lbk_safe_break(table, profile, text->bytes, text->size);
    return text->in_code_points ? code_points(text->bytes, safe, text->size) : safe;
}
