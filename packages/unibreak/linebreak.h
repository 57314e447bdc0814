/* Line breaks under the names of libunibreak's public header, found by liblbk (UAX #14, Unicode 15.0).
 *
 * A program written for libunibreak builds against this header, unchanged, and links the library that
 * packages/unibreak/build makes. The rules are those of the annex, without tailorings: the argument for a language is
 * ignored. */
#ifndef LINEBREAK_H
#define LINEBREAK_H

#include <stddef.h>

#ifdef __cplusplus
extern "C" {
#endif

#ifndef LINEBREAK_UTF_TYPES_DEFINED
#define LINEBREAK_UTF_TYPES_DEFINED
typedef unsigned char utf8_t;
typedef unsigned short utf16_t;
typedef unsigned int utf32_t;
#endif

/* What a mark says about the position after its unit. */
#define LINEBREAK_MUSTBREAK 0     /* the line must end */
#define LINEBREAK_ALLOWBREAK 1    /* it may end */
#define LINEBREAK_NOBREAK 2       /* it does not end */
#define LINEBREAK_INSIDEACHAR 3   /* the position is inside of a scalar, or of bytes that are read as one U+FFFD */
#define LINEBREAK_INDETERMINATE 4 /* no mark is this one */

/* Fills the table of properties, once per process; otherwise the first other call does it. Any number of threads may
 * call at the same time. */
void init_linebreak(void);

/* Writes a mark for each of the `len` units of a text, about the position after it. The last one is
 * LINEBREAK_MUSTBREAK, by rule 3. Ill-formed units are read as U+FFFD. */
void set_linebreaks_utf8(const utf8_t *s, size_t len, const char *lang, char *brks);
void set_linebreaks_utf16(const utf16_t *s, size_t len, const char *lang, char *brks);
void set_linebreaks_utf32(const utf32_t *s, size_t len, const char *lang, char *brks);

/* The mark between two scalars with nothing around them. */
int is_line_breakable(utf32_t char1, utf32_t char2, const char *lang);

#ifdef __cplusplus
}
#endif

#endif
