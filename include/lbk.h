/* lbk.h: the Unicode Line Breaking Algorithm (UAX #14, Unicode 15.0, rules LB2 to LB31, no tailorings).
 *
 * The library finds where a line of text may break and where it must, and says which rule decided.
 *
 *     static lbk_table table;                                  1.1 MB: not on a small stack
 *     lbk_unicode(&table);                                     once: the properties of Unicode 15.0, built in
 *
 *     lbk_state state = {0};                                   the start of a text
 *     lbk_break block[64];
 *     size_t count;
 *     do {
 *         count = lbk_breaks(&table, &state, text, size, block, 64);
 *         for (size_t k = 0; k < count; k++)
 *             .. block[k].at, block[k].kind, block[k].rule ..
 *     } while (count == 64);
 *
 * Preconditions. The caller must ensure these, and nothing else:
 *   - A pointer with a length points to at least that many elements: bytes or units of a text, entries of a block.
 *     It may be null if the length is 0. No length exceeds PTRDIFF_MAX bytes, as for every object of C.
 *   - Pointers to a table, a state, a stream and limits are not null. They are aligned for their types.
 *   - What a call writes overlaps nothing else that the call is given, and no other thread uses it during the call.
 *     A call writes its state or stream, and its block; those that fill a table write the table.
 *   - A stream has fewer than 2^64 units.
 *
 * Everything else is memory-safe: any bytes in the files, the text, the table, the state and the stream. Each call
 * then returns, and reads and writes only what it was given. A corrupt table, state or stream gives wrong breaks,
 * nothing worse. The rules are in the library and not in the table, so each break of lbk_breaks is still one that a
 * rule gives before a character of its class, after some text.
 *
 * Memory. The caller owns all memory. The library keeps no pointers, and there is nothing to free. Only lbk_read and
 * lbk_read_published allocate, and they free what they allocated before they return.
 *
 * Threads. The library has no global variables. Any number of threads may use one table at the same time.
 *
 * C99 and later, C++11 and later; 64-bit targets only.
 */
#ifndef LBK_H
#define LBK_H

#include <stdbool.h>
#include <stddef.h>
#include <stdint.h>

#ifdef __cplusplus
extern "C" {
#endif

/* The version of this header. Versions with the same major number have the same types and calls; while the major
 * number is 0, the minor number must be the same, too. The shared library's name (liblbk.so.0) has the major number. */
#define LBK_VERSION_MAJOR 0
#define LBK_VERSION_MINOR 2
#define LBK_VERSION_PATCH 0
#define LBK_VERSION "0.2.0"

/* The version of Unicode that defines the rules and the properties of lbk_unicode. The files for lbk_read should be of
 * the same version. */
#define LBK_UNICODE_VERSION "15.0"

/* The version of Unicode that lbk_words takes word boundaries, letters and numbers from. */
#define LBK_WORDS_UNICODE_VERSION "18.0"

/* The table layout of this version: lbk_table.layout of each table that it fills. */
#define LBK_LAYOUT 4

/* How many code points Unicode has, 0 to 10FFFF. */
#define LBK_CODES 0x110000

/* lbk_break.kind. Of these, lbk_breaks gives LBK_MAY and LBK_MUST, and lbk_positions gives all three. */
enum {
    LBK_NO = 0,  /* a line does not break here */
    LBK_MAY = 1, /* a line may break here */
    LBK_MUST = 2 /* a line must end here: after a paragraph separator, and at the end of the text */
};

/* lbk_break.rule: the rules of UAX #14, section 6, in their order. A rule's number is 8 times its number in the
 * standard, plus the place of its letter, so a later version of Unicode changes no number. lbk_label returns its
 * name, lbk_rule_text what it says. */
enum {
    LBK_RULE_2 = 8 * 2,
    LBK_RULE_3 = 8 * 3,
    LBK_RULE_4 = 8 * 4,
    LBK_RULE_5 = 8 * 5,
    LBK_RULE_6 = 8 * 6,
    LBK_RULE_7 = 8 * 7,
    LBK_RULE_8 = 8 * 8,
    LBK_RULE_8A = 8 * 8 + 1,
    LBK_RULE_9 = 8 * 9,
    LBK_RULE_11 = 8 * 11,
    LBK_RULE_12 = 8 * 12,
    LBK_RULE_12A = 8 * 12 + 1,
    LBK_RULE_13 = 8 * 13,
    LBK_RULE_14 = 8 * 14,
    LBK_RULE_15 = 8 * 15,      /* only in the first profile */
    LBK_RULE_15A = 8 * 15 + 1, /* only in the second profile */
    LBK_RULE_15B = 8 * 15 + 2, /* only in the second profile */
    LBK_RULE_16 = 8 * 16,
    LBK_RULE_17 = 8 * 17,
    LBK_RULE_18 = 8 * 18,
    LBK_RULE_19 = 8 * 19,
    LBK_RULE_20 = 8 * 20,
    LBK_RULE_21 = 8 * 21,
    LBK_RULE_21A = 8 * 21 + 1,
    LBK_RULE_21B = 8 * 21 + 2,
    LBK_RULE_22 = 8 * 22,
    LBK_RULE_23 = 8 * 23,
    LBK_RULE_23A = 8 * 23 + 1,
    LBK_RULE_24 = 8 * 24,
    LBK_RULE_25 = 8 * 25,
    LBK_RULE_26 = 8 * 26,
    LBK_RULE_27 = 8 * 27,
    LBK_RULE_28 = 8 * 28,
    LBK_RULE_29 = 8 * 29,
    LBK_RULE_30 = 8 * 30,
    LBK_RULE_30A = 8 * 30 + 1,
    LBK_RULE_30B = 8 * 30 + 2,
    LBK_RULE_31 = 8 * 31
};

/* lbk_state.profile: the rules for quotation marks. For any other number the calls return 0. */
enum {
    LBK_FIRST = 0,  /* rule 15 of Unicode 15.0 */
    LBK_SECOND = 1, /* rules 15a and 15b instead, which look at both sides of a quotation mark */
    LBK_GOES_ON = 2 /* added to either, for all calls but lbk_chunks: the text goes on after these bytes or units */
};

/* lbk_fault.file: the files of the Unicode Character Database, in the order in which lbk_read reads them. */
enum {
    LBK_NO_FILE = 0,    /* no fault, or one after all files were read */
    LBK_LINE_BREAK = 1, /* LineBreak.txt */
    LBK_EAST_ASIAN = 2, /* EastAsianWidth.txt */
    LBK_CATEGORY = 3,   /* extracted/DerivedGeneralCategory.txt */
    LBK_EMOJI = 4       /* emoji/emoji-data.txt */
};

/* lbk_fault.cause, and what lbk_unpack returns */
enum {
    LBK_CAUSE_NONE = 0,          /* no fault: the table is filled */
    LBK_CAUSE_FILE_TOO_LONG = 1, /* the file has more than 8,388,608 bytes; line is 0 */
    LBK_CAUSE_LINE_TOO_LONG = 2, /* the line has more than 1,024 bytes without its LF */
    LBK_CAUSE_ROW_SYNTAX = 3,    /* the line is neither blank nor a comment nor a row */
    LBK_CAUSE_RANGE = 4,         /* the first code point is above the last, or one is above 10FFFF */
    LBK_CAUSE_UNKNOWN_VALUE = 5, /* the name is not a value of the property */
    LBK_CAUSE_OVERLAP = 6,       /* the row shares a code point with an earlier row of the file */
    LBK_CAUSE_TOO_MANY_ROWS = 7, /* the line is the 65,537th row or default of the file */
    LBK_CAUSE_OUT_OF_MEMORY = 8, /* out of memory at this line, or after all files were read (file and line are 0) */
    /* 9 is unused */
    LBK_CAUSE_NOT_PUBLISHED = 10, /* only from lbk_read_published: not Unicode 15.0.0's file; line is 0 */
    /* only from lbk_unpack */
    LBK_CAUSE_NOT_PACKED = 11,   /* the bytes do not begin as a packed table does */
    LBK_CAUSE_OTHER_LAYOUT = 12, /* the table was packed by a version with another LBK_LAYOUT */
    LBK_CAUSE_DAMAGED = 13,      /* the packed table was changed or cut */
    /* from no call: for callers that refuse what lbk_is_cut recognizes */
    LBK_CAUSE_CUT = 14 /* the file was cut */
};

/* What a table knows of pairs of adjacent bytes, in internal numbers. */
typedef struct lbk_neighbours {
    uint8_t classes[8][16], left[16], right[16];
    uint16_t rows[256];
} lbk_neighbours;

/* The properties of all code points: lbk_unicode fills it, and the other calls decide by it. It has no pointers, only
 * numbers in the machine's byte order, so it can be copied, saved, mapped by other processes, and shared.
 *
 * Callers read only `layout`. The other fields differ between layouts.
 *
 * Any bytes in `kinds` are the classes of some characters, so the calls return the breaks of a text of these. Corrupt
 * `pairs` may hide breaks from lbk_breaks and lbk_marks, make lbk_breaks decide as if other text came before, and make
 * lbk_marks set the bits of other offsets. The time stays linear in the size of the text in any case (measured). */
typedef struct lbk_table {
    uint64_t layout; /* LBK_LAYOUT in a table that is filled */
    uint64_t digest; /* of all that follows, for lbk_check */
    lbk_neighbours pairs;
    uint8_t kinds[LBK_CODES];
} lbk_table;

/* How far lbk_breaks went in a text. All zeros mean the start of a text in the first profile. Set `profile` for the
 * second one, and `at` for a part that begins at that byte.
 *
 * A state is a value: copy it, keep it, go back to it. Use it with the text that it was used with, or with any text
 * that has the same bytes from `at` on, and as many bytes before them, whatever those are. */
typedef struct lbk_state {
    size_t at;       /* the offset of the first byte that was not taken */
    uint16_t row;    /* internal: what is known of the bytes before it */
    uint8_t profile; /* LBK_FIRST or LBK_SECOND, perhaps with LBK_GOES_ON; no call changes it */
    uint8_t ended;   /* not 0 once the end was returned; lbk_breaks then returns 0 */
} lbk_state;

/* How far lbk_feed or lbk_feed_utf16 went in a text that arrives in pieces. All zeros mean its start in the first
 * profile; set `profile` for the second one.
 *
 * A stream is a value: copy it, keep it, go back to it. It has no pointers, and no earlier piece is needed again.
 * Callers write `profile` at the start. They may read `at`, `ended`, `cut_size`, whether `held_code` is 0, and
 * `held_at` if it is not. The other fields are internal. A unit is a byte for lbk_feed, and 16 bits for
 * lbk_feed_utf16. */
typedef struct lbk_stream {
    uint64_t at;        /* the offset of the first unit that was not taken */
    uint64_t held_at;   /* the offset that waits for what follows, if one does; only in the second profile */
    uint16_t row;       /* internal: what is known of the units before `at` */
    uint16_t held_code; /* the break at held_at if what follows leaves the quotation open; 0: no offset waits */
    uint8_t cut[4];     /* the units after `at` that arrived already: the start of a character that a piece's end cut;
                         * in UTF-16 two bytes a unit, the low one first */
    uint8_t cut_size;   /* how many units that is */
    uint8_t profile;    /* LBK_FIRST or LBK_SECOND, perhaps with LBK_GOES_ON; no call changes it */
    uint8_t ended;      /* not 0 once the end was returned */
} lbk_stream;

/* What a call of lbk_feed or lbk_feed_utf16 did. */
typedef struct lbk_fed {
    size_t taken; /* how many units of the piece were taken; pass the others again, in front of what follows */
    size_t count; /* how many breaks are at the front of the block */
} lbk_fed;

/* A break: an offset at which a line may or must end. lbk_positions uses the same type for offsets without a break. */
typedef struct lbk_break {
    size_t at;    /* the offset of the byte after it, counted from 0; the text's size for the break at its end */
    uint8_t kind; /* LBK_MAY or LBK_MUST; from lbk_positions LBK_NO, too */
    uint8_t rule; /* the rule that decided, for example LBK_RULE_18 */
} lbk_break;

/* The first fault of the four files, in the order of the files and of their lines. */
typedef struct lbk_fault {
    uint32_t file;  /* LBK_LINE_BREAK to LBK_EMOJI, or LBK_NO_FILE */
    uint32_t line;  /* from 1; 0 if the fault is in no line */
    uint32_t cause; /* LBK_CAUSE_NONE: no fault, and then file and line are 0 */
} lbk_fault;

/* A segment: the bytes from `start` up to and without `end`, where a break is. */
typedef struct lbk_segment {
    size_t start, end; /* counted from the text's start */
    uint8_t kind;      /* LBK_MAY or LBK_MUST: the break at its end */
    uint8_t rule;      /* the rule that decided that break */
} lbk_segment;

/* How far lbk_segments went in a text. All zeros mean the start of a text in the first profile. Set `breaks.profile`
 * for the second one, and `breaks.at` and `start` for a part that begins at that byte. It is a value like lbk_state,
 * and can be used with the same texts. */
typedef struct lbk_segment_state {
    lbk_state breaks; /* how far lbk_breaks went */
    size_t start;     /* where the next segment starts */
} lbk_segment_state;

/* How far lbk_words went in a text. All zeros mean the start of a text. It is a value like lbk_state; use it with any
 * text with the same bytes. `at` may also be set to any offset: the text from there on then counts as a whole text. */
typedef struct lbk_word_state {
    size_t at; /* the offset at which the next words are looked for */
} lbk_word_state;

/* A word: the bytes from `start` up to and without `end`, at least one. */
typedef struct lbk_word {
    size_t start, end; /* counted from the text's start */
} lbk_word;

/* The limits of a chunk. lbk_chunks returns 0 if `most` is 0, `least` exceeds `most`, or `overlap` exceeds half of
 * `most`. */
typedef struct lbk_limits {
    size_t most;    /* the greatest number of bytes */
    size_t words;   /* the greatest number of words; 0: no limit */
    size_t least;   /* a chunk may end early, at a required break, once this many of its bytes are in no earlier one */
    size_t overlap; /* how many bytes of a chunk the next one may repeat, and never more than half of it */
} lbk_limits;

/* How far lbk_chunks went in a text. All zeros mean the start of a text in the first profile; set `breaks.profile` for
 * the second one. It is a value like lbk_state; use it with any text with the same bytes. Callers may read `start` and
 * `told`; the other fields are internal. */
typedef struct lbk_chunk_state {
    lbk_state breaks; /* after the last cut that was read */
    size_t from;      /* the offset from which words were not read */
    lbk_word word;    /* the word that was read last */
    size_t words;     /* how many words were counted */
    size_t start;     /* where the next chunk starts */
    size_t told;      /* where the last one ended */
} lbk_chunk_state;

/* A chunk: the bytes from `start` up to and without `end`. */
typedef struct lbk_chunk {
    size_t start, end; /* counted from the text's start */
    size_t words;      /* how many words it has */
    uint8_t kind;      /* LBK_MAY or LBK_MUST: the break at its end */
    uint8_t rule;      /* the rule that decided that break */
    bool alone;        /* it exceeds the limits, because it has no cut inside them */
} lbk_chunk;

/* The name of a rule without `LB`, such as "8a": ASCII, terminated and padded by zeros. */
typedef struct lbk_rule_label {
    char text[4];
} lbk_rule_label;

/* The name of a line breaking class, such as "AL": ASCII, terminated and padded by zeros. */
typedef struct lbk_class_label {
    char text[4];
} lbk_class_label;

/* A short text: ASCII, terminated and padded by zeros. */
typedef struct lbk_text {
    char text[96];
} lbk_text;

/* Fills a table with the properties of LBK_UNICODE_VERSION, which are in the library. The table is, byte for byte, the
 * one that lbk_read_published fills. The call takes about as long as writing 1.1 MB. Reads no file, allocates nothing. */
void lbk_unicode(lbk_table *table);

/* Fills a table from the contents of four files of your own, in the form of the Unicode Character Database:
 * LineBreak.txt, EastAsianWidth.txt, DerivedGeneralCategory.txt and emoji-data.txt. Sizes are in bytes.
 *
 * Returns the first fault of the files. If the cause is LBK_CAUSE_NONE, the table is filled; otherwise it is
 * unchanged. The call takes some 10 ms, and some megabytes of the heap, for the files of Unicode 15.0.
 *
 * An empty file has no fault: every code point then has the property's default value. */
lbk_fault lbk_read(lbk_table *table, const void *line_break, size_t line_break_size, const void *east_asian,
                   size_t east_asian_size, const void *category, size_t category_size, const void *emoji,
                   size_t emoji_size);

/* As lbk_read, but takes only the files that Unicode 15.0.0 published. Returns LBK_CAUSE_NOT_PUBLISHED for the first
 * file with another SHA-256 digest, whatever faults the files have. CR LF at line ends counts as LF for the digest. */
lbk_fault lbk_read_published(lbk_table *table, const void *line_break, size_t line_break_size,
                             const void *east_asian, size_t east_asian_size, const void *category,
                             size_t category_size, const void *emoji, size_t emoji_size);

/* Returns whether a file is truncated: its first line claims a name that Unicode published, for example
 * `# LineBreak-15.0.0.txt`, and its last line, without trailing white space, is not `# EOF`. lbk_read accepts such a
 * file: the missing code points then have the property's default value. Allocates nothing. */
bool lbk_is_cut(const void *file, size_t size);

/* Describes, in English, a file that Unicode 15.0.0 did not publish: one of another version ("this is Unicode 14.0.0,
 * and lbk needs 15.0.0"), one that was changed or cut, or another file. `file` is the number of the file that was
 * expected (lbk_fault.file); the text is empty for any other number. Allocates nothing. */
lbk_text lbk_claim_text(uint32_t file, const void *contents, size_t size);

/* Returns where to get the published files, in English. It can follow such a text after a semicolon. */
lbk_text lbk_remedy_text(void);

/* Returns what a cause (lbk_fault.cause) means, in English; an empty text for any other number. */
lbk_text lbk_cause_text(uint32_t cause);

/* Returns the name of a file (lbk_fault.file), and "the four files" for LBK_NO_FILE; an empty text for any other
 * number. */
lbk_text lbk_file_name(uint32_t file);

/* Writes the next breaks of a text to the front of a block with room for `room` of them, in the order of the text, and
 * returns how many. A result below `room` means that these were the last. The example at the top of this file shows
 * the loop.
 *
 * `text` is UTF-8. Pass the whole text to each call, not the rest of it: `state` says how far earlier calls went. Each
 * break is returned once. The last break of a text is its end, LBK_MUST by rule 3; an empty text has no break. The
 * breaks after a break are those of the text that begins there, moved by its offset: nothing before a break counts.
 *
 *   - Ill-formed bytes are replaced by U+FFFD, as Python's errors="replace" and Rust's from_utf8_lossy do it
 *     (Unicode Standard, section 3.9, "U+FFFD Substitution of Maximal Subparts"). Offsets count the bytes of `text`.
 *   - With LBK_GOES_ON the text goes on after the end of `text`. That end is a break only if a line must end there by
 *     what is before it (LBK_MUST by rule 4 or 5). After a CR it is one too: do not cut between CR and LF. lbk_cut
 *     does not, so the breaks of the parts that it finds are those of the text.
 *   - Returns 0 and leaves the state unchanged if `room` is 0, if the profile is unknown, if the state's `at`
 *     exceeds `size`, and after the end.
 *   - With a corrupt table or state, each break is still LBK_MAY or LBK_MUST by one of the rules, offsets still rise
 *     from the state's `at` up to `size`, and the loop still terminates. An offset may then be inside a character.
 *   - Entries of the block after the returned count are unspecified. Allocates nothing. */
size_t lbk_breaks(const lbk_table *table, lbk_state *state, const char *text, size_t size, lbk_break *block,
                  size_t room);

/* Writes the next segments of a text to the block, as lbk_breaks writes breaks, and returns how many:
 *
 *     lbk_segment_state state = {0};                 the start of a text
 *     lbk_segment block[64];
 *     size_t count;
 *     do {
 *         count = lbk_segments(&table, &state, text, size, block, 64);
 *         for (size_t k = 0; k < count; k++)
 *             .. text + block[k].start, block[k].end - block[k].start ..
 *     } while (count == 64);
 *
 * A segment ends at each break of lbk_breaks, and starts where the one before it ends. Joined, the segments are the
 * text. A segment contains the spaces and the line end before its break.
 *
 *   - Ill-formed bytes, LBK_GOES_ON and the cases that return 0 are as for lbk_breaks.
 *   - With a corrupt table, `start` <= `end` <= `size` still holds. It also holds with a corrupt state, provided that
 *     its `start` <= `breaks.at` <= `size`. The loop terminates with any table and state.
 *   - Entries of the block after the returned count are unspecified. Allocates nothing. */
size_t lbk_segments(const lbk_table *table, lbk_segment_state *state, const char *text, size_t size,
                    lbk_segment *block, size_t room);

/* As lbk_breaks, for UTF-16 and UTF-32 in the machine's byte order. `size` and all offsets count units of 16 or 32
 * bits.
 *
 * A text has the same breaks by the same rules in all three encodings. A lone surrogate, or a number that is not a
 * scalar value, is read as U+FFFD (Unicode Standard, section 3.9, D90 and D91). No break is inside a surrogate pair.
 * Use a state only with the encoding that it began with.
 *
 * With LBK_GOES_ON the end of `text` is not the end of the text, as for lbk_breaks: in UTF-16, the breaks of the parts
 * that lbk_cut_utf16 finds are those of the text. */
size_t lbk_breaks_utf16(const lbk_table *table, lbk_state *state, const uint16_t *text, size_t size,
                        lbk_break *block, size_t room);
size_t lbk_breaks_utf32(const lbk_table *table, lbk_state *state, const uint32_t *text, size_t size,
                        lbk_break *block, size_t room);

/* As lbk_breaks, for a text that arrives in pieces of any size, for example from a socket: takes the next piece,
 * writes the breaks that it settles to the block, and returns how many bytes it took and how many breaks it wrote.
 *
 *     lbk_stream stream = {0};
 *     char piece[4096];
 *     lbk_break block[64];
 *     bool last;
 *     do {
 *         ssize_t size = read(socket, piece, sizeof piece);    0 at the end
 *         if (size < 0) ..
 *         last = size == 0;
 *         size_t from = 0;
 *         lbk_fed fed;
 *         do {
 *             fed = lbk_feed(&table, &stream, piece + from, (size_t)size - from, last, block, 64);
 *             from += fed.taken;
 *             for (size_t k = 0; k < fed.count; k++)
 *                 .. block[k].at, block[k].kind, block[k].rule ..
 *         } while (fed.count == 64);
 *     } while (!last);
 *
 * The breaks are those that lbk_breaks returns for the joined pieces, each once and in the same order, for any pieces
 * and any room. `at` counts from the start of the stream. A piece may be empty or end inside a character. `last` means
 * that nothing follows the piece, so the rest is decided.
 *
 * If `count` is below `room`, the whole piece was taken, and after `last` these were all breaks. Otherwise call again
 * with the rest of the piece, which may be empty, and the same `last`.
 *
 *   - A break is returned with the character after it. In the second profile a break before a closing quotation mark
 *     may also wait for the next character that is no combining mark. At most one offset waits.
 *   - For a part of a text (see lbk_cut) set the stream's `at` to the part's offset, and add LBK_GOES_ON if more
 *     follows `last`.
 *   - With `room` 0 nothing is taken and the stream is unchanged. With an unknown profile, and after the end, all
 *     bytes are taken and no break is returned.
 *   - With a corrupt table or stream, each break is still LBK_MAY or LBK_MUST by one of the rules, and the loop
 *     still terminates. With a corrupt table, offsets still rise from the stream's start.
 *   - Entries of the block after `count` are unspecified. Allocates nothing. */
lbk_fed lbk_feed(const lbk_table *table, lbk_stream *stream, const char *piece, size_t size, bool last,
                 lbk_break *block, size_t room);

/* As lbk_feed, for UTF-16 in the machine's byte order: `size`, `taken` and all offsets count units of 16 bits. A piece
 * may end between the halves of a surrogate pair: the first half waits in the stream for the next piece.
 *
 *     uint16_t piece[2048];                                     .. the loop of lbk_feed, with ..
 *     fed = lbk_feed_utf16(&table, &stream, piece + from, size - from, last, block, 64);
 *
 * The breaks are those that lbk_breaks_utf16 returns for the joined pieces. A lone surrogate is read as U+FFFD. Do not
 * use a stream with another encoding than the one it began with: offsets would then be wrong, nothing worse. */
lbk_fed lbk_feed_utf16(const lbk_table *table, lbk_stream *stream, const uint16_t *piece, size_t size, bool last,
                       lbk_break *block, size_t room);

/* The offsets of lbk_breaks as a bit mask, without kinds and rules: sets the bits of the next offsets at which a line
 * may or must end, clears all other bits of `count` words, and returns how many offsets the words cover.
 *
 * Bit i % 64 of word i / 64 (bit 0 is the lowest) is for offset `at` + i, where `at` is the state's before the call.
 * The end of the text, offset `size`, has a bit, too.
 *
 *     lbk_state state = {0};
 *     uint64_t words[64];
 *     size_t places;
 *     do {
 *         size_t from = state.at;
 *         places = lbk_marks(&table, &state, text, size, words, 64);
 *         for (size_t k = 0; k < 64; k++)
 *             for (uint64_t bits = words[k]; bits != 0; bits &= bits - 1)
 *                 .. from + 64 * k + the number of the lowest bit ..
 *     } while (places == 64 * 64);
 *
 * The result is 64 * count, or less if fewer offsets are left. Once the end is covered, later calls return 0. The
 * state moves to the first character after the covered offsets, so up to three bytes further. Bits of offsets that are
 * not covered are 0, with any table and state.
 *
 * For the rule of one offset, call lbk_breaks or lbk_positions with a state at the lbk_cut_before of the byte before
 * that offset. Ill-formed bytes, LBK_GOES_ON and the cases that return 0 (they clear the words, too) are as for
 * lbk_breaks. Allocates nothing. */
size_t lbk_marks(const lbk_table *table, lbk_state *state, const char *text, size_t size, uint64_t *words,
                 size_t count);

/* Writes the next positions of a text to the block, as lbk_breaks writes breaks, and returns how many. It says why a
 * line does not break somewhere, too.
 *
 * A position is the offset of a character or the end of the text. Each is returned once, with its kind (LBK_NO,
 * LBK_MAY or LBK_MUST) and the first rule that matches. The first position is LBK_NO by rule 2; an empty text has only
 * that one. The positions with LBK_MAY or LBK_MUST are the breaks of lbk_breaks. A text of n bytes has at most n + 1
 * positions.
 *
 * With LBK_GOES_ON the end of `text` is a position only if a line must end there whatever follows. A part that begins
 * at a cut returns that offset, too, LBK_NO by rule 2: skip this one, and the positions of the parts that lbk_cut finds
 * are those of the text.
 *
 * States, ill-formed bytes and the cases that return 0 are as for lbk_breaks. Allocates nothing. */
size_t lbk_positions(const lbk_table *table, lbk_state *state, const char *text, size_t size, lbk_break *block,
                     size_t room);

/* As lbk_positions, for UTF-16 and UTF-32 as lbk_breaks_utf16 and lbk_breaks_utf32 read them. A text has the same
 * positions by the same rules in all three encodings. No position is inside a surrogate pair. */
size_t lbk_positions_utf16(const lbk_table *table, lbk_state *state, const uint16_t *text, size_t size,
                           lbk_break *block, size_t room);
size_t lbk_positions_utf32(const lbk_table *table, lbk_state *state, const uint32_t *text, size_t size,
                           lbk_break *block, size_t room);

/* Writes the next words of a text to the front of a block with room for `room` of them, in the order of the text, and
 * returns how many. A result below `room` means that these were the last. It needs no table:
 *
 *     lbk_word_state state = {0};                    the start of a text
 *     lbk_word block[64];
 *     size_t count;
 *     do {
 *         count = lbk_words(&state, text, size, block, 64);
 *         for (size_t k = 0; k < count; k++)
 *             .. text + block[k].start, block[k].end - block[k].start ..
 *     } while (count == 64);
 *
 * A word is the text between two neighbouring word boundaries (UAX #29, section 4, no tailorings), if it has a letter
 * or a number: a character with a General_Category of L or N. The properties are those of
 * LBK_WORDS_UNICODE_VERSION.
 *
 * Pass the whole text to each call. The state is always at a word boundary, and at `size` after the last word. All
 * calls for a text together take time in proportion to its size, for any `room`.
 *
 *   - Ill-formed bytes are replaced as in lbk_breaks.
 *   - Returns 0 and leaves the state unchanged if `room` is 0, and if the state's `at` is `size` or more.
 *   - Entries of the block after the returned count are unspecified. Allocates nothing. */
size_t lbk_words(lbk_word_state *state, const char *text, size_t size, lbk_word *block, size_t room);

/* Cuts a text into chunks, for example for search and retrieval: writes the next chunks to the front of a block with
 * room for `room` of them, and returns how many. A result below `room` means that these were the last.
 *
 *     lbk_limits limits = {.most = 500, .least = 250, .overlap = 100};
 *     lbk_chunk_state state = {0};                   the start of a text
 *     lbk_chunk block[64];
 *     size_t count;
 *     do {
 *         count = lbk_chunks(&table, &limits, &state, text, size, block, 64);
 *         for (size_t k = 0; k < count; k++)
 *             .. text + block[k].start, block[k].end - block[k].start ..
 *     } while (count == 64);
 *
 * A cut is a break of lbk_breaks that is inside no word of lbk_words; the end of the text is a cut. Each chunk starts
 * at the start of the text or at a cut, and ends at a cut:
 *   - A chunk is as long as the limits allow. If all that is left does not fit, it ends at the last required break
 *     within the limits, provided that `least` of its bytes up to there are in no earlier chunk.
 *   - If no cut is within the limits, the chunk ends at the next cut, and `alone` is true.
 *   - The next chunk starts where this one ends. With an overlap it starts earlier: at the first cut from which it
 *     repeats no more than lbk_limits allows, and from which the next cut after this chunk's end is within the
 *     limits.
 *
 * Without overlap the chunks, joined, are the text.
 *
 * Pass the whole text to each call. All calls for a text together take time in proportion to its size, for any limits;
 * each call also reads the last chunk again, what follows it up to the limits, and up to 64 words more.
 *
 *   - Ill-formed bytes are replaced as in lbk_breaks.
 *   - Returns 0 and leaves the state unchanged if `room` is 0, if no chunk is left, if the profile is unknown, and for
 *     limits that lbk_limits excludes.
 *   - With a corrupt table or state, each chunk still starts at or before `told`, the end of the chunk before it,
 *     and still ends after `told` and within the text.
 *   - Entries of the block after the returned count are unspecified. Allocates nothing. */
size_t lbk_chunks(const lbk_table *table, const lbk_limits *limits, lbk_chunk_state *state, const char *text,
                  size_t size, lbk_chunk *block, size_t room);

/* Returns the first offset at or after `at` at which a part of the text may begin: one with a required break, or
 * `size` if there is none. Returns 0 for 0, and `size` for an `at` of `size` or more.
 *
 *     for (size_t from = 0, to; from < size; from = to) {
 *         size_t least = size - from < 33554432 ? size : from + 33554432;
 *         to = lbk_cut(&table, text, size, least);             32 MiB, and the rest of the paragraph
 *         lbk_state state = {.at = from, .profile = LBK_FIRST + (to < size ? LBK_GOES_ON : 0)};
 *         .. lbk_breaks(&table, &state, text, to, block, 64) ..
 *     }
 *
 * The parts can be broken in any order, by other threads or processes. Their breaks, one after another, are those of
 * the text, and offsets count from its start. If a part is copied elsewhere, begin at 0 and add the number of bytes
 * before it.
 *
 *   - No part begins between CR and LF, inside a character, or inside ill-formed bytes that are read as one U+FFFD.
 *     The last two hold with a corrupt table, too.
 *   - With a table of property files the result depends only on the bytes from four before `at` to four after the
 *     cut. So an excerpt of the text that has these bytes, or as many as the text has, is cut where the text is.
 *   - Its time does not grow with the size of the text (measured). Allocates nothing. */
size_t lbk_cut(const lbk_table *table, const char *text, size_t size, size_t at);

/* Returns the last such offset at or before `at`: no break after it depends on the bytes before it. Returns `size` for
 * an `at` of `size` or more. The result depends only on the bytes from four before the cut to four after `at`. Its
 * time does not grow with the size of the text (measured). Allocates nothing. */
size_t lbk_cut_before(const lbk_table *table, const char *text, size_t size, size_t at);

/* As lbk_cut and lbk_cut_before, for UTF-16 as lbk_breaks_utf16 reads it: `size`, `at` and the result count units. No
 * part begins inside a surrogate pair, with a corrupt table, too. */
size_t lbk_cut_utf16(const lbk_table *table, const uint16_t *text, size_t size, size_t at);
size_t lbk_cut_before_utf16(const lbk_table *table, const uint16_t *text, size_t size, size_t at);

/* Returns the last break before the end of the text, or 0 if it has none: the breaks of the text after it are those of
 * the text that begins there. `profile` is LBK_FIRST or LBK_SECOND; by any other profile it is the last cut of
 * lbk_cut_before before the end. It reads the last paragraph. Allocates nothing. */
size_t lbk_safe_break(const lbk_table *table, uint8_t profile, const char *text, size_t size);

/* Returns the name of a rule by its number; an empty name for any other number. */
lbk_rule_label lbk_label(uint8_t rule);

/* Returns what a rule says, in one line of English, by its number; an empty text for any other number. */
lbk_text lbk_rule_text(uint8_t rule);

/* Returns the line breaking class of a scalar value, as rule LB1 resolves it (UAX #14, section 5.1); an empty name for
 * a surrogate, and for a number over 10FFFF. */
lbk_class_label lbk_class(const lbk_table *table, uint32_t scalar);

/* Returns the version of the library that is linked or loaded, in the form of LBK_VERSION. */
lbk_text lbk_version(void);

/* Returns whether a table is intact: its layout is LBK_LAYOUT, and its digest (FNV-1a, 64 bits) is that of its other
 * bytes. It is true for every table that a call of this version filled, and for every copy of one.
 *
 * It always detects a change of one number. Several accidental changes go unnoticed with a probability of about 1 in
 * 2^64. It does not protect against deliberate changes. A corrupt table is safe to use, but gives wrong breaks. */
bool lbk_check(const lbk_table *table);

/* Writes a table in a packed form of a few kilobytes to the front of `bytes`, for example to ship it with a program,
 * and returns the size of that form in bytes, at most 12 + 2 * LBK_CODES. If it exceeds `room`, nothing is written. For
 * a corrupt table the call returns 0 and writes nothing.
 *
 * The form is the same on every machine: `lbk` and LBK_LAYOUT as a byte, FNV-1a of what follows (8 bytes, the low one
 * first), and for each run of code points of one kind the kind and how many code points follow the first of them.
 * Allocates nothing. */
size_t lbk_pack(const lbk_table *table, void *bytes, size_t room);

/* Fills a table from its packed form, and returns LBK_CAUSE_NONE. The table has the kinds that were packed, and the
 * call computes the rest from them anew; it is intact, and gives the same breaks. All other bytes are refused:
 *
 *   - LBK_CAUSE_NOT_PACKED and LBK_CAUSE_OTHER_LAYOUT leave the table unchanged.
 *   - LBK_CAUSE_DAMAGED leaves a table that lbk_check calls corrupt.
 *   - Kinds that did not come from lbk_read, packed on purpose, give wrong breaks, nothing worse. Allocates nothing. */
uint32_t lbk_unpack(lbk_table *table, const void *bytes, size_t size);

#if defined(__cplusplus)
#define LBK_ASSERT(name, holds) static_assert(holds, #name)
#elif defined(__STDC_VERSION__) && __STDC_VERSION__ >= 201112L
#define LBK_ASSERT(name, holds) _Static_assert(holds, #name)
#else
#define LBK_ASSERT(name, holds) typedef char lbk_assert_##name[(holds) ? 1 : -1]
#endif

LBK_ASSERT(a_size_has_64_bits, sizeof(size_t) == 8);
LBK_ASSERT(a_state_has_16_bytes, sizeof(lbk_state) == 16);
LBK_ASSERT(a_stream_has_32_bytes, sizeof(lbk_stream) == 32);
LBK_ASSERT(a_fed_has_16_bytes, sizeof(lbk_fed) == 16);
LBK_ASSERT(a_break_has_16_bytes, sizeof(lbk_break) == 16);
LBK_ASSERT(a_segment_has_24_bytes, sizeof(lbk_segment) == 24);
LBK_ASSERT(a_segment_state_has_24_bytes, sizeof(lbk_segment_state) == 24);
LBK_ASSERT(a_word_state_has_8_bytes, sizeof(lbk_word_state) == 8);
LBK_ASSERT(a_word_has_16_bytes, sizeof(lbk_word) == 16);
LBK_ASSERT(limits_have_32_bytes, sizeof(lbk_limits) == 32);
LBK_ASSERT(a_chunk_state_has_64_bytes, sizeof(lbk_chunk_state) == 64);
LBK_ASSERT(a_chunk_has_32_bytes, sizeof(lbk_chunk) == 32);
LBK_ASSERT(a_fault_has_12_bytes, sizeof(lbk_fault) == 12);
LBK_ASSERT(a_label_has_4_bytes, sizeof(lbk_rule_label) == 4);
LBK_ASSERT(a_class_label_has_4_bytes, sizeof(lbk_class_label) == 4);
LBK_ASSERT(a_text_has_96_bytes, sizeof(lbk_text) == 96);
LBK_ASSERT(neighbours_have_672_bytes, sizeof(lbk_neighbours) == 672);
LBK_ASSERT(a_table_has_no_gaps, sizeof(lbk_table) == 16 + 672 + LBK_CODES);
LBK_ASSERT(neighbours_stand_where_they_should, offsetof(lbk_table, pairs) == 16);
LBK_ASSERT(kinds_stand_where_they_should, offsetof(lbk_table, kinds) == 16 + 672);

#undef LBK_ASSERT

#ifdef __cplusplus
}
#endif

#endif
