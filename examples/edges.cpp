/* Tests lbk.hpp at its limits: its types, what must not compile, ranges and iterators that are copied, kept and
 * compared, and tables from bytes, from a folder and from a mapped file. It prints what failed.
 *
 *     edges FOLDER [DATABASE]     an empty folder, for files of its own, and one with the files that Unicode published
 *
 * The last line is `N passed, M failed`.
 */
#include "harness.hpp"

#include <algorithm>
#include <cstdio>
#include <cstdlib>
#include <cstring>
#include <memory>
#include <string>
#include <thread>
#include <type_traits>
#include <vector>

#include <sys/stat.h>

using iterator = lbk::breaks::iterator;

static_assert(std::is_same_v<decltype(*std::declval<iterator>()), lbk_break>, "a break comes by value");
static_assert(sizeof(iterator) <= 256, "an iterator is small");
static_assert(std::is_trivially_copyable_v<iterator> && std::is_trivially_copyable_v<lbk::breaks>);
static_assert(std::is_nothrow_move_constructible_v<lbk::table> && !std::is_copy_constructible_v<lbk::table>);

// A range needs a table and a text that outlive it: no temporaries.
static_assert(std::is_constructible_v<lbk::breaks, lbk::table &, std::string_view>);
static_assert(std::is_constructible_v<lbk::breaks, const lbk_table &, const char *, lbk::profile>);
static_assert(std::is_constructible_v<lbk::breaks, lbk_table &, std::string &>);
static_assert(!std::is_constructible_v<lbk::breaks, lbk::table, std::string_view>);
static_assert(!std::is_constructible_v<lbk::breaks, const lbk::table, std::string_view, lbk::profile>);
static_assert(!std::is_constructible_v<lbk::breaks, lbk_table, std::string_view>);
static_assert(!std::is_constructible_v<lbk::breaks, lbk::table &, std::string>);
static_assert(std::is_constructible_v<lbk::breaks_utf16, lbk::table &, std::u16string_view, lbk::profile>);
static_assert(std::is_constructible_v<lbk::breaks_utf16, lbk::table &, std::u16string &>);
static_assert(std::is_constructible_v<lbk::breaks_utf32, lbk::table &, const char32_t *>);
static_assert(!std::is_constructible_v<lbk::breaks_utf16, lbk::table, std::u16string_view>);
static_assert(!std::is_constructible_v<lbk::breaks_utf32, lbk_table, std::u32string_view>);
static_assert(!std::is_constructible_v<lbk::breaks_utf16, lbk::table &, std::u16string>);
static_assert(!std::is_constructible_v<lbk::breaks_utf32, lbk::table &, std::u32string>);
static_assert(!std::is_convertible_v<lbk::table, const lbk_table &>);
static_assert(std::is_constructible_v<lbk::breaks, std::string &, lbk::profile, lbk::follows>);
static_assert(!std::is_constructible_v<lbk::breaks, std::string> && !std::is_constructible_v<lbk::chunks, std::string>);
static_assert(!std::is_constructible_v<lbk::segments, std::string, lbk::profile>);
static_assert(!std::is_constructible_v<lbk::breaks_utf16, std::u16string>);

static_assert(!std::is_constructible_v<lbk::positions, lbk::table, std::string_view>);
static_assert(!std::is_constructible_v<lbk::segments, lbk::table, std::string_view>);
static_assert(!std::is_constructible_v<lbk::segments, lbk::table &, std::string>);
static_assert(std::is_constructible_v<lbk::positions_utf16, lbk::table &, std::u16string &, lbk::profile>);
static_assert(!std::is_constructible_v<lbk::positions_utf32, lbk::table &, std::u32string>);
static_assert(std::is_constructible_v<lbk::words, std::string &> && !std::is_constructible_v<lbk::words, std::string>);
static_assert(std::is_constructible_v<lbk::stream, lbk::table &> && !std::is_constructible_v<lbk::stream, lbk::table>);
static_assert(!std::is_constructible_v<lbk::stream_utf16,
    lbk::table> && std::is_trivially_copyable_v<lbk::stream_utf16>);

#if defined(__cpp_lib_ranges)
static_assert(std::ranges::view<lbk::positions> && std::ranges::borrowed_range<lbk::positions>);
static_assert(std::ranges::view<lbk::positions_utf16> && std::ranges::borrowed_range<lbk::breaks_wide>);
static_assert(std::ranges::view<lbk::segments> && std::ranges::forward_range<lbk::segments>);
static_assert(std::ranges::view<lbk::words> && std::ranges::borrowed_range<lbk::words>);
static_assert(std::forward_iterator<iterator>);
static_assert(std::ranges::forward_range<lbk::breaks> && std::ranges::common_range<lbk::breaks>);
static_assert(std::ranges::view<lbk::breaks> && std::ranges::borrowed_range<lbk::breaks>);
#endif

static std::vector<std::size_t> places(const lbk_table &table, std::string_view text,
    lbk::profile rules = lbk::profile::first)
{
    std::vector<std::size_t> found;
    for (lbk_break one : lbk::breaks(table, text, rules))
        found.push_back(one.at);
    return found;
}

template <typename Breaks>
static std::vector<std::size_t> unit_places(const Breaks &range)
{
    std::vector<std::size_t> found;
    for (lbk_break one : range)
        found.push_back(one.at);
    return found;
}

static void try_ranges(const lbk_table &table)
{
    report("no break of no text", lbk::breaks(table, "").begin() == lbk::breaks(table, "").end());
    report("no break of a view of nothing", places(table, std::string_view()).empty());
    report("the breaks of a text", places(table, "ab cd\nef") == these{3, 6, 8});
    report("profiles differ", places(table, "a \xC2\xAB b", lbk::profile::first) == these{2, 5, 6}
                                && places(table, "a \xC2\xAB b", lbk::profile::second) == these{2, 6});
    std::string many;
    these wanted;
    for (std::size_t k = 1; k <= 1000; k++) {
        many += "a ";
        wanted.push_back(2 * k);
    }
    report("more breaks than an iterator holds", places(table, many) == wanted);
    std::string apart = "a b ";
    these far{2, 4};
    for (std::size_t letters : {65535, 1, 65534, 65536, 200000, 3, 30000, 40000}) {
        apart += std::string(letters, 'a') + " b ";
        far.push_back(apart.size() - 2);
        far.push_back(apart.size());
    }
    report("breaks that stand far apart", places(table, apart) == far);
    lbk::breaks twice(table, many);
    report("a range is gone through again", std::distance(twice.begin(), twice.end()) == 1000
                                              && std::distance(twice.begin(), twice.end()) == 1000);
    report("the breaks of UTF-16", unit_places(lbk::breaks_utf16(table, u"a \xD83D\xDE00\nb \xD83D ")) == these{2, 5, 7,
        9});
    report("the breaks of UTF-32", unit_places(lbk::breaks_utf32(table, U"a \x1F600\nb \x110000 ")) == these{2, 4, 6,
        8});
    report("profiles differ in UTF-16", unit_places(lbk::breaks_utf16(table, u"a \u00AB b", lbk::profile::first))
        == these{2, 4, 5}
                                          && unit_places(lbk::breaks_utf16(table, u"a \u00AB b", lbk::profile::second))
                                          == these{2, 5});
    report("the breaks of wide characters", unit_places(lbk::breaks_wide(table, L"a \x1F600\nb \x110000 ")) == these{2,
        4, 6, 8});
    report("no break of no units", unit_places(lbk::breaks_utf16(table, u"")).empty()
        && unit_places(lbk::breaks_utf32(table, U"")).empty());
    report("labels", lbk::label(LBK_RULE_8A) == "8a" && lbk::label(255).empty());
    report("what rules say", lbk::rule_text(LBK_RULE_18) == "A break is allowed after spaces."
        && lbk::rule_text(255).empty());
}

static void try_iterators(const lbk_table &table)
{
    std::string text = "a b c d e f g h i j k l m n o p q r s t u v\nw";
    lbk::breaks range(table, text);
    const lbk_break &kept = *std::find_if(range.begin(), range.end(), [](lbk_break it) { return it.kind == LBK_MUST; });
    report("a break that was found stays", kept.at == text.size() - 1 && kept.kind == LBK_MUST);

    iterator place = range.begin(), before = place++, copy = place;
    report("before and after", before->at == 2 && (*place).at == 4 && copy == place && before != place);
    while (copy != range.end())
        ++copy;
    report("a copy goes on by itself", place->at == 4 && copy == range.end() && copy == iterator() && place != copy);
    std::advance(place, 15);
    std::advance(before, 16);
    report("two ways to one place", place == before && place->at == before->at);
    before = range.begin();
    report("an iterator is assigned", before->at == 2);
}

static void try_positions(const lbk_table &table)
{
    std::string shown, text = "ab \xC2\xAB";
    for (lbk_break one : lbk::positions(table, text))
        shown += std::to_string(one.at) + (one.kind == LBK_NO ? '-' : '+') + lbk::label(one.rule) + ' ';
    report("the positions of a text", shown == "0-2 1-28 2-7 3+18 5+3 ");
    report("the positions of UTF-16", unit_places(lbk::positions_utf16(table, u"ab \xD83D\xDE00\xD83D")) == these{0, 1,
        2, 3, 5, 6});
    report("the positions of UTF-32", unit_places(lbk::positions_utf32(table, U"ab \x1F600\x110000")) == these{0, 1, 2,
        3, 4, 5});
    report("the positions of wide characters", unit_places(lbk::positions_wide(table, L"ab \x1F600\x110000"))
        == these{0, 1, 2, 3, 4, 5});
    for (int k = 0; k < 200; k++)
        text += "a b\n \xE4\xB8\x80";
    for (lbk::profile rules : {lbk::profile::first, lbk::profile::second}) {
        these ends;
        std::size_t scalars = 0;
        for (lbk_break one : lbk::positions(table, text, rules)) {
            scalars++;
            if (one.kind != LBK_NO)
                ends.push_back(one.at);
        }
        report("positions where a line ends are the breaks", ends == places(table, text, rules) && scalars == 5
            + 200 * 6);
    }
}

static void try_cuts(const lbk_table &table)
{
    std::string text = "ab\ncd\n\nef";
    these after, before;
    for (std::size_t at = 0; at <= text.size() + 1; at++) {
        after.push_back(lbk::cut(table, text, at));
        before.push_back(lbk::cut_before(table, text, at));
    }
    report("cuts at or after a byte", after == these{0, 3, 3, 3, 6, 6, 6, 7, 9, 9, 9});
    report("cuts at or before a byte", before == these{0, 0, 0, 3, 3, 3, 6, 7, 7, 9, 9});
    these joined;
    for (std::size_t from = 0, to; from < text.size(); from = to) {
        to = lbk::cut(table, text, from + 1);
        for (std::size_t at : places(table, std::string_view(text).substr(from, to - from)))
            joined.push_back(from + at);
    }
    report("the breaks of the parts are those of the text", joined == places(table, text));
    report("no cut of no text", lbk::cut(table, "", 0) == 0 && lbk::cut_before(table, {}, 3) == 0);
}

/// A truncated file is refused, and accepted on request.
static void try_cut_files(const lbk::table &table)
{
    lbk::error why;
    const std::string head = "# LineBreak-15.0.0.txt\n", cut = head + LINE_BREAKS, whole = cut + "# EOF\r\n\n";
    auto is_same = [&](const std::optional<lbk::table> &made) { return made && made->bytes() == table.bytes(); };
    report("a whole file is taken", is_same(lbk::table::try_read(whole, "# emoji-data.txt\n#EOF", CATEGORIES, "",
        why)));
    report("a file that was cut is refused", !lbk::table::try_read(cut, "", CATEGORIES, "", why)
        && why.fault.file == LBK_LINE_BREAK
                                               && why.fault.cause == LBK_CAUSE_CUT
                                               && why.message().find("LineBreak.txt: the file was truncated: ") == 0);
    report("and the last of the four", !lbk::table::try_read(whole, "", CATEGORIES, "# emoji-data.txt", why)
        && why.fault.file == LBK_EMOJI);
    report("it is taken where that is asked for", is_same(lbk::table::try_read(cut, "", CATEGORIES, "", why, false))
        && !why);
}

static void try_segments(const lbk_table &table)
{
    const std::string text = "ab cd\nef";
    std::string shown;
    for (lbk::segment it : lbk::segments(table, text))
        shown += std::to_string(it.start) + ' ' + std::string(it.text) + ' ' + std::to_string(it.kind) + ' '
            + lbk::label(it.rule) + '|';
    report("segments", shown == "0 ab  1 18|3 cd\n 2 5|6 ef 2 3|");
    const lbk::segments none(table, "");
    report("no segments of an empty text", none.begin() == none.end());
    lbk::segments all(table, text);
    lbk::segments::iterator first = all.begin(), same = first++;
    report("an iterator of segments is a value", same == all.begin() && first != same && (*first).start == 3
        && (*same).start == 0);
}

static void try_safe_breaks(const lbk_table &table)
{
    auto safe = [&](std::string_view text) { return lbk::safe_break(table, text); };
    report("safe breaks", safe("ab c d") == 5 && safe("ab\ncd") == 3 && safe("ab\n") == 0 && safe("ab") == 0
        && safe("") == 0);
    report("classes", lbk::class_of(table, U'a') == "AL" && lbk::class_of(table, 0xd800).empty()
        && lbk::class_of(table, 0x110000).empty());
}

static void try_words()
{
    std::string many, joined, wanted;
    for (int k = 0; k < 100; k++) {
        many += "ab, c1 - ";
        wanted += "ab|c1|";
    }
    for (lbk_word word : lbk::words(many))
        joined += many.substr(word.start, word.end - word.start) + '|';
    report("words", joined == wanted);
    report("no word", lbk::words(" .,").begin() == lbk::words("").end());
    lbk::words range(many);
    auto place = range.begin(), before = place++;
    report("places among words", before->start == 0 && place->start == 4 && before != place && ++before == place);
}

// Each cutting of a text in UTF-16 into two pieces, also inside a surrogate pair.
static void try_unit_streams(const lbk_table &table)
{
    const std::u16string text = u"a \xD83D\xDE00 b\xD83D \xDE00\n c \u00BB d";
    for (lbk::profile rules : {lbk::profile::first, lbk::profile::second}) {
        these wanted = unit_places(lbk::breaks_utf16(table, text, rules));
        for (std::size_t at = 0; at <= text.size(); at++) {
            these found;
            auto keep = [&found](lbk_break one) { found.push_back(one.at); };
            lbk::stream_utf16 stream(table, rules);
            stream.feed(std::u16string_view(text).substr(0, at), keep);
            stream.feed(std::u16string_view(text).substr(at), keep);
            stream.finish(keep);
            report("a text in UTF-16 in pieces", found == wanted);
        }
    }
}

static void try_streams(const lbk_table &table)
{
    std::string text;
    for (int k = 0; k < 50; k++)
        text += "a b\n\xE4\xB8\x80 \xC2\xAB c \xC2\xBB (d";
    for (lbk::profile rules : {lbk::profile::first, lbk::profile::second}) {
        these wanted = places(table, text, rules);
        for (std::size_t size : {1, 2, 3, 7, 100, 10000}) {
            these found;
            auto keep = [&found](lbk_break one) { found.push_back(one.at); };
            lbk::stream stream(table, rules);
            for (std::size_t from = 0; from < text.size(); from += size)
                stream.feed(std::string_view(text).substr(from, size), keep);
            lbk::stream copy = stream;
            stream.finish(keep);
            report("a text in pieces", found == wanted);
            stream.finish(keep);
            report("nothing comes after the end", found == wanted);
            these rest;
            copy.finish([&rest](lbk_break one) { rest.push_back(one.at); });
            report("a copy goes on by itself", !rest.empty() && rest.back() == text.size());
        }
    }
}

static bool refused(const lbk::error &why, lbk::error::reason reason)
{
    return why && why.why == reason && !why.message().empty();
}

static void try_bytes(const lbk::table &table)
{
    using reason = lbk::error::reason;
    lbk::error why;
    report("a file with a fault", !lbk::table::try_read("0061;AL\nno row\n", "", "", "", why)
        && refused(why, reason::refused)
                                    && why.fault.file == LBK_LINE_BREAK && why.fault.line == 2
                                    && why.fault.cause == LBK_CAUSE_ROW_SYNTAX
                                    && why.message() == std::string("LineBreak.txt:2: ")
                                    + lbk_cause_text(LBK_CAUSE_ROW_SYNTAX).text);
    std::optional<lbk::table> copy = lbk::table::try_copy(table.bytes(), why);
    report("a table from its bytes", copy && !why && places(*copy, "ab cd") == these{3, 5});
    report("bytes that are too few", !lbk::table::try_copy(table.bytes().substr(1), why)
        && refused(why, reason::not_a_table));

    const std::string packed = table.pack();
    std::optional<lbk::table> unpacked = lbk::table::try_unpack(packed, why);
    report("a packed table", packed.size() < 200 && unpacked && !why && unpacked->bytes() == table.bytes());
    report("a packed table that was cut", !lbk::table::try_unpack(packed.substr(1), why)
        && refused(why, reason::refused)
                                            && why.message() == "these bytes are not a packed table");

    report("a table in its place", lbk::table_in(table.bytes()) == &table.get());
    report("no table in fewer bytes", lbk::table_in(table.bytes().substr(8)) == nullptr);
    auto room = std::make_unique<char[]>(sizeof(lbk_table) + 1);
    std::memcpy(room.get() + 1, table.bytes().data(), sizeof(lbk_table));
    report("no table out of line", lbk::table_in({room.get() + 1, sizeof(lbk_table)}) == nullptr);
    room[100000] ^= 1;
    report("bytes that changed", !lbk::table::try_copy({room.get() + 1, sizeof(lbk_table)}, why)
        && refused(why, reason::not_a_table));
}

static void try_files(const lbk::table &table, const std::string &folder)
{
    using reason = lbk::error::reason;
    lbk::error why;
    report("a folder without files", !lbk::table::try_load(folder, why) && refused(why, reason::unreadable)
                                       && why.fault.file == LBK_LINE_BREAK && why.system == ENOENT);
    report("a folder of too long a name", !lbk::table::try_load(std::string(5000, 'a'), why)
        && why.system == ENAMETOOLONG);
    report("files are written", write(folder + "/LineBreak.txt", LINE_BREAKS) && write(folder + "/EastAsianWidth.txt",
        "")
                                  && write(folder + "/emoji-data.txt", "") && write(folder + "/table", table.bytes())
                                  && write(folder + "/short", table.bytes().substr(8)));
    report("a folder without one of them", !lbk::table::try_load(folder, why) && why.fault.file == LBK_CATEGORY);
    report("a file is written below", ::mkdir((folder + "/extracted").c_str(), 0777) == 0
                                        && write(folder + "/extracted/DerivedGeneralCategory.txt", CATEGORIES));
    report("files that Unicode did not publish", !lbk::table::try_load(folder, why) && refused(why, reason::refused)
                                                   && why.fault.cause == LBK_CAUSE_NOT_PUBLISHED);

    std::optional<lbk::table> mapped = lbk::table::try_map(folder + "/table", why);
    report("a mapped table", mapped && !why && places(*mapped, "ab cd") == these{3, 5});
    lbk::table moved = std::move(*mapped);
    mapped.reset();
    report("a mapped table that moved", places(moved, "ab cd") == these{3, 5});
    report("a file that is too short", !lbk::table::try_map(folder + "/short", why)
        && refused(why, reason::not_a_table));
    report("no file", !lbk::table::try_map(folder + "/none", why) && refused(why, reason::unreadable)
        && why.system == ENOENT);
    report("a folder", !lbk::table::try_map(folder, why) && why);
    std::string changed(table.bytes());
    changed[100000] ^= 1;
    report("a file that changed", write(folder + "/changed", changed) && !lbk::table::try_map(folder + "/changed", why)
                                    && refused(why, reason::not_a_table));
}

static std::vector<std::size_t> numbers(lbk_break it) { return {it.at, it.kind, it.rule}; }
static std::vector<std::size_t> numbers(lbk::segment it) { return {it.start, it.text.size(), it.kind, it.rule}; }
static std::vector<std::size_t> numbers(lbk::passage it) { return {it.start, it.text.size()}; }
static std::vector<std::size_t> numbers(lbk_chunk it) { return {it.start, it.end, it.words, it.kind, it.rule}; }

template <typename Range>
static bool is_same(const Range &a, const Range &b)
{
    return std::equal(a.begin(), a.end(), b.begin(), b.end(),
        [](const auto &one, const auto &other) { return numbers(one) == numbers(other); });
}

/// The built-in table is one per process. Each range and function goes by it if it is given no table.
static void try_unicode()
{
    const lbk::table &built_in = lbk::table::unicode();
    const lbk::table *other = nullptr;
    std::thread([&other] { other = &lbk::table::unicode(); }).join();
    report("one table for all threads", other == &built_in && lbk_check(&built_in.get()));

    static const std::string_view text = "a \"b\" \xC2\xAB \xE4\xB8\x80\xC2\xBB\nIII 1,5";
    static const std::u16string_view units = u"a \u4E00 b\nc";
    const auto second = lbk::profile::second;
    report("breaks", is_same(lbk::breaks(text), lbk::breaks(built_in, text))
        && is_same(lbk::breaks(text, second), lbk::breaks(built_in, text, second)));
    report("breaks of a part", is_same(lbk::breaks(text, second, lbk::follows::more),
        lbk::breaks(built_in, text, second, lbk::follows::more)));
    report("positions", is_same(lbk::positions(text, second), lbk::positions(built_in, text, second)));
    report("breaks in UTF-16", is_same(lbk::breaks_utf16(units), lbk::breaks_utf16(built_in, units)));
    report("segments", is_same(lbk::segments(text, second), lbk::segments(built_in, text, second)));
    report("passages", is_same(lbk::passages(text), lbk::passages(built_in, text)));
    report("chunks", is_same(lbk::chunks(text, {8}), lbk::chunks(built_in, text, {8})));
    report("bits", lbk::marks(text, second) == lbk::marks(built_in, text, second));
    report("cuts", lbk::cut(text, 1) == lbk::cut(built_in, text, 1) && lbk::cut(text, 1) > 1
        && lbk::cut_before(text, text.size() - 1) == lbk::cut_before(built_in, text, text.size() - 1));
    report("a safe break", lbk::safe_break(text, second) == lbk::safe_break(built_in, text, second));
    report("a class", lbk::class_of(U'\u4E00') == "ID" && lbk::class_of(U'\u00E9') == "AL");
    these streamed;
    lbk::stream stream(second);
    auto keep = [&streamed](lbk_break it) { streamed.push_back(it.at); };
    stream.feed(text, keep);
    stream.finish(keep);
    report("a stream", streamed == places(built_in, text, second));
}

static void try_database(const std::string &folder)
{
    lbk::error why;
    std::optional<lbk::table> made = lbk::table::try_load(folder, why);
    report("the files that Unicode published have the built-in table", made && !why
        && made->bytes() == lbk::table::unicode().bytes());
}

#if defined(__cpp_exceptions)
static void try_exceptions(const lbk::table &table, const std::string &folder)
{
    auto is_same = [&](const lbk::table &made) { return made.bytes() == table.bytes(); };
    report("a table by each way", is_same(lbk::table::read(LINE_BREAKS, "", CATEGORIES, ""))
                                    && is_same(lbk::table::copy(table.bytes()))
                                    && is_same(lbk::table::map(folder + "/table"))
                                    && is_same(lbk::table::unpack(table.pack())));
    try {
        lbk::table::load(folder + "/none");
        report("no folder is thrown", false);
    } catch (const lbk::table_error &thrown) {
        report("no folder is thrown", thrown.error().why == lbk::error::reason::unreadable
                                        && thrown.what() == folder + "/none/" + thrown.error().message());
    }
    for (const std::string &name : {folder + "/none", folder + "/short"}) {
        try {
            lbk::table::map(name);
            report("what is no table is thrown", false);
        } catch (const lbk::table_error &thrown) {
            const bool is_there = thrown.error().why == lbk::error::reason::not_a_table;
            report("what is no table is thrown with its name", thrown.what() == name
                + (is_there ? ": not an intact table of version " LBK_VERSION : ": No such file or directory"));
        }
    }
}
#else
static void try_exceptions(const lbk::table &, const std::string &) {}
#endif

int main(int words, char **word)
{
    if (words < 2 || words > 3) {
        std::fprintf(stderr, "usage: edges FOLDER [DATABASE]\n");
        return 2;
    }
    std::optional<lbk::table> table = small_table();
    report("the small files have no fault", table.has_value());
    if (table) {
        try_ranges(*table);
        try_iterators(*table);
        try_positions(*table);
        try_cuts(*table);
        try_segments(*table);
        try_safe_breaks(*table);
        try_cut_files(*table);
        try_words();
        try_streams(*table);
        try_unit_streams(*table);
        try_bytes(*table);
        try_files(*table, word[1]);
        try_exceptions(*table, word[1]);
        try_unicode();
        if (words == 3)
            try_database(word[2]);
    }
    return report_all();
}
